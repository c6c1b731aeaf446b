"""What each node has come to, and the overview."""

from .pens import esc, link, num, txt
from .styles import EM, SMALL
from .words import cut_to, labels

LIVE = ("up", "connecting", "closing")


def route_rows(routes, over):
    """(text, class, tooltip) of each row on routes: 10 at most."""
    yield ("no routes" if not routes else "routes" if over else "routes (to by quality)"), "m", None
    for dest, alias, neighbour, quality, count in routes[:10]:
        yield (f"{dest} {'over ' if over else ''}{neighbour} {quality}", "",
               f"{alias}:{dest} over {neighbour}, quality {quality}, count {count}")
    if len(routes) > 10:
        yield f"and {len(routes) - 10} more", "m", "\n".join(" ".join(r) for r in routes[10:])


def end_rows(ends, chars):
    """The rows on circuits: 6 at most."""
    if ends:
        yield "circuits", "m", None
    for x, partner, phase, wrote, received, acked in ends[:6]:
        yield f"{x} {partner} {phase}", "c" if phase in LIVE else "bad" if phase == "lost" else "b", None
        full = f"  wrote {wrote} got {received} acked {acked}"
        yield (full if len(full) <= chars else f"  w {wrote} g {received} a {acked}", "",
               f"wrote {wrote}, received {received}, acknowledged {acked}")
    if len(ends) > 6:
        yield f"and {len(ends) - 6} more", "m", None


def mail_rows(run, n):
    if n in run.mail:
        queued, stored = run.mail[n]
        yield f"mail: {queued} queued, {stored} stored", "b", None


def box_rows(run, p, chars):
    """The rows of each node's box, in the order of the lanes."""
    over = all(len(f"{r[0]} over {r[2]} {r[3]}") <= chars for rows in run.tables.values() for r in rows)
    for n in p.order:
        call, alias = run.nodes[n]
        name = [(f"{n} {call} {alias}", "b", None)] if p.narrow else []
        yield n, [*name, *route_rows(run.tables[n], over), *end_rows(run.ends[n], chars), *mail_rows(run, n)]


def final(run, p, out):
    """What each node has come to, and the verdict; where the picture ends."""
    y = p.bottom + 20
    w = 270 if p.narrow else p.lane
    chars = int((w - 16) / (SMALL * EM))
    boxes = list(box_rows(run, p, chars))
    if p.paged and not p.narrow:
        h = 13 * max([0] + [len(rows) for _, rows in boxes]) + 60
        if y // p.page != (y + h) // p.page:
            y = (y // p.page + 1) * p.page + 10
    if not p.narrow and boxes:
        out.append(txt(54, y + 14, "at the end", "m it"))
    y = place_boxes(p, boxes, y, w, chars, out) + 24
    out.append(txt(54, y, esc(run.verdict), "b " + ("late" if run.late else "c")))
    return y + 16


def place_boxes(p, boxes, y, w, chars, out):
    """A box a lane, or a grid of them; where they end."""
    cols = max(1, int((p.width - 36) / (w + 10)) if p.narrow else len(boxes))
    high = 0
    for i, (n, rows) in enumerate(boxes):
        if i and i % cols == 0:
            y += high + 10
            high = 0
        x = 16 + (i % cols) * (w + 10) if p.narrow else p.x[n][0]
        h = 13 * len(rows) + 10
        high = max(high, h)
        out.append(f'<g><rect class="lane" x="{num(x)}" y="{num(y)}" width="{w}" height="{h}" rx="6"/>')
        out.extend(box_row(x, y + 15 + 13 * j, row, chars) for j, row in enumerate(rows))
        out.append("</g>")
    return y + high


def box_row(x, y, row, chars):
    text, cls, tip = row
    told = f"<title>{esc(tip)}</title>" if tip else ""
    indent = 8 + (len(text) - len(text.lstrip())) * 6
    return f"<g>{told}" + txt(x + indent, y, esc(cut_to(text.strip(), chars)), "s " + cls) + "</g>"


def overview(run, p, steps):
    """A strip with a column for each line (or for some): the frames sent, by kind, and what happened."""
    x0, x1, y0, h = p.left, p.width - 20, p.strip_y, 50
    each = -(-len(steps) // 400)
    groups = [steps[i:i + each] for i in range(0, len(steps), each)]
    w = (x1 - x0) / len(groups)
    per = []
    for group in groups:
        c, signs = {}, set()
        for s in group:
            for it in (it for b in s.beats for items in b.items.values() for it in items):
                if it.frame or it.hidden:
                    k = labels(run, run.frames[it.frame or it.hidden[0]])[0]
                    c[k] = c.get(k, 0) + (len(it.hidden) or 1)
                elif it.cls in ("bad", "late") and not s.refused:
                    signs.add(it.cls)
                elif it.icon in ("up", "down"):
                    signs.add(it.cls)
        per.append((c, signs))
    most = max(1, max(sum(c.values()) for c, _ in per))
    unit = "a line" if each == 1 else f"{each} lines"
    s_out = [txt(x0 - 10, y0 + 12, "overview", "s m end"),
             txt(x0 - 10, y0 + 25, f"a column {unit},", "s m end"), txt(x0 - 10, y0 + 38, "frames sent", "s m end"),
             f'<rect class="lane" x="{num(x0)}" y="{y0}" width="{num(x1 - x0)}" height="{h}" rx="4"/>']
    for i, (group, (c, signs)) in enumerate(zip(groups, per)):
        x = x0 + i * w
        total = sum(c.values())
        y = y0 + h - 6
        part = f'<path class="none" d="M{num(x)} {y0}h{num(w)}v{h}h-{num(w)}z"/>'
        full = 30 * total.bit_length() / most.bit_length()
        for k in ("n", "l", "c", "i", "a"):
            if c.get(k):
                d = full * c[k] / total
                y -= d
                part += f'<rect class="f{k}" x="{num(x + w * .1)}" y="{num(y)}" width="{num(max(.8, w * .8))}" height="{num(d)}"/>'
        for j, k in enumerate(sorted(signs)):
            part += f'<circle class="f{k}" cx="{num(x + w / 2)}" cy="{num(y0 + 5 + 5 * j)}" r="2.2"/>'
        a, z = group[0], group[-1]
        name = f"line {a.line}: {esc(a.text[:100])}" if a is z else f"lines {a.line} to {z.line}"
        to = a.folded.steps[0] if a.folded else a
        s_out.append(link(run, to.line, f"<title>{name}{f', {total} frames' if total else ''}</title>{part}"))
    return "".join(s_out)
