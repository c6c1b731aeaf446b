"""The title, the key, the channels and the headings."""

from .layout import is_for
from .pens import esc, icon, link, num, txt
from .styles import EM, SMALL
from .words import cut_to, labels, plural, width, wrap

KINDS = (("i", "information"), ("a", "acknowledgement"), ("c", "circuit"), ("n", "NODES"), ("l", "link (AX.25)"))


def header(run, p, out):
    """All above the lanes; where these begin."""
    y = title(run, p, out)
    y += 20
    total = len(run.frames) - 1
    out.append(txt(16, y, esc(f"{plural(len(run.lines), 'line')}, {plural(total, 'frame')}"), "s m"))
    y = key(run, p, y, out)
    p.strip_y = y + 14
    if p.strip and not run.page:
        y += 76                         # room for the overview
    y = channels(run, p, y + 12, out) + 12
    out.append(heads(run, p, y))
    p.lanes_top = settings(run, p, y + (44 if p.narrow else 40), out)
    return p.lanes_top + 4


def title(run, p, out):
    """The name, the verdict, why it is too late, and what the file says of itself."""
    y = 28
    out.append(txt(16, y, esc(cut_to(run.name or "replay", int((p.width - 60 - width(run.verdict)) / 10))), "t"))
    pill = verdict(run, p, y)
    out.append(link(run, run.late["line"], pill) if run.late else pill)
    chars = int((p.width - 36) / 6.6)
    if run.late:
        y += 4
        for line in wrap("Too late: " + run.why, chars, 3):
            y += 16
            out.append(txt(16, y, esc(line), "u late"))
    for line in (line for note in run.about for line in wrap(note, chars, 3)):
        y += 18
        out.append(txt(16, y, esc(line), "u m"))
    return y


def verdict(run, p, y):
    """The verdict in a pill, with a tick or a cross."""
    w = width(run.verdict) + 34
    x = p.width - 20 - w
    cls = "late" if run.late else "c"
    mark = f"M{num(x + 11)} {y - 9}l8 8m0 -8l-8 8" if run.late else f"M{num(x + 11)} {y - 5}l3.5 4l6 -8"
    return (f'<rect class="f{cls}" x="{num(x)}" y="{y - 16}" width="{num(w)}" height="22" rx="11"/>'
            f'<path class="inv" style="fill:none;stroke-width:2" d="{mark}"/>' + txt(x + 25, y - 1, esc(run.verdict), "b inv"))


def stroke(cls, w):
    return lambda x, y: f'<path class="{cls}" d="M{num(x)} {num(y)}h{w}"/>'


def marks(run, p):
    """What stands in the key: the width of a sample, the sample at x and y, its class, its word."""
    kinds = {labels(run, f)[0] for f in run.frames[1:]}
    went = [w for _, k, w in run.events if k == "delivered"]
    reached = {w["frame"] for w in went} | set(run.lost)
    yield from ((25, stroke(cls + " g", 20), cls, word) for cls, word in KINDS if cls in kinds)
    again = next((w["frame"] for w in went if w["again"]), None)
    if again:
        yield 31, stroke(labels(run, run.frames[again])[0] + " g r", 26), "m", "delivered again"
    if any(not is_for(run, w["frame"], w["node"]) for w in went):
        yield 31, stroke("h g", 24), "m", "overheard"
    if run.lost:
        yield 11, lambda x, y: icon("no", x + 3, y, "bad"), "m", "lost"
    if len(reached) < len(run.frames) - 1:
        yield 11, lambda x, y: icon("down", x + 3, y, "m o"), "m", "still in the air"
    if any(run.ends.values()) and not p.narrow:
        yield (9, lambda x, y: f'<rect class="con" x="{num(x + .5)}" y="{num(y - 6)}" width="3" height="12"/>',
               "m", "connecting")
        yield 9, lambda x, y: f'<rect class="up" x="{num(x)}" y="{num(y - 6)}" width="4" height="12"/>', "m", "up"


def key(run, p, y, out):
    x = p.left
    for w, sample, cls, word in marks(run, p):
        if x + w + width(word, SMALL) > p.width - 20:
            x, y = p.left, y + 16
        out.append(sample(x, y - 3.5) + txt(x + w, y, word, "s " + cls))
        x += w + width(word, SMALL) + 16
    return y


def middle(p, n):
    return sum(p.x[n]) / 2


def rails_of(run, p):
    """The channels from left to right: lines of disjoint channels share a rail."""
    rails = []
    for c in run.channels[:24]:
        a, z = min(middle(p, n) for n in c), max(middle(p, n) for n in c)
        free = next((r for r in rails if all(z < b[0] - 8 or a > b[1] + 8 for b in r)), None)
        if free is None:
            rails.append([(a, z, c)])
        else:
            free.append((a, z, c))
    return rails


def channels(run, p, y, out):
    count = len(run.channels)
    if count:
        out.append(txt(p.left - 10, y + 8, "channels" if count <= 12 else f"{count} channels", "s m end"))
    for rail in rails_of(run, p):
        y += 9
        for a, z, c in rail:
            out.append(f'<path class="m" d="M{num(a)} {y}H{num(z)}"/>' + "".join(
                f'<circle class="fm" cx="{num(middle(p, n))}" cy="{y}" r="2.6"/>' for n in c))
    return y


def settings(run, p, y, out):
    """What the file sets of each node, and its ways over repeaters."""
    if p.narrow:
        return y
    chars = int((p.lane - 10) / (SMALL * EM))
    lines = {}
    for n in run.nodes:
        text = ", ".join(f"{k} {v}" for k, v in run.settings[n].items())
        lines[n] = wrap(text, max(8, chars), 3) if text else []
        lines[n] += [cut_to(f"{c} via {' '.join(path)}", chars) for c, path in run.paths[n].items()]
    rows = max([len(v) for v in lines.values()] or [0])
    if not rows:
        return y
    out.append(txt(p.left - 10, y + 11, "settings", "s m end"))
    for n, told in lines.items():
        for j, line in enumerate(told):
            out.append(txt(middle(p, n), y + 11 + 13 * j, esc(line), "s m mid"))
    return y + 13 * rows + 6


def heads(run, p, y, small=False):
    out = []
    for i, n in enumerate(p.order):
        call, alias = run.nodes[n]
        mid = sum(p.x[n]) / 2
        if p.narrow:
            out.append(f"<g><title>node {n}: {esc(call)} {esc(alias)}</title>" + txt(
                mid, y + 9 + (12 if i % 2 else 0), f'<tspan class="m">{n}</tspan> {esc(call)}', "s b mid") + "</g>")
        elif small:
            out.append(txt(mid, y + 15, esc(f"{call} {alias}"), "s b m mid"))
        else:
            out.append(f'<g><title>node {n}: {esc(call)} {esc(alias)}</title>'
                       f'<rect class="lane" x="{num(p.x[n][0])}" y="{y}" width="{p.lane}" height="36" rx="6"/>'
                       + txt(mid, y + 15, f'<tspan class="m">{n}</tspan> {esc(call)}', "b mid")
                       + txt(mid, y + 29, esc(alias), "s m mid") + "</g>")
    return "".join(out)
