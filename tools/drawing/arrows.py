"""Frames with their labels and arrows, and notes."""

from .items import Fold
from .layout import choose, is_for, sides
from .pens import arrow_path, broken_path, esc, icon, num, txt
from .styles import LONG, ROW, SMALL
from .words import labels, story


def frame_group(run, p, k, row):
    f = run.frames[k]
    n = f["sender"]
    if k not in p.tail:
        return ""
    ya, at = p.tail[k]
    tail_fold = at if isinstance(at, Fold) else None
    cls = labels(run, f)[0]
    parts, tip = [], story(run, k)
    for m in p.order:
        for j, (yz, b) in enumerate(p.arrive.get((k, m), [])):
            if b.folded and (b.folded is tail_fold or row is None):
                continue                # within one fold; or from an unnamed sending of a burst into a fold
            mine = is_for(run, k, m)
            red = (k, m, id(b)) in run.red_deliveries
            c = ("late" if red else cls) + " g" if mine else "h g"
            if b.again:
                c += " r"
            if not mine and not run.overheard:
                continue
            d, across = arrow_path(p, n, ya, m, yz), ""
            if yz - ya > LONG and not red:
                d, across = broken_path(p, n, ya, m, yz)
                across = f'<path class="{c.split()[0]}" d="{across}"/>'
            parts.append((0 if not mine else 2 if red else 1, f'<path class="{c}" d="{d}"/>{across}'))
            if mine:
                parts.append((0, f'<path class="hit" d="{d}"/>'))
            tip.append(f"{'again ' if b.again else ''}{'reached' if mine else 'overheard by'} "
                       f"{run.nodes[m][0]} at line {b.line}")
    left, right, main = sides(run, p, k, n)
    if k in run.lost or not run.hearers.get(k):
        way = -1 if main == "L" else 1
        x = p.x[n][0 if way < 0 else 1]
        span = p.gap
        if k in run.lost:
            yz = p.gone.get(k, ya + ROW)
            fb = run.lost[k].folded
            if not (tail_fold is not None and fb is tail_fold):
                xe = x + way * span * .55
                parts.append((1, f'<path class="{cls} g" style="marker-end:none" d="M{num(x)} {num(ya)}L{num(xe)} {num(yz)}"/>'
                              f'<path class="bad" style="stroke-width:2.2" d="M{num(xe - 4.5)} {num(yz - 4.5)}l9 9m0 -9l-9 9"/>'))
            tip.append(f"lost at line {run.lost[k].line}")
        elif tail_fold is None:
            xe = x + way * min(span * .4, 60)
            parts.append((1, f'<path class="{cls} g" style="marker-end:none;stroke-dasharray:2 3" '
                          f'd="M{num(x)} {num(ya)}L{num(xe)} {num(ya + 7)}"/>'
                          f'<circle class="fo" cx="{num(xe)}" cy="{num(ya + 7)}" r="3"/>'
                          f'<path class="{cls}" style="stroke-width:1.2" d="M{num(xe - 3)} {num(ya + 7)}a3 3 0 1 0 6 0a3 3 0 1 0 -6 0"/>'))
            tip.append("still in the air at the end")
    text = ""
    if row:
        _, c, it, room, head = row
        form = choose(p, it, room)
        lc = it.cls + (" b" if it.strong else "")
        size = " s" if p.font == SMALL else ""
        if p.narrow:
            text = txt(p.text_col, c + 4, f'<tspan class="m">{esc(run.nodes[n][0])}</tspan> '
                       f'<tspan class="b">{k}</tspan> {esc(form)}', lc + " s")
        else:
            a, z = p.x[n]
            body_ = f'<tspan class="b">{k}</tspan> {esc(form)}'
            if main == "L":
                text = txt(a + 9, c + 4, body_, lc + size)
            elif main == "R":
                text = txt(z - 9, c + 4, body_, lc + size + " end")
            else:
                text = txt((a + z) / 2, c + 4, body_, lc + size + " mid")
    elif not parts:
        return ""
    parts.sort(key=lambda x: x[0])
    return f'<g class="f k{cls}" id="f{k}"><title>{esc(chr(10).join(tip))}</title>{"".join(x for _, x in parts)}{text}</g>'


def note(run, p, n, c, it, room, head):
    """A row that isn't a sending: an event, an act, or the number at an arrow's head."""
    a, z = p.x[n]
    size = " s" if p.font == SMALL else ""
    if it == "head":
        return (txt(a + 8, c + 4, head, "s m") if room == "L" else txt(z - 8, c + 4, head, "s m end"))
    text = choose(p, it, room)
    title = f"<title>{esc(it.title or (it.text if isinstance(it.text, str) else it.text[0]))}</title>"
    icon_x = a + 13
    if p.narrow:
        icon_x = a
    else:
        icon_x += head                  # after the number at the head
    mark = icon(it.icon, icon_x, c, it.cls or "m")
    if it.icon == "in" and p.narrow:
        mark = icon("do", icon_x, c, "n")
    if p.narrow:
        body_ = txt(p.text_col, c + 4, f'<tspan class="m">{esc(run.nodes[n][0])}</tspan> {esc(text)}',
                    "s " + it.cls + (" b" if it.strong else ""))
        return f"<g>{title}{mark}{body_}</g>"
    if it.icon == "restart":
        return (f'<g>{title}<rect class="fbad" x="{num(a - 4)}" y="{num(c - 8)}" width="{p.lane + 8}" height="16" rx="3"/>'
                + txt((a + z) / 2, c + 4, esc(text), "b mid inv" + size) + "</g>")
    if it.icon == "late":
        return (f'<g>{title}<rect class="flate" x="{num(a + 5)}" y="{num(c - 8)}" width="{p.lane - 10}" height="16" rx="3"/>'
                + txt((a + z) / 2, c + 4, esc(text), "b mid inv" + size) + "</g>")
    stub = ""
    if it.icon == "in":
        stub = f'<path class="n g" style="stroke-dasharray:2 2;marker-start:none" d="M{num(a - 17)} {num(c - 5)}L{num(a - 1)} {num(c)}"/>'
        return f"<g>{title}{stub}" + txt(a + 9, c + 4, esc(text), it.cls + size) + "</g>"
    if it.hidden:
        main = sides(run, p, it.hidden[0], n)[2]
        x, way = {"L": (a + 9, ""), "R": (z - 9, " end"), "B": ((a + z) / 2, " mid")}[main]
        return f"<g>{title}" + txt(x, c + 4, esc(text), it.cls + size + way) + "</g>"
    return f"<g>{title}{mark}" + txt(icon_x + 8, c + 4, esc(text), it.cls + (" b" if it.strong else "") + size) + "</g>"
