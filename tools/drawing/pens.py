"""Marks of SVG."""

from xml.sax.saxutils import escape


def esc(s):
    return escape(s, {'"': "&quot;"})


def num(v):
    return f"{v:.1f}".rstrip("0").rstrip(".")


def txt(x, y, text, cls="", extra=""):
    c = f' class="{cls}"' if cls else ""
    return f'<text x="{num(x)}" y="{num(y)}"{c}{extra}>{text}</text>'


def link(run, line, inner):
    return f'<a href="#{run.link}{line}">{inner}</a>' if run.link else inner


def icon(kind, x, y, cls):
    at = f"M{num(x)} {num(y)}"
    if kind == "do":                    # an act of the line: a triangle to the right
        return f'<path class="f{cls}" style="fill-opacity:1" d="{at}m-3 -4.5l6 4.5l-6 4.5z"/>'
    if kind == "got":                   # taken by the user: a triangle down
        return f'<path class="f{cls}" style="fill-opacity:1" d="{at}m-4.5 -3h9l-4.5 6z"/>'
    if kind in ("up", "late"):          # opened: a full circle
        return f'<circle class="f{cls}" cx="{num(x)}" cy="{num(y)}" r="{3.6 if kind == "up" else 5}"/>'
    if kind == "down":                  # closed: an open circle
        return f'<path class="{cls}" style="stroke-width:1.5;fill:none" d="{at}m-3 0a3 3 0 1 0 6 0a3 3 0 1 0 -6 0"/>'
    if kind == "no":                    # failed, lost, refused, dropped: a cross
        return f'<path class="{cls}" style="stroke-width:2.2" d="{at}m-3.2 -3.2l6.4 6.4m0 -6.4l-6.4 6.4"/>'
    if kind == "restart":
        return f'<path class="bad" style="stroke-width:5" d="{at}m-8 0h16"/>'
    return ""


def arrow_path(p, a, ya, z, yz):
    """From the edge of lane a to that of lane z; hidden behind the lanes between."""
    ia, iz = p.index[a], p.index[z]
    right = iz > ia
    xa, xz = p.x[a][1 if right else 0], p.x[z][0 if right else 1]
    if right:
        xz -= 1
    else:
        xz += 1
    d = f"M{num(xa)} {num(ya)}"
    if not p.narrow:
        for i in range(ia + (1 if right else -1), iz, 1 if right else -1):
            e, g = p.x[p.order[i]][0 if right else 1], p.x[p.order[i]][1 if right else 0]
            ye, yg = (ya + (yz - ya) * (x - xa) / (xz - xa) for x in (e, g))
            d += f"L{num(e)} {num(ye)}M{num(g)} {num(yg)}"
    return d + f"L{num(xz)} {num(yz)}"


def broken_path(p, a, ya, z, yz):
    """Only the ends of an arrow that comes much later, each with two strokes across."""
    ia, iz = p.index[a], p.index[z]
    way = 1 if iz > ia else -1
    reach = min(p.gap * .42, 44)
    xa, xz = p.x[a][1 if way > 0 else 0], p.x[z][0 if way > 0 else 1] - way
    e, g, out = xa + way * reach, xz - way * reach, []
    for x, y in ((e, ya + 13), (g, yz - 13)):
        out.append(f"M{num(x - 4)} {num(y + 3)}L{num(x)} {num(y - 5)}M{num(x)} {num(y + 5)}L{num(x + 4)} {num(y - 3)}")
    return f"M{num(xa)} {num(ya)}L{num(e)} {num(ya + 13)}M{num(g)} {num(yz - 13)}L{num(xz)} {num(yz)}", "".join(out)
