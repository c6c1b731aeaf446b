"""The whole picture."""

from .endings import final, overview
from .folding import fold_all
from .heads import header
from .lanes import body
from .layout import place, shape
from .pens import esc, num
from .steps import prepare
from .styles import PAGE, defs, style
from .words import plural


def draw(run, keep, longest, most_rows):
    """The SVG. `run.plan` and `run.laid` are left for a page around it."""
    steps = prepare(run)
    fold_all(run, steps, keep, longest, most_rows)
    p = shape(run)
    p.strip, p.page_mode = len(run.steps) > 60, bool(run.page)
    run.link = ("L" if run.page else "v") if p.strip or run.page else ""
    out = []
    p.top = header(run, p, out)
    p.page, p.paged = round(p.width * PAGE), False
    place(run, p, steps)
    if p.bottom + 160 > 1.3 * p.page:
        p.paged = True
        place(run, p, steps)
    body(run, p, steps, out)
    foot = final(run, p, out)
    run.plan, run.laid = p, steps
    strip = overview(run, p, steps) if p.strip and not run.page else ""
    return svg(run, p, steps, foot, "\n".join(out) + strip)


def svg(run, p, steps, foot, inner):
    w, h = num(p.width), num(foot)
    verdict = esc(run.verdict)
    desc = esc(f"{plural(len(run.nodes), 'node')}, {plural(len(steps), 'step')}, "
               f"{plural(len(run.frames) - 1, 'frame')}, {run.verdict}. " + " ".join(run.about))
    return (f'<svg xmlns="http://www.w3.org/2000/svg" class="wh" width="{w}" height="{h}" viewBox="0 0 {w} {h}">'
            f"<title>{esc(run.name or 'replay')}: {verdict}</title><desc>{desc}</desc><style>{style()}"
            f"@page{{size:{w}px {num(p.page) if p.paged else h}px;margin:0}}</style>"
            f'<defs>{defs()}</defs><rect class="bg" width="{w}" height="{h}"/>{inner}{views(p, w, h)}</svg>\n')


def views(p, w, h):
    """A browser shows the picture of a file from `#v12` on where the file stands alone; in a page `#L12` scrolls."""
    if not p.strip or p.page_mode:
        return ""
    return "".join(f'<view id="v{s.line}" viewBox="0 {num(y - 2)} {w} {h}" preserveAspectRatio="xMidYMin meet"/>'
                   for s, y, f in p.steps if f or not s.folded)
