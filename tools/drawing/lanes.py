"""The lines of the file, the lanes, the folds and the bars of circuits."""

from .arrows import frame_group, note
from .bars import bars
from .heads import heads
from .pens import esc, link, num, txt
from .styles import EM, SMALL, STEP_PAD
from .words import clock, cut_to, plural


def body(run, p, steps, out):
    for s, y, f in p.steps:
        if not s.folded:
            margin(run, p, s, y, out)
        elif f:
            told_fold(run, p, f, out)
    for n in p.order:
        out.append(lane(p, n))
    if not p.narrow:
        out.extend(heads(run, p, y, small=True) for y in p.rulers)
    bars(run, p, steps, out)
    rows(run, p, out)
    if p.narrow:                        # here the headings cover the arrows
        x, w = p.left - 8, p.gap * len(p.order) + 10
        for y in p.rulers:
            out.append(f'<rect class="bg" x="{num(x)}" y="{num(y - 1)}" width="{num(w)}" height="25"/>' + heads(run, p, y, small=True))
    for f in p.folds:
        if f.torn:
            band(p, f, out)


def margin(run, p, s, y, out):
    """The stripe of time, the hairline, the number and the text of a line, and what is noted below it."""
    right = p.width - 20
    out.append(f'<g id="L{s.line}"><title>{esc(s.text[:400])}</title>')
    if s.time is not None:
        out.append(f'<rect class="st" x="16" y="{num(y)}" width="{num(right - 16)}" height="{num(s.h)}"/>')
    out.append(f'<path class="hair" d="M16 {num(y)}H{num(right)}"/>')
    yt = y + STEP_PAD + 12.5
    out.append(link(run, s.line, txt(44, yt, s.line, "m end")))
    for j, line in enumerate(s.wrapped):
        out.append(txt(54, yt + 14 * j, esc(line), "" if s.beats else "m"))
    if s.time is not None:
        out.append(txt(p.left - 12, yt + (14 * len(s.wrapped) if s.low_clock else 0), clock(s.time), "m end"))
    for j, line in enumerate(s.noted):
        out.append(txt(54, yt + 14 * (len(s.wrapped) + j), esc(line), "s m it"))
    out.append("</g>")


def lane(p, n):
    a, _ = p.x[n]
    if p.narrow:
        return f'<path class="edge" d="M{num(a)} {num(p.lanes_top)}V{num(p.bottom + 8)}"/>'
    return (f'<rect class="lane" x="{num(a)}" y="{num(p.lanes_top)}" width="{p.lane}" '
            f'height="{num(p.bottom + 8 - p.lanes_top)}" rx="4"/>')


def rows(run, p, out):
    """The frames, each with its label and arrows as one group, and then the notes."""
    sendings = {r[2].frame: r for r in p.rows if r[2] != "head" and r[2].frame}
    out.extend(frame_group(run, p, k, sendings.get(k)) for k in range(1, len(run.frames)))
    out.extend(note(run, p, *r) for r in p.rows if r[2] == "head" or not r[2].frame)


def told_fold(run, p, f, out):
    a, z = f.steps[0].line, f.steps[-1].line
    y = f.y
    title = "\n".join(f"{s.line} {s.text}" for s in f.steps[:40]) + ("\n…" if len(f.steps) > 40 else "")
    out.append(f'<g id="L{a}"><title>{esc(title)}</title><path class="hair" d="M16 {num(y)}H{num(p.width - 20)}"/>'
               + link(run, a, txt(44, y + 15, a, "s m end"))
               + txt(54, y + 15, f"to {z}", "s m it") + txt(54, y + 27, cut_to(f.told, int((p.left - 60) / 6)), "s m it"))
    times = [s.time for s in f.steps if s.time is not None]
    if times:
        out.append(txt(p.left - 12, y + 15, clock(times[-1]), "s m end"))
    out.append("</g>")


def band(p, f, out):
    """A torn strip over the lanes, with what it hides told in the margin."""
    a, z = p.left - 6, p.width - 14
    y0, y1 = f.y + 3, f.y + f.h - 3
    if p.narrow:
        z = p.text_col - 6
    step = 12
    def zig(y, back):
        xs = [a + step * i for i in range(int((z - a) / step) + 1)]
        pts = [(x, y + (2 if i % 2 else -2)) for i, x in enumerate(xs)]
        return (pts[::-1] if back else pts)
    pts = zig(y0, False) + zig(y1, True)
    d = "M" + "L".join(f"{num(x)} {num(y)}" for x, y in pts) + "z"
    counts = {}
    for b in f.beats:
        for items in b.items.values():
            for it in items:
                if it.frame or it.hidden:
                    counts[it.cls] = counts.get(it.cls, 0) + (len(it.hidden) or 1)
    words = {"i": "info", "a": "ack", "c": "circuit", "n": "NODES", "l": "link", "late": "late"}
    told = ", ".join(f"{v:,} {words[c]}" for c, v in sorted(counts.items(), key=lambda x: -x[1]))
    ks = sorted(it.frame for b in f.beats for items in b.items.values() for it in items if it.frame)
    line = f"{plural(len(f.beats), 'delivery', 'deliveries')} folded"
    second = f"{told} sent" if told else "nothing sent"
    title = f"{line}: {second}" + (f"; frames {ks[0]} to {ks[-1]}" if ks else "")
    out.append(f'<g><title>{esc(title)}</title><path class="band" style="fill-opacity:1" d="{d}"/>')
    chars = int((p.left - 10 - 54) / (SMALL * EM))
    if not f.steps:
        out.append(txt(44, f.y + 13, "⋮", "m end") + txt(54, f.y + 12, esc(cut_to(line, chars)), "s m it")
                   + txt(54, f.y + 25, esc(cut_to(second, chars)), "s m it"))
    for n in p.order:
        x = sum(p.x[n]) / 2
        out.append("".join(f'<circle class="fm" cx="{num(x)}" cy="{num(f.y + f.h / 2 + dy)}" r="1.3"/>'
                           for dy in (-6, 0, 6)))
    out.append("</g>")
