"""An HTML page around the picture."""

from .endings import overview
from .heads import heads
from .pens import esc, num
from .report import report_lines
from .words import labels

CHOICES = (("h", "overheard"), ("a", "acknowledgements"), ("i", "information"), ("c", "circuits"), ("n", "NODES"), ("l", "links"))
STYLE = (":root{color-scheme:light dark}body{margin:0}.bar{position:sticky;top:0;z-index:1;background:Canvas;"
         "border-bottom:1px solid GrayText}.bar form{font:13px system-ui,sans-serif;padding:6px 16px}"
         "details{margin:12px 16px;font:13px system-ui,sans-serif}table{border-collapse:collapse;font:11px ui-monospace,monospace}"
         "td{padding:1px 10px 1px 0;vertical-align:top}:target{outline:2px solid Highlight}")


def page(run, picture):
    """What a page adds: headings that stay, the overview at hand, choices of what is shown, the report and all frames."""
    top, h = bar(run)
    boxes = "".join(f'<label><input type="checkbox" id="x{k}" checked> {name}</label> ' for k, name in CHOICES)
    hide = "body:has(#xh:not(:checked)) path.h{display:none}" + "".join(
        f"body:has(#x{k}:not(:checked)) g.k{k}{{display:none}}" for k in "aicnl")
    verdict = f'<a href="#L{run.late["line"]}">{esc(run.verdict)}</a>' if run.late else esc(run.verdict)
    rows = frame_rows(run)
    return (f'<!doctype html><html lang="en"><meta charset="utf-8"><title>{esc(run.name)}: {esc(run.verdict)}</title>'
            f"<style>{STYLE}g[id]{{scroll-margin-top:{h + 40}px}}"
            f"{hide}@media print{{.bar form{{display:none}}.bar{{position:static}}}}</style>"
            f'<div class="bar"><form>{boxes}<b style="float:right">{esc(run.name)}: {verdict}</b></form>{top}</div>{picture}'
            f"<details><summary>All {len(rows):,} frames, those of the folded parts too</summary><table>"
            f'<tr><th>frame<th>sent at line<th>frame<th>what it says<th>reached{"".join(rows)}</table></details>'
            f"<details><summary>The report</summary><pre>{esc(chr(10).join(report_lines(run)))}</pre></details></html>\n")


def bar(run):
    """The headings, with the overview where there is one, and how high that is."""
    p = run.plan
    p.strip_y = 4
    strip = overview(run, p, run.laid) if p.strip else ""
    y = 60 if p.strip else 4
    w, h = num(p.width), y + (28 if p.narrow else 40)
    return (f'<svg xmlns="http://www.w3.org/2000/svg" class="wh" width="{w}" height="{h}" viewBox="0 0 {w} {h}">'
            f"{strip}{heads(run, p, y)}</svg>"), h


def frame_rows(run):
    """All frames: where each was sent, what it says, and whom it reached at which line."""
    visible = {s.line: (s.folded.steps[0].line if s.folded else s.line) for s in run.laid}
    sent, went = {}, {}
    for line, kind, w in run.events:
        if kind == "frame":
            sent[w["frame"]] = line
        elif kind == "delivered":
            went.setdefault(w["frame"], {}).setdefault(line, []).append(run.nodes[w["node"]][0])
    rows = []
    for k, f in enumerate(run.frames[1:], 1):
        to = "; ".join(f'{" ".join(calls)} at <a href="#L{visible[line]}">{line}</a>' for line, calls in went.get(k, {}).items())
        rows.append(f'<tr><td>{k}<td><a href="#L{visible[sent[k]]}">{sent[k]}</a><td>{esc(f["text"])}'
                    f'<td>{esc(labels(run, f)[1][0])}<td>{to or "nobody"}')
    return rows
