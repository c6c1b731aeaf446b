"""Measures, colours, styles and the heads of arrows."""

import re

# ---------------------------------------------------------------- measures
ROW, BEAT_GAP, STEP_PAD = 17, 4, 5      # a row of text; between beats; above and below a step
FONT, SMALL = 11, 10                    # monospaced, so that widths are known everywhere
EM = 0.602                              # width of a character over the size of the font
FOLD_H = 30
LONG = 800                              # an arrow longer than this is drawn as its two ends
PAGE = 1.4142                           # height of a printed page over its width

# ---------------------------------------------------------------- colours: light, dark
INK = {
    "bg": ("#ffffff", "#0f1419"), "lane": ("#f4f6f9", "#19212a"), "edge": ("#b9c3cf", "#43505e"),
    "text": ("#1a1f26", "#e7ebf0"), "mute": ("#59636f", "#9aa6b2"), "hair": ("#dfe4ea", "#2a333d"),
    "stripe": ("#fff6dc", "#2a2616"),
    "i": ("#0a459b", "#86c1fb"),        # information: blue
    "a": ("#626c78", "#8b949e"),        # acknowledgements: grey
    "c": ("#067a52", "#35e0a0"),        # circuit control: bluish green
    "n": ("#5e3600", "#f3b327"),        # NODES: brown, orange
    "l": ("#a0489a", "#cf6cf2"),        # AX.25 link control: reddish purple
    "bad": ("#a33a00", "#ff9a62"),      # failed, refused, dropped: vermilion
    "late": ("#e00010", "#ff4d52"),     # too late: red, thick, and the word
}


def style():
    def rules(k):
        c = {name: pair[k] for name, pair in INK.items()}
        kinds = "".join(
            f"path.{x}{{stroke:{c[x]}}}text.{x},tspan.{x},.f{x}{{fill:{c[x]}}}" for x in
            ("i", "a", "c", "n", "l", "bad", "late"))
        return (f".bg{{fill:{c['bg']}}}.lane{{fill:{c['lane']};stroke:{c['edge']}}}"
                f"text{{fill:{c['text']}}}.m,tspan.m{{fill:{c['mute']}}}"
                f".hair{{stroke:{c['hair']}}}.edge{{stroke:{c['edge']}}}path.h{{stroke:{c['edge']}}}.fh{{fill:{c['edge']}}}"
                f".st{{fill:{c['stripe']}}}.up{{fill:{c['c']}}}.con{{fill:{c['bg']};stroke:{c['c']}}}"
                f".band{{fill:{c['bg']};stroke:{c['edge']}}}.inv{{fill:{c['bg']}}}path.inv{{stroke:{c['bg']}}}path.m{{stroke:{c['mute']}}}path.o{{fill:none}}"
                f".fm{{fill:{c['mute']}}}.fo{{fill:{c['bg']}}}.up,.flate.up{{opacity:.7}}") + kinds
    base = (f"text{{font:{FONT}px ui-monospace,'DejaVu Sans Mono',Menlo,Consolas,monospace}}"
            f".s{{font-size:{SMALL}px}}.b{{font-weight:700}}.it{{font-style:italic}}"
            ".t{font:700 15px system-ui,'DejaVu Sans',Helvetica,Arial,sans-serif}"
            ".u{font:12px system-ui,'DejaVu Sans',Helvetica,Arial,sans-serif}"
            ".mid{text-anchor:middle}.end{text-anchor:end}a{cursor:pointer}"
            "path{fill:none}.none{pointer-events:all}.i,.c,.n,.l{stroke-width:1.6}.a{stroke-width:1.1}.h{stroke-width:.9}"
            ".late{stroke-width:2.6}.r{stroke-dasharray:6 4}.hit{stroke:transparent!important;stroke-width:9}"
            + "".join(f"path.{x}.g{{marker-end:url(#m{x});marker-start:url(#d{x})}}"
                      for x in ("i", "a", "c", "n", "l", "late"))
            + "path.h.g{marker-end:url(#mh)}"
            "g.f:hover path.g{stroke-width:3.2}g.f:hover text{text-decoration:underline}")
    def own(css):                       # for this picture alone, where a page holds it
        return re.sub(r"([^{}]+)\{", lambda m: ",".join(".wh " + x for x in m[1].split(",")) + "{", css)
    return (f"{own(base + rules(0))}@media screen and (prefers-color-scheme:dark){{{own(rules(1))}}}"
            f"@media print{{{own('.bg{fill:#fff}')}}}")


def defs():
    """Heads and tails of arrows, of each colour."""
    out = []
    for x in ("i", "a", "c", "n", "l", "late"):
        w = 9 if x == "late" else 7
        out.append(f'<marker id="m{x}" markerUnits="userSpaceOnUse" markerWidth="{w + 1}" markerHeight="{w + 1}" '
                   f'refX="{w}" refY="{w / 2}" orient="auto"><path class="f{x}" d="M0 .6L{w} {w / 2}L0 {w - .6}z"/></marker>'
                   f'<marker id="d{x}" markerUnits="userSpaceOnUse" markerWidth="5" markerHeight="5" refX="2.5" '
                   f'refY="2.5"><circle class="f{x}" cx="2.5" cy="2.5" r="2.2"/></marker>')
    out.append('<marker id="mh" markerUnits="userSpaceOnUse" markerWidth="6" markerHeight="6" refX="3" refY="3">'
               '<circle class="fh" cx="3" cy="3" r="2"/></marker>')
    return "".join(out)
