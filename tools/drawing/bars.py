"""The life of each circuit end, at the borders of its lane."""

from .pens import esc, num
from .styles import ROW


class Bar:
    """An end of a circuit: where it was made, where it came up, and in which of the node's places it stands."""

    def __init__(self, made, slot, told):
        self.made, self.up, self.slot, self.told = made, None, slot, told


def bars(run, p, steps, out):
    if p.narrow:
        return
    live = {}                           # (node, end): its bar
    for b in (b for s in steps for b in s.beats):
        y = p.where.get(id(b), 0) + (0 if b.folded else ROW / 2)
        for n, what, w in b.marks:
            if what == "made":
                taken = {bar.slot for (m, _), bar in live.items() if m == n}
                live[n, w["end"]] = Bar(y, next(i for i in range(len(taken) + 1) if i not in taken), w)
            elif what == "restart":
                for who in [who for who in live if who[0] == n]:
                    out.append(closed(run, p, who, live.pop(who), y, "lost by the restart"))
            elif (n, w["end"]) in live:
                if w["what"] == "opened":
                    live[n, w["end"]].up = y
                else:
                    out.append(closed(run, p, (n, w["end"]), live.pop((n, w["end"])), y, w["what"]))
    for who, bar in live.items():
        out.append(closed(run, p, who, bar, p.bottom + 8, "still there at the end"))


def rect(cls, x, y, w, h):
    return f'<rect class="{cls}" x="{num(x)}" y="{num(y)}" width="{w}" height="{num(max(2, h))}"/>'


def closed(run, p, who, bar, y, how):
    """The bar of an end down to y: hollow while it connects, full while it is up, red while it holds what is too late."""
    a, z = p.x[who[0]]
    x = {0: a - 2, 1: z - 2, 2: a + 3, 3: z - 7}.get(bar.slot)
    if x is None:
        return ""
    w = bar.told
    tip = f"end {who[1]} with {w['partner']}, pair {w['index']}/{w['ident']}, {how}"
    drawn = f"<g><title>{esc(tip)}</title>"
    if bar.up is None or bar.up > bar.made:
        drawn += rect("con", x + .5, bar.made, 3, (y if bar.up is None else bar.up) - bar.made)
    if bar.up is not None:
        turn = y
        if run.late and who == run.late["holder"]:
            turn = min(y, max(bar.up, p.where.get(id(run.late_beat), y)))
            drawn += rect("flate", x, turn, 4, y - turn)
        drawn += rect("up", x, bar.up, 4, turn - bar.up)
    return drawn + "</g>"
