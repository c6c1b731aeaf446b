"""What each event puts in the lane of its node."""

from .items import Item
from .words import cut_to, labels, plural


def happens(run, s, beat, kind, w):
    tell = TELLS.get(kind)
    if tell:
        tell(run, s, beat, w)


def sends(run, s, beat, w):
    cls, forms = labels(run, run.frames[w["frame"]])
    beat.add(w["node"], Item("out", forms, cls, frame=w["frame"]))


def loses_frame(run, s, beat, w):
    """`lose` and `cut` settle frames at the first beat of their line."""
    first = s.beats[0]
    first.settled.append(w["frame"])
    run.lost[w["frame"]] = first


def gives_notice(run, s, beat, w):
    n, end, what, partner, window = w["node"], w["end"], w["what"], w["partner"], w["window"]
    if what == "opened":
        forms = [f"circuit {end} up: {partner} w{window}", f"circuit {end} up: {partner}",
                 f"{end} up: {partner} w{window}", f"{end} up: {partner}"]
        beat.add(n, Item("up", forms, "c", strong=True, title=f"circuit end {end} opened with {partner}, window {window}"))
    else:
        good = what in ("closed", "closed by partner")
        forms = [f"circuit {end} {what}", f"{end} {what}", f"{end} {what.replace('closed by', 'by')}"]
        beat.add(n, Item("down" if good else "no", forms, "c" if good else "bad", strong=True,
                         title=f"circuit end {end} with {partner}: {what}"))
    beat.marks.append((n, "notice", w))


def tells_link(run, s, beat, w):
    good = w["what"] in ("opened", "closed")
    mark = {"opened": "up", "closed": "down"}.get(w["what"], "no")
    beat.add(w["node"], Item(mark, f"link {w['peer']} {w['what']}", "l" if good else "bad", strong=True))


def fails(text):
    """A note of something that came to nothing."""
    def tell(run, s, beat, w):
        forms = text(w)
        beat.add(w["node"], Item("no", forms, "bad", strong=True))
    return tell


def refuses(run, s, beat, w):
    """Stands in place of the act; where no node is asked, below the line."""
    who = None
    if s.kind in ("deliver", "again"):
        who = s.args[1]
    elif s.kind not in ("lose", "flow", "cut", "tick"):
        who = s.args[0]
    said = f"refused: {w['why']}"
    if who is None:
        s.notes = s.notes + [said]
        return
    beat.items[who] = [i for i in beat.items.get(who, []) if i.icon != "do" or s.kind == "burst"]
    beat.add(who, Item("no", said, "bad", strong=True))
    s.refused = True


def takes(run, s, beat, w):
    n, size = w["node"], w["bytes"]
    tip = f"end {w['end']}, {size} bytes: “{cut_to(w['text'], 300)}”"
    said = [line for line in w["lines"] if line]
    if size > 400:
        beat.add(n, Item("got", f"takes {size:,} bytes", strong=True, title=tip))
    elif len(said) == 1:
        beat.add(n, Item("got", [f"takes “{said[0]}”"], strong=True, title=tip, wraps=3))
    else:
        beat.add(n, Item("got", f"takes {size} bytes:", strong=True, title=tip))
        for line in said[:7]:
            beat.add(n, Item("", line, title=tip))
        if len(said) > 7:
            beat.add(n, Item("", f"and {len(said) - 7} more lines", title=tip))


def writes(run, s, beat, w):
    beat.items.setdefault(w["node"], []).insert(0, Item("do", f"writes {plural(w['messages'], 'message')}"))


def shows(run, s, beat, w):
    n, rows = w["node"], w["rows"]
    beat.add(n, Item("do", "table" + ("" if rows else ": empty")))
    for dest, alias, neighbour, quality, count in rows[:8]:
        beat.add(n, Item("", f"{dest} {neighbour} {quality}", title=f"{alias}:{dest} over {neighbour} quality {quality} count {count}"))
    if len(rows) > 8:
        beat.add(n, Item("", f"and {len(rows) - 8} more"))


def restarts(run, s, beat, w):
    pair = f"{w['index']}/{w['ident']}"
    beat.add(w["node"], Item("restart", f"RESTART {pair}", strong=True, title=f"starts again; its next pair is {pair}"))
    beat.marks.append((w["node"], "restart", w))


def posts(run, s, beat, w):
    said, (to, dest) = f"posts mail {w['mail']}", s.args[1:3]
    beat.add(w["node"], Item("do", [f"{said} for {to} at {dest}", f"{said} for {to}", said], title=cut_to(s.text, 300)))


def offers(run, s, beat, w):
    beat.add(w["node"], Item("do", [f"offers mail {w['mail']} on {w['end']}", f"offers mail {w['mail']}"],
                             title=f"mail {w['mail']} is written at circuit end {w['end']}"))


def stores(run, s, beat, w):
    said = f"stores mail {w['mail']} of {w['origin']}"
    beat.add(w["node"], Item("got", [said, f"stores mail {w['mail']}"], strong=True,
                             title=f"{said} for {w['to']}, {plural(w['bytes'], 'byte')}"))


def settles(run, s, beat, w):
    beat.add(w["node"], Item("got", f"mail {w['mail']} is done", strong=True, title=f"mail {w['mail']} is stored where it was to go"))


def makes(run, s, beat, w):
    beat.marks.append((w["node"], "made", w))


TELLS = {
    "frame": sends, "lost_frame": loses_frame, "notice": gives_notice, "link": tells_link, "refused": refuses, "took": takes,
    "wrote": writes, "shown": shows, "restarted": restarts, "made": makes,
    "posted": posts, "offered": offers, "stored": stores, "settled": settles,
    "overflow": fails(lambda w: f"table full {w['live']}/{w['would_be']}"),
    "dropped": fails(lambda w: f"dropped: {w['why']}"),
    "lost_neighbour": fails(lambda w: [f"routes over {w['neighbour']} end", f"no routes by {w['neighbour']}"]),
}
