"""From the trace to rows: steps (lines of the file), beats (deliveries), and what stands in each lane."""

from .events import happens
from .items import Beat, Item, Step
from .late import mark_late
from .reading import DECLARING
from .words import cut_to, plural

QUIET = ("RR", "RNR", "REJ", "SREJ", "UA", "DM")        # frames that are never called a repetition
ANSWERS = ("InfoAck", "Disconnected", "Accept")          # and datagrams


def prepare(run):
    """Steps, beats and items out of the trace; no measure yet."""
    by_line = steps_of(run)
    steps = list(by_line.values())
    place_comments(run, by_line)
    mark_repeated(run)
    by_event = fill_beats(run, by_line)
    for s in steps:
        for b in s.beats:
            drop_round(b)
        if not s.beats and s.kind not in ("flow", "cut", "tick"):
            s.beats.append(Beat(s.line))
            own_words(s, s.beats[0])
    mark_late(run, steps, by_event)
    for s in steps:
        for b in s.beats:
            for n, items in b.items.items():
                b.items[n] = without_middle(items)
    return steps


def steps_of(run):
    """The steps by their lines, with the time that those of `tick` reach."""
    by_line, now = {}, 0
    for number, kind, args in run.steps:
        s = by_line[number] = Step(number, kind, args, run.lines[number - 1])
        if kind == "tick":
            now += args[0]
            s.time = now
    return by_line


def place_comments(run, by_line):
    """Those before the first line are the description, the others belong to the step that follows."""
    notes, begun = [], False
    for number, line in enumerate(run.lines, 1):
        if line.startswith("#"):
            (notes if begun else run.about).append(line.lstrip("# "))
        elif line:
            begun = True
            if line.split()[0] not in DECLARING and number in by_line:
                by_line[number].notes, notes = notes, []


def mark_repeated(run):
    """Which frames repeat what their node has sent before, since its last restart or the end of a link."""
    seen = {}
    for _, kind, w in run.events:
        if kind == "restarted" or (kind == "link" and w["what"] != "opened"):
            for key in [x for x in seen if x[0] == w["node"]]:
                del seen[key]
        if kind == "frame":
            mark_one(run.frames[w["frame"]], seen)


def mark_one(f, seen):
    if "nodes" in f or f["kind"] in QUIET or ("dg" in f and f["dg"]["kind"] in ANSWERS):
        return
    key = (f["sender"], f["dg"]["key"] if "dg" in f and f["kind"] == "UI" else f["octets"])
    f["again"] = key in seen and ("dg" in f or f["kind"] != "I")
    seen[key] = True


def fill_beats(run, by_line):
    """Puts each event in a beat of its line; the beats by the numbers of their events."""
    by_event, beat = {}, None
    for e, (line, kind, w) in enumerate(run.events):
        s = by_line[line]
        if kind == "delivered":
            if beat is None or beat.line != line or beat.frame != w["frame"] or w["node"] in beat.hearers:
                beat = Beat(line, w["frame"], w["again"])
                s.beats.append(beat)
            beat.hearers.append(w["node"])
        elif beat is None or beat.line != line:
            beat = Beat(line)
            s.beats.append(beat)
            own_words(s, beat)
        by_event[e] = beat
        happens(run, s, beat, kind, w)
    return by_event


def drop_round(beat):
    """That a node does its round is said where no frame shows it."""
    for n, items in beat.items.items():
        if any(i.frame for i in items):
            beat.items[n] = [i for i in items if i.text != "round"]


def without_middle(items):
    """Of more than twelve like sendings at once only the first four and the last four have rows."""
    out, group = [], []
    for it in items + [None]:
        if it is not None and it.frame and it.cls in ("i", "a") and (not group or group[-1].cls == it.cls):
            group.append(it)
            continue
        if len(group) > 12:
            more = Item("", f"… {group[4].frame} to {group[-5].frame}", group[0].cls, title=f"{len(group) - 8} more frames")
            more.hidden = [r.frame for r in group[4:-4]]
            group = group[:4] + [more] + group[-4:]
        out += group
        group = []
        if it is not None:
            (group if it.frame and it.cls in ("i", "a") else out).append(it)
    return out


# ---------------------------------------------------------------- what a line itself has its node do

def own_words(s, beat):
    act = ACTS.get(s.kind)
    if act:
        beat.add(s.args[0], act(s, *s.args[1:]))


def hears(s, call, alias, *entries):
    count = len(entries) // 4
    return Item("in", [f"hears {call}, {plural(count, 'entry', 'entries')}", f"hears {call}, {count}"], "n", title=s.text)


def says(s, end, text):
    said = f"says “{text}”" if len(text) <= 200 else f"says {len(text):,} bytes"
    return Item("do", [said], wraps=3, title=f"at end {end} says “{cut_to(text, 300)}”")


ACTS = {
    "heard": hears,
    "open": lambda s, call: Item("do", [f"opens circuit to {call}", f"opens to {call}"]),
    "say": says,
    "close": lambda s, end: Item("do", [f"closes circuit {end}", f"closes {end}"]),
    "round": lambda s: Item("do", "round"),
    "linkfail": lambda s, call: Item("no", [f"link to {call} fails", f"loses {call}"], "bad", title=s.text),
    "lock": lambda s, dest, alias, neighbour, quality: Item("do", f"locks {dest} {quality}", title=s.text),
}
