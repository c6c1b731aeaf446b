"""What came too late: what is drawn in red, and the sentence that explains the verdict."""

from .items import Item
from .words import labels


def mark_late(run, steps, by_event):
    d = run.late
    if not d:
        return
    beat = run.late_beat = by_event[d["event"]]
    call = run.nodes[d["node"]][0]
    if d["why"] == "overtaken":
        note = overtaken(run, by_event, beat, call)
    elif d["sign"] == "unasked":
        note = unasked(run, by_event, beat, call)
    else:
        note = held(run, beat, call)
    beat.items.setdefault(d["node"], []).insert(0, note)
    for s in steps:
        for b in s.beats:
            for it in (it for items in b.items.values() for it in items):
                if it.frame in run.red_frames:
                    it.cls, it.strong = "late", True


def late_note(text):
    return Item("late", text, "late", strong=True)


def redden(run, by_event, beat, n):
    """Red: the delivery of a beat to n, and those that led to its frame, hop by hop."""
    made = {w["frame"]: e for e, (_, kind, w) in enumerate(run.events) if kind == "frame"}
    while beat.frame:
        k = beat.frame
        run.red_deliveries.add((k, n, id(beat)))
        run.red_frames.add(k)
        f, cause = run.frames[k], by_event[made[k]]
        before = run.frames[cause.frame] if cause.frame else {}
        if "dg" not in f or "dg" not in before or before["dg"]["key"] != f["dg"]["key"]:
            return
        n, beat = f["sender"], cause


def overtaken(run, by_event, beat, call):
    d = run.late
    redden(run, by_event, beat, d["node"])
    what = f"{labels(run, run.frames[beat.frame])[1][-1]} (frame {beat.frame})" if beat.frame else "a datagram"
    if d["sent_event"] is None:
        run.why = f"{call} heeds {what}, which its partner never sent."
        return late_note("LATE")
    line = run.events[d["sent_event"]][0]
    run.why = (f"{what.strip()}, sent at line {line}, is heeded by {call} at line {d['line']} after "
               f"{d['overtakers']} later messages of its circuit; {d['allowance']} are too many.")
    return late_note(f"LATE: {d['overtakers']} overtook")


def unasked(run, by_event, beat, call):
    d = run.late
    redden(run, by_event, beat, d["node"])
    run.why = f"at line {d['line']} {call} opens end {d['end']} for a connect request that no end waits on any more."
    return late_note("LATE: request returned")


def held(run, beat, call):
    d = run.late
    pair = f"{d['pair'][0]}/{d['pair'][1]}"
    n, end = d["holder"]
    run.why = (f"at line {d['line']} {call} gives pair {pair} again, while end {end} of {run.nodes[n][0]} still has "
               "a partner there with that pair.")
    still = f"still has {d['node']}’s {pair}"
    beat.add(n, Item("late", [f"circuit {end} {still}", f"{end} {still}"], "late", strong=True))
    return late_note(f"LATE: pair {pair} again")
