"""What is folded: runs of the usual within a line, and lines in a row. The mildest of four levels is taken that leaves few enough rows."""

from .items import Fold

EVENTS = ("up", "down", "restart", "late")      # what no folding hides but the last
MANY_STEPS = 60                                  # in longer files refused acts are folded too


def weighty(it):
    failed = it.icon == "no" and it.strong
    small = isinstance(it.text, str) and it.text.startswith(("refused", "dropped"))
    return it.icon in EVENTS or it.cls == "late" or (failed and not small)


def routine(run, beat, level):
    """A delivery with nothing to see but the usual exchange; from level 2 on, with any frames."""
    if beat.frame is None or beat is run.late_beat or (beat.again and level < 2):
        return False
    return all(usual(run, it, level) for items in beat.items.values() for it in items)


def usual(run, it, level):
    if weighty(it) or it.frame in run.red_frames:
        return False
    if level >= 2:
        return True
    if it.frame is None:
        return bool(it.hidden)
    f = run.frames[it.frame]
    d = f.get("dg")
    if d:
        return d["kind"] in ("Info", "InfoAck") and not d["choke"] and not d["nak"]
    return f["kind"] in ("RR", "I") or "nodes" in f


def groups(things, holds):
    """The things in a row of which it holds, group by group."""
    group = []
    for x in things:
        if holds(x):
            group.append(x)
        elif group:
            yield group
            group = []
    if group:
        yield group


def fold_beats(beats):
    f = Fold()
    f.beats = beats
    for b in beats:
        b.folded = f


def fold_run(steps):
    f = Fold()
    f.steps = steps
    f.beats = [b for x in steps for b in x.beats]
    for x in steps + f.beats:
        x.folded = f


def fold_within(run, steps, keep, longest, level):
    """Runs of routine deliveries within one line: all but `keep` at each end."""
    for s in steps:
        for group in groups(s.beats, lambda b: routine(run, b, level)):
            if len(group) > longest:
                fold_beats(group[keep:len(group) - keep])


def dull(run, s, level, big):
    """A line that may be folded with its neighbours."""
    if s.notes or any(b is run.late_beat for b in s.beats):
        return False
    if not s.beats:
        return s.kind in ("flow", "cut", "tick")
    if s.refused:
        return big and s.kind != "burst"
    return level > 0 and all(dull_beat(run, s, b, level) for b in s.beats)


def dull_beat(run, s, b, level):
    if routine(run, b, level):
        return True
    if b.frame or (b.settled and level < 2):
        return False
    if any(weighty(it) or it.frame in run.red_frames for items in b.items.values() for it in items):
        return False
    return s.kind in ("say", "tick", "burst", "take") or level >= 2


def fold_steps(run, steps, keep, level):
    """Three or more such lines in a row (after `keep` at each end) become one row."""
    for group in groups(steps, lambda s: dull(run, s, level, len(steps) > MANY_STEPS)):
        if len(group) - 2 * keep >= 3:
            fold_run(group[keep:len(group) - keep])


def fold_middle(run, steps, rows):
    """The last resort: the first and the last rows, and those around the late line; the same within one line."""
    for s in steps:
        for b in s.beats:
            if s.folded and b.folded is s.folded:
                b.folded = None
        s.folded = None
        if rows_of([s]) > rows // 8:
            fold_ends(run, s, rows // 16)
    shown = shown_steps(run, steps, rows)
    for group in groups(range(len(steps)), lambda i: i not in shown):
        fold_run([steps[i] for i in group])


def fold_ends(run, s, most):
    """Of one line, all but so many rows at each end."""
    free = [b for b in s.beats if not b.folded]
    keep = set()
    for side in (free, free[::-1]):
        used = 0
        for b in side:
            used += beat_rows(b)
            if used > most:
                break
            keep.add(id(b))
    for group in groups(free, lambda b: id(b) not in keep and b is not run.late_beat):
        fold_beats(group)


def shown_steps(run, steps, rows):
    """The places of the steps that are shown: a share of the rows at both ends, and around the late line."""
    late = next((i for i, s in enumerate(steps) if run.late and s.line == run.late["line"]), None)
    share = rows // (6 if late is None else 9)
    shown = set()

    def show(order, most):
        used = 0
        for i in order:
            used += rows_of([steps[i]])
            if used > most and shown:
                break
            shown.add(i)
    show(range(len(steps)), share)
    show(range(len(steps) - 1, -1, -1), share)
    if late is not None:
        show(range(late, -1, -1), share // 2)
        show(range(late, len(steps)), share // 2)
        shown.add(late)
    return shown


def beat_rows(b):
    return max([1] + [len(i) for i in b.items.values()])


def rows_of(steps):
    total, seen = 0, set()
    for s in steps:
        for f in [s.folded] if s.folded else [b.folded for b in s.beats if b.folded]:
            if id(f) not in seen:
                seen.add(id(f))
                total += 2
        if not s.folded:
            total += max(1, sum(beat_rows(b) for b in s.beats if not b.folded))
    return total


def fold_all(run, steps, keep, longest, most):
    """The mildest folding that leaves at most so many rows."""
    for level in (0, 1, 2, 3):
        for s in steps:
            for x in [s] + s.beats:
                x.folded = None
        fold_within(run, steps, *((keep, longest) if level == 0 else (2, 6)), level)
        fold_steps(run, steps, (0, 2, 1, 1)[level], level)
        if level == 3:
            fold_middle(run, steps, most)
        if rows_of(steps) <= most:
            break
