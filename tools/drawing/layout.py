"""Where everything stands."""

import math

from .items import Item
from .styles import BEAT_GAP, EM, FOLD_H, FONT, ROW, SMALL, STEP_PAD
from .words import clock, cut_to, plural, width, wrap


class Plan:
    pass


def shape(run):
    """Columns."""
    p = Plan()
    n = len(run.nodes)
    p.narrow = n > 6
    p.font = FONT if n <= 4 else SMALL
    if p.narrow:
        p.left, p.lane, p.size = 210, 0, n
        p.gap = max(42, min(76, (1200 - p.left - 290) // n))
        p.text_col = p.left + p.gap * n + 6
        p.text_chars = 42
        p.width = p.text_col + 42 * SMALL * EM + 26
    else:
        p.left, p.lane, p.gap = {0: (300, 0, 0), 1: (280, 320, 0), 2: (262, 232, 250), 3: (236, 206, 150),
                                 4: (222, 172, 84), 5: (200, 142, 68), 6: (190, 140, 54)}[n]
        p.width = max(p.left + n * p.lane + max(0, n - 1) * p.gap + 26, 700)
    p.order = run.order or sorted(run.nodes)
    p.index = {m: i for i, m in enumerate(p.order)}
    p.x = {}
    for i, m in enumerate(p.order):
        x = p.left + (p.gap * (i + .5) if p.narrow else i * (p.lane + p.gap))
        p.x[m] = (x, x + p.lane)        # left and right edge of the lane
    return p


def inner_chars(p):
    return int((p.lane - 18) / (p.font * EM))


def choose(p, it, room):
    """The longest form of a label that fits."""
    if it.frame is None:
        if not p.narrow and it.icon != "in":
            room -= inner_chars(p) - int((p.lane - 27) / (p.font * EM))
        if isinstance(it.text, str):
            return cut_to(it.text, room)
        return next((f for f in it.text if len(f) <= room), cut_to(it.text[-1], room))
    number = f"{it.frame} "
    for i, form in enumerate(it.text):
        if len(number + form) <= room:
            return form
        cut = cut_to(form, room - len(number))
        if "“" in form and len(cut) - form.index("“") >= 9:      # enough of the text to be worth it
            return cut[:-1] + "…”" if len(number + cut) < room else cut[:-2] + "…”"
    forms = it.text
    return cut_to(forms[-1], room - len(number))


def sides(run, p, k, n):
    """Whether frame k leaves n to the left and to the right, and where its label belongs."""
    hear = run.hearers.get(k, set())
    i, f = p.index[n], run.frames[k]
    left = any(p.index[m] < i for m in hear)
    right = any(p.index[m] > i for m in hear)
    hop = run.numbers.get(f["hop"])
    if hop is not None and hop != n:
        main = "L" if p.index[hop] < i else "R"
    elif left and right:
        main = "B"
    else:
        main = "L" if left else "R"
    if not left and not right:          # lost or never settled: towards its hop, or a neighbour
        mates = [p.index[m] for c in run.channels if n in c for m in c if m != n]
        if hop is None and mates:
            main = "L" if max(mates) < i else "R"
    return left, right, main


def place(run, p, steps):
    """y of everything; the rows of each lane."""
    run.hearers = {}
    p.arrive, p.tail, p.gone = {}, {}, {}     # (frame, node) -> [(y, beat)]; frame -> (y, node); frame -> y
    for s in steps:
        for b in s.beats:
            for n in b.hearers:
                run.hearers.setdefault(b.frame, set()).add(n)
    y = p.top
    half = p.page / 2
    p.next = half if p.paged else None

    def fits(y, h):
        """Where something of that height goes: nothing stands across the end of a page, and the headings come again."""
        if p.next is None or y + h <= p.next:
            return y
        if round(p.next / half) % 2 == 0:
            y = p.next + 6
        while p.next <= y + h:
            p.next += half
        p.rulers.append(y)
        return y + (26 if p.narrow else 20)
    p.rows, p.steps, p.folds, p.bars, p.rulers = [], [], [], [], []
    shown = set()
    p.where = {}
    for s in steps:
        if s.folded:
            f = s.folded
            if id(f) in shown:
                p.steps.append((s, f.y, None))
                continue
            shown.add(id(f))
            f.torn = any(b.frame or any(i.frame for r in b.items.values() for i in r) for b in f.beats)
            no = sum(x.refused for x in f.steps)
            sent = sum(len(i.hidden) or bool(i.frame) for b in f.beats for r in b.items.values() for i in r)
            f.told = (plural(sent, "frame") if f.torn else "no effect") + (f", {no} refused" if no else "")
            y = fits(y, 34)
            f.y, f.h = y, 34
            p.steps.append((s, y, f))
            for b in f.beats:
                settle_fold(p, b, f)
            y += f.h
            p.folds.append(f)
            continue
        first = next((b for b in s.beats if not b.folded), None)
        y = fits(y, max(34, STEP_PAD + ROW * height_of(run, p, first) if first else 0))
        y0 = y
        chars = int((p.left - 54 - 22) / (FONT * EM))
        s.wrapped = wrap(s.text, chars, 2)
        s.noted = [ln for note in s.notes for ln in wrap(note, chars + 2, 3)]
        y += STEP_PAD
        head = y
        for b in s.beats:
            if b.folded:
                f = b.folded
                if id(f) not in shown:
                    shown.add(id(f))
                    y = fits(y, FOLD_H)
                    f.y, f.h = y, FOLD_H
                    p.folds.append(f)
                    y += FOLD_H + BEAT_GAP
                settle_fold(p, b, f)
                continue
            y = fits(y, ROW * height_of(run, p, b))
            rows = lane_rows(run, p, b, y)
            y += (rows * ROW + BEAT_GAP) if b.items else 15
        s.low_clock = (s.time is not None and 54 + width(s.wrapped[-1]) + 8 > p.left - 12 - width(clock(s.time)))
        y = max(y, head + 14 * (len(s.wrapped) + len(s.noted) + s.low_clock) + 3, head + ROW + (0 if s.beats else 2))
        y += STEP_PAD
        p.steps.append((s, y0, None))
        s.y, s.h = y0, y - y0
    p.bottom = y


def settle_fold(p, b, f):
    y = f.y + f.h / 2
    for n in b.hearers:
        p.arrive.setdefault((b.frame, n), []).append((y, b))
    for items in b.items.values():
        for it in items:
            for k in [it.frame] if it.frame else it.hidden:
                p.tail[k] = (y, f)
    for k in b.settled:
        p.gone[k] = y
    p.where[id(b)] = y


def lane_rows(run, p, b, y):
    """Sets the rows of one beat; how many there are."""
    mid = y + (ROW / 2 if b.items else 7.5)
    for n in b.hearers:
        p.arrive.setdefault((b.frame, n), []).append((mid - (3 if b.items.get(n) else 0), b))
    for k in b.settled:
        p.gone[k] = mid
    p.where[id(b)] = y
    most = 1
    row = 0
    for n in sorted(set(b.items) | set(b.hearers), key=lambda m: p.index[m]):
        if not p.narrow:
            row = 0
        items = b.items.get(n, [])
        # the number at the head, where its sending isn't close above
        number = None
        if n in b.hearers and not p.narrow:
            sent = p.tail.get(b.frame)
            if sent and (mid - sent[0] > 3.2 * ROW or b.again) and is_for(run, b.frame, n):
                number = b.frame
                side = "L" if p.index[run.frames[b.frame]["sender"]] < p.index[n] else "R"
                p.rows.append((n, mid - (1 if b.items else 0), "head", side, b.frame))
        for j, it in enumerate(spread(p, items)):
            room = inner_chars(p) if not p.narrow else p.text_chars - len(run.nodes[n][0]) - 1
            if row == 0 and number:
                if it.frame and sides(run, p, it.frame, n)[2] in (side, "B"):
                    row = 1
                else:
                    room -= math.ceil((width(str(number), SMALL) + 5) / (p.font * EM))
                    want = (f"{it.frame} {it.text[-1]}" if it.frame else it.text if isinstance(it.text, str) else it.text[-1])
                    if len(want) > room:
                        row, room = 1, inner_chars(p)
            c = y + row * ROW + ROW / 2
            for k in it.hidden:
                p.tail[k] = (c, n)
            if it.frame:
                ty = c + 3 if row == 0 and n in b.hearers else c
                p.tail[it.frame] = (ty, n)
            p.rows.append((n, c, it, room, width(str(number), SMALL) + 5 if row == 0 and number and side == "L" else 0))
            row += 1
            most = max(most, row)
        if p.narrow:
            most = max(most, row)
    return most


def spread(p, items):
    """Long notes over several rows."""
    out = []
    for it in items:
        room = int((p.lane - 27) / (p.font * EM)) if not p.narrow else p.text_chars - 7
        if it.wraps > 1 and it.frame is None and all(len(x) > room for x in it.text):
            lines = wrap(it.text[0], room, it.wraps)
            out.append(Item(it.icon, lines[0], it.cls, title=it.title, strong=it.strong))
            out += [Item("", ln, it.cls, title=it.title, strong=it.strong) for ln in lines[1:]]
        else:
            out.append(it)
    return out


def height_of(run, p, b):
    """At most so many rows."""
    rows = [len(spread(p, i)) + (n in b.hearers) for n, i in b.items.items()]
    return max([1] + ([sum(rows)] if p.narrow and rows else rows))


def is_for(run, k, n):
    f = run.frames[k]
    return f["broadcast"] or run.numbers.get(f["hop"]) == n
