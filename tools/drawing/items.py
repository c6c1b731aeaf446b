"""What a lane has, row by row."""


class Item:
    """One row of a lane: a note, or a sending."""

    def __init__(self, icon, text, cls="", frame=None, title=None, strong=False, wraps=1):
        self.icon, self.text, self.cls, self.frame = icon, text, cls, frame
        self.title, self.strong, self.wraps, self.hidden = title, strong, wraps, ()


class Beat:
    """A delivery to all that hear it, or the part of a step before it."""

    def __init__(self, line, frame=None, again=False):
        self.line, self.frame, self.again = line, frame, again
        self.hearers, self.items, self.settled = [], {}, []
        self.marks = []                 # (node, slot marks) for the bars
        self.folded = None

    def add(self, n, item):
        self.items.setdefault(n, []).append(item)


class Step:
    def __init__(self, line, kind, args, text):
        self.line, self.kind, self.args, self.text = line, kind, args, text
        self.beats, self.time, self.notes, self.folded, self.refused = [], None, [], None, False


class Fold:
    def __init__(self):
        self.beats, self.steps, self.torn = [], [], True
