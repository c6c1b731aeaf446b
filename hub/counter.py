"""What is kept over restarts: the pair that comes next, and texts, each whole. Called by the hub and examples/service/wursthatch-feed."""

import os

IDENTS, STEP = 255, 16                  # each start goes 16 identifiers on, so it has 4,080 pairs before it comes to those of the next


def drawn():
    """An identifier that nobody could know."""
    return int.from_bytes(os.urandom(4), "big") % IDENTS + 1


def keep(path, text):
    """On the disk, in place of what was there: the old text or the new one, whatever happens meanwhile."""
    with open(f"{path}.new", "w", encoding="ascii") as new:
        new.write(text)
        new.flush()
        os.fsync(new.fileno())
    os.replace(f"{path}.new", path)
    folder = os.open(os.path.dirname(os.path.abspath(path)), os.O_RDONLY)
    os.fsync(folder)
    os.close(folder)


def next_pair(path, say):
    """The word of this start's pair, once the next is on the disk. One that can't be known is drawn: the old ones must not come again."""
    text = b"1"
    if os.path.exists(path):
        with open(path, "rb") as kept:
            text = kept.read(16).strip()
    ident = int(text) if text.isdigit() else 0
    if not 1 <= ident <= IDENTS:
        ident = drawn()
        say(f"{path} holds {text!r}, no number from 1 to {IDENTS}: the counter goes on from {ident}, which was drawn")
    keep(path, f"{(ident + STEP - 1) % IDENTS + 1}\n")
    return f"pair=1,{ident}"
