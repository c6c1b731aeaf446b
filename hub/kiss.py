"""KISS (Chepponis and Karn, "The KISS TNC"): frames between FENDs. Called by the hub, and by examples/service/wursthatch-feed."""

import re

FEND = b"\xC0"
LONGEST = 1024                          # octets of a frame, its type octet among them, without escapes: the station takes no longer one
ROOM = 4096                             # bytes of one frame as they come
QUIET = 10                              # seconds after which the rest of a frame isn't awaited any more
BROKEN = re.compile(rb"\xDB(?![\xDC\xDD])")


class Cutter:
    """Cuts what comes at its FENDs. KISS has no checksum: no front of a frame must pass for all of it, nor, where it is lost, an end."""

    def __init__(self, is_lost=False):
        self.front, self.heard, self.is_lost = b"", 0, is_lost

    def take(self, got, now):
        """The frames that end with these bytes, without their FENDs. A TNC that went away in mid-frame left its front."""
        if now - self.heard >= QUIET and self.front:
            self.front, self.is_lost = b"", True
        self.heard = now
        if self.is_lost:
            got = got[got.index(FEND):] if FEND in got else b""
            self.is_lost = not got
        *whole, self.front = (self.front + got).split(FEND)
        if len(self.front) > ROOM:          # (what still comes of it falls, too)
            self.front, self.is_lost = b"", True
        return [piece for piece in whole if piece]


def enframe(kind, octets):
    """A whole frame. Its type octet has the port in its upper half and the command in its lower one."""
    body = bytes([kind]) + octets
    return FEND + body.replace(b"\xDB", b"\xDB\xDD").replace(FEND, b"\xDB\xDC") + FEND


def unescape(piece):
    """The type octet and what follows; None where an escape is none, or it is longer than a frame."""
    if BROKEN.search(piece):
        return None
    plain = piece.replace(b"\xDB\xDC", FEND).replace(b"\xDB\xDD", b"\xDB")
    return (plain[0], plain[1:]) if len(plain) <= LONGEST else None
