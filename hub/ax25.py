"""AX.25 2.2, read as far as the page shows it, and the checksum of AXUDP."""

import binascii
import collections
import re

NAME = re.compile(rb"[A-Z0-9]{1,6} *")
UNNUMBERED = {0x2F: "SABM", 0x6F: "SABME", 0x43: "DISC", 0x0F: "DM", 0x63: "UA", 0x87: "FRMR", 0x03: "UI", 0xAF: "XID", 0xE3: "TEST"}
SUPERVISORY = ("RR", "RNR", "REJ", "SREJ")
NETROM = 0xCF                           # the protocol of nodes
TURNED = bytes(int(f"{octet:08b}"[::-1], 2) for octet in range(256))


def with_checksum(octets):
    """As a frame stands in a datagram (RFC 1226): its check sequence behind it, CRC-16/X.25. (crc_hqx takes the high bit first)"""
    turned = binascii.crc_hqx(octets.translate(TURNED), 0xFFFF) ^ 0xFFFF
    return octets + turned.to_bytes(2, "big").translate(TURNED)


def without_checksum(datagram):
    """The frame of a datagram; None where it is none, or its check sequence isn't its own."""
    return datagram[:-2] if len(datagram) > 2 and with_checksum(datagram[:-2]) == datagram else None


class Frame(collections.namedtuple("Frame", "dest source via kind detail pid info")):
    """What a frame says. `via` has each repeater and whether it has repeated, `detail` what the control field says beside the kind."""

    def alias(self):
        """That of a node whose broadcast of routes it is (NET/ROM's manual, Appendix B), else none; what can't be shown is a point."""
        if (self.kind, self.dest, self.pid, self.info[:1]) == ("UI", "NODES", NETROM, b"\xFF"):
            return "".join(chr(octet) if 32 <= octet < 127 else "." for octet in self.info[1:7]).strip() or "-"
        return None

    def show(self):
        """A line for people."""
        via = "".join("," + call + "*" * repeated for call, repeated in self.via)
        load = f" pid={self.pid:02X} len={len(self.info)}" if self.pid is not None else ""
        if self.alias():
            load = f" routes of {self.alias()}, {(len(self.info) - 7) // 21} entries"
        return f"{self.source}>{self.dest}{via} {self.kind}{self.detail}{load}"


def call(field):
    """The call of an address field, or None."""
    name = bytes(octet >> 1 for octet in field[:6])
    if len(field) < 7 or any(octet & 1 for octet in field[:6]) or not NAME.fullmatch(name):
        return None
    return name.decode().rstrip() + f"-{field[6] >> 1 & 15}".removesuffix("-0")


def read(octets, modulo=8):
    """The frame of these octets, or None where they are none. A link's modulo isn't in its frames."""
    end = next((place + 1 for place in range(6, min(len(octets), 70), 7) if octets[place] & 1), 0)
    calls = [(call(octets[place:place + 7]), octets[place + 6] >= 0x80) for place in range(0, end, 7)]
    if len(calls) < 2 or not all(name for name, _ in calls) or end == len(octets):
        return None
    first, rest = octets[end], octets[end + 1:]
    if first & 3 == 3:
        kind, detail = UNNUMBERED.get(first & 0xEF, "?"), " pf=1" if first & 0x10 else ""
    else:
        sent, received, poll = first >> 1 & 7, first >> 5, first >> 4 & 1
        if modulo == 128 and rest:
            sent, received, poll, rest = first >> 1, rest[0] >> 1, rest[0] & 1, rest[1:]
        kind, detail = (SUPERVISORY[first >> 2 & 3], "") if first & 1 else ("I", f" ns={sent}")
        detail += f" nr={received}" + " pf=1" * poll
    has_pid = kind in ("I", "UI") and rest
    return Frame(calls[0][0], calls[1][0], calls[2:], kind, detail, rest[0] if has_pid else None, rest[1:] if has_pid else rest)
