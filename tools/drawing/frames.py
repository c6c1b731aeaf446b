"""What the octets of a frame say: AX.25 (2.2), NET/ROM (Appendix B)."""

SUPERVISORY = {0x01: "RR", 0x05: "RNR", 0x09: "REJ", 0x0D: "SREJ"}
UNNUMBERED = {0x2F: "SABM", 0x6F: "SABME", 0x43: "DISC", 0x0F: "DM", 0x63: "UA", 0x87: "FRMR", 0x03: "UI",
              0xAF: "XID", 0xE3: "TEST"}
BROADCAST = ("NODES", "QST")
PID_NETROM, PID_TEXT = 0xCF, 0xF0
CHOKE, NAK, MORE = 0x80, 0x40, 0x20
OPCODES = {1: "Request", 2: "Accept", 3: "Disconnect", 4: "Disconnected", 5: "Info", 6: "InfoAck"}


def printable(octets):
    return "".join(chr(b) if 0x20 <= b <= 0x7E else "." for b in octets)


def call_at(octets, at):
    """The call in seven octets, and their last one."""
    field = octets[at:at + 7]
    if len(field) < 7:
        raise ValueError("an address is short")
    name = "".join(chr(b >> 1) for b in field[:6]).rstrip()
    ssid = field[6] >> 1 & 15
    return (f"{name}-{ssid}" if ssid else name), field[6]


def read_control(octets, at, modulo):
    """(kind, poll or final, N(R), N(S), how many octets)."""
    first = octets[at]
    if first & 3 == 3:
        return UNNUMBERED[first & 0xEF], bool(first & 0x10), 0, 0, 1
    if modulo == 128:
        second = octets[at + 1]
        if first & 1:
            return SUPERVISORY[first], bool(second & 1), second >> 1, 0, 2
        return "I", bool(second & 1), second >> 1, first >> 1, 2
    if first & 1:
        return SUPERVISORY[first & 0x0F], bool(first & 0x10), first >> 5, 0, 1
    return "I", bool(first & 0x10), first >> 5, first >> 1 & 7, 1


def read_addresses(octets):
    """(destination, source, repeaters), each a call and its last octet."""
    found, at = [], 0
    while True:
        found.append(call_at(octets, at))
        at += 7
        if found[-1][1] & 1:
            return found[0], found[1], found[2:], at


def frame_text(f, marks, is_command):
    """The frame as a report shows it."""
    via = "".join(f",{call}{'*' if heard else ''}" for call, heard in zip(f["path"], marks))
    text = f"{f['src']}>{f['dst']}{via} {'cmd' if is_command else 'res'} {f['kind']}"
    if f["kind"] == "I":
        text += f" ns={f['ns']}"
    if f["kind"] == "I" or f["kind"] in SUPERVISORY.values():
        text += f" nr={f['nr']}"
    text += f" pf={int(f['pf'])}"
    if f["pid"] is not None:
        text += f" pid={f['pid']:02X}"
    if f["kind"] in ("I", "UI", "FRMR", "XID", "TEST"):
        text += f" len={f['len']}"
    return text


def read_frame(sender, octets, modulo, numbers):
    """What a frame says, as plain words and numbers."""
    dest, source, path, at = read_addresses(octets)
    kind, pf, nr, ns, length = read_control(octets, at, modulo)
    at += length
    pid = octets[at] if kind in ("I", "UI") else None
    info = octets[at + (pid is not None):]
    marks = [bool(last & 0x80) for _, last in path]
    waiting = [call for (call, _), heard in zip(path, marks) if not heard]
    f = dict(sender=sender, octets=octets, src=source[0], dst=dest[0], hop=(waiting or [dest[0]])[0],
             path=[call for call, _ in path], kind=kind, pf=pf, nr=nr, ns=ns, pid=pid, len=len(info),
             broadcast=dest[0] in BROADCAST and not waiting, forwarded=numbers.get(source[0]) != sender)
    f["text"] = frame_text(f, marks, bool(dest[1] & 0x80) or not source[1] & 0x80)
    add_contents(f, info)
    return f


def add_contents(f, info):
    """What the frame carries: a broadcast, a datagram, or text."""
    try:
        if f["pid"] == PID_NETROM and f["dst"] == "NODES":
            f["nodes"] = read_nodes(info)
        elif f["pid"] == PID_NETROM:
            f["dg"] = read_datagram(info)
        elif f["pid"] == PID_TEXT:
            f["say"] = printable(info)
    except (ValueError, IndexError, KeyError):
        pass                            # not what its place says that it is


def read_nodes(info):
    """(destination, alias, best neighbour, quality) of each entry."""
    if not info or info[0] != 0xFF or (len(info) - 7) % 21:
        raise ValueError("no broadcast")
    return [(call_at(info, at)[0], alias_at(info, at + 7), call_at(info, at + 13)[0], info[at + 20])
            for at in range(7, len(info), 21)]


def alias_at(octets, at):
    plain = octets[at:at + 6].rstrip(b" ")
    return "".join(chr(b) if 0x21 <= b <= 0x7E else "." for b in plain) or "-"


def copy_key(octets):
    """Copies of a datagram are equal in all but the time to live."""
    return octets[:14] + octets[15:]


def read_datagram(octets):
    """A datagram and its transport."""
    if not 15 <= len(octets) <= 256:
        raise ValueError("no datagram")
    d = read_transport(octets[15:])
    d.update(origin=call_at(octets, 0)[0], dest=call_at(octets, 7)[0], ttl=octets[14], key=copy_key(octets))
    return d


def read_transport(data):
    op = data[4]
    if op & 0x10:
        raise ValueError("no transport")
    kind = OPCODES[op & 0x0F]
    if kind == "Accept" and op & CHOKE:
        kind = "Refuse"
    pair, numbered = (data[0], data[1]), kind in ("Info", "InfoAck")
    text = data[5:] if kind == "Info" else b""
    return dict(kind=kind, to=None if kind == "Request" else pair,
                own={"Request": pair, "Accept": (data[2], data[3])}.get(kind),
                window=data[5] if kind in ("Request", "Accept") else 0,
                tx=data[2] if kind == "Info" else 0, rx=data[3] if numbered else 0,
                choke=numbered and bool(op & CHOKE), nak=numbered and bool(op & NAK),
                more=numbered and bool(op & MORE), text=printable(text), size=len(text))
