"""Rows for `node` that are too long to be written: frames that come to the node N0AAA, most of them of N0BBB, and those that it sends."""
import os
import subprocess
import threading

from rows import FEND, Row, call, kiss
from rows_of_text import Draw

TO_NODE = call("N0AAA", 0xE0) + call("N0BBB", 0x61)
OF_NODE = call("N0BBB", 0xE0) + call("N0AAA", 0x61)
RESPONSE = call("N0BBB", 0x60) + call("N0AAA", 0xE1)


def datagram(origin, dest, transport):
    return b"\xCF" + call(origin, 0x60) + call(dest, 0x60) + b"\x19" + transport


def request(pair=b"\x07\x09"):
    """A connect request with this pair and window 4, for the user N0USR at N0BBB."""
    return pair + b"\0\0\x01\x04" + call("N0USR", 0x60) + call("N0BBB", 0x60)


def stream(place, words, came, sent):
    """A node that is called N0AAA, to which these frames come, and which sends those."""
    row = Row(place, ["node", "call=N0AAA", "alias=ANODE", *words.split(" ")])
    row.input, row.output = b"".join(map(kiss, came)), b"".join(map(kiss, sent))
    return row


def stations(count):
    return [f"N0D{chr(65 + n // 26)}{chr(65 + n % 26)}" for n in range(count)]


def a_65th_request():
    """Each is of another station, to which N0BBB is the way. 64 are accepted, the next one is refused."""
    names, came, sent = stations(65), [], []
    came += broadcasts(names)
    for nth, name in enumerate(names):
        came.append(TO_NODE + b"\x03" + datagram(name, "N0AAA", request()))
        accept, refuse = bytes([7, 9, 1 + nth, 1, 2, 4]), bytes([7, 9, 0, 0, 0x82, 0])
        sent.append(OF_NODE + b"\x03" + datagram("N0AAA", name, accept if nth < 64 else refuse))
    yield stream("a 65th request", "links=0 prompt=0", came, sent)


def a_65th_link():
    """64 set-ups are answered by UA, the next one by DM; those of links that stand are answered again."""
    def pair(name, told):
        return call("N0AAA", 0xE0) + call(name, 0x61) + b"\x3F", call(name, 0x60) + call("N0AAA", 0xE1) + told

    rows = [pair(name, b"\x73") for name in stations(64)] + [pair("N0CM", b"\x1F"), pair("N0DAA", b"\x73")]
    yield stream("a 65th link", "t3=86400000", [came for came, _ in rows], [sent for _, sent in rows])


NAME = b"ANODE:N0AAA} "


class Session(Row):
    """A user at N0BBB who sends texts over a link with N0AAA, each with what comes back of it: information frames, by PID and octets. What
    stands before the link, and in place of a text, are frames of their own."""

    def __init__(self, place, words, before, texts, modulo=8):
        super().__init__(place, ["node", "call=N0AAA", "alias=ANODE", *words])
        frames = [*before, TO_NODE + (b"\x3F" if modulo == 8 else b"\x7F")]
        self.wanted, self.modulo, number = [], modulo, 0
        for text, back in texts:
            if isinstance(text, bytes):
                frames.append(text)
            else:
                nr = len(self.wanted) % modulo
                control = [nr << 5 | number << 1] if modulo == 8 else [number << 1, nr << 1]
                frames.append(TO_NODE + bytes([*control, text[0]]) + text[1])
                number = (number + 1) % modulo
            self.wanted += back
        self.input = b"".join(map(kiss, frames))

    def fault(self, program):
        sent = subprocess.run([*program, *self.words], input=self.input, capture_output=True).stdout
        frames = [piece[1:].replace(b"\xDB\xDC", FEND).replace(b"\xDB\xDD", b"\xDB") for piece in sent.split(FEND) if piece]
        pid = 15 if self.modulo == 8 else 16
        told = [(frame[pid], frame[pid + 1:]) for frame in frames if frame[14] & 1 == 0]
        return None if told == self.wanted else f"other texts: {told}"


def said(line, reply):
    return (0xF0, line), [(0xF0, NAME + reply)]


COMMANDS = b"CONNECT NODES ROUTES USERS INFO BYE HELP\r"


def at_the_prompt():
    """Each command has its reply; an empty line and one of spaces have none."""
    yield Session("at the prompt", [], [], [said(*row) for row in (
        (b"i", b"NET/ROM node\r"), (b"?", COMMANDS), (b"  hElP  ", COMMANDS), (b"JUMP", b"Unknown command\r"),
        (b"help\n", b"Unknown command\r"), (b"CONNECT", b"Wrong words\r"), (b"c N0BBB N0CCC", b"Wrong words\r"),
        (b"INFO N0BBB", b"Wrong words\r"), (b"NODES N0BBB-16", b"Bad call\r"), (b"C BNODE:N0BBB", b"Bad call\r"),
        (b" " * 81, b"Line too long\r"), (b"connect n0qqq-3", b"No route to N0QQQ-3\r"), (b"c n0aaa", b"That is this node\r"),
        (b" n  n0ccc-7 ", b"Routes to N0CCC-7:\r"), (b"NODES N0QQQ", b"Routes to N0QQQ:\r"), (b"NODES", b"Nodes:\r"),
        (b"routes", b"Routes:\r"), (b"U", b"Users:\r"), (b"N N0CCC-7 X", b"Wrong words\r"),
        (b" " * 80 + b"\r\r\ni", b"NET/ROM node\r"), (b"b", b"Bye\r"))])


def broadcasts(names):
    """What N0BBB broadcasts of these destinations, to which it leads."""
    entries = [call(name, 0x60) + b"DNODE " + call(name, 0x60) + b"\xFF" for name in names]
    head = call("NODES", 0xE0) + call("N0BBB", 0x61) + b"\x03\xCF\xFFBNODE "
    return [head + b"".join(entries[at:at + 11]) for at in range(0, max(len(entries), 1), 11)]


def segments(pid, text):
    """The segments of a text: 254 bytes in the first one, 255 in each other."""
    pieces = [text[:254]] + [text[at:at + 255] for at in range(254, len(text), 255)]
    last = len(pieces) - 1
    return [bytes([0x80 | last, pid]) + pieces[0]] + [bytes([last - nth]) + piece for nth, piece in enumerate(pieces) if nth]


def a_long_list():
    """67 destinations, of which 64 are listed: over modulo 8 in pieces of 256 bytes, over modulo 128 in segments."""
    names = stations(66)
    text = NAME + b"Nodes:\rBNODE:N0BBB\r" + b"".join(b"DNODE:%s\r" % name.encode() for name in names[:63]) + b"and 3 more\r"
    pieces = [(0xF0, text[at:at + 256]) for at in range(0, len(text), 256)]
    yield Session("a long list in pieces", [], broadcasts(names), [((0xF0, b"n"), pieces)])
    pieces = [(8, segment) for segment in segments(0xF0, text)]
    yield Session("a long list in segments", [], broadcasts(names), [((0xF0, b"n"), pieces)], 128)


def aliases():
    """The octets of an alias are shown without the spaces at their end, and others that can't be shown as points."""
    for alias, shown in (b"BNODE ", b"BNODE"), (b"#A\0\xFFB ", b"#A..B"), (b"A B C ", b"A.B.C"), (b"      ", b"-"):
        heard = call("NODES", 0xE0) + call("N0BBB", 0x61) + b"\x03\xCF\xFF" + alias
        yield Session(f"the alias {shown.decode()}", [], [heard], [said(b"n", b"Nodes:\r%s:N0BBB\r" % shown)])


def lines_in_segments():
    """One that is out of turn, or has no octet or no PID, is dropped, and what was held is gone. A text has at most 8,192 bytes."""
    info, long, text = said(b"", b"NET/ROM node\r")[1], said(b"", b"Line too long\r")[1], bytes(range(48, 98)) * 164
    rows = [(b"\x82\xF0ab", []), (b"\x00ef", []), (b"\x01cd", []), (b"\x80\xF0i", info), (b"\x80", []), (b"\x81\xF0xx", []), (b"", []),
            (b"\x81\xF0", []), (b"\x00info", info)]
    for length, back in (300, long), (8192, long), (8193, []):
        *parts, last = segments(0xF0, text[:length])
        rows += [(last, [])] + [(part, []) for part in parts] + [(last, back)]
    for modulo in 8, 128:
        yield Session(f"lines in segments modulo {modulo}", [], [], [((8, part), back) for part, back in rows], modulo)


def no_circuits():
    """Of 64 ends none is free for the prompt. Where there are fewer, a node that refuses is told as busy."""
    names = stations(64)
    asked = [TO_NODE + b"\x03" + datagram(name, "N0AAA", request()) for name in names]
    for count, texts in ((64, [said(b"c n0daa", b"No circuits free\r")]),
                         (63, [said(b"c n0daa", b"Trying N0DAA\r"),
                               (to_node(bytes([64, 1, 0, 0, 0x82, 0]), "N0DAA"), said(b"", b"Busy from N0DAA\r")[1])])):
        yield Session(f"a prompt beside {count} circuits", ["links=0"], broadcasts(names) + asked[:count], texts)


def to_node(transport, origin="N0BBB"):
    return TO_NODE + b"\x03" + datagram(origin, "N0AAA", transport)


def of_node(transport, dest="N0BBB"):
    return OF_NODE + b"\x03" + datagram("N0AAA", dest, transport)


def text_to_node(number, text, more=False):
    """A text for the first end of N0AAA, which has sent nothing."""
    return to_node(bytes([1, 1, number, 0, 0x25 if more else 5]) + text)


def got(number, choke=False):
    """What that end has got is told."""
    return of_node(bytes([7, 9, 0, number, 0x86 if choke else 6]))


def longest_messages():
    """34 fragments of 236 bytes leave room for 168 of the 8,192. One byte more ends the circuit, and nothing of it is answered any more."""
    asked, accepted = [*broadcasts([]), to_node(request())], [of_node(bytes([7, 9, 1, 1, 2, 4]))]
    fragments = [text_to_node(number, bytes(236), True) for number in range(34)]
    acknowledged = [got(number + 1) for number in range(34)]
    for place, rest, answers in (
            ("a message of 8,192 bytes", [text_to_node(34, bytes(168)), text_to_node(35, b"x")], [got(35), got(36)]),
            ("its last fragment is empty", [text_to_node(34, bytes(168), True), text_to_node(35, b""), text_to_node(36, b"x")],
             [got(35), got(36), got(37)]),
            ("a message of 8,193 bytes", [text_to_node(34, bytes(169)), text_to_node(35, b"x")], []),
            ("a message that grows to 8,193 bytes", [text_to_node(34, bytes(168), True), text_to_node(35, b"x"), text_to_node(36, b"x")],
             [got(35)])):
        yield stream(place, "links=0 prompt=0", asked + fragments + rest, accepted + acknowledged + answers)


def a_busy_end():
    """69 messages of 236 bytes and one of 100 make 16,384: what comes then isn't taken."""
    came = [*broadcasts([]), to_node(request())] + [text_to_node(number, bytes(236)) for number in range(69)]
    sent = [of_node(bytes([7, 9, 1, 1, 2, 4]))] + [got(number + 1) for number in range(69)]
    yield stream("a busy end", "links=0 prompt=0", [*came, text_to_node(69, bytes(100)), text_to_node(70, b"x")],
                 [*sent, got(70, True), got(70, True)])


def acknowledgements():
    """What isn't out can't be acknowledged: of a long list two fragments are under way, and the third goes once both are acknowledged."""
    text = NAME + b"Nodes:\rBNODE:N0BBB\r" + b"".join(b"DNODE:%s\r" % name.encode() for name in stations(63)) + b"and 3 more\r"
    pieces = [bytes([7, 9, number, 1, 0x25 if number < 3 else 5]) + text[236 * number:236 * number + 236] for number in range(4)]
    came = [*broadcasts(stations(66)), to_node(request()[:5] + b"\x02" + request()[6:]), text_to_node(0, b"n")]
    sent = [bytes([7, 9, 1, 1, 2, 2]), bytes([7, 9, 0, 1, 6]), *pieces[:2]]
    came += [to_node(bytes([1, 1, 0, rx, 6])) for rx in (3, 2, 5, 4)]
    yield stream("acknowledgements", "links=0", came, map(of_node, [*sent, *pieces[2:]]))


QUIET = ["prompt=0", "interval=0", *(f"{key}=86400000" for key in ("t1", "t3", "timeout", "busy", "inactive"))]


class Survived(Row):
    """A message on a circuit over a link, of which only a beginning comes, or one octet is 00 or FF. Whatever becomes of it, the node has
    answered what came before, and answers a TEST behind it."""

    def __init__(self):
        super().__init__("cut short or broken", ["node", "call=N0AAA", "alias=ANODE", *QUIET])
        whole = TO_NODE + b"\x22" + datagram("N0BBB", "N0AAA", b"\x01\x01\0\0\x05hi")
        self.others = [whole[:count] for count in range(len(whole))]
        self.others += [whole[:at] + octet + whole[at + 1:] for at in range(len(whole)) for octet in (b"\x00", b"\xFF")]
        asked, self.answered = kiss(TO_NODE + b"\xF3?"), kiss(RESPONSE + b"\xF3?")
        came = [*broadcasts([]), TO_NODE + b"\x3F", TO_NODE + b"\x00" + datagram("N0BBB", "N0AAA", request())]
        accept, got = (datagram("N0AAA", "N0BBB", bytes(octets)) for octets in ([7, 9, 1, 1, 2, 4], [7, 9, 0, 1, 6]))
        self.front, self.behind = b"".join(map(kiss, came)), asked
        self.sent = kiss(RESPONSE + b"\x73") + kiss(RESPONSE + b"\x21") + kiss(OF_NODE + b"\x20" + accept)
        self.input = self.front + kiss(whole) + asked
        self.output = self.sent + kiss(RESPONSE + b"\x41") + kiss(OF_NODE + b"\x42" + got) + self.answered

    def fault(self, program):
        for other in self.others:
            came = self.front + kiss(other) + self.behind
            sent = subprocess.run([*program, *self.words], input=came, capture_output=True).stdout
            if not (sent.startswith(self.sent) and sent[len(self.sent):].endswith(self.answered)):
                return f"for {other.hex(' ')} it sends {sent}"
        return super().fault(program)


class Hostile(Row):
    """20,000 KISS items: frames of any kind, most of them almost right, and mere noise. What is sent doesn't depend on how
    the bytes are cut."""

    def __init__(self):
        super().__init__("hostile", ["node", "call=N0AAA", "alias=ANODE", *QUIET])
        draw = Draw(3)
        self.stream = b"".join(item(draw) for _ in range(20000))

    def sent(self, program, stream, most):
        cuts = Draw(5)
        node = subprocess.Popen([*program, *self.words], stdin=subprocess.PIPE, stdout=subprocess.PIPE)
        sent = []
        taker = threading.Thread(target=lambda: sent.append(node.stdout.read()))
        taker.start()
        at = 0
        while at < len(stream):
            count = 1 + cuts.below(most)
            os.write(node.stdin.fileno(), stream[at:at + count])
            at += count
        node.stdin.close()
        taker.join()
        return node.wait(), sent[0]

    def fault(self, program):
        front = self.stream[:100_000]
        runs = [self.sent(program, *cut) for cut in ((self.stream, 4000), (self.stream, 1500), (front, 1500), (front, 40))]
        if any(status for status, _ in runs):
            return "another status"
        long, short, in_front, in_crumbs = (sent for _, sent in runs)
        if long != short or in_front != in_crumbs:
            return "cut otherwise it sends otherwise"
        return "it sends too little" if long.count(FEND + FEND) < 1000 else None


def noise(draw):
    return bytes(draw.below(256) for _ in range(draw.below(41)))


def other(draw, last):
    """Another station, seldom the node itself."""
    return call(draw.one(["N0AAA", "N0CCC", "N0CCC"] + ["N0BBB"] * 5), last)


def own(draw, last):
    """The node, or whom broadcasts go to, seldom another station."""
    return call(draw.one(["N0CCC", "NODES", "NODES"] + ["N0AAA"] * 5), last)


def addresses(draw):
    count = max(draw.below(6) - 3, 0)
    found = own(draw, 0xE0) + other(draw, 0x61 if count == 0 else 0x60)
    for left in reversed(range(count)):
        found += own(draw, (0x80 if draw.below(2) == 0 else 0) | (0x61 if left == 0 else 0x60))
    return found


def behind_control(draw):
    kind = draw.below(4)
    if kind == 0:
        return noise(draw)
    if kind == 1:
        entries = [other(draw, 0x60) + b"CNODE " + other(draw, 0x60) + bytes([draw.below(256)]) for _ in range(draw.below(4))]
        return b"\xFFBNODE " + b"".join(entries)
    head = other(draw, 0x60) + own(draw, 0x60) + bytes(draw.below(4) for _ in range(5))
    return head + bytes([draw.below(8), draw.below(6)]) + other(draw, 0x60) + other(draw, 0x60)


def item(draw):
    if draw.below(16) == 0:
        return FEND + noise(draw) + FEND
    control = draw.one([0x3F, 0x7F, 0x03, 0x03, draw.below(8) << 1] + [draw.below(256)] * 3)
    frame = bytearray(addresses(draw) + bytes([control, draw.one([0xF0] + [0xCF] * 7)]) + behind_control(draw))
    if draw.below(8) == 0:
        frame[draw.below(400) % len(frame)] = draw.below(256)
    return kiss(bytes(frame), int(draw.below(16) == 0))


def made():
    """All rows of this file."""
    every = (a_65th_request, a_65th_link, aliases, at_the_prompt, a_long_list, lines_in_segments, no_circuits, longest_messages, a_busy_end,
             acknowledgements, lambda: [Survived(), Hostile()])
    return (row for rows in every for row in rows())
