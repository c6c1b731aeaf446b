"""Rows for `replay` and `life` that are too long to be written: they are made of numbers that follow from what they are about."""
import subprocess

from rows import USAGE, Row

UP = """< setup b
> air b N0BBB>N0AAA cmd SABM pf=1
< arrive a
> notice a opened
> air a N0AAA>N0BBB res UA pf=1
< arrive b
> notice b opened
""".splitlines()


def life(place, words, lines):
    row = Row(place, ["life", *words.split(" ")])
    for line in lines:
        row.add(line[0], line[2:])
    return row


def text_of(end, ns):
    return f"> air {end} N0AAA>N0BBB cmd I ns={ns} nr=0 pf=0 pid=F0 len=1"


def numbers_past_the_modulus():
    """129 texts, each of which is acknowledged."""
    lines = [line.replace("SABM ", "SABME ") for line in UP]
    for n in range(129):
        lines += ["< send a x", text_of("a", n % 128), "< arrive b", f"> air b N0BBB>N0AAA res RR nr={(n + 1) % 128} pf=0",
                  "< arrive a", "< take b", "> took b 1"]
    lines += ["> epoch a 1 given=129 got=0 acked=129 partner=1", "> epoch b 1 given=0 got=129 acked=0 partner=1"]
    yield life("numbers past the modulus", "modulo=128 srej=0 delay=0", lines)


def a_link_that_accepts_no_more():
    """A link that isn't Up refuses a payload, and so does one that holds 128, four of which are under way."""
    lines = ["< send a x", "> refused 1 not up", *UP]
    for n in range(128):
        lines += ["< send a x"] + [text_of("a", n)] * (n < 4)
    lines += ["< send a x", "> refused 133 queue full", "> epoch a 1 given=128 got=0 acked=0 partner=0",
              "> epoch b 1 given=0 got=0 acked=0 partner=0"]
    yield life("a link that accepts no more", "modulo=8 srej=0 delay=0", lines)


def nobody_answers():
    """A frame that gets no answer goes out once more for each of ten retries, and then the link fails."""
    def asked(frame):
        return ["< lose b", "< tick 3000", f"> air a N0AAA>N0BBB {frame}"] * 10 + ["< lose b", "< tick 3000", "> notice a failed"]

    set_up, ask, end = "cmd SABM pf=1", "cmd RR nr=0 pf=1", "cmd DISC pf=1"
    yield life("nobody answers a set-up", "modulo=8 srej=0 delay=0", ["< setup a", f"> air a N0AAA>N0BBB {set_up}", *asked(set_up)])
    epochs = ["> epoch a 1 given=%d got=0 acked=0 partner=0", "> epoch b 1 given=0 got=0 acked=0 partner=0"]
    lines = [*UP, "< send a x", text_of("a", 0), *asked(ask), "> air a N0AAA>N0BBB res DM pf=0", epochs[0] % 1, epochs[1]]
    yield life("nobody answers a text", "modulo=8 srej=0 delay=0", lines)
    lines = [*UP, "< close a", f"> air a N0AAA>N0BBB {end}", *asked(end), epochs[0] % 0, epochs[1]]
    yield life("nobody answers a release", "modulo=8 srej=0 delay=0", lines)


def full_table():
    """1,365 neighbours with eleven destinations each and one with three make 16,384 usable pairs. One neighbour more has no room, and
    the table stays as it was: to each destination the routes over the first three neighbours, (255 * 192 + 128) div 256 being 191."""
    row = Row("full table", ["replay"])
    row.add("<", "node 1 N0AAA A")
    for n in range(1000, 2366):
        row.add("<", f"heard 1 NK{n} K" + "".join(f" ND{d} D N0BBB 255" for d in range(11 if n < 2365 else 3)))
    for line in "show 1", "heard 1 NK2366 K", "show 1", "heard 1 NK1000 K":
        row.add("<", line)
    table = ["table 1 N0AAA A"]
    table += [f"route ND{d} D NK{n} 191 6" for d in sorted(range(11), key=str) for n in range(1000, 1003)]
    table += [f"route NK{n} K NK{n} 192 6" for n in range(1000, 2366)]
    for line in [*table, "overflow 1 16384 16385", *table, *table, "verdict done"]:
        row.add(">", line)
    yield row


class Draw:
    """Numbers that follow from a seed (Lehmer's generator)."""

    def __init__(self, state):
        self.state = state

    def below(self, bound):
        self.state = self.state * 48271 % 2147483647
        return self.state % bound

    def one(self, values):
        return values[self.below(len(values))]


class PlainTable:
    """The live reports and locks of the node N0AAA in a plain list, whatever their quality: destination and neighbour, each with its
    alias, quality and rounds left, none of a lock."""
    own, life, least, minq = "N0AAA", 4, 3, 60

    def __init__(self, quality):
        self.live, self.quality = {}, quality

    def report(self, dest, alias, neighbour, quality):
        if self.live.get((dest, neighbour), (0, 0, 0))[2] is not None:
            self.live[dest, neighbour] = alias, quality, self.life

    def heard(self, neighbour, alias, entries):
        if neighbour == self.own:
            return
        self.report(neighbour, alias, neighbour, self.quality)
        for dest, name, best, quality in entries:
            if dest not in (self.own, neighbour):
                self.report(dest, name, neighbour, 0 if best == self.own else (quality * self.quality + 128) // 256)

    def lock(self, dest, alias, neighbour, quality):
        if dest == self.own:
            return "own"
        if quality < self.minq:
            return "too low"
        self.live[dest, neighbour] = alias, quality, None
        return None

    def round(self):
        aged = {pair: (alias, quality, count and count - 1) for pair, (alias, quality, count) in self.live.items()}
        self.live = {pair: report for pair, report in aged.items() if report[2] != 0}

    def link_failed(self, neighbour):
        self.live = {pair: report for pair, report in self.live.items() if report[2] is None or pair[1] != neighbour}

    def best(self):
        """The usable routes, by destination, the best three of each."""
        usable = [(dest, -report[1], neighbour, report) for (dest, neighbour), report in self.live.items() if report[1] >= self.minq]
        routes = {}
        for dest, _, neighbour, report in sorted(usable):
            routes.setdefault(dest, []).append((neighbour, *report))
        return {dest: found[:3] for dest, found in routes.items()}

    def lines(self):
        return [f"route {dest} {alias} {neighbour} {quality} {'locked' if count is None else count}"
                for dest, found in self.best().items() for neighbour, alias, quality, count in found]

    def entries(self):
        """How many routes are broadcast: those that are the best of their destination, and have rounds enough left."""
        return sum(found[0][3] is None or found[0][3] >= self.least for found in self.best().values())


def routes_as_in_plain_lists():
    """Two thousand lines that are drawn, for paths of each of these qualities. What is shown, refused and broadcast behind each of them is
    that of a plain list."""
    yield from (routes_as_in_a_plain_list(quality) for quality in (255, 192, 77))


def routes_as_in_a_plain_list(quality):
    draw, table = Draw(2026 + quality), PlainTable(quality)
    row = Row(f"routes over paths of quality {quality}", ["replay"])
    calls, aliases = [f"N0{letter * 3}" for letter in "ABCDEFG"], ["ANODE", "BNODE", "CNODE"]
    for line in ("node 1 N0AAA A", "node 2 N0ZZZ Z", "channel 1 2", "set 1 life 4", "set 1 least 3", "set 1 minq 60",
                 f"set 1 quality {quality}"):
        row.add("<", line)
    frames = 0
    for turn in range(2000):
        kind, call = draw.below(16), draw.one(calls)
        told = []
        if kind == 0:
            table.round()
            count = table.entries()
            row.add("<", "round 1")
            for at in range(0, max(count, 1), 11):
                frames += 1
                told.append(f"air {frames} 1 N0AAA>NODES cmd UI pf=0 pid=CF len={7 + 21 * min(count - at, 11)}")
        elif kind == 1:
            table.link_failed(call)
            row.add("<", f"linkfail 1 {call}")
        elif kind == 2:
            lock = call, draw.one(aliases), draw.one(calls), draw.below(256)
            refused = table.lock(*lock)
            row.add("<", "lock 1 %s %s %s %d" % lock)
            told += [f"refused {8 + 2 * turn} {refused}"] if refused else []
        else:
            alias = draw.one(aliases)
            entries = [(draw.one(calls), draw.one(aliases), draw.one(calls), draw.below(256)) for _ in range(draw.below(12))]
            table.heard(call, alias, entries)
            row.add("<", f"heard 1 {call} {alias}" + "".join(" %s %s %s %d" % entry for entry in entries))
        row.add("<", "show 1")
        for line in [*told, "table 1 N0AAA A", *table.lines()]:
            row.add(">", line)
    for line in "table 1 N0AAA A", *table.lines(), "table 2 N0ZZZ Z", "verdict done":
        row.add(">", line)
    return row


HEARD = ["node 1 N0AAA A", "node 2 N0BBB B", "channel 1 2", "set 1 links 0", "set 2 links 0", "heard 1 N0BBB B", "heard 2 N0AAA A"]


class Network(Row):
    """A network of two nodes with a circuit between them, by the lines that count: those of what was taken, refused and told."""

    def __init__(self, place, lines, wanted, heard=(*HEARD, "open 1 N0BBB", "flow 9")):
        super().__init__(place, ["replay"])
        self.wanted = [line.encode() for line in [*wanted, "verdict done"]]
        for line in [*heard, *lines]:
            self.add("<", line)

    def fault(self, program):
        told = subprocess.run([*program, *self.words], input=self.input, capture_output=True).stdout.splitlines()
        found = [line for line in told if line.split(b" ")[0] in (b"took", b"refused", b"event", b"verdict", b"wrote")]
        return None if found == self.wanted else f"other lines: {found}"


BOTH_OPENED = ["event 2 1 opened N0AAA window 4", "event 1 1 opened N0BBB window 4"]


def messages():
    """How long a message may be, and how much may wait at an end; numbers go on past 255, and a ring of 65,536 bytes begins again."""
    line = "abcdefghijklmnopqrstuvwxyz ABCDEFGHIJKLMNOPQRSTUVWXYZ 0123456789 ,;.:-" * 120
    says = [f"say 1 1 {line[:8193]}"] + [f"say 1 1 {line[:8192]}"] * 8 + ["say 1 1 x", "close 1 1", "say 1 1 x"]
    yield Network("how much may wait", says, [*BOTH_OPENED, "refused 10 too long", "refused 19 queue full", "refused 21 closing"])
    says, tooks = [], []
    for nth in range(20):
        message = line[nth:nth + 8191]
        says += [f"say 1 1 {message}", "flow 999", "take 2 1"]
        tooks.append(f"took 2 1 8191 {message}")
    yield Network("past 65,536 bytes", says, [*BOTH_OPENED, *tooks])
    texts = [f"took 2 1 {len(str(n))} {n}" for n in range(1, 301)]
    yield Network("numbers past 255", ["burst 1 1 300", "flow 9999"] + ["take 2 1"] * 300, [*BOTH_OPENED, "wrote 1 1 300", *texts])


def three_fragments():
    """473 bytes are two fragments of 236 and one of 1; 472 are two."""
    row = Row("three fragments", ["replay"])
    for line in [*HEARD, "open 1 N0BBB", "flow 9", f"say 1 1 {473 * 'x'}", "flow 9", "take 2 1", f"say 1 1 {472 * 'y'}", "flow 9",
                 "take 2 1"]:
        row.add("<", line)
    for number, length in (3, 256), (4, 256), (5, 21), (9, 256), (10, 256):
        row.add("~", f"air {number} 1 N0AAA>N0BBB cmd UI pf=0 pid=CF len={length}")
    for length, letter in (473, "x"), (472, "y"):
        row.add("~", f"took 2 1 {length} {length * letter}")
    row.add("~", "end 1 1 N0BBB up wrote=2 received=0 acked=5")
    yield row


def silence():
    """The third expiry without an answer ends an end that tries again twice, and so does a silence of 900,000 milliseconds."""
    few = [*HEARD[:5], "set 1 retries 2", "set 1 timeout 1000", "set 2 window 3", *HEARD[5:], "open 1 N0BBB", "flow 9"]
    opened = ["event 2 1 opened N0AAA window 3", "event 1 1 opened N0BBB window 3"]
    asks = ["say 1 1 x", "cut 9", "tick 1000", "cut 9", "tick 1000", "cut 9", "tick 999", "say 1 1 y", "tick 1", "say 1 1 z"]
    yield Network("the third expiry", asks, [*opened, "event 1 1 failed retries", "refused 22 no end"], few)
    waits = ["tick 899999", "take 1 1", "tick 1", "take 1 1"]
    ends = ["refused 11 nothing", "event 1 1 failed inactive", "event 2 1 failed inactive", "refused 13 no end"]
    yield Network("too long a silence", waits, [*BOTH_OPENED, *ends])


def each_seventh_frame_is_lost():
    """Both ends write a thousand texts over links of either modulus, and all come, in order."""
    for modulo in 8, 128:
        heard = ["node 1 N0AAA A", "node 2 N0BBB B", "channel 1 2", f"set 1 modulo {modulo}", "set 1 inactive 86400000",
                 "set 2 inactive 86400000", "heard 1 N0BBB B", "heard 2 N0AAA A", "open 1 N0BBB", "flow 99", "burst 1 1 1000",
                 "burst 2 1 1000"]
        lines = ["flow 6", "cut 1", "tick 1000"] * 3000
        texts = [f"took {node} 1 {len(str(n))} {n}" for node in (1, 2) for n in range(1, 1001)]
        yield Network(f"each seventh frame is lost, modulo {modulo}", lines + ["take 1 1"] * 1000 + ["take 2 1"] * 1000,
                      [*BOTH_OPENED, "wrote 1 1 1000", "wrote 2 1 1000", *texts], heard)


class Lossy(Row):
    """300 messages over a path on which of eight datagrams one is lost, one is repeated, and one comes behind the next one: all come whole
    and in order. What goes on the path is drawn frame by frame, so the network is run again and again, each time a second longer."""

    def __init__(self):
        super().__init__("300 messages", ["replay"])
        letters = "abcdefghijklmnopqrstuvwxyz ABCDEFGHIJKLMNOPQRSTUVWXYZ 0123456789 " * 12
        self.texts = [letters[nth % 60:][:1 + nth % 700 * 37 % 700] for nth in range(300)]
        self.lines = [*HEARD[:5], "set 1 timeout 1000", "set 2 timeout 1000", "set 1 retries 200", "set 2 retries 200", *HEARD[5:],
                      "open 1 N0BBB"]
        self.draw, self.seen, self.late = Draw(7), 0, None

    def run(self, program):
        text = "\n".join(self.lines).encode()
        return subprocess.run([*program, *self.words], input=text, capture_output=True).stdout.decode().splitlines()

    def move(self, number, to):
        """What becomes of a frame."""
        chance = self.draw.below(8)
        if chance == 0:
            self.lines.append(f"lose {number}")
        elif chance == 1 and self.late is None:
            self.late = number, to
        else:
            self.lines += [f"deliver {number} {to}"] + [f"again {number} {to}"] * (chance == 2)
            if self.late:
                self.lines.append("deliver %d %d" % self.late)
                self.late = None

    def fault(self, program):
        written = 0
        for _ in range(2000):
            report = self.run(program)
            frames = [line.split(" ") for line in report if line.startswith("air ")]
            for _, number, sender, *_ in frames[self.seen:]:
                self.move(int(number), 3 - int(sender))
            self.seen = len(frames)
            taken = [line for line in report if line.startswith("took ")]
            if any(line == "event 1 1 closed" for line in report):
                wanted = [f"took 2 1 {len(text)} {text}" for text in self.texts]
                return None if taken == wanted and report[-1] == "verdict done" else "other messages came"
            if "event 1 1 opened N0BBB window 4" in report and written - len(taken) < 40:
                self.lines += [f"say 1 1 {text}" for text in self.texts[written:written + 10]]
                written = min(written + 10, 300)
                self.lines += ["close 1 1"] * (written == 300)
            self.lines += ["take 2 1"] * 6 + ["tick 1000"]
        return "it doesn't end"


def lost_repeated_late():
    yield Lossy()


def vias():
    """A node reaches at most 16 others over repeaters, by a file and by words."""
    peers = [f"N0B{chr(65 + n)}" for n in range(17)]
    for count, status, output, notes in (16, 0, b"table 1 N0AAA A\nverdict done\n", b""), (17, 3, b"", b"line 18: value\n"):
        row = Row(f"{count} via lines", ["replay"])
        for line in "node 1 N0AAA A", *(f"via 1 {peer} N0RRR N0RRR" for peer in peers[:count]):
            row.add("<", line)
        row.status, row.output, row.notes = status, output, notes
        yield row
    for count, status, notes in (16, 0, b""), (17, 2, USAGE):
        row = Row(f"{count} via words", ["node", "call=N0AAA", "alias=A", *(f"via={peer},N0RRR,N0RRR" for peer in peers[:count])])
        row.status, row.notes = status, notes
        yield row


def long_files():
    """A file has at most 2 to the 20 bytes."""
    for length, status, output, notes in (2 ** 20, 0, b"verdict done\n", b""), (2 ** 20 + 1, 6, b"", b"too long\n"):
        row = Row(f"a file of {length} bytes", ["replay"])
        row.input, row.status, row.output, row.notes = b"#" * length, status, output, notes
        yield row


def made():
    """All rows of this file."""
    every = (numbers_past_the_modulus, a_link_that_accepts_no_more, nobody_answers, full_table, routes_as_in_plain_lists, messages,
             three_fragments, silence, each_seventh_frame_is_lost, lost_repeated_late, vias, long_files)
    return (row for rows in every for row in rows())
