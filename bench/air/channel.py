"""A channel for stations that speak KISS, with losses, doubled and swapped frames by a seed; for the scripts beside this file."""
import asyncio
import random
import time

FEND = 0xC0


def unescaped(item):
    return item.replace(b"\xDB\xDC", b"\xC0").replace(b"\xDB\xDD", b"\xDB")


def call_at(octets):
    """The call in seven octets of an address field."""
    name = "".join(chr(it >> 1) for it in octets[:6]).strip()
    ssid = octets[6] >> 1 & 15
    return f"{name}-{ssid}" if ssid else name


class Frame:
    """A KISS frame: how it stands in the stream, its calls, and its control octet (of modulo 8)."""

    def __init__(self, item):
        self.item = item
        octets = unescaped(item)[1:]
        self.long_enough = len(octets) >= 15
        self.dest = call_at(octets[:7]) if self.long_enough else ""
        self.source = call_at(octets[7:14]) if self.long_enough else ""
        at = 14
        while self.long_enough and not octets[at - 1] & 1 and at + 7 < len(octets):
            at += 7
        self.control = octets[at] if self.long_enough else 0

    def is_set_up(self):
        """SABM or SABME."""
        return self.control & 0xEF in (0x2F, 0x6F)


class Faults:
    """What becomes of the frames from one station to another: how many of a hundred are lost, doubled, swapped with the next."""

    def __init__(self, seed, way, lose, double, swap):
        self.chance = random.Random(f"{seed} {way}")
        self.lose, self.double, self.swap = lose, double, swap
        self.frames = self.lost = self.doubled = self.swapped = 0
        self.held = None

    def after(self, frame):
        """The frames that arrive once this one was sent."""
        self.frames += 1
        draw = self.chance.random() * 100
        if draw < self.lose:
            self.lost += 1
            return self.let_go([])
        if draw < self.lose + self.double:
            self.doubled += 1
            return self.let_go([frame, frame])
        if draw < self.lose + self.double + self.swap and self.held is None:
            self.swapped += 1
            self.held = frame
            return []
        return self.let_go([frame])

    def let_go(self, frames):
        """These, and then a frame that was held back to be swapped."""
        held, self.held = self.held, None
        return frames if held is None else frames + [held]


class Member:
    """A station of the channel, behind a stream of KISS bytes."""

    def __init__(self, name, writer):
        self.name, self.writer, self.sent = name, writer, 0

    def put(self, frame):
        # (a station that doesn't read loses what comes, as on the air)
        if not self.writer.is_closing() and self.writer.transport.get_write_buffer_size() < 65536:
            self.writer.write(b"\xC0" + frame.item + b"\xC0")


class Channel:
    """Who hears whom is `hears(sender, hearer, frame)`; frames arrive `delay` seconds late; a log gets each with its time and sender."""

    def __init__(self, seed, delay=0.0, hears=lambda sender, hearer, frame: True, log=None):
        self.seed, self.rates, self.delay, self.hears, self.log = seed, (0, 0, 0), delay, hears, log
        self.members, self.ways, self.begin = {}, {}, time.monotonic()
        self.watch = lambda sender, frame: None

    def way(self, sender, hearer):
        if (sender, hearer) not in self.ways:
            self.ways[sender, hearer] = Faults(self.seed, f"{sender} {hearer}", *self.rates)
        return self.ways[sender, hearer]

    def send(self, sender, frame):
        self.watch(sender, frame)
        if self.log:
            self.log.write(f"{time.monotonic() - self.begin:.3f} {sender} {frame.item.hex()}\n")
        for hearer, member in list(self.members.items()):
            if hearer != sender and self.hears(sender, hearer, frame):
                way = self.way(sender, hearer)
                for it in way.after(frame):
                    self.arrive(member, it)
                if way.held is frame:
                    asyncio.get_running_loop().call_later(0.5, self.late, way, frame, hearer)

    def arrive(self, member, frame):
        if self.delay:
            asyncio.get_running_loop().call_later(self.delay, member.put, frame)
        else:
            member.put(frame)

    def late(self, way, frame, hearer):
        """A frame that was held back goes, where none has come behind it."""
        if way.held is frame:
            way.held = None
            if hearer in self.members:
                self.arrive(self.members[hearer], frame)

    async def serve(self, name, reader, writer):
        """Takes a station's frames from its stream until that ends."""
        member = self.members[name] = Member(name, writer)
        rest = b""
        try:
            while got := await reader.read(65536):
                items = (rest + got).split(bytes([FEND]))
                rest = items.pop()
                for item in items:
                    # (data on port 0 alone; a TNC takes other commands for itself)
                    if len(item) > 1 and item[0] == 0:
                        member.sent += 1
                        self.send(name, Frame(item))
        except (OSError, asyncio.CancelledError):
            pass
        finally:
            if self.members.get(name) is member:
                del self.members[name]
            writer.close()

    async def tcp(self, name):
        """A TNC for a station on a TCP port of this host, which is given back."""
        server = await asyncio.start_server(lambda r, w: self.serve(name, r, w), "127.0.0.1", 0)
        return server.sockets[0].getsockname()[1]

    async def unix(self, name, path):
        await asyncio.start_unix_server(lambda r, w: self.serve(name, r, w), path)

    def told(self):
        """How many frames were sent on each way, lost, doubled and swapped, in all."""
        ways = self.ways.values()
        return {word: sum(getattr(it, word) for it in ways) for word in ("frames", "lost", "doubled", "swapped")}
