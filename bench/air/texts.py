"""Users who link, open circuits, transfer texts both ways, break off and come again, and the judge of what came; for the scripts beside this file.

A user of a guest comes to a node, by a link or by a circuit, types CONNECT, and is joined with the service at a guest's node. Both ends are in
this process, so each text that came is compared with the one that was sent.
"""
import asyncio
import collections
import random
import time

from stations import Ended

CONFIRM = b"\rall of it came\r"
# How long an end on which nothing happens stands, in seconds: then a node, and a guest, has to have let go of it.
INACTIVE = 240
# How a transfer is to end.
CONFIRMED = "user closes, confirmed"      # the user closes once all of both texts came, and the service has said so
AT_ONCE = "user closes at once"           # the user closes in order behind his text
SERVICE = "service closes"                # the service closes in order once all of the user's text came
BROKEN = "user breaks off"                # the user goes in mid-stream


class Failed(Exception):
    """The circuit or link wasn't made, or failed: so the station told."""


class Transfer:
    """What one user does: his text, the service's text, how it ends, and what came of both."""

    def __init__(self, number, seed, kind, most, banner):
        chance = random.Random(f"{seed} transfer {number}")
        self.number, self.kind, self.chance, self.banner = number, kind, chance, banner
        self.how = chance.choice([CONFIRMED, CONFIRMED, AT_ONCE, SERVICE, SERVICE, BROKEN])
        self.packet = chance.choice([1, 20, 100, 236, 256] if kind == "ax25" else [20, 236, 237, 1000, 8192])
        # (a text of 100,000 bytes in packets of one byte would take an hour)
        most = min(most, 40 * self.packet) if self.packet <= 20 else most
        self.put = b"%d\n" % number + self.text(most)
        self.get = self.text(most) + CONFIRM
        self.came_to_service = self.came_to_user = b""
        # ("closed": by this side, all acknowledged; "was closed": by the other one, in order)
        self.service_end = self.user_end = "open"
        self.connected = self.reset = self.set_up = False
        self.arrived = asyncio.Event()

    def text(self, most):
        size = 1 if self.chance.random() < 0.1 else min(most, int(2 ** self.chance.uniform(1, 16.7)))
        return self.chance.randbytes(size)


def told(end):
    """How a stream ended, in words."""
    return "closed" if end.why is None else "was closed" if end.why == 0 else f"error {end.why}"


def prefix_of(came, text):
    return text[:len(came)] == came


class Judge:
    """Compares, and counts."""

    def __init__(self):
        self.count = collections.Counter()
        self.faults, self.seen = [], collections.Counter()

    def fault(self, transfer, what):
        self.faults.append(f"transfer {transfer.number} ({transfer.kind}, {transfer.how}): {what}")

    def split(self, transfer):
        """What came to the user: of the service's text, and what the node said behind it."""
        came, text = transfer.came_to_user, transfer.get
        same = 0
        while same < min(len(came), len(text)) and came[same] == text[same]:
            same += 1
        return came[:same], came[same:]

    def orderly(self, it, confirmed):
        """Whether the transfer ended in order, by those who closed it: then all of it has to be there."""
        if it.how == CONFIRMED:
            return confirmed
        if it.how == SERVICE:
            return it.service_end == "closed" and it.user_end in ("closed", "was closed")
        return it.how == AT_ONCE and it.user_end == "closed" and it.service_end == "was closed"

    def take(self, it):
        """Judges a transfer that is over."""
        count = self.count
        count["links" if it.kind == "ax25" else "circuits in"] += 1
        if not it.connected:
            count["not made"] += 1
            self.seen[f"not made: {it.user_end}"] += 1
            return
        count["circuits out"] += 1
        text, said = self.split(it)
        problems = []
        if not prefix_of(it.came_to_service, it.put):
            problems.append(f"the service got what the user didn't send, of {len(it.came_to_service)} bytes")
        # (the node's own lines come behind the text, and may be cut off)
        if said and not (said.startswith(it.banner) or it.banner.startswith(said)):
            problems.append(f"the user got what the service didn't send, behind {len(text)} bytes: {said[:60]!r}")
        whole_put, whole_get = it.came_to_service == it.put, text == it.get
        orderly = self.orderly(it, whole_get)
        if orderly and not (whole_put and (whole_get or it.how == AT_ONCE)):
            if it.how == AT_ONCE and it.kind == "ax25":
                # (what waits at a link goes with it)
                count["cut by a DISC"] += 1
            else:
                problems.append("not whole behind an orderly close")
        if problems and it.reset:
            count["after a reset"] += 1
            self.seen["behind a reset of the user's link: " + problems[0]] += 1
        else:
            for what in problems:
                self.fault(it, what)
        count["texts"] += 2
        count["bytes"] += len(it.came_to_service) + len(text)
        count["longest"] = max(count["longest"], len(it.came_to_service), len(text))
        count["whole texts"] += whole_put + whole_get
        if it.how == BROKEN:
            count["broken off"] += 1
        elif not orderly and it.user_end != "stopped":
            count["failed, told"] += 1
        self.seen[f"{it.how}: user {it.user_end}, service {it.service_end}"] += 1


class Service:
    """Takes the circuits that come to a guest's node."""

    def __init__(self, transfers, judge):
        self.transfers, self.judge = transfers, judge

    def __call__(self, stream):
        return self.serve(stream)

    async def serve(self, stream):
        came, it, giving, last = b"", None, None, time.monotonic()
        try:
            while True:
                came += await stream.packet()
                last = time.monotonic()
                if it is None and b"\n" in came:
                    head = came.split(b"\n")[0]
                    it = self.transfers.get(int(head)) if head.isdigit() else None
                    if it is None:
                        self.judge.faults.append(f"the service got a text without its number: {came[:40]!r}")
                        stream.break_off()
                        return
                    giving = asyncio.create_task(self.give(stream, it))
                if it is not None:
                    it.came_to_service = came
                    if len(came) >= len(it.put):
                        it.arrived.set()
        except Ended as end:
            if it is not None:
                it.service_end = told(end)
                # (a guest's kernel closes a circuit on which nothing happens, too)
                if end.why == 0 and time.monotonic() - last > INACTIVE - 10:
                    it.service_end = "idle"
        finally:
            if giving:
                giving.cancel()
            stream.writer.close()

    async def give(self, stream, it):
        """The service's text; the last of it confirms the user's."""
        text, at = it.get[:-len(CONFIRM)], 0
        while at < len(text):
            size = it.chance.randint(1, 2000)
            await stream.put(text[at:at + size])
            at += size
        await it.arrived.wait()
        await stream.put(CONFIRM)
        if it.how == SERVICE:
            await stream.close()


class User:
    """A user of a guest, by a call of his own."""

    def __init__(self, guest, call, node, banner, dest, pause=(1, 10)):
        self.guest, self.call, self.node, self.banner, self.dest, self.pause = guest, call, node, banner, dest, pause

    async def say(self, stream, line, ends, seconds=300):
        """Types a line and reads to one of these answers: the answer, and what stood before it."""
        await stream.put(line)
        came = b""
        async with asyncio.timeout(seconds):
            while True:
                came += await stream.packet()
                for end in ends:
                    if end in came and came.endswith(b"\r"):
                        return end, came

    async def ask(self, line, end):
        """Links, types one line, and gives what comes up to `end`; then goes."""
        stream = await self.guest.call_out("ax25", self.call, self.node)
        try:
            _, came = await self.say(stream, line, [end], 120)
            return came
        finally:
            await stream.close()

    async def run(self, it):
        """Does a transfer. Each way it may end is told in it."""
        stream = None
        try:
            stream = await self.guest.call_out(it.kind, self.call, self.node)
            it.set_up = True
            dest = self.dest.encode()
            good = b"Connected to " + dest
            end, came = await self.say(stream, b"c " + dest + b"\r", [good, b"Busy from", b"Failure with", b"No route", b"No circuits"])
            if end != good:
                it.user_end = came.split(b"} ")[-1].strip().decode(errors="replace")
                return
            it.connected = True
            await self.transfer(stream, it)
        except Ended as end:
            it.user_end = told(end)
        except TimeoutError:
            it.user_end = "no answer"
        except asyncio.CancelledError:
            it.user_end = "stopped"
            raise
        finally:
            if stream:
                stream.break_off()

    async def transfer(self, stream, it):
        sending = asyncio.create_task(self.send(stream, it))
        broken = it.chance.random() * (len(it.get) + len(it.put)) if it.how == BROKEN else None
        try:
            while True:
                it.came_to_user += await stream.packet()
                if it.how == CONFIRMED and it.came_to_user.endswith(CONFIRM):
                    await stream.close()
                if it.came_to_user.endswith(b"\r") and self.circuit_over(it):
                    # (back at the prompt: he says goodbye, or just goes)
                    if it.chance.random() < 0.5:
                        await stream.put(b"bye\r")
                    else:
                        await stream.close()
                if broken is not None and len(it.came_to_user) + len(it.came_to_service) >= broken:
                    it.user_end = "broken off"
                    stream.break_off()
                    return
        finally:
            sending.cancel()

    def circuit_over(self, it):
        """Whether the last line is the node's, and tells that the circuit has ended."""
        line = it.came_to_user[:-1].rpartition(self.banner)[2]
        return line in (b"Disconnected from " + self.dest.encode(), b"Failure with " + self.dest.encode())

    async def send(self, stream, it):
        at = 0
        while at < len(it.put):
            await stream.put(it.put[at:at + it.packet])
            at += it.packet
        if it.how == AT_ONCE:
            await stream.close()


class Crowd:
    """Users who come again and again, until they are stopped."""

    def __init__(self, seed, judge, transfers, most, longest_time):
        self.seed, self.judge, self.transfers, self.most, self.longest_time = seed, judge, transfers, most, longest_time
        self.number, self.going = 0, {}
        self.open = True

    async def one(self, user, kinds):
        """A user, time after time."""
        chance = random.Random(f"{self.seed} {user.call}")
        while self.open:
            self.number += 1
            it = Transfer(self.number, self.seed, chance.choice(kinds), self.most, user.banner)
            self.transfers[it.number] = it
            self.going[user.call] = it
            try:
                await asyncio.wait_for(user.run(it), self.longest_time)
            except TimeoutError:
                it.user_end = "stopped"
            # (the service may still be told of the end)
            for _ in range(60):
                if not it.connected or it.service_end != "open":
                    break
                await asyncio.sleep(1)
            del self.going[user.call]
            self.judge.take(it)
            await asyncio.sleep(chance.uniform(*user.pause))

    def watch(self, sender, frame):
        """A set-up from a user whose link is up resets it."""
        if frame.is_set_up():
            for call in (frame.source, frame.dest):
                it = self.going.get(call)
                if it and it.set_up:
                    it.reset = True
