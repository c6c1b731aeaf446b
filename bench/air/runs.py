"""What the runs have in common: their words, what is watched, when all is at rest, what is told; for the scripts beside this file."""
import asyncio
import json
import os
import shutil
import sys
import tempfile
import time

from channel import Channel
from stations import TOP, Ended
from texts import INACTIVE, Crowd, Judge

PROGRAM = os.environ.get("PROGRAM", os.path.join(TOP, "out", "wursthatch"))
NODE_WORDS = {"t1": "3000", "interval": "60000", "inactive": str(INACTIVE * 1000), "timeout": "60000"}
# A guest's times, so that it acknowledges soon. (The kernel takes the tries of a circuit for milliseconds: 40 of them are ten tries.)
QUICK = """cd /proc/sys/net/ax25/ax0; echo 3000 > t1_timeout; echo 300 > t2_timeout; echo 4 > standard_window_size
cd /proc/sys/net/netrom; echo 30000 > transport_timeout; echo 500 > transport_acknowledge_delay
echo 40 > transport_maximum_tries; echo %d > transport_no_activity_timeout
""" % (INACTIVE * 1000)


def words_of(argv, own, node):
    """The words of a command line: those of the run, and those that go to the node."""
    own, node = dict(own), {**NODE_WORDS, **node}
    for word in argv:
        key, _, value = word.partition("=")
        (own if key in own else node)[key] = value
    return own, [f"{key}={value}" for key, value in node.items()]


def banner(alias, call):
    return f"{alias}:{call}}} ".encode()


class Run:
    """One run: its channel, its judge, the memory of its nodes. `begin` lets the losses and the users begin."""

    def __init__(self, own, users, hears=lambda sender, hearer, frame: True):
        self.own, self.tasks, self.sizes, self.nodes, self.guests = own, [], {}, [], []
        self.folder = tempfile.mkdtemp(prefix="air-run-")
        self.log = open(own["log"], "w", encoding="ascii", buffering=1 << 16) if own["log"] else None
        self.channel = Channel(own["seed"], float(own["delay"]) / 1000, hears, self.log)
        self.judge, self.transfers = Judge(), {}
        self.crowd = Crowd(own["seed"], self.judge, self.transfers, int(own["most"]), 900 if users == 1 else 600)
        self.channel.watch = self.crowd.watch

    def losses(self, lose, double, swap):
        self.channel.rates = (float(lose), float(double), float(swap))
        for way in self.channel.ways.values():
            way.lose, way.double, way.swap = self.channel.rates

    async def watch_memory(self):
        """Each node's resident memory, each ten seconds; a node that was started anew begins a row of its own."""
        while True:
            await asyncio.sleep(10)
            for node in self.nodes:
                size = node.resident()
                if size:
                    self.sizes.setdefault((node.call, node.starts), []).append(size[0])

    async def users(self, users, meanwhile=None):
        """The losses begin, and the users come, for as long as the run is to last. Gives the minutes."""
        self.losses(self.own["lose"], self.own["double"], self.own["swap"])
        begin = time.monotonic()
        going = [asyncio.create_task(self.crowd.one(user, kinds)) for user, kinds in users]
        other = [asyncio.create_task(self.watch_memory())] + ([asyncio.create_task(meanwhile)] if meanwhile else [])
        self.tasks = going + other
        while time.monotonic() < begin + float(self.own["minutes"]) * 60:
            await asyncio.sleep(10)
            for it in self.tasks:
                if it.done():
                    it.result()
        self.crowd.open = False
        for it in going:
            it.cancel()
        await asyncio.gather(*going, return_exceptions=True)
        for it in list(self.crowd.going.values()):
            self.judge.take(it)
        return round((time.monotonic() - begin) / 60, 1)

    async def at_rest(self, asks):
        """Without losses, until no circuit is left at the nodes that are asked and no socket at the guests; what is left then is a fault."""
        self.losses(0, 0, 0)
        end, left = time.monotonic() + INACTIVE + 300, None
        while time.monotonic() < end:
            left = []
            for user in asks:
                try:
                    told = (await asyncio.wait_for(user.ask(b"u\r", b"Users:"), 200)).split(b"Users:\r")[-1]
                    left += [f"at {user.node}: {told!r}"] if told else []
                except (Ended, TimeoutError, OSError) as why:
                    left.append(f"at {user.node}: {why!r}")
            for guest in self.guests:
                table = (await guest.shell("cat /proc/net/nr")).splitlines()
                left += [f"at {guest.name}: {row}" for row in table[1:] if not row.startswith("*")]
            if not left:
                return
            await asyncio.sleep(10)
        self.judge.faults.append(f"left over at the end: {left}")

    def judge_memory(self):
        """Flat: its least in the last third is at most a fifth more than in the first. Gives the first, the most and the last over all nodes."""
        rows = [row for row in self.sizes.values() if len(row) >= 9]
        for (call, start), row in self.sizes.items():
            third = len(row) // 3
            if len(row) >= 9 and min(row[-third:]) > 1.2 * min(row[:third]):
                self.judge.faults.append(f"memory of {call} (start {start}) grows from {min(row[:third])} to {min(row[-third:])} KiB")
        return [min(row[0] for row in rows), max(max(row) for row in rows), max(row[-1] for row in rows)] if rows else []

    def each_minute(self):
        """The resident memory of the first node, each minute."""
        return next(iter(self.sizes.values()), [])[::6]

    def tell(self, minutes, **more):
        """Prints one line of counts, what was seen, and the faults. Gives the status."""
        told = {"seed": self.own["seed"], "minutes": minutes, "lose": self.own["lose"], **self.channel.told(), **self.judge.count,
                "resident KiB": self.judge_memory(), "each minute": self.each_minute(), **more, "faults": len(self.judge.faults)}
        print(json.dumps(told))
        for what, times in sorted(self.judge.seen.items()):
            print(f"  {times:4} {what}")
        for what in self.judge.faults:
            print("FAULT", what)
        sys.stdout.flush()
        return 1 if self.judge.faults else 0

    def stop(self):
        for it in self.tasks:
            it.cancel()
        for it in self.nodes + self.guests:
            it.stop()
        self.channel.log = None
        if self.log:
            self.log.close()
        shutil.rmtree(self.folder, ignore_errors=True)
