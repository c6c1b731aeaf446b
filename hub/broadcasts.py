"""Broadcasts of routes that were heard, kept on disk: a station that starts again is given those of the last hour."""

import asyncio
import os
import re
import time

from hub import board, counter

KEEPING = 60                            # seconds between two writings
YOUNG = 3600                            # seconds
MOST = 4096                             # of these the oldest goes
ROW = re.compile(r"(\d{1,12}) (\S{1,64}) ((?:[0-9a-f]{2}){17,1023})")


class Broadcasts:
    """By the name of the port and the frame, the latest last; of equal frames the last."""

    def __init__(self, folder, names, say):
        self.path, self.names, self.say = folder and os.path.join(folder, "broadcasts"), names, say
        self.kept, self.is_changed = {}, False

    def put(self, name, octets, when):
        """One that was heard at that port."""
        board.put(self.kept, (name, octets), when, MOST)
        self.is_changed = True

    def young(self):
        """Those of the last hour, the oldest first: when, at which port, and the frame."""
        return sorted((when, *key) for key, when in self.kept.items() if 0 <= time.time() - when < YOUNG)

    def read(self):
        """What the last run kept. A line that isn't one is let fall."""
        if not self.path or not os.path.exists(self.path):
            return
        with open(self.path, encoding="ascii", errors="replace") as kept:
            rows = [ROW.fullmatch(line) for line in kept.read().splitlines()]
        for row in filter(None, rows):
            if row[2] in self.names:
                self.put(row[2], bytes.fromhex(row[3]), int(row[1]))
        if None in rows:
            self.say(f"{self.path}: {rows.count(None)} lines are none, and are let fall")

    async def keep(self):
        """On the disk, where there is news and a place for it."""
        if self.path and self.is_changed:
            self.is_changed, text = False, "".join(f"{when} {name} {octets.hex()}\n" for when, name, octets in self.young())
            try:
                await asyncio.to_thread(counter.keep, self.path, text)
            except OSError as fault:
                self.is_changed = True
                self.say(f"{self.path}: {fault.strerror}: broadcasts aren't kept")

    async def run(self):
        """From time to time."""
        while True:
            await asyncio.sleep(KEEPING)
            await self.keep()
