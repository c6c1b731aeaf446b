"""The station's program, as the hub's child: KISS on its two streams, JSON lines on its standard error."""

import asyncio
import collections
import contextlib
import os
import shlex
import time

from hub import kiss

CONSOLES = 15                           # the KISS port of consoles
EVERYBODY = 255                         # the console of what is for the station itself
MOST_TEXT = 1000                        # bytes of text in one console frame
WAITING = 256                           # frames of one source that wait for the station, so a flood from one fills its own places alone
ENDING = 60                             # seconds until one that doesn't end is killed
LONGEST_LINE = 1 << 20                  # bytes; nothing of a station's is as long
PROGRAM = shlex.split(os.environ.get("WURSTHATCH_STATION", "wursthatch-station"))


class Station:
    """The program while it runs. `out` takes each frame that it writes, by KISS port; `line` each line that it tells."""

    def __init__(self, out, line):
        self.out, self.line, self.child, self.is_running = out, line, None, asyncio.Event()
        self.waiting, self.places, self.since_taken = asyncio.Queue(), collections.Counter(), time.monotonic()

    def hear(self, source, port, octets):
        """A frame for its KISS port of that number: whether it goes on. It takes one of the source's places."""
        if self.places[source] == WAITING:
            return False
        self.places[source] += 1
        self.waiting.put_nowait((source, kiss.enframe(port << 4, octets)))
        return True

    def console(self, number, kind, rest=b""):
        """To a console: whether it goes on."""
        return self.hear(("console", number), CONSOLES, bytes([number]) + kind + rest)

    async def run(self, words):
        """Until it ends: its status. It has a session of its own, so no signal of a terminal's reaches it: the hub says when it ends."""
        pipe = asyncio.subprocess.PIPE
        self.child = await asyncio.create_subprocess_exec(*PROGRAM, *words, stdin=pipe, stdout=pipe, stderr=pipe, limit=LONGEST_LINE,
                                                          start_new_session=True)
        self.is_running.set()
        async with asyncio.TaskGroup() as group:
            given = group.create_task(self.write(self.child.stdin))
            await asyncio.gather(self.read(self.child.stdout), self.read_lines(self.child.stderr))
            given.cancel()
        return await self.child.wait()

    async def write(self, stdin):
        """What waits for it, whole frames, and each second an empty one for its clock; that it ends is seen where it is read."""
        stdin.transport.set_write_buffer_limits(high=0)
        due = time.monotonic()
        with contextlib.suppress(OSError):
            while True:
                with contextlib.suppress(TimeoutError):
                    async with asyncio.timeout(due - time.monotonic()):
                        source, frame = await self.waiting.get()
                        self.places[source] -= 1
                        stdin.write(frame)
                if time.monotonic() >= due:
                    stdin.write(kiss.FEND)
                    due = time.monotonic() + 1
                await stdin.drain()
                self.since_taken = time.monotonic()

    async def read(self, stdout):
        """Its frames, to their end."""
        cutter = kiss.Cutter()
        while got := await stdout.read(4096):
            for piece in cutter.take(got, 0):
                kind, octets = kiss.unescape(piece) or (0, b"")
                if octets and kind & 15 == 0:
                    self.out(kind >> 4, octets)

    async def read_lines(self, stderr):
        """Its lines, to their end."""
        async for line in stderr:
            self.line(line.decode(errors="replace").rstrip("\n"))

    async def end(self):
        """Its input ends, once it has begun; it gets a minute to end itself."""
        await self.is_running.wait()
        self.child.stdin.close()
        try:
            async with asyncio.timeout(ENDING):
                await self.child.wait()
        except TimeoutError:
            self.child.kill()
