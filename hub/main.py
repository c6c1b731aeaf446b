"""wursthatch-hub FILE: starts the station and what is around it, and ends with it."""

import asyncio
import contextlib
import json
import os
import signal
import subprocess
import sys
import time

from hub import counter, settings, station
from hub.board import Board
from hub.broadcasts import Broadcasts
from hub.consoles import Consoles
from hub.ports import Axudp, Port, Stream
from hub.web import Web, open_to

FAILED, USAGE = 1, 2                    # statuses; else the station's own
STOPPING, QUIET = 10, 2                 # seconds that users and frames have to go, and without a frame till no circuit is being closed


def say(text, stream=None):
    """A note of the hub's own for the journal, or a line for that stream. (where nobody reads it, the station goes on)"""
    with contextlib.suppress(OSError):
        print(text if stream else f"wursthatch-hub: {text}", file=stream or sys.stderr, flush=True)


async def until(holds, seconds):
    """Until it holds, or so many seconds; and a moment, for what is under way."""
    end = time.monotonic() + seconds
    while not holds() and time.monotonic() < end:
        await asyncio.sleep(.1)
    await asyncio.sleep(.2)


class Hub:
    """All parts, and what goes from one to another."""

    def __init__(self, kept):
        self.settings, self.stopping = kept, asyncio.Event()
        self.child = station.Station(self.out, self.line)
        self.ports = [Port(one, self.hear, say) for one in kept.ports]
        self.consoles = Consoles(kept, self.child, say)
        self.board = Board(kept, self.ports, self.child, self.consoles)
        self.broadcasts = Broadcasts(kept.state, [port.name for port in self.ports], self.warn)
        self.sent = 0

    def warn(self, text):
        """In the journal, and on the page."""
        say(text)
        self.board.notes.append((round(time.time()), text))

    def hear(self, port, octets):
        """A frame from a TNC, to the station."""
        if self.child.hear(port.name, port.number, octets):
            port.count(0)
            if self.board.see(port.name, octets, False):
                self.broadcasts.put(port.name, octets, int(time.time()))
        else:
            port.drop("the station is slow")

    def out(self, number, octets):
        """A frame of the station's, to a TNC or a console."""
        if number == station.CONSOLES:
            self.consoles.take(octets)
        elif number < len(self.ports) and self.ports[number].send(octets):
            self.board.see(self.ports[number].name, octets, True)
            self.sent = time.monotonic()

    def line(self, text):
        """A line that the station tells: an object goes on as it is, all else is a note."""
        told = None
        with contextlib.suppress(ValueError):
            told = json.loads(text)
        if isinstance(told, dict):
            say(text, sys.stdout)
            self.board.entry(told, text)
        elif text:
            self.warn(f"the station says: {text}")

    async def run(self):
        """Until the station ends: the status."""
        loop, kept, pair = asyncio.get_running_loop(), self.settings, f"pair={counter.drawn()},{counter.drawn()}"
        for number in signal.SIGTERM, signal.SIGINT:
            loop.add_signal_handler(number, self.stopping.set)
        doors = (kept.telnet, self.consoles.serve), (kept.web, Web(self.board).serve)
        servers = [await open_to(address, kept, serve, say) for address, serve in doors if address]
        if kept.state:
            self.broadcasts.read()
            pair = counter.next_pair(os.path.join(kept.state, "ident"), self.warn)
        else:
            self.warn("no folder is named (hub.state, or STATE_DIRECTORY): the pair is drawn, and nothing is kept")
        for _, name, octets in self.broadcasts.young():
            self.child.hear(octets, [port.name for port in self.ports].index(name), octets)     # (each has a place of its own)
        around = [self.broadcasts.run(), self.stop()]
        for place in dict.fromkeys(port.settings.place for port in self.ports if port.settings.tnc):
            ports = [port for port in self.ports if port.settings.place == place]
            around.append((Axudp if place[0] == "axudp" else Stream)(place, ports).run())
        async with asyncio.TaskGroup() as group:
            runs = [group.create_task(run) for run in around]
            status = await self.child.run(["run", kept.path, pair])
            for console in self.consoles.held.values():
                console.task.cancel()
            await until(lambda: all(port.waiting.empty() for port in self.ports) and not self.consoles.held, STOPPING)
            for run in runs:
                run.cancel()
        for server in servers:
            server.close()
        await self.broadcasts.keep()
        return status

    async def stop(self):
        """At a signal users are told, and let go; a second one doesn't wait for them."""
        await self.stopping.wait()
        self.stopping.clear()
        self.warn("stopping: users are let go")
        self.child.console(station.EVERYBODY, b"S")
        await until(lambda: self.stopping.is_set() or not self.board.users() and time.monotonic() - self.sent > QUIET, STOPPING)
        await self.child.end()


def main(words):
    """The program: its status."""
    if len(words) != 1:
        say("usage: wursthatch-hub FILE")
        return USAGE
    try:
        status = subprocess.call([*station.PROGRAM, "check", words[0]], stdin=subprocess.DEVNULL, stdout=subprocess.DEVNULL)
        status = status or asyncio.run(Hub(settings.Settings(words[0])).run())
    except settings.Wrong as wrong:
        say(f"{os.path.basename(words[0])}: {wrong}")
        return USAGE
    except OSError as fault:
        say(f"{fault.filename or ''}{': ' * bool(fault.filename)}{fault.strerror}")
        return FAILED
    return status if status >= 0 else 128 - status
