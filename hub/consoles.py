"""Telnet (RFC 854): who comes gives a call, and has one of the station's eight consoles until he or the station hangs up."""

import asyncio
import collections
import re
import time

from hub import station

CONSOLES = 8
PATIENCE = 60                           # seconds for a call
REST = 5                                # seconds until one that its user left is another's: what was under way has passed by then
WAITING = 65536                         # bytes that wait for a user who doesn't read
MOST_NEGOTIATED = 256
Console = collections.namedtuple("Console", "number call since writer task")    # one that somebody has
TOKEN = re.compile(rb"([^\xFF]+)|\xFF(?:(\xFF)|\xFA[^\xFF]*(?:\xFF[^\xF0][^\xFF]*)*\xFF\xF0|[\xFB-\xFE].|[^\xFA-\xFF])", re.S)


class Telnet:
    """What a user types: negotiations are let fall, and CR LF, CR NUL and LF become CR."""

    def __init__(self, reader):
        self.reader, self.front, self.was_return = reader, b"", False

    async def read(self):
        """The next text of his. A negotiation that has come in part waits for its rest."""
        text = b""
        while not text:
            got = await self.reader.read(station.MOST_TEXT)
            if not got:
                raise EOFError
            got, end = self.front + got, 0
            while found := TOKEN.match(got, end):
                text, end = text + (found[1] or found[2] or b""), found.end()
            self.front = got[end:][:MOST_NEGOTIATED]
            if self.was_return and text[:1] in (b"\n", b"\0"):
                text, self.was_return = text[1:], False
            self.was_return = text[-1:] == b"\r" or self.was_return and not text
        return text.replace(b"\r\n", b"\r").replace(b"\r\0", b"\r").replace(b"\n", b"\r")


class Consoles:
    """The station's consoles, by number, and who has them."""

    def __init__(self, settings, child, say):
        self.settings, self.child, self.say = settings, child, say
        self.free, self.held = collections.deque(range(CONSOLES)), {}

    def take(self, frame):
        """A console frame of the station's. Who doesn't read is hung up on."""
        console = self.held.get(frame[0])
        if console and frame[1:2] == b"T":
            console.writer.write(frame[2:].replace(b"\xFF", b"\xFF\xFF").replace(b"\r", b"\r\n"))
            if console.writer.transport.get_write_buffer_size() > WAITING:
                console.task.cancel()
        elif console and frame[1:2] == b"C":
            del self.held[console.number]
            self.free.append(console.number)
            console.task.cancel()

    async def serve(self, reader, writer):
        """His call is asked for; with it he gets a console."""
        telnet, typed = Telnet(reader), b""
        writer.write(self.settings.name.encode() + b"\r\nYour call: ")
        async with asyncio.timeout(PATIENCE):
            while b"\r" not in typed and len(typed) < 256:
                typed += await telnet.read()
        line, _, typed = typed.partition(b"\r")
        call = line.decode(errors="replace").strip().upper()
        is_served = self.settings.serves(call)
        if not is_served or not self.free:
            writer.write(b"All consoles are taken\r\n" if is_served else b"No call, or not for you here; as N0AAA or N0AAA-7\r\n")
            return
        number = self.free.popleft()
        console = self.held[number] = Console(number, call, round(time.time()), writer, asyncio.current_task())
        self.child.console(number, b"O", call.encode())
        self.say(f"telnet: {call} has console {number}")
        try:
            await self.listen(number, telnet, typed)
        except asyncio.CancelledError:                  # (it has ended; what waits for him still goes)
            pass
        finally:
            self.say(f"telnet: {call} has left console {number}")
            if self.held.get(number) is console:        # (where the station hasn't hung up it is told)
                del self.held[number]
                self.child.console(number, b"C")
                asyncio.get_running_loop().call_later(REST, self.free.append, number)

    async def listen(self, number, telnet, text):
        """What he types, in pieces, as the station takes them."""
        while True:
            for place in range(0, len(text), station.MOST_TEXT):
                while not self.child.console(number, b"T", text[place:place + station.MOST_TEXT]):
                    await asyncio.sleep(.1)
            text = await telnet.read()
