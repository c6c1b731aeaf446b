"""Ports and what carries them: TNCs on TCP and serial lines, and AXUDP. Whole frames alone go in and out."""

import asyncio
import collections
import contextlib
import os
import socket
import termios
import time

from hub import ax25, kiss

AGAIN = 5                               # seconds until what went away is tried again
PATIENCE = 60                           # seconds that a TNC may take nothing
RESOLVED = 300                          # seconds until a peer's name is looked up again
WAITING = 128                           # frames that wait for a TNC
# A TNC on which nothing is answered for a minute and a half counts as gone; and few frames wait in the system, which nobody counts.
OPTIONS = ((socket.SOL_SOCKET, socket.SO_SNDBUF, 4096), (socket.SOL_SOCKET, socket.SO_KEEPALIVE, 1),
           *((socket.IPPROTO_TCP, *one) for one in ((socket.TCP_KEEPIDLE, 60), (socket.TCP_KEEPINTVL, 10), (socket.TCP_KEEPCNT, 3))))


class Port:
    """A port of the station. What goes to its TNC waits here; what can't wait any more is dropped whole, and counted."""

    def __init__(self, settings, hear, say):
        self.settings, self.number, self.name, self.hear, self.say = settings, settings.number, settings.name, hear, say
        self.is_there, self.state, self.since = False, "not tried yet" if settings.tnc else "no TNC is named", time.time()
        self.totals, self.minutes, self.dropped = [0, 0, 0], collections.OrderedDict(), collections.Counter()
        self.waiting = asyncio.Queue(WAITING)

    def count(self, what):
        """Of in, out and dropped: in all, and the last hour by minutes."""
        self.totals[what] += 1
        self.minutes.setdefault(int(time.time() // 60), [0, 0, 0])[what] += 1
        while len(self.minutes) > 60:
            self.minutes.popitem(last=False)

    def drop(self, why):
        """A frame is lost here. The first is told, the tenth, the hundredth .."""
        self.dropped[why] += 1
        self.count(2)
        if str(self.dropped[why]).rstrip("0") == "1":
            self.say(f"port {self.name}: {self.dropped[why]} dropped: {why}")

    def send(self, octets):
        """Towards the air: whether it goes."""
        if not self.is_there or self.waiting.full():
            self.drop("the TNC is slow" if self.is_there else "the TNC is away")
            return False
        self.count(1)
        self.waiting.put_nowait(octets)
        return True

    def turn(self, is_there, state):
        """Its TNC is there, or away; the journal has it once. (an old frame does no good to a TNC that comes back)"""
        if (self.is_there, self.state) != (is_there, state):
            self.is_there, self.state, self.since = is_there, state, time.time()
            self.say(f"port {self.name}: {self.settings.tnc}: {state}")
        while not is_there and not self.waiting.empty():
            self.waiting.get_nowait()
            self.drop("the TNC is away")


class Carrier:
    """What carries some ports. `serve`, of who inherits this, opens it, and goes on until a fault says that it is away."""

    def __init__(self, place, ports):
        self.place, self.ports = place, ports

    async def run(self):
        """For ever: what goes away is tried again."""
        while True:
            try:
                await self.serve()
            except Exception as fault:      # (any, one of the hub's own too: the other ports go on)
                while isinstance(fault, ExceptionGroup):
                    fault = fault.exceptions[0]
                number = getattr(fault, "errno", None) or 0
                state = os.strerror(number) if number > 0 else str(fault.args[-1]) if fault.args else "no answer"
            for port in self.ports:
                port.turn(False, state)
            await asyncio.sleep(AGAIN)


class Stream(Carrier):
    """A TNC that speaks KISS on a stream, with a port at each of its channels that the file names."""

    async def serve(self):
        """From its being there to its end. What an earlier connection left of a frame ends at the first FEND."""
        async with asyncio.timeout(10):
            reader, writer, closes = await open_stream(*self.place)
        try:
            writer.transport.set_write_buffer_limits(high=0)
            writer.write(kiss.FEND)
            for port in self.ports:
                port.turn(True, "connected")
                for command, value in port.settings.parameters.items():
                    writer.write(kiss.enframe(port.settings.channel << 4 | command, bytes([value])))
            async with asyncio.TaskGroup() as group:
                for run in self.listen(reader), *(self.carry(port, writer) for port in self.ports):
                    group.create_task(run)
        finally:
            for close in closes:
                close()

    async def listen(self, reader):
        """What the TNC hears, to its end. What no port has, and what is no data, is none of the station's."""
        cutter, kinds = kiss.Cutter(is_lost=True), {port.settings.channel << 4: port for port in self.ports}
        while got := await reader.read(4096):
            for frame in map(kiss.unescape, cutter.take(got, time.monotonic())):
                if frame is None:
                    self.ports[0].drop("no frame of KISS")
                elif frame[0] in kinds and frame[1]:
                    kinds[frame[0]].hear(kinds[frame[0]], frame[1])
        raise EOFError("it has closed")

    async def carry(self, port, writer):
        """What waits at a port, to the TNC."""
        while True:
            writer.write(kiss.enframe(port.settings.channel << 4, await port.waiting.get()))
            async with asyncio.timeout(PATIENCE):
                await writer.drain()


async def open_stream(kind, *where):
    """To read and to write, and what closes it. A serial line has eight bits, no parity, no flow control."""
    if kind == "tcp":
        reader, writer = await asyncio.open_connection(*where)
        for option in OPTIONS:
            writer.get_extra_info("socket").setsockopt(*option)
        return reader, writer, [writer.transport.abort]
    line = os.open(where[0], os.O_RDWR | os.O_NOCTTY | os.O_NONBLOCK)
    try:
        rate, characters = getattr(termios, f"B{where[1]}"), termios.tcgetattr(line)[6]
        characters[termios.VMIN], characters[termios.VTIME] = 1, 0
        termios.tcsetattr(line, termios.TCSANOW, [0, 0, termios.CS8 | termios.CREAD | termios.CLOCAL, 0, rate, rate, characters])
    except termios.error:
        os.close(line)
        raise
    loop, reader = asyncio.get_running_loop(), asyncio.StreamReader()
    back, _ = await loop.connect_read_pipe(lambda: asyncio.StreamReaderProtocol(reader), os.fdopen(os.dup(line), "rb", 0))
    forth, protocol = await loop.connect_write_pipe(asyncio.streams.FlowControlMixin, os.fdopen(line, "wb", 0))
    return reader, asyncio.StreamWriter(forth, protocol, None, loop), [back.close, forth.close]


class Axudp(Carrier, asyncio.DatagramProtocol):
    """A UDP socket, at which one port listens: what it sends goes to each of its peers."""

    async def serve(self):
        """For ever. `known` has the peers' addresses."""
        loop, self.known = asyncio.get_running_loop(), {}
        line, _ = await loop.create_datagram_endpoint(lambda: self, local_addr=("0.0.0.0", self.place[1]))
        with contextlib.closing(line):
            async with asyncio.TaskGroup() as group:
                group.create_task(self.look_up(self.ports[0]))
                group.create_task(self.carry(self.ports[0], line))

    async def look_up(self, port):
        """The addresses of the peers, again and again: some have a new one each day."""
        while True:
            for peer in port.settings.peers:
                with contextlib.suppress(OSError):
                    found = await asyncio.get_running_loop().getaddrinfo(*peer, family=socket.AF_INET, type=socket.SOCK_DGRAM)
                    self.known[peer] = found[0][4]
            lost = ", ".join(peer[0] for peer in port.settings.peers if peer not in self.known)
            port.turn(bool(self.known), f"no address of {lost}" if lost else "its peers are known")
            await asyncio.sleep(AGAIN if lost else RESOLVED)

    def datagram_received(self, data, addr):
        """From a peer, by its address."""
        port, octets = self.ports[0], ax25.without_checksum(data)
        if addr[0] not in [host for host, _ in self.known.values()]:
            port.drop("from a stranger")
        elif octets is None or len(octets) >= kiss.LONGEST:
            port.drop("no frame of AXUDP")
        else:
            port.hear(port, octets)

    async def carry(self, port, line):
        """What waits at the port, to its peers."""
        while True:
            datagram = ax25.with_checksum(await port.waiting.get())
            for address in self.known.values():
                line.sendto(datagram, address)
