"""A user's station by direwolf, beside a direwolf as TNC, without sound cards; for the script `direwolf`.

The TNC offers KISS on a TCP port. What each of the two transmits goes as samples through ALSA's plugin `file` and socat, by UDP on the loopback and
at real time, into the other's audio input. So the link has its true 1,200 bit/s. The user's station has AX.25 in itself, and is asked by AGW's
protocol on another TCP port.
"""
import asyncio
import os
import shutil
import socket
import struct
import tempfile
import threading
import time

from stations import Ended, free_port

BLOCK = 882  # 10 ms of samples of 16 bits


def carry(take, port, stopped):
    """Passes audio on at real time, and silence where there is none: a direwolf that gets no samples never sends."""
    give = socket.socket(socket.AF_INET, socket.SOCK_DGRAM)
    held, moment = bytearray(), time.monotonic()
    while not stopped.is_set():
        try:
            while True:
                held += take.recv(65536)
        except OSError:
            pass
        piece = bytes(held[:BLOCK]).ljust(BLOCK, b"\0")
        del held[:BLOCK]
        try:
            give.sendto(piece, ("127.0.0.1", port))
        except OSError:
            pass
        moment += 0.01
        time.sleep(max(0.0, moment - time.monotonic()))


class Pair:
    """The two direwolfs."""

    def __init__(self, call, v20=False):
        self.call, self.v20, self.link = call, v20, None
        self.folder, self.processes, self.stopped = tempfile.mkdtemp(prefix="air-direwolf-"), [], threading.Event()
        self.ports = {(name, what): free_port() for name in ("tnc", "user") for what in ("agw", "kiss", "audio")}

    def configure(self, name, call, other):
        with open(os.path.join(self.folder, name), "w", encoding="ascii") as out:
            out.write(f"ADEVICE UDP:{self.ports[name, 'audio']} to-{other}\nARATE 44100\nACHANNELS 1\nCHANNEL 0\nMYCALL {call}\nMODEM 1200\n"
                      f"AGWPORT {self.ports[name, 'agw']}\nKISSPORT {self.ports[name, 'kiss']}\nTXDELAY 10\nTXTAIL 5\nFRACK 4\n"
                      + ("MAXV22 0\n" if self.v20 else ""))

    async def start(self):
        with open(os.path.join(self.folder, "asound.conf"), "w", encoding="ascii") as out:
            out.write("</usr/share/alsa/alsa.conf>\n")
            for other in ("tnc", "user"):
                take = socket.socket(socket.AF_INET, socket.SOCK_DGRAM)
                take.setsockopt(socket.SOL_SOCKET, socket.SO_RCVBUF, 1 << 22)
                take.bind(("127.0.0.1", 0))
                take.setblocking(False)
                out.write(f'pcm.to-{other} {{ type file slave.pcm "null" format "raw" '
                          f'file "| socat -u -b 1024 - UDP-SENDTO:127.0.0.1:{take.getsockname()[1]}" }}\n')
                threading.Thread(target=carry, args=(take, self.ports[other, "audio"], self.stopped), daemon=True).start()
        self.configure("tnc", "N0TNC", "user")
        self.configure("user", self.call, "tnc")
        for name in ("tnc", "user"):
            log = open(os.path.join(self.folder, name + ".log"), "wb")
            self.processes.append(await asyncio.create_subprocess_exec(
                "direwolf", "-t", "0", "-a", "0", "-c", os.path.join(self.folder, name), stdin=asyncio.subprocess.DEVNULL, stdout=log,
                stderr=log, cwd=self.folder, start_new_session=True,
                env=dict(os.environ, ALSA_CONFIG_PATH=os.path.join(self.folder, "asound.conf"))))
        self.agw = await self.connect(self.ports["user", "agw"])
        self.send("X", self.call, "", b"")

    async def connect(self, port):
        for _ in range(200):
            try:
                return await asyncio.open_connection("127.0.0.1", port)
            except OSError:
                await asyncio.sleep(0.2)
        raise RuntimeError("direwolf didn't start")

    def send(self, kind, source, dest, data=b""):
        head = struct.pack("<B3xcxBx10s10sI4x", 0, kind.encode(), 0xF0, source.encode(), dest.encode(), len(data))
        self.agw[1].write(head + data)

    async def frame(self):
        head = await self.agw[0].readexactly(36)
        _, kind, _, source, _, size = struct.unpack("<B3xcxBx10s10sI4x", head)
        return kind.decode("latin-1"), source.split(b"\0")[0].decode(), await self.agw[0].readexactly(size)

    async def call_out(self, kind, own, dest):
        """A link to another station, as a guest's."""
        assert kind == "ax25" and own == self.call
        if self.link:
            # (the last one has to be told gone)
            await asyncio.wait([self.link.reading], timeout=120)
            self.link.reading.cancel()
        self.send("C", own, dest)
        self.link = Link(self, dest)
        await self.link.made()
        return self.link

    def said(self):
        with open(os.path.join(self.folder, "user.log"), encoding="utf-8", errors="replace") as log:
            return log.read()

    def stop(self):
        self.stopped.set()
        for it in self.processes:
            if it.returncode is None:
                it.terminate()
        shutil.rmtree(self.folder, ignore_errors=True)


class Link:
    """The link of the user's station, with the calls of a guest's stream."""

    def __init__(self, pair, dest):
        self.pair, self.dest, self.gone, self.leaving = pair, dest, None, False
        self.came, self.waiting = asyncio.Queue(), 0
        self.writer = self
        self.reading = asyncio.create_task(self.read())
        self.up = asyncio.Event()

    async def read(self):
        while self.gone is None:
            kind, _, data = await self.pair.frame()
            if kind == "C":
                self.up.set()
            elif kind == "D":
                self.came.put_nowait(data)
            elif kind == "Y":
                self.waiting = int.from_bytes(data[:4], "little")
            elif kind == "d":
                self.gone = 110 if b"RETRYOUT" in data else 0
                self.up.set()
                self.came.put_nowait(None)

    async def made(self):
        await asyncio.wait_for(self.up.wait(), 200)
        if self.gone is not None:
            raise Ended(self.gone or 111)

    async def packet(self):
        data = await self.came.get()
        if data is None:
            raise Ended(self.gone)
        return data

    async def room(self, most):
        """Waits until no more than so many frames wait or aren't acknowledged."""
        while self.gone is None:
            self.pair.send("Y", self.pair.call, self.dest)
            await asyncio.sleep(0.5)
            if self.waiting <= most:
                return

    async def put(self, data):
        await self.room(8)
        if self.gone is None:
            self.pair.send("D", self.pair.call, self.dest, data)

    async def close(self):
        await asyncio.sleep(1)
        await self.room(0)
        self.break_off()

    def break_off(self):
        if self.gone is None and not self.leaving:
            self.leaving = True
            self.pair.send("d", self.pair.call, self.dest)
