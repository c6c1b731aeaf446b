"""Stations of a run: nodes started by the service's scripts, and Linux guests; for the scripts beside this file."""
import asyncio
import base64
import os
import random
import shutil
import socket
import tempfile

HERE = os.path.dirname(os.path.realpath(__file__))
TOP = os.path.dirname(os.path.dirname(HERE))
START = os.path.join(TOP, "examples", "service", "wursthatch-start")


def free_port():
    """A TCP port that nobody has now (direwolf takes none above 49,151)."""
    while True:
        port = random.randint(20000, 32000)
        with socket.socket() as it:
            try:
                it.bind(("127.0.0.1", port))
                return port
            except OSError:
                pass


def processes_below(pid):
    """A process and those it started, by /proc."""
    parents = {}
    for name in os.listdir("/proc"):
        if name.isdigit():
            try:
                with open(f"/proc/{name}/stat", encoding="utf-8", errors="replace") as stat:
                    parents.setdefault(int(stat.read().rsplit(")", 1)[1].split()[1]), []).append(int(name))
            except (OSError, ValueError, IndexError):
                pass
    found, todo = [], [pid]
    while todo:
        found.append(todo[0])
        todo += parents.get(todo.pop(0), [])
    return found


class Node:
    """A node, run by the service's script beside a TNC on a TCP port, and started again wherever it ends."""

    def __init__(self, program, channel, call, alias, words, folder):
        self.program, self.channel, self.call, self.alias, self.words = program, channel, call, alias, words
        self.state = os.path.join(folder, f"state-{call}")
        os.makedirs(self.state, exist_ok=True)
        self.notes = open(os.path.join(folder, f"notes-{call}"), "ab")
        self.starts, self.process, self.keeper, self.known = 0, None, None, None

    async def start(self):
        self.port = await self.channel.tcp(self.call)
        self.keeper = asyncio.create_task(self.keep())

    async def keep(self):
        while True:
            self.starts += 1
            self.known = None
            self.process = await asyncio.create_subprocess_exec(
                START, f"localhost:{self.port}", f"call={self.call}", f"alias={self.alias}", *self.words,
                # (the C library writes over all memory as it is taken, so that all of it is resident from then on)
                env=dict(os.environ, STATE_DIRECTORY=self.state, WURSTHATCH=self.program, MALLOC_PERTURB_="165"),
                stdin=asyncio.subprocess.DEVNULL, stderr=self.notes, start_new_session=True)
            await self.process.wait()
            await asyncio.sleep(5)

    def pid(self):
        """The process of the node itself."""
        if self.known is None and self.process:
            for it in processes_below(self.process.pid):
                try:
                    if os.path.realpath(f"/proc/{it}/exe") == os.path.realpath(self.program):
                        self.known = it
                except OSError:
                    pass
        return self.known

    def resident(self):
        """KiB of memory that the node's process takes, and the most it ever took; none where it isn't there."""
        try:
            with open(f"/proc/{self.pid()}/status", encoding="utf-8") as status:
                rows = dict(line.split(":", 1) for line in status if ":" in line)
            return int(rows["VmRSS"].split()[0]), int(rows["VmHWM"].split()[0])
        except (OSError, KeyError):
            self.known = None
            return None

    def kill(self):
        """The node's process ends at once; its service script sees that."""
        pid = self.pid()
        if pid:
            os.kill(pid, 9)

    def stop(self):
        if self.keeper:
            self.keeper.cancel()
        if self.process and self.process.returncode is None:
            for it in reversed(processes_below(self.process.pid)):
                try:
                    os.kill(it, 15)
                except OSError:
                    pass
        self.notes.close()


class Ended(Exception):
    """A link or circuit of a guest has ended; `why` is 0 where the other side closed it in order, None where this side did, else errno."""

    def __init__(self, why):
        super().__init__(f"ended {why}")
        self.why = why


class Stream:
    """A link or circuit of a guest, packet by packet, as pipe.c has them."""

    def __init__(self, reader, writer):
        self.reader, self.writer, self.rest = reader, writer, b""

    async def packet(self):
        try:
            size = int.from_bytes(await self.reader.readexactly(2), "big")
            if size == 0:
                raise Ended((await self.reader.readexactly(1))[0])
            return await self.reader.readexactly(size)
        except (asyncio.IncompleteReadError, OSError):
            raise Ended(None) from None

    async def put(self, data):
        try:
            self.writer.write(len(data).to_bytes(2, "big") + data)
            await self.writer.drain()
        except OSError:
            pass

    async def close(self):
        """Closes it once all is acknowledged."""
        await self.put(b"")

    def break_off(self):
        """Closes it at once."""
        try:
            self.writer.write(b"\xFF\xFF")
            self.writer.close()
        except OSError:
            pass


class Guest:
    """A Linux guest of make-guest: its KISS port on the channel, its links and circuits on streams."""

    def __init__(self, image, channel, name, call, alias, serve, first=""):
        self.image, self.channel, self.name, self.call, self.alias, self.serve = image, channel, name, call, alias, serve
        self.first, self.folder, self.process = first, tempfile.mkdtemp(prefix="air-"), None
        self.node = call.split("-")[0] + "-1"

    async def start(self):
        """Boots it. `serve` is called with the stream of each circuit that comes to its node."""
        server = await asyncio.start_server(lambda r, w: self.serve(Stream(r, w)), "127.0.0.1", 0)
        host = server.sockets[0].getsockname()[1]
        self.port = free_port()
        kiss = os.path.join(self.folder, "kiss")
        await self.channel.unix(self.name, kiss)
        first = base64.b64encode(self.first.encode()).decode()
        words = f"console=ttyS0 quiet panic=-1 call={self.call} alias={self.alias} host={host} first={first}"
        self.process = await asyncio.create_subprocess_exec(
            "qemu-system-x86_64", "-accel", os.environ.get("AIR_ACCEL", "tcg"), "-m", "160", "-display", "none", "-monitor", "none",
            "-no-reboot", "-kernel", os.path.join(self.image, "kernel"), "-initrd", os.path.join(self.image, "initrd"), "-append", words,
            "-serial", "stdio", "-chardev", f"socket,id=kiss,path={kiss}", "-serial", "chardev:kiss",
            "-nic", f"user,model=e1000,hostfwd=tcp:127.0.0.1:{self.port}-:7000",
            stdin=asyncio.subprocess.DEVNULL, stdout=asyncio.subprocess.PIPE)
        told = b""
        while b"@@READY" not in told:
            got = await asyncio.wait_for(self.process.stdout.readline(), 400)
            if not got:
                raise RuntimeError(f"guest {self.name} ended: {told[-500:]!r}")
            told += got
        asyncio.create_task(self.process.stdout.read())
        return told.decode(errors="replace").split("@@READY", 1)[1].split()[0]

    async def open(self, line):
        reader, writer = await asyncio.open_connection("127.0.0.1", self.port)
        writer.write(line.encode() + b"\n")
        return reader, writer

    async def shell(self, command):
        reader, writer = await self.open("sh " + command)
        told = await reader.read()
        writer.close()
        return told.decode(errors="replace")

    async def call_out(self, kind, own, dest):
        """A link (`ax25`) from `own`, or a circuit (`netrom`) of the user `own`, to another station."""
        stream = Stream(*await self.open(f"{kind} {own} {self.call if kind == 'ax25' else self.node} {dest}"))
        try:
            await stream.packet()
        except Ended:
            stream.writer.close()
            raise
        return stream

    def stop(self):
        if self.process and self.process.returncode is None:
            self.process.kill()
        shutil.rmtree(self.folder, ignore_errors=True)
