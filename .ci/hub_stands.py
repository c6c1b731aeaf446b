"""Stand-ins for all that is around wursthatch-hub: the station, TNCs, users, and a folder in which a hub runs. Called by .ci/hub.

The stand-in station writes its words into the file `started` of its folder and each frame that it reads, in hexadecimal, into `heard`. It
answers at consoles, and a frame with REPEAT n in it comes back n times; after one with STALL it takes nothing until there is a file `go`.
It tells what the file `tells` holds, and ends with the status that `end` does.

The rows run at once, on a machine that may be slow and busy: whatever comes is waited for, and no row counts on two things coming in an
order that nobody promises, or on a thing coming soon. The limits only end a row that waits in vain.
"""

import json
import os
import select
import signal
import socket
import subprocess
import sys
import threading
import time

TOP = os.path.dirname(os.path.dirname(os.path.realpath(__file__)))
FEND = b"\xC0"
LIMIT = 300                             # seconds
OPEN = threading.local()                # the lines that this row, which has a thread of its own, has opened
STATION = r"""#!/usr/bin/env python3
import os, re, shlex, sys, time
room, opened = os.path.dirname(os.path.realpath(__file__)), set()

def note(name, text):
    with open(os.path.join(room, name), "a") as kept:
        kept.write(text + "\n")

def holds(name):
    try:
        with open(os.path.join(room, name)) as kept:
            return kept.read() or "here"
    except FileNotFoundError:
        return ""

def put(kind, octets):
    sys.stdout.buffer.write(b"\xC0" + bytes([kind]) + octets + b"\xC0")
    sys.stdout.buffer.flush()

def console(number, kind, text):
    note("heard", f"console {number} {kind.decode()} {text!r}")
    if kind == b"S" and not holds("stays"):
        for one in opened:
            put(0xF0, bytes([one]) + b"C")
    if kind == b"O":
        opened.add(number)
        put(0xF0, bytes([number]) + b"T" + b"Welcome " + text + b"\r")
    if kind == b"T":
        for _ in range(3000 if b"long" in text else 1):
            put(0xF0, bytes([number]) + b"T" + text)
    if kind == b"C" or b"bye" in text:
        opened.discard(number)
    if b"bye" in text:
        put(0xF0, bytes([number]) + b"C")

def take(piece):
    note("heard", piece.hex())
    if found := re.search(rb"REPEAT (\d+)", piece):
        for count in range(int(found[1])):
            put(piece[0], piece[1:] + b" %d" % count)
    while b"STALL" in piece and not holds("go"):
        time.sleep(.05)
    if b"LEAVE" in piece:
        sys.exit(int(holds("end")))

if sys.argv[1] == "check":
    if holds("refusal"):
        print(holds("refusal"), file=sys.stderr)
    sys.exit(3 if holds("refusal") else 0)
note("started", shlex.join(sys.argv[1:]))
print('{"at":0,"status":{"sessions":0,"letters":7}}', "a note", holds("tells") or "", sep="\n", file=sys.stderr, flush=True)
held = b""
while got := sys.stdin.buffer.raw.read(4096):
    *pieces, held = (held + got).split(b"\xC0")
    for piece in pieces:
        if piece[:1] == b"\xF0":
            console(piece[1], piece[2:3], piece[3:])
        else:
            take(piece)
"""
LIMITED = "import sys; sys.path[0] = {!r}; from hub import main; vars(main).update({}); sys.exit(main.main(sys.argv[1:]))"
PORT = '[[port]]\nname = "{}"\ntnc = "{}"\n'


def call(text, last=0):
    """An address field."""
    name, _, ssid = text.partition("-")
    return bytes(ord(letter) << 1 for letter in name.ljust(6)) + bytes([0x60 | int(ssid or 0) << 1 | last])


def ui(source, dest, info, pid=0xF0):
    return call(dest) + call(source, 1) + bytes([3, pid]) + info


def opened(line):
    """A line that is closed when the row is over."""
    OPEN.__dict__.setdefault("lines", []).append(line)
    return line


def close_all():
    for line in OPEN.__dict__.pop("lines", []):
        line.close()


def until(holds, what="nothing came"):
    """Waits until it holds, and answers what it gave. `what` says it, or tells what there is in its place."""
    end = time.monotonic() + LIMIT
    while not (got := holds()):
        assert time.monotonic() < end, what() if callable(what) else what
        time.sleep(.05)
    return got


def come_at(line, got):
    """What has come at a line, behind what was got before, and whether it has ended."""
    while select.select([line], [], [], 0)[0]:
        try:
            more = line.recv(65536)
        except ConnectionResetError:
            more = b""
        if not more:
            return got, True
        got += more
    return got, False


def free_port(kind=socket.SOCK_STREAM):
    """The number of a port to listen at. One of TCP is kept from all others: who listens there may, and nobody else gets it."""
    line = socket.socket(socket.AF_INET, kind)
    line.setsockopt(socket.SOL_SOCKET, socket.SO_REUSEADDR, 1)
    line.bind(("127.0.0.1", 0))
    number = line.getsockname()[1]
    if kind == socket.SOCK_STREAM:
        opened(line)
    else:
        line.close()
    return number


class Tnc:
    """A stand-in for a TNC on TCP."""

    def __init__(self, number=None, room=None):
        self.number = number or free_port()
        self.server = opened(socket.create_server(("127.0.0.1", self.number)))
        if room:                        # (bytes; who comes later has no more than that)
            self.server.setsockopt(socket.SOL_SOCKET, socket.SO_RCVBUF, room)
        self.line, self.got = None, b""

    def come(self):
        """Until the hub is there, and has sent its first FEND."""
        self.server.settimeout(LIMIT)
        self.line, self.got = opened(self.server.accept()[0]), b""
        self.line.settimeout(LIMIT)
        until(lambda: self.frames() or self.got)
        return self

    def leave(self):
        self.server.close()
        self.line.close()

    def send(self, *frames):
        for frame in frames:
            self.line.sendall(FEND + b"\x00" + frame + FEND)

    def frames(self):
        """What has come, without its FENDs."""
        self.got, _ = come_at(self.line, self.got)
        return [piece for piece in self.got.split(FEND)[:-1] if piece]


class User:
    """Who comes by telnet."""

    def __init__(self, number, *lines):
        self.line, self.got = opened(socket.create_connection(("127.0.0.1", number))), b""
        self.line.settimeout(LIMIT)
        for line in lines:
            self.type(line)

    def type(self, text):
        self.line.sendall(text if isinstance(text, bytes) else text.encode() + b"\r\n")

    def sees(self, *texts):
        """Waits for one of these, and answers which; nothing is the end."""
        def came():
            self.got, has_ended = come_at(self.line, self.got)
            found = [text for text in texts if (text in self.got if text else has_ended)]
            assert found or not has_ended, f"no {texts} to the end of {self.got[-200:]}"
            return found
        return until(came, lambda: f"no {texts} in {self.got[-200:]}")[0]


class Room:
    """A folder with a stand-in station, and a hub in it."""

    def __init__(self, path, node="N0AAA-1", alias="ANODE"):
        self.path, self.hub, self.telnet, self.web, self.node = path, None, free_port(), free_port(), (node, alias)
        self.env = {**os.environ, "WURSTHATCH_STATION": os.path.join(path, "station"), "STATE_DIRECTORY": path}
        self.keep("station", STATION)
        os.chmod(os.path.join(path, "station"), 0o755)

    def keep(self, name, text):
        with open(os.path.join(self.path, name), "w", encoding="utf-8") as kept:
            kept.write(text)

    def holds(self, name):
        try:
            with open(os.path.join(self.path, name), encoding="utf-8") as kept:
                return kept.read()
        except FileNotFoundError:
            return ""

    def start(self, text="", hub="", on=(), own="", **limits):
        """A hub with this file, whose node is on these ports and has these keys of its own, and with these constants of hub/main.py."""
        node = '[[node]]\ncall = "{}"\nalias = "{}"\n'.format(*self.node) + f"ports = {json.dumps(on)}\n" + own
        keys = f'[hub]\ntelnet = "127.0.0.1:{self.telnet}"\nweb = "127.0.0.1:{self.web}"\n'
        self.keep("station.toml", 'name = "Here"\ndeny = ["N0BAD"]\n' + text + node + keys + hub)
        with open(os.path.join(self.path, "notes"), "a", encoding="utf-8") as notes:
            program = ["-B", "-c", LIMITED.format(TOP, limits)] if limits else [os.path.join(TOP, "wursthatch-hub")]
            self.hub = subprocess.Popen([sys.executable, "-W", "error", *program, "station.toml"], env=self.env, cwd=self.path,
                                        stdin=subprocess.DEVNULL, stdout=subprocess.PIPE, stderr=notes)
        return self

    def runs(self, *arguments, **settings):
        """As `start`, and its station runs."""
        before = self.holds("started")
        self.start(*arguments, **settings)
        until(lambda: self.holds("started") != before, what="no station was started")
        return self

    def heard(self):
        """Frames that the station was handed; each FEND alone is an empty one. (a line that is being written isn't there yet)"""
        return [bytes.fromhex(line) for line in self.holds("heard").split("\n")[:-1] if not line.startswith("console")]

    def hears(self, *frames):
        """Waits until the station has been handed all of these."""
        until(lambda: set(frames) <= set(self.heard()), lambda: f"not heard: {list(set(frames).difference(self.heard()))[:3]}")

    def console(self, text):
        until(lambda: text in self.holds("heard"), lambda: f"no {text} in {self.holds('heard')[-300:]}")

    def noted(self, text):
        """Waits for a note of the hub's."""
        until(lambda: text in self.holds("notes"), lambda: f"no {text} in {self.holds('notes')[-300:]}")

    def get(self, path, method="GET"):
        """The head and the body of what is answered. (who needs ten seconds to ask gets nothing, so it is asked again)"""
        def answer():
            with socket.create_connection(("127.0.0.1", self.web), LIMIT) as line:
                line.sendall(f"{method} {path} HTTP/1.1\r\nHost: here\r\n\r\n".encode())
                return b"".join(iter(lambda: line.recv(65536), b""))
        head, _, body = until(answer).partition(b"\r\n\r\n")
        return head.decode(), body.decode()

    def status(self):
        return json.loads(self.get("/status.json")[1])

    def port(self, count=0):
        """What /status.json shows of a port."""
        return self.status()["ports"][count]

    def has_counted(self, frames, why):
        """Waits until that port 0 has taken or dropped so many frames: what it shows then."""
        def shows():
            port = self.port()
            taken = port["sent"] if why == "the TNC is slow" else port["heard"]
            return taken + port["dropped"].get(why, 0) == frames and port
        return until(shows)

    def listens(self):
        """Whether users may come."""
        with socket.socket() as line:
            return line.connect_ex(("127.0.0.1", self.telnet)) == 0

    def stop(self):
        """Where it hasn't ended, it is killed."""
        if self.hub and self.hub.poll() is None:
            self.hub.kill()
            self.hub.communicate()

    def ends(self, by=signal.SIGTERM):
        """Its status."""
        if by:
            self.hub.send_signal(by)
        self.lines = self.hub.communicate(timeout=LIMIT)[0].decode()
        return self.hub.returncode
