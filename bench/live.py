"""A live node over pipes, and what other stations send it, for the scripts beside this file."""
import os
import re
import subprocess
import threading

from octets import address, kiss

UI, SABME, TEST = 0x03, 0x7F, 0xF3
NETROM, TEXT, SEGMENT = 0xCF, 0xF0, 0x08
REQUEST, DISCONNECT, INFO, INFO_ACK, MORE = 1, 3, 5, 6, 0x20
NODE = "N0AAA"


def station(number):
    """The call of one of 10,000 stations."""
    return f"N{number:04}"


def to_node(source, *octets, dest=NODE):
    """A command of a station: its addresses, and what is behind them."""
    return address(dest, 0, 1) + address(source, 0, 0, 1) + b"".join(bytes([part]) if isinstance(part, int) else part for part in octets)


def numbered(ns, nr, modulus):
    """The control field of an information frame."""
    return bytes([ns << 1, nr << 1] if modulus == 128 else [nr << 5 | ns << 1])


def datagram(origin, transport):
    return address(origin, 0) + address(NODE, 0) + b"\x19" + transport


def request(pair, window, user):
    return bytes([*pair, 0, 0, REQUEST, window]) + address(user, 0) + address(user, 0)


def broadcast(source, entries):
    """A NODES frame: each entry has a destination, a best neighbour and a quality."""
    body = b"".join(address(dest, 0) + b"NODE  " + address(best, 0) + bytes([quality]) for dest, best, quality in entries)
    return to_node(source, UI, NETROM, b"\xFFNODE  ", body, dest="NODES")


class LiveNode:
    """The command `node` over two pipes. What it writes is counted, and dropped. Where `touched` is set, the C library writes over all memory
    as it is taken (its MALLOC_PERTURB_), so that all of it is resident."""

    def __init__(self, program, words, touched=False):
        self.child = subprocess.Popen([program, "node", f"call={NODE}", "alias=ANODE", *words], stdin=subprocess.PIPE, stdout=subprocess.PIPE,
                                      env={"MALLOC_PERTURB_": "1"} if touched else {})
        self.source = self.child.stdin
        self.written, self.echoed, self.asked = 0, 0, 0
        self.changed = threading.Condition()
        self.reader = threading.Thread(target=self.read_all, daemon=True)
        self.reader.start()

    def read_all(self):
        last = b""
        while True:
            some = self.child.stdout.read1(1 << 20)
            echoes = re.findall(rb"echo (\d{8})", last + some)
            with self.changed:
                self.written += len(some)
                self.echoed = max([self.echoed, *map(int, echoes)])
                self.changed.notify_all()
            if not some:
                return
            last = (last + some)[-12:]

    def hand(self, frames):
        self.source.write(b"".join(map(kiss, frames)))
        self.source.flush()

    def settle(self):
        """Waits until all that was handed in has been answered: a TEST that comes last is."""
        self.asked += 1
        self.hand([to_node(station(9999), TEST, b"echo %08d" % self.asked)])
        with self.changed:
            if not self.changed.wait_for(lambda: self.echoed >= self.asked, timeout=600):
                raise SystemExit("the node doesn't answer")

    def kib(self, what="VmRSS"):
        """Its resident memory, or with VmHWM the most that it ever had."""
        with open(f"/proc/{self.child.pid}/status", encoding="ascii") as status:
            return int(re.search(rf"^{what}:\s+(\d+) kB$", status.read(), re.M)[1])

    def seconds(self):
        """The processor time that it has used."""
        with open(f"/proc/{self.child.pid}/stat", encoding="ascii") as status:
            user, system = status.read().rsplit(")", 1)[1].split()[11:13]
        return (int(user) + int(system)) / os.sysconf("SC_CLK_TCK")

    def end(self):
        """Ends its input. It has to end well."""
        self.source.close()
        status = self.child.wait()
        self.reader.join()
        if status != 0:
            raise SystemExit(f"the node has ended with status {status}")
