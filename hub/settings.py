"""The station's file, as far as it is the hub's: `[hub]`, and of each port its TNC. The station has checked all else."""

import collections
import contextlib
import ipaddress
import os
import re
import termios
import tomllib

CALL = re.compile(r"[A-Z0-9]{1,6}(-([1-9]|1[0-5]))?")
ADDRESS = r"(?:\[[^\]]+\]|[^:\[\]\s]+):\d{1,5}"
TCP = re.compile(rf"tcp:({ADDRESS})(?::(\d\d?))?")
SERIAL = re.compile(r"serial:([^:\s]+):(\d+)(?::(\d\d?))?")
AXUDP = re.compile(rf"axudp:(\d{{1,5}})((?::{ADDRESS})+)")
PARAMETERS = {"txdelay": 1, "persist": 2, "slottime": 3, "txtail": 4}         # and KISS's commands for them

# A port of the file. `place` names what carries it, `channel` its KISS port there; AXUDP has peers.
PortSettings = collections.namedtuple("PortSettings", "number name tnc place channel peers parameters")


class Wrong(Exception):
    """What is wrong with the file, and where."""


class Settings:
    """The file at `path`; `Wrong` where the hub can't do what it says."""

    def __init__(self, path):
        with open(path, "rb") as file, told_of(""):
            kept = tomllib.load(file)
        self.path, self.name, self.refused = path, str(kept.get("name", "")), kept.get("deny", [])
        self.members = [{"call": it["call"], "alias": it["alias"], "is_post": "file" in it, "ports": it.get("ports", [])}
                        for it in (*kept.get("node", ()), *filter(None, [kept.get("mail")]))]
        self.calls, self.ports = [it["call"] for it in self.members], []
        for count, table in enumerate(kept.get("port", ())):
            with told_of(f"port {table.get('name')}: "):
                port = port_of(count, table)
                if any((port.place, port.channel) == (other.place, other.channel) for other in self.ports):
                    raise ValueError(f"{port.tnc}: another port has that, too")
            self.ports.append(port)
        reads = {"telnet": address, "web": address, "state": os.path.abspath,
                 "allow": lambda named: [ipaddress.ip_network(network) for network in named]}
        taken = {"telnet": None, "web": None, "state": os.environ.get("STATE_DIRECTORY"), "allow": reads["allow"](["127.0.0.0/8", "::1"])}
        for key, value in kept.get("hub", {}).items():
            with told_of(f"hub.{key}: "):
                if key not in reads:
                    raise ValueError("no such key")
                taken[key] = reads[key](value)
        self.telnet, self.web, self.state, self.allow = taken.values()

    def may_come(self, peer):
        """Whether the file lets who has that address come to telnet and to the page. (one that has gone already has none)"""
        return bool(peer) and any(ipaddress.ip_address(peer[0].partition("%")[0]) in network for network in self.allow)

    def serves(self, call):
        """Whether a console is opened for that call: any but those of members and those that the file denies."""
        return bool(CALL.fullmatch(call)) and call not in self.refused + self.calls


@contextlib.contextmanager
def told_of(where):
    """What is wrong is told with its place."""
    try:
        yield
    except (TypeError, ValueError) as fault:
        raise Wrong(f"{where}{fault}") from fault


def port_of(count, table):
    """A port by its place in the file."""
    place, channel, peers = carrier(table["tnc"]) if "tnc" in table else (("none", count), 0, ())
    parameters = {command: table[key] for key, command in PARAMETERS.items() if key in table}
    wrong = [value for value in parameters.values() if type(value) is not int or not 0 <= value <= 255]
    if wrong or parameters and place[0] not in ("tcp", "serial"):
        raise ValueError(f"{', '.join(PARAMETERS)}: 0 to 255, of a TNC on TCP or a serial line")
    return PortSettings(count, table.get("name", str(count + 1)), table.get("tnc", ""), place, channel, peers, parameters)


def carrier(text):
    """What carries a port: its place, the KISS port there, and the peers of AXUDP."""
    if found := TCP.fullmatch(text):
        return ("tcp", *address(found[1])), number(found[2] or 0, 0, 15), ()
    if found := SERIAL.fullmatch(text):
        if not hasattr(termios, f"B{found[2]}") or found[2] == "0":
            raise ValueError(f"{found[2]}: no speed of a serial line, as 9600")
        return ("serial", found[1], int(found[2])), number(found[3] or 0, 0, 15), ()
    if found := AXUDP.fullmatch(text):
        return ("axudp", number(found[1], 1, 65535)), 0, [address(peer) for peer in re.findall(ADDRESS, found[2])]
    raise ValueError(f"{text}: tcp:HOST:PORT, tcp:HOST:PORT:N, serial:DEVICE:SPEED, or axudp:LISTEN:HOST:PORT")


def number(text, least, most):
    """A number in that range."""
    if not least <= int(text) <= most:
        raise ValueError(f"{text}: {least} to {most}")
    return int(text)


def address(text):
    """HOST:PORT."""
    if not re.fullmatch(ADDRESS, str(text)):
        raise ValueError(f"{text}: HOST:PORT, as 127.0.0.1:8510")
    host, _, port = text.rpartition(":")
    return host.strip("[]"), number(port, 1, 65535)
