"""Rows: what a program is given, and what has to come of it. examples/rows/README.md says how they are written."""
import os
import re
import subprocess
import sys

TOP = os.path.dirname(os.path.dirname(os.path.realpath(__file__)))
ROWS = os.path.join(TOP, "examples", "rows")
STATION = os.path.join(TOP, "examples", "station")
STREAMS = "node", "ip", "frames"
FEND = b"\xC0"


ESCAPED = {"n": "\n", "r": "\r", "t": "\t", "\\": "\\"}


def bytes_of(text):
    """A text with escapes, as bytes."""
    return re.sub(r"\\(x..|.)", lambda found: ESCAPED.get(found[1]) or chr(int(found[1][1:], 16)), text).encode()


def call(name, last):
    """A call in seven octets, the last of which is given whole."""
    return bytes(ord(letter) << 1 for letter in name.ljust(6)) + bytes([last])


WORD = re.compile(r"(?:([A-Z0-9]+):([0-9A-F]{2})|'([^']*)'|([0-9A-F]{2}))(?:\*(\d+))?(?: |$)")


def octets(text):
    """Octets: pairs of digits; CALL:LL, a call's letters and its last octet; 'TEXT'; and any of these as often as *COUNT says."""
    if WORD.sub("", text):
        sys.exit(f"no octets: {text}")
    found = b""
    for name, last, quoted, pair, count in WORD.findall(text):
        one = call(name, int(last, 16)) if name else bytes([int(pair, 16)]) if pair else quoted.encode()
        found += one * int(count or 1)
    return found


def kiss(frame, port=0):
    """A frame as KISS bytes."""
    return FEND + bytes([port << 4]) + frame.replace(b"\xDB", b"\xDB\xDD").replace(FEND, b"\xDB\xDC") + FEND


class Row:
    """What a program is given: words and input; and what has to come of it: output, or lines that stand in it, notes, status."""

    def __init__(self, place, words):
        self.place, self.words = place, words
        self.input, self.output, self.among, self.notes, self.status = b"", b"", [], None, 0
        self.is_whole, self.folder = False, None

    def add(self, mark, text):
        self.is_whole = True
        is_stream = self.words[:1] and self.words[0] in STREAMS
        if mark == "<<":
            self.input += octets(text)
        elif mark == "<":
            self.input += kiss(octets(text)) if is_stream else bytes_of(text) + b"\n"
        elif mark == ">":
            self.output += kiss(octets(text)) if is_stream and self.words[0] != "frames" else text.encode() + b"\n"
        elif mark == "@":
            port, _, frame = text.partition(" ")
            self.input += f"!heard {port} {octets(frame).hex().upper()}\n".encode()
        elif mark == "~":
            self.among.append(text.encode())
        elif mark == "!":
            self.notes = text.encode() + b"\n"
        else:
            self.status = int(text)

    def fault(self, program):
        """What is wrong with a run, if anything is."""
        ran = subprocess.run([*program, *self.words], input=self.input, capture_output=True, cwd=self.folder)
        if ran.returncode != self.status:
            return f"status {ran.returncode}"
        if self.notes not in (None, ran.stderr):
            return f"other notes: {ran.stderr}"
        missing = [line for line in self.among if line not in ran.stdout.splitlines()]
        if missing:
            return f"no line {missing[0].decode()}"
        if not self.among and ran.stdout != self.output:
            return f"another output: {ran.stdout[:2000]}"
        return None


USAGE = open(os.path.join(TOP, "examples", "no-words.notes"), "rb").read()


def rows_of(name, folder=ROWS):
    """The rows of a file."""
    rows, words = [], []
    with open(os.path.join(folder, name), encoding="utf-8") as lines:
        for number, line in enumerate(lines, 1):
            mark, _, text = line.rstrip("\n").partition(" ")
            place = f"{name}:{number}"
            if mark in ("", "#"):
                continue
            if mark == "$":
                words = text.split(" ")
                rows.append(Row(place, words))
            elif mark == "?":
                given, _, told = text.rpartition(" -> ")
                rows.append(Row(place, words))
                rows[-1].input, rows[-1].is_whole = bytes_of(given), True
                if told == "good":
                    rows[-1].among = [b"verdict done"] if words == ["replay"] else []
                else:
                    rows[-1].status, rows[-1].notes = 3, told.encode() + b"\n"
            elif mark == "-":
                rows.append(Row(place, [bytes_of(word).decode() for word in text.split(" ")]))
                rows[-1].status, rows[-1].notes, rows[-1].is_whole = 2, USAGE, True
            elif mark == "+":
                rows.append(Row(place, text.split(" ")))
                rows[-1].is_whole = True
            elif mark in ("<<", "<", "@", ">", "~", "!", "="):
                rows[-1].add(mark, text)
            else:
                sys.exit(f"{place}: no row begins so")
    return [row for row in rows if row.is_whole]
