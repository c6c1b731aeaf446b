"""The picture of a replay: a network file in, one self-contained SVG out.

    ./picture FILE.net > FILE.svg        (or from standard input)

Words: keep=N   deliveries shown at each end of a folded run (4)
       fold=N   runs of routine deliveries longer than this are folded (12)
       overheard=0   without the thin lines to those that only overhear a frame
       page=1   an HTML page around the picture
       order=N,N,...  the lanes from left to right, each node of the file once, by its number
       rows=N   when the picture would have more rows than this, it is folded harder (600)
"""

import os
import re
import subprocess
import sys

from .pages import page
from .pictures import draw
from .reading import read_trace

USAGE = "usage: picture [FILE] [keep=N] [fold=N] [overheard=0|1] [page=0|1] [order=N,N,...] [rows=N]"
DEFAULTS = {"keep": 4, "fold": 12, "rows": 600, "overheard": 1, "page": 0}
FORMS = {"keep": "[0-9]{1,9}", "fold": "[0-9]{1,9}", "rows": "[0-9]{1,9}", "overheard": "[01]", "page": "[01]",
         "order": "[0-9]{1,9}(,[0-9]{1,9})*"}
NO_PICTURE, NOT_READ, NOT_WRITTEN, TOO_LATE = 2, 4, 5, 7    # statuses; in a trace of the last something came too late


def read_words(words):
    """(options, order, file), or None where the words ask for no picture."""
    options, order, path = dict(DEFAULTS), None, None
    for word in words:
        key, eq, value = word.partition("=")
        if eq and key in FORMS:
            if not re.fullmatch(FORMS[key], value):
                return None
            if key == "order":
                order = [int(x) for x in value.split(",")]
            else:
                options[key] = int(value)
        elif path is None and not word.startswith("-"):
            path = word
        else:
            return None
    return options, order, path


def program_of(top):
    """The program that writes traces: the one that WURSTHATCH_LOOK names, that of this folder, or that of the system."""
    beside = os.path.join(top, "wursthatch-look")
    return os.environ.get("WURSTHATCH_LOOK") or (beside if os.path.exists(beside) else "wursthatch-look")


def trace_of(top, path, notes=None):
    """(status, the lines) of `wursthatch-look trace`. Its notes go to standard error, or to this file."""
    with open(path or 0, "rb", closefd=bool(path)) as source:
        told = subprocess.run([program_of(top), "trace"], stdin=source, stdout=subprocess.PIPE, stderr=notes, check=False)
    return told.returncode, told.stdout.decode("ascii")


def say(text):
    """To standard error, if that can be written."""
    try:
        os.write(2, f"{text}\n".encode("utf-8", "backslashreplace"))
    except OSError:
        pass


def write(text):
    """To standard output, at once, so that nothing is left to be written at the end. Whether it could be."""
    try:
        octets = text.encode("utf-8")
        while octets:
            octets = octets[os.write(1, octets):]
    except OSError as fault:
        say(f"picture: standard output: {fault.strerror}")
        return False
    return True


def main(top, words):
    asked = read_words(words)
    if asked is None:
        say(USAGE)
        return NO_PICTURE
    if sys.stdout is None:              # (a file that is opened would take its place)
        say("picture: standard output is closed")
        return NOT_WRITTEN
    options, order, path = asked
    try:
        status, text = trace_of(top, path)
    except OSError as fault:
        say(f"picture: {fault.filename or 'standard input'}: {fault.strerror}")
        return NOT_READ
    if status not in (0, TOO_LATE):
        return status
    run = read_trace(text, os.fsencode(os.path.basename(path or "")).decode("utf-8", "replace"))
    if order and sorted(order) != sorted(run.nodes):
        say(f"picture: order={','.join(map(str, order))}: the nodes are {','.join(map(str, sorted(run.nodes)))}, each once")
        return NO_PICTURE
    run.order, run.overheard, run.page = order, options["overheard"], options["page"]
    picture = draw(run, options["keep"], options["fold"], options["rows"])
    return status if write(page(run, picture) if run.page else picture) else NOT_WRITTEN
