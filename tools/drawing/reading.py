"""The trace of a network, read back from its JSON lines (docs/trace.md)."""

import json
import re

from .frames import printable, read_frame

# words of lines that declare, and so stand before the first act
DECLARING = ("version", "node", "channel", "set", "via")


class Run:
    """What a trace tells. Frames and lines are numbered from 1, events from 0."""

    def __init__(self, name):
        self.name = name
        self.lines, self.nodes, self.numbers = [], {}, {}
        self.channels, self.settings, self.paths = [], {}, {}
        self.steps = []                 # (line, kind, words behind it)
        self.frames, self.events = [None], []
        self.tables, self.ends, self.partners = {}, {}, {}
        self.mail = {}                  # of each node that keeps mail: how many are queued, and how many stored
        self.verdict, self.late = "", None
        # what the drawing adds
        self.link, self.overheard, self.page, self.order = "", True, False, None
        self.about, self.lost, self.hearers, self.why = [], {}, {}, ""
        self.red_deliveries, self.red_frames, self.late_beat = set(), set(), None


def read_trace(text, name=""):
    """The run that these lines tell of."""
    run = Run(name)
    for line in text.splitlines():
        told = json.loads(line)
        kind = told.pop("kind")
        HEADS.get(kind, add_event)(run, kind, told)
    return run


def add_network(run, kind, told):
    run.version = told["version"]


def add_node(run, kind, told):
    n = told["node"]
    run.nodes[n] = (told["call"], told["alias"])
    run.numbers[told["call"]] = n
    run.settings[n], run.paths[n], run.tables[n], run.ends[n] = {}, {}, [], []


def add_channel(run, kind, told):
    run.channels.append(told["nodes"])


def add_setting(run, kind, told):
    run.settings[told["node"]][told["key"]] = told["value"]


def add_path(run, kind, told):
    run.paths[told["node"]][told["peer"]] = told["repeaters"]


def add_line(run, kind, told):
    text = told["text"]
    run.lines.append(text)
    words = text.split()
    if words and not text.startswith("#") and words[0] not in DECLARING:
        run.steps.append((told["line"], words[0], args_of(text, words)))


def args_of(text, words):
    """What stands behind the first word: numbers as numbers, and what is said as one text."""
    if words[0] == "say":
        node, end, said = re.fullmatch(r" *say +(\d+) +(\d+) (.*)", text).groups()
        return [int(node), int(end), said]
    return [int(w) if w.isdecimal() else w for w in words[1:]]


def add_event(run, kind, told):
    """An event, as it is told; a table that was shown gathers its routes."""
    line = told.pop("line")
    if kind == "shown_route":
        run.events[-1][2]["rows"].append(row_of(told))
        return
    if kind == "shown":
        told["rows"] = []
    elif kind == "frame":
        octets = bytes.fromhex(told["octets"])
        run.frames.append(read_frame(told["node"], octets, told["modulo"], run.numbers))
    elif kind == "made":
        run.partners[told["node"], told["end"]] = told["partner"]
    elif kind == "notice":
        told["partner"] = run.partners[told["node"], told["end"]]
    elif kind == "took":
        octets = told["text"].encode("latin-1")
        told["text"] = printable(octets)
        told["lines"] = [printable(part) for part in octets.replace(b"\r", b"\n").split(b"\n")]
    run.events.append((line, kind, told))


def row_of(told):
    """A route as a report shows it: destination, alias, neighbour, quality, count."""
    count = "locked" if told["count"] is None else str(told["count"])
    return [told["dest"], told["alias"], told["neighbour"], str(told["quality"]), count]


def add_table(run, kind, told):
    run.tables[told["node"]] = []


def add_route(run, kind, told):
    run.tables[told["node"]].append(row_of(told))


def add_end(run, kind, told):
    phase = "lost" if told["outcome"] == "lost" else told["phase"]
    run.ends[told["node"]].append((told["end"], told["partner"], phase, told["wrote"], told["received"], told["acked"]))


def add_mail(run, kind, told):
    run.mail[told["node"]] = (told["queued"], told["stored"])


def add_verdict(run, kind, told):
    run.verdict = f"verdict late {told['line']} {told['why']}" if told["late"] else "verdict done"
    if told["late"]:
        run.late = dict(line=told["line"], why=told["why"])


def add_cause(run, kind, told):
    """By what the verdict shows: the event that came too late, and what it is late to."""
    at = told["event"] - 1
    event = run.events[at][2]
    run.late.update(event=at, node=event["node"], end=event["end"], sign=told["sign"], sent_event=None,
                    overtakers=told.get("overtakers"), allowance=told.get("allowance"), holder=None)
    if told["sign"] == "overtaken":
        run.late["sent_event"] = told["sent"] - 1
    if "index" in event:
        run.late["pair"] = (event["index"], event["ident"])
    if told["sign"] == "held":
        run.late["holder"] = (told["node"], told["end"])


HEADS = {"network": add_network, "node": add_node, "channel": add_channel, "setting": add_setting,
         "path": add_path, "line": add_line, "table": add_table, "route": add_route, "end": add_end,
         "mail": add_mail, "verdict": add_verdict, "cause": add_cause}
