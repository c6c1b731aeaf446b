"""What the page, /status.json and /metrics show: what the hub counts, what the station tells, and what the frames that pass say."""

import collections
import json
import time

from hub import ax25

MOST, MOST_HEARD = 512, 32              # links and nodes; calls that were heard at a port
SET_UPS = {"SABM": 8, "SABME": 128}     # and the modulo of the link


class Board:
    """What is known of the station now."""

    def __init__(self, settings, ports, child, consoles):
        self.settings, self.ports, self.child, self.consoles, self.since = settings, ports, child, consoles, round(time.time())
        self.frames, self.notes, self.told = (collections.deque(maxlen=most) for most in (100, 20, 50))
        self.status, self.links, self.modulos, self.heard, self.neighbours = {}, {}, {}, {}, {}

    def entry(self, told, text):
        """An object that the station tells: the hub looks for its status, and for its links."""
        self.told.append((round(time.time()), text))
        self.status = told["status"] if isinstance(told.get("status"), dict) else self.status
        link = str(told.get("member")), str(told.get("link"))
        if told.get("what") == "opened" and "link" in told:
            put(self.links, link, {"member": link[0], "peer": link[1], "since": round(time.time())}, MOST)
        elif told.get("what") != "reset":
            self.links.pop(link, None)

    def see(self, port, octets, is_out):
        """A frame that passes at the port of that name: whether it is another node's broadcast of its routes."""
        frame, now = ax25.read(octets), round(time.time())
        ends = frame and frozenset((frame.dest, frame.source))
        if frame and frame.kind in SET_UPS:
            put(self.modulos, ends, SET_UPS[frame.kind], MOST)
        elif self.modulos.get(ends) == 128:
            frame = ax25.read(octets, 128)
        text = frame.show() if frame else f"no frame of AX.25, {len(octets)} octets"
        self.frames.append((now, port, "out" if is_out else "in", text))
        if not frame or is_out:
            return False
        own, hop = self.heard.setdefault(port, {}), next((call for call, repeated in reversed(frame.via) if repeated), frame.source)
        put(own, hop, (own.get(hop, (0, 0))[0] + 1, now), MOST_HEARD)
        is_node = bool(frame.alias()) and frame.source not in self.settings.calls
        if is_node:
            put(self.neighbours, frame.source, {"call": frame.source, "alias": frame.alias(), "port": port, "when": now}, MOST)
        return is_node

    def users(self):
        """Who is served at a console, or over a link. (a node that broadcasts is no user)"""
        links = [link for link in self.links.values() if link["peer"] not in self.neighbours]
        return [{"call": console.call, "where": "console", "since": console.since} for console in self.consoles.held.values()] + [
            {"call": link["peer"], "where": link["member"], "since": link["since"]} for link in links]

    def parts(self):
        """Everything, by parts."""
        minute = int(time.time() // 60)
        return {
            "now": round(time.time(), 1),
            "station": {"name": self.settings.name, "since": self.since, "status": self.status,
                        "stalled": int(time.monotonic() - self.child.since_taken)},
            "ports": [{"name": port.name, "tnc": port.settings.tnc, "there": port.is_there, "state": port.state,
                       "since": round(port.since), "heard": port.totals[0], "sent": port.totals[1], "dropped": dict(port.dropped),
                       "minutes": [port.minutes.get(minute - back, [0, 0, 0]) for back in range(59, -1, -1)]} for port in self.ports],
            "notes": list(self.notes),
            "members": self.settings.members,
            "users": self.users(),
            "links": list(self.links.values()),
            "neighbours": list(self.neighbours.values()),
            "heard": [[port, call, *row] for port, own in self.heard.items() for call, row in own.items()],
            "frames": list(self.frames),
            "told": list(self.told),
        }

    def metrics(self):
        """In the text format of Prometheus."""
        rows = [("up_seconds", {}, round(time.time()) - self.since), ("users", {}, len(self.users())), ("links", {}, len(self.links)),
                ("neighbours", {}, len(self.neighbours)), ("stalled_seconds", {}, round(time.monotonic() - self.child.since_taken))]
        for port in self.ports:
            rows.append(("port_up", {"port": port.name}, int(port.is_there)))
            rows += [("frames_total", {"port": port.name, "way": way}, port.totals[count]) for count, way in enumerate(("in", "out"))]
            rows += [("dropped_total", {"port": port.name, "why": why}, count) for why, count in port.dropped.items()]
        rows += [("status", {"field": key}, value) for key, value in self.status.items() if type(value) in (int, float)]
        text = ""
        for name, labels, value in sorted(rows, key=lambda row: row[0]):
            shown = ",".join(f"{key}={json.dumps(label, ensure_ascii=False)}" for key, label in labels.items())
            text += f"wursthatch_{name}{shown and '{' + shown + '}'} {value}\n"
        return text


def put(kept, key, value, most):
    """As the latest one; the oldest goes where there are too many."""
    kept.pop(key, None)
    kept[key] = value
    if len(kept) > most:
        del kept[next(iter(kept))]
