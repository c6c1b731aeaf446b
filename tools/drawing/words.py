"""The words on frames, and texts that have to fit."""

from .styles import EM, FONT


def width(text, size=FONT):
    return len(text) * size * EM


def cut_to(text, chars):
    return text if len(text) <= chars else text[:max(0, chars - 1)] + "…"


def wrap(text, chars, most):
    """At most `most` lines of at most `chars` characters, broken at spaces where that works."""
    out, rest = [], text
    while rest:
        if len(rest) <= chars:
            out.append(rest)
            break
        if len(out) == most - 1:
            out.append(cut_to(rest, chars))
            break
        at = rest.rfind(" ", 1, chars + 1)
        at = at if at > chars // 3 else chars
        out.append(rest[:at])
        rest = rest[at:].lstrip(" ")
    return out


def clock(ms):
    s, ms = divmod(ms, 1000)
    text = f"{s // 3600}:{s // 60 % 60:02}:{s % 60:02}"
    return text + (f".{ms:03}" if ms else "")


def plural(n, word, many=None):
    return f"{n:,} {word if n == 1 else many or word + 's'}"


def route_of(run, f):
    """`1›4` where the datagram goes further than this hop, else nothing."""
    d = f["dg"]
    if d["origin"] == f["src"] and d["dest"] == f["dst"]:
        return ""
    def name(c):
        return str(run.numbers.get(c, c))
    return f" {name(d['origin'])}›{name(d['dest'])}"


def labels(run, f):
    """(class, the label's forms from long to short)."""
    kind, bits = f["kind"], ""
    if kind == "I":
        bits = f"I {f['ns']}/{f['nr']}" + (" P" if f["pf"] else "") + " "
    again = " again" if f.get("again") else ""
    if "nodes" in f:
        n = len(f["nodes"])
        return "n", [f"NODES {n} {'entry' if n == 1 else 'entries'}", f"NODES {n}"]
    if "dg" in f:
        d, way = f["dg"], route_of(run, f)
        k = d["kind"]
        flags = "".join(" " + w for w in ("choke", "nak") if d[w])
        if k == "Info":
            head = f"info {d['tx']}" + (f" ack {d['rx']}" if d["rx"] else "") + (" more" if d["more"] else "")
            say = f" “{d['text']}”" if d["size"] <= 60 else f" {d['size']} bytes"
            return "i", [bits + head + flags + way + again + say, bits + head + flags + way + again,
                         bits + f"info {d['tx']}" + flags + way]
        if k == "InfoAck":
            return "a", [bits + f"ack {d['rx']}" + flags + way]
        names = {"Request": ["circuit request", "request"], "Accept": ["circuit accept", "accept"],
                 "Refuse": ["circuit refuse", "refuse"], "Disconnect": ["disconnect"],
                 "Disconnected": ["disconnect ack", "disc ack"]}[k]
        more = f" w{d['window']}" if k in ("Request", "Accept") else ""
        return "c", ([bits + names[0] + way + again + more, bits + names[0] + way + again]
                     + [bits + n + way + again for n in names[1:]] + [bits + names[-1] + way, bits + names[-1]])
    if kind == "I" or kind == "UI":
        if "say" in f:
            return "i", [(bits or "UI ") + f"“{f['say']}”", (bits or "UI ") + plural(f["len"], "byte")]
        what = {0x08: "segment", 0xCC: "IP", 0xCD: "ARP", 0xCF: "NET/ROM"}.get(f["pid"], f"pid {f['pid']:02X}")
        return "i", [(bits or "UI ") + what]
    if kind in ("RR", "RNR", "REJ", "SREJ"):
        p = (" P" if " cmd " in f["text"] else " F") if f["pf"] else ""
        return "l" if kind != "RR" or f["pf"] else "a", [f"{kind} {f['nr']}{p}"]
    return "l", [kind + again, kind]


def story(run, k):
    """All of a frame, for its tooltip."""
    f = run.frames[k]
    out = [f"frame {k}: {f['text']}"]
    if f["forwarded"] and f["path"]:
        out.append("repeated here")
    if "dg" in f:
        d = f["dg"]
        out.append(f"datagram {d['origin']} to {d['dest']}, time to live {d['ttl']}: {d['kind']}"
                   + (f" tx {d['tx']} rx {d['rx']}" if d["kind"] == "Info" else "")
                   + (f" rx {d['rx']}" if d["kind"] == "InfoAck" else "")
                   + (f" to pair {d['to'][0]}/{d['to'][1]}" if d["to"] else "")
                   + (f", own pair {d['own'][0]}/{d['own'][1]}, window {d['window']}" if d["own"] else "")
                   + "".join(f", {w}" for w in ("choke", "nak", "more") if d[w]))
        if d["kind"] == "Info":
            out.append(f"“{cut_to(d['text'], 240)}”")
    for dest, alias, best, q in f.get("nodes", ()):
        out.append(f"{alias}:{dest} over {best} quality {q}")
    if "say" in f:
        out.append(f"“{cut_to(f['say'], 240)}”")
    return out
