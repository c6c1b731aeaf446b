"""The report of a replay, told anew from its trace (docs/report.md)."""


def report_lines(run):
    """Each line of the report."""
    out = []
    for line, kind, w in run.events:
        tell = EVENTS.get(kind)
        out += tell(run, line, w) if tell else []
    for n in sorted(run.nodes):
        out += table_lines(run, n, run.tables[n])
        out += [f"end {n} {x} {partner} {phase} wrote={wrote} received={received} acked={acked}"
                for x, partner, phase, wrote, received, acked in run.ends[n]]
        if n in run.mail:
            queued, stored = run.mail[n]
            out.append(f"mail {n} queued={queued} stored={stored}")
    return out + [run.verdict]


def table_lines(run, n, rows):
    call, alias = run.nodes[n]
    return [f"table {n} {call} {alias}"] + ["route " + " ".join(row) for row in rows]


def notice_line(run, line, w):
    told = f"event {w['node']} {w['end']} {w['what']}"
    return [told + (f" {w['partner']} window {w['window']}" if w["what"] == "opened" else "")]


EVENTS = {
    "frame": lambda run, line, w: [f"air {w['frame']} {w['node']} {run.frames[w['frame']]['text']}"],
    "link": lambda run, line, w: [f"link {w['node']} {w['peer']} {w['what']}"],
    "overflow": lambda run, line, w: [f"overflow {w['node']} {w['live']} {w['would_be']}"],
    "notice": notice_line,
    "dropped": lambda run, line, w: [f"dropped {w['node']} {w['why']}"] if w["why"] else [],
    "shown": lambda run, line, w: table_lines(run, w["node"], w["rows"]),
    "took": lambda run, line, w: [f"took {w['node']} {w['end']} {w['bytes']} {w['text']}"],
    "wrote": lambda run, line, w: [f"wrote {w['node']} {w['end']} {w['messages']}"],
    "restarted": lambda run, line, w: [f"restarted {w['node']}"],
    "refused": lambda run, line, w: [f"refused {line} {w['why']}"],
    "posted": lambda run, line, w: [f"posted {w['node']} {w['mail']}"],
    "stored": lambda run, line, w: [f"stored {w['node']} {w['origin']} {w['mail']} {w['to']} {w['bytes']}"],
    "settled": lambda run, line, w: [f"done {w['node']} {w['mail']}"],
}
