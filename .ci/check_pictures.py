"""Checks the picture of each network in examples/ (or of these files).

It is well formed XML; no text meets another one, leaves the picture, or is met by an arrow; and where nothing is folded, each frame has
as many arrows as it was delivered, a cross exactly where it was lost, and a ring exactly where neither. Where a picture stands beside a
network, NAME.svg, it is that one. A network that is refused has none, and the note beside it, NAME.notes. Files with words of their own,
NAME.args, are for other commands. The traces are those of ./wursthatch-look, or of the program that WURSTHATCH_LOOK names. Where no files
are named, words and streams that ./picture can't take are tried, too.
"""

import glob
import os
import re
import subprocess
import sys
import tempfile
import xml.etree.ElementTree as ET

sys.dont_write_bytecode = True
TOP = os.path.dirname(os.path.dirname(os.path.realpath(__file__)))
sys.path.insert(0, os.path.join(TOP, "tools"))

from drawing.main import TOO_LATE, trace_of       # noqa: E402
from drawing.pages import page                    # noqa: E402
from drawing.pictures import draw                 # noqa: E402
from drawing.reading import read_trace            # noqa: E402
from drawing.styles import EM, FONT, SMALL        # noqa: E402

SVG = "{http://www.w3.org/2000/svg}"
SPEC = re.compile(r"([MLlhHvVaz])|(-?\d*\.?\d+)")
WIDTHS = {15: .62, 12: .55}                        # of a character over its size, where it isn't monospaced
USUAL = (4, 12, 600)                               # as ./picture folds without words: keep, fold, rows
NEVER = 10 ** 9                                    # longer than any run: nothing is folded
LOOK = """#!/bin/sh
cat >/dev/null
echo '{"kind":"network","version":4}{"kind":"node","node":1,"call":"N0AAA","alias":"A"}{"kind":"verdict","late":false}' | sed 's/}{/}\\n{/g'
"""                                                # stands in for wursthatch-look where only words and streams are tried
RUNS = (                                           # words and redirections of ./picture, and its status
    ("page=0", 0), ("page=1 order=1", 0), ("keep=1 fold=2 rows=3 overheard=0 $FILE", 0), ("$ODD", 0),
    ("--help", 2), ("page=2", 2), ("keep=", 2), ("keep=-1", 2), (f"keep={'9' * 5000}", 2), ("$FILE $FILE", 2),
    ("order=2", 2), ("order=1,1", 2),
    ("/no/file", 4), ("<&-", 4), (">&-", 5), (">/dev/full", 5), ("--help 2>&-", 2),
)


def size_of(classes):
    return 15 if "t" in classes else 12 if "u" in classes else SMALL if "s" in classes else FONT


def box_of(text):
    """Left, top, right, bottom of a text."""
    classes = (text.get("class") or "").split()
    said, size = "".join(text.itertext()), size_of(classes)
    w = len(said) * size * WIDTHS.get(size, EM)
    x, y = float(text.get("x")), float(text.get("y"))
    x -= w / 2 if "mid" in classes else w if "end" in classes else 0
    return x, y - size * .72, x + w, y + size * .2, said


def strokes_of(path):
    """The straight strokes of a path of M and L."""
    at, out, op, numbers = None, [], None, []
    for letter, number in SPEC.findall(path.get("d")):
        op = letter or op
        numbers = [] if letter else numbers + [float(number)]
        if len(numbers) == 2 and op in "ML":
            if op == "L":
                out.append((at, tuple(numbers)))
            at, numbers = tuple(numbers), []
    return out


def meets(stroke, box):
    """A stroke goes through the inner part of a box (Liang and Barsky)."""
    (xa, ya), (xz, yz) = stroke
    x0, y0, x1, y1 = box[0] + 1, box[1] + 1, box[2] - 1, box[3] - 1
    low, high = 0.0, 1.0
    for step, gap_low, gap_high in ((xz - xa, x0 - xa, x1 - xa), (yz - ya, y0 - ya, y1 - ya)):
        if step == 0:
            if gap_low > 0 or gap_high < 0:
                return False
            continue
        a, z = sorted((gap_low / step, gap_high / step))
        low, high = max(low, a), min(high, z)
    return low < high


def overlap(a, b):
    return min(a[2], b[2]) - max(a[0], b[0]) > 1 and min(a[3], b[3]) - max(a[1], b[1]) > 1


def arrows_of(root):
    """All arrows: those that a class draws with heads, but for the samples of the key."""
    return [p for g in root.iter(SVG + "g") if (g.get("id") or "").startswith("f") for p in g.iter(SVG + "path")
            if "g" in (p.get("class") or "").split()]


def faults_of_texts(root, narrow):
    """Texts that meet another one, leave the picture, or are met by an arrow."""
    boxes = sorted((box_of(t) for t in root.iter(SVG + "text")), key=lambda b: b[1])
    width, height = float(root.get("width")), float(root.get("height"))
    for i, a in enumerate(boxes):
        if a[0] < 0 or a[2] > width + 1 or a[1] < 0 or a[3] > height:
            yield f"outside: {a[4]}"
        for b in boxes[i + 1:]:
            if b[1] >= a[3]:
                break
            if overlap(a, b):
                yield f"{a[4]} meets {b[4]}"
    if narrow:
        return                          # there the texts have a column of their own, and headings cover arrows
    for arrow in arrows_of(root):
        for stroke in strokes_of(arrow):
            low, high = sorted((stroke[0][1], stroke[1][1]))
            yield from (f"an arrow meets {b[4]}" for b in boxes if b[3] > low and b[1] < high and meets(stroke, b))


def faults_of_frames(root, run):
    """Frames with other arrows, crosses or rings than the trace has."""
    lost = {w["frame"] for _, kind, w in run.events if kind == "lost_frame"}
    went = {}
    for _, kind, w in run.events:
        if kind == "delivered":
            went[w["frame"]] = went.get(w["frame"], 0) + 1
    groups = {g.get("id"): g for g in root.iter(SVG + "g") if g.get("id")}
    for k in range(1, len(run.frames)):
        paths = [(p.get("class") or "", p.get("style") or "") for p in groups[f"f{k}"].iter(SVG + "path")]
        arrows = sum("g" in c.split() and "marker-end:none" not in s for c, s in paths)
        crosses = sum(c == "bad" for c, _ in paths)
        rings = len(list(groups[f"f{k}"].iter(SVG + "circle")))
        wanted = (went.get(k, 0), int(k in lost), int(k not in lost and k not in went))
        if (arrows, crosses, rings) != wanted:
            yield f"frame {k} has {(arrows, crosses, rings)}, not {wanted} (arrows, crosses, rings)"


def faults_of(path):
    with tempfile.TemporaryFile() as notes:
        status, text = trace_of(TOP, path, notes)
        notes.seek(0)
        noted = notes.read().decode("ascii")
    if status not in (0, TOO_LATE):
        if noted != kept_beside(path, ".notes", ""):
            yield f"status {status}, {noted!r}"
        return
    name = os.path.basename(path)
    for keep, longest, rows in (USUAL, (NEVER, NEVER, NEVER)):
        run = read_trace(text, name)
        drawn = draw(run, keep, longest, rows)
        if keep == USUAL[0] and drawn != kept_beside(path, ".svg", drawn):
            yield "the picture beside it is another one: ./picture draws it anew"
        root = ET.fromstring(drawn)
        yield from faults_of_texts(root, len(run.nodes) > 6)
    yield from faults_of_frames(root, run)
    run = read_trace(text, name)
    run.page = True
    whole = page(run, draw(run, *USUAL))
    if not whole.endswith("</html>\n"):
        yield "the page has no end"
    if ":root{color-scheme:light dark}" not in whole:
        yield "the page isn't dark where the reader likes that"


def faults_of_runs():
    """Words and streams that ./picture answers in another way, or with more than a line."""
    with tempfile.TemporaryDirectory() as room:
        look, file = os.path.join(room, "look"), os.path.join(room, "a.net")
        odd = os.path.join(os.fsencode(room), b"\xff.net")
        for path, text in (look, LOOK), (file, ""), (odd, ""):
            with open(path, "w", encoding="ascii") as kept:
                kept.write(text)
        os.chmod(look, 0o755)
        own = {**os.environb, b"WURSTHATCH_LOOK": os.fsencode(look), b"FILE": os.fsencode(file), b"ODD": odd}
        for words, wanted in RUNS:
            ran = subprocess.run(["sh", "-c", f"./picture {words}"], cwd=TOP, env=own, stdin=subprocess.DEVNULL,
                                 capture_output=True, check=False)
            if ran.returncode != wanted or ran.stderr.count(b"\n") > 1 or (wanted != 0) == bool(ran.stdout):
                yield f"./picture {words[:40]}: status {ran.returncode}, {ran.stderr[-200:]}"


def kept_beside(path, ending, otherwise):
    """What is kept beside a network in the file with this ending, or the other where there is none."""
    try:
        with open(os.path.splitext(path)[0] + ending, encoding="utf-8") as kept:
            return kept.read()
    except FileNotFoundError:
        return otherwise


def examples():
    """The networks that have a picture: those with words of their own are for other commands."""
    return sorted(path for path in glob.glob(os.path.join(TOP, "examples", "*.net")) if kept_beside(path, ".args", None) is None)


def main(paths):
    rows = [(os.path.basename(path), faults_of(path)) for path in paths or examples()]
    if not paths:
        rows.append(("words and streams", faults_of_runs()))
    failed = 0
    for name, found in rows:
        faults = list(found)
        failed += bool(faults)
        for fault in faults[:5]:
            print(f"{name}: {fault}")
    print(f"{len(rows) - failed} passed, {failed} failed")
    return bool(failed)


sys.exit(main(sys.argv[1:]))
