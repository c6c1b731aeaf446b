"""Time and peak memory of a command, and how it compares with another one, for the scripts beside this file."""
import os
import re
import shutil
import statistics
import subprocess
import sys

TOP = os.path.dirname(os.path.dirname(os.path.realpath(__file__)))

# Runs a command in a small process of its own, since a child is charged with the memory of whoever starts it.
RUN = """
import os, subprocess, sys, time
with open(sys.argv[1], "rb") as source:
    begin = time.perf_counter()
    child = subprocess.Popen(sys.argv[2:], stdin=source, stdout=subprocess.DEVNULL, stderr=subprocess.DEVNULL)
    _, status, usage = os.wait4(child.pid, 0)
    print(time.perf_counter() - begin, usage.ru_maxrss)
sys.exit(status != 0)
"""


def program(crate):
    """The built program of a crate, or the one that ./build leaves in out/ under this name."""
    if crate in ("wursthatch", "wursthatch-look", "wursthatch-station"):
        return os.path.join(TOP, "out", crate)
    return os.path.join(TOP, "crates", crate, "out", crate)


def build_wursthatch():
    """Proves and builds the program where its sources have changed."""
    subprocess.run([os.path.join(TOP, "build")], check=True)


def build(crate, *words):
    """Builds the program of a crate, which proves it, and runs it once with these words."""
    subprocess.run(["rt", "run", "--", *words], cwd=os.path.join(TOP, "crates", crate), stdout=subprocess.DEVNULL, check=True)


def run(command, path=os.devnull):
    """Seconds and peak KiB of one run over a file; the least that can be told is the memory of the measuring process."""
    told = subprocess.run([sys.executable, "-S", "-E", "-c", RUN, path, *command], capture_output=True, text=True)
    if told.returncode != 0:
        sys.exit(f"{command[0]} failed")
    seconds, peak = told.stdout.split()
    return float(seconds), int(peak)


def shortest(command, path=os.devnull, times=3):
    """The seconds of the shortest of some runs, and the largest peak."""
    runs = [run(command, path) for _ in range(times)]
    return min(runs)[0], max(one[1] for one in runs)


def instructions(command, path=os.devnull):
    """The instructions of one run with all that it starts, by valgrind, which counts them however busy the machine is; none without it."""
    if not shutil.which("valgrind"):
        return None
    counted = ["valgrind", "--tool=callgrind", "--callgrind-out-file=/dev/null", "--trace-children=yes"]
    with open(path, "rb") as source:
        told = subprocess.run(counted + command, stdin=source, stdout=subprocess.DEVNULL, stderr=subprocess.PIPE, text=True)
    return sum(int(count) for count in re.findall(r"Collected : (\d+)", told.stderr)) or None


def heads(other):
    """The heads of what `beside` prints."""
    return f" {'other s':>8} {'least':>6} {'median':>7} {'pairs':>6} {'instructions':>13}" if other else ""


def beside(command, other, path=os.devnull, few=5):
    """Seconds of the shortest run, the largest peak, and what a row tells of another command, where there is one.

    Fifteen runs of each then take turns. A row has the other's shortest run, and how many times its time the command takes: by the
    shortest runs, by the medians, by the median of the pairs of neighbouring runs, and by instructions. The pairs tell most where the
    machine's speed changes.
    """
    if not other:
        return (*shortest(command, path, few), "")
    turns = [(run(command, path), run(other, path)) for _ in range(15)]
    ours, others = [one[0] for one, _ in turns], [one[0] for _, one in turns]
    pairs = statistics.median(one / another for one, another in zip(ours, others))
    told = f" {min(others):8.3f} {min(ours) / min(others):6.2f} {statistics.median(ours) / statistics.median(others):7.2f} {pairs:6.2f}"
    counts = instructions(command, path), instructions(other, path)
    told += f" {counts[0] / counts[1]:13.2f}" if None not in counts else f" {'-':>13}"
    return min(ours), max(peak for (_, peak), _ in turns), told
