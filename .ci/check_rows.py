#!/usr/bin/env python3
"""check_rows.py PROGRAM WORD..: runs the program on the rows of examples/rows/, and on those that are made in rows_of_text.py and
rows_of_streams.py; check_rows.py --station PROGRAM WORD.. runs wursthatch-station on those of examples/station/. The last line counts
them."""
import itertools
import os
import sys

import rows_of_streams
import rows_of_text
from rows import ROWS, STATION, rows_of


def of_station():
    """Rows of wursthatch-station, which runs where its files are."""
    for row in rows_of("station.rows", STATION):
        row.folder = STATION
        yield row


def main():
    program = sys.argv[1:]
    passed = failed = 0
    if program[:1] == ["--station"]:
        program = [os.path.abspath(program[1]), *program[2:]]
        rows = of_station()
    else:
        written = (row for name in sorted(os.listdir(ROWS)) if name.endswith(".rows") for row in rows_of(name))
        rows = itertools.chain(written, rows_of_text.made(), rows_of_streams.made())
    for row in rows:
        fault = row.fault(program)
        if fault:
            print(f"{row.place}: {fault}")
        passed, failed = passed + (not fault), failed + bool(fault)
    print(f"{passed} passed, {failed} failed")
    return failed > 0


if __name__ == "__main__":
    sys.exit(main())
