#!/usr/bin/env python3
"""documents.py FOLDER: makes the documents in FOLDER, copied from the repository, those of a package.

A link to what isn't there keeps its words alone, and the README says by which names the programs go.
"""

import os
import re
import sys

LINK = re.compile(r"\[([^][]*)\]\(([^)#:]+)(#[^)]*)?\)")
NAMES = ("*Of the Debian package: `./wursthatch` is `wursthatch` here, `./wursthatch-look` is `wursthatch-look`, `./picture` is\n"
         "`wursthatch-picture`, and the scripts of `examples/service/` are in `/usr/lib/wursthatch/`. What proves and builds them is in\n"
         "the repository alone.*\n\n")


def mended(text, folder):
    """The text, whose links lead from that folder to what is there."""
    return LINK.sub(lambda link: link[0] if os.path.exists(os.path.join(folder, link[2])) else link[1], text)


def main(top):
    for folder, _, names in os.walk(top):
        for path in (os.path.join(folder, name) for name in names if name.endswith(".md")):
            with open(path, encoding="utf-8") as kept:
                text = mended(kept.read(), folder)
            if path == os.path.join(top, "README.md"):
                title, _, rest = text.partition("\n\n")
                text = f"{title}\n\n{NAMES}{rest}"
            with open(path, "w", encoding="utf-8") as kept:
                kept.write(text)


main(sys.argv[1])
