#!/usr/bin/env python3
"""Looks for names that two specification files define: a name means one thing in the repository.

    docs/check_homonyms.py

Read are the definitions of crates/*/specs/, without the files Lib.antt, which list modules. Each name that stands in two files is
printed with them, and the status is then 1. It needs Python 3 alone, and holds no list of crates.
"""

import re
import sys
from pathlib import Path

TOP = Path(__file__).resolve().parent.parent
DEFINITION = re.compile(r"^(?:(?:pub|abbrev|unfoldable|opaque|record|data)\s+)+(?!use\b|mod\b)([^\s:{(]+)")


def definitions():
    """Each name that is defined, with its files, and the line of each."""
    found = {}
    for path in sorted((TOP / "crates").glob("*/specs/**/*.antt")):
        if path.name == "Lib.antt":
            continue
        for number, line in enumerate(path.read_text().splitlines(), 1):
            match = DEFINITION.match(line)
            if match:
                found.setdefault(match[1], {}).setdefault(path.relative_to(TOP), number)
    return found


def main():
    found = definitions()
    twice = {name: files for name, files in sorted(found.items()) if len(files) > 1}
    for name, files in twice.items():
        print(f"{name}:", *(f"{path}:{number}" for path, number in files.items()))
    if twice:
        print(f"{len(twice)} of {len(found)} names stand in two files or more")
        return 1
    print(f"{len(found)} names, each in one file")
    return 0


if __name__ == "__main__":
    sys.exit(main())
