#!/usr/bin/env python3
"""Prints docs/DEFINITIONS.md: each public definition of the crates' specs, with the sentence that stands above it.

    docs/definitions.py > docs/DEFINITIONS.md
"""

import re
from pathlib import Path

TOP = Path(__file__).resolve().parent.parent
DEFINITION = re.compile(r"\s*(?:abbrev pub|unfoldable pub|pub record|pub data)\s+([^\s:({]+)")
HEAD = """# Definitions

Every public clause is written in the words below, and in those of the standard library. Each stands in the named file of
its crate's `specs/`, with the sentence that is given here above it. A list is written from its first item on; `lo..hi` are
the indexes from lo up to but not including hi.

This page is made by `docs/definitions.py`.
"""


def crates():
    """The crates of crates.txt, lowest first."""
    for line in (TOP / "crates.txt").read_text().splitlines():
        if ":" in line and not line.startswith("#"):
            yield line.split(":")[0].split()[0]


def read(path):
    """What a file is about, and its definitions with their sentences."""
    about, definitions, comment = "", [], []
    for line in path.read_text().splitlines():
        found = DEFINITION.match(line)
        if line.lstrip().startswith("--"):
            comment.append(line.strip()[2:].strip())
            continue
        if found and comment:
            definitions.append((found.group(1), " ".join(comment)))
        elif line.startswith("use ") and not about and not definitions:
            about = " ".join(comment)
        comment = []
    return about, definitions


def main():
    print(HEAD)
    for crate in crates():
        specs = TOP / "crates" / crate / "specs"
        files = sorted(path for path in specs.glob("**/*.antt") if path.name != "Lib.antt")
        pages = [(path.relative_to(specs), *read(path)) for path in files]
        pages = [page for page in pages if page[2]]
        if not pages:
            continue
        print(f"## {crate}\n")
        for path, about, definitions in pages:
            print(f"**{path}**: {about}\n")
            for name, sentence in definitions:
                print(f"- `{name}`: {sentence}")
            print()


main()
