#!/usr/bin/env python3
"""Counts the lines in the .rt and .antt files of the crates, and those among them that are not blank, a comment, an import or `mod`.

    measure/lines.py [CRATE..]

Without arguments, it counts all crates. Prints for each folder of a crate both numbers over all crates, and then the sums. With arguments,
also a line for each of these crates. Exit status: 0; 2 if a crate does not exist.
"""
import re
import sys
from collections import Counter
from pathlib import Path

TOP = Path(__file__).resolve().parent.parent / "crates"
SILENT = re.compile(r"\s*(?:$|--|//|(?:unfoldable |pub(?:\(crate\))? |ghost )*(?:use|mod) )")


def count(crate):
    """Returns for each folder of the crate its lines, and those that say something."""
    lines, saying = Counter(), Counter()
    for part in ("specs", "src", "proofs", "tests"):
        for path in (TOP / crate / part).rglob("*"):
            if path.suffix in (".rt", ".antt"):
                text = path.read_text(encoding="utf-8").splitlines()
                lines[part] += len(text)
                saying[part] += sum(not SILENT.match(line) for line in text)
    return lines, saying


def main():
    crates = sys.argv[1:] or sorted(path.name for path in TOP.iterdir() if path.is_dir())
    if missing := [crate for crate in crates if not (TOP / crate).is_dir()]:
        sys.exit(print(f"measure/lines.py: no crate {missing[0]}", file=sys.stderr) or 2)
    lines, saying = Counter(), Counter()
    for crate in crates:
        one, other = count(crate)
        lines, saying = lines + one, saying + other
        if sys.argv[1:]:
            print(f"{crate:16} {one.total():7,} {other.total():7,}")
    for part in lines:
        print(f"{part:16} {lines[part]:7,} {saying[part]:7,}")
    print(f"{'all':16} {lines.total():7,} {saying.total():7,}")


main()
