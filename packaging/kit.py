#!/usr/bin/env python3
"""Passes libraries that the kit's gate has built to `rt lib`, which would prove a library again unless it has a mark of its files.

    packaging/kit.py FOLDER    marks the libraries that the gate has built in this repository

The gate writes no mark. Only the kit's own module, rtlib, knows which mark `rt lib` looks for, and the kit does not guarantee it. Nothing
else in this repository depends on it, and tests/build.sh fails if its form has changed.
Exit status: 0 if all are marked, 1 if the form has changed, 2 for other arguments.
"""
import os
import shutil
import sys


class Unknown(Exception):
    """The kit's module has another form."""


def libraries_of(top):
    """Returns the crates of a repository as the kit's module knows them, by their names."""
    sys.path.insert(0, os.path.dirname(os.path.realpath(shutil.which("rt"))))
    sys.dont_write_bytecode = True
    try:
        import rtlib

        return {os.path.basename(it.folder): (it.rlib, f"{it.folder}/out/rlib/stamp", it.stamp()) for it in rtlib.crates_below(top)}
    except (ImportError, AttributeError, TypeError) as error:
        raise Unknown(f"packaging/kit.py: the kit's rtlib has another form: {error}") from error


def take(top, room, names):
    """Copies into the room what the gate, which has run in `top` just before, has left of these crates: whether there are all. A marked one
    is an older check's, which counts if the crate and those below it are as they were then."""
    libraries = libraries_of(top)
    for name in names:
        built, mark, stamp = libraries[name]
        if not os.path.isdir(built) or os.path.exists(mark) and open(mark, encoding="utf-8").read() != stamp:
            return False
    for name in names:
        shutil.copytree(f"{top}/crates/{name}/out/rlib", f"{room}/crates/{name}/out/rlib")
    return True


def mark(top):
    """Marks the libraries that the gate has built in this folder."""
    for built, at, stamp in libraries_of(top).values():
        if os.path.isdir(built):
            with open(at, "w", encoding="utf-8") as it:
                it.write(stamp)


if __name__ == "__main__":
    if len(sys.argv) != 2:
        print(__doc__, end="", file=sys.stderr)
        sys.exit(2)
    try:
        mark(os.path.realpath(sys.argv[1]))
    except Unknown as error:
        sys.exit(str(error))
