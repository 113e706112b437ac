#!/usr/bin/env python3
"""Rewrites the imports of a crate: names that two or more files take from a module are imported in one line, through a file Shared.antt. There
is one such file for proofs, and one for definitions and contracts, which contains nothing of the crate's own.

    tests/long/shared.py CRATE..

Run it at the top of the repository, and then `rt fmt` and `rt check` in the crate's folder. It drops imports that a file does not use, and
takes a name from the same module in all files. A file keeps its own lines for lemmas and goals of the crate, for whole modules, for names
that it renames, and for modules that no other file cites. Definitions and contracts import operators and words of Prelude from their
original modules, because the gate requires that. Of two things with one name, the one that more files cite is shared. If sharing saves no
lines, nothing is written. A second run changes nothing, and Proof.antt is never changed. Prints for each crate the number of lines saved.
Exit status: 0.
"""
import functools
import re
import subprocess
import sys
from collections import Counter, defaultdict
from pathlib import Path

HEADS = {
    "proofs": "-- What the proofs of this crate take from the libraries, from the crates below and from its specs.",
    "specs": "-- What the definitions and contracts of this crate take from the libraries and from the crates below.",
}
PRELUDE = "Rattle.std.specs.Prelude"
USE = re.compile(r"(?:unfoldable )?(?:pub |ghost )?use (\S+)\.\{(.*)\};?")
WORD = re.compile(r"\[\]|[^\s(){}\[\],;:.]+")
LIBRARIES = Path(subprocess.check_output(["rt", "doc"], text=True).strip()).parent / "rlibs"


def path_of(module):
    """The file of a module of a crate or of the kit, where std stands for core too; of one that has no text its name."""
    crate, *rest = module.removeprefix("Rattle.").split(".")
    below = Path(*rest).with_suffix(".antt")
    places = [Path("crates", crate), *(LIBRARIES / f"{it}.rlib/lang/antt" for it in (crate, "core"))]
    return next((place / below for place in places if (place / below).is_file()), Path(module))


@functools.cache
def passed_on(module):
    """Of what a module passes on: by name the module that it takes it from."""
    path = path_of(module)
    lines = path.read_text().split("\n") if path.is_file() else []
    found = [USE.fullmatch(line) for line in lines if "pub use " in line]
    return {name: it[1] for it in found if it for name in it[2].split(", ")}


def home_of(module, name):
    """The file that declares a thing."""
    while name in passed_on(module):
        module = passed_on(module)[name]
    return path_of(module)


class File:
    """A file: by name the module that it takes it from, its other imports, the names that it unfolds, and the rest."""

    def __init__(self, path, shared):
        lines = path.read_text().split("\n")
        self.how, self.end = ("ghost use", ";") if path.suffix == ".rt" else ("use", "")
        uses = [line for line in lines if line.startswith(f"{self.how} Rattle.")]
        self.path, self.names, self.kept, self.long = path, {}, [], len(lines)
        self.rest = [line for line in lines if line not in uses]
        self.at = lines.index(uses[-1]) + 1 - len(uses) if uses else 0
        body = "\n".join(line for line in self.rest if not line.lstrip().startswith(("--", "//")))
        self.unfolded = set(" ".join(re.findall(r"\bunfold(?:ing)? (.*)", body)).split())
        words = set(WORD.findall(body))
        for use in uses:
            it = USE.fullmatch(use)
            if not it or " as " in it[2]:
                self.kept.append(use)
                continue
            bound = {">>="} if "←" in words else set()  # (a `do` block says it by an arrow)
            used = [name for name in it[2].split(", ") if name in words or (words | bound).issuperset(filter(None, name.split("◌")))]
            for name in used:
                module = passed_on(shared)[name] if it[1] == shared else it[1]
                # (constructors of two types may share a name)
                if self.names.setdefault(name, module) != module:
                    self.kept.append(f"{self.how} {module}.{{{name}}}{self.end}")

    def written(self, shared, through):
        by = defaultdict(list, {shared: sorted(name for name, module in self.names.items() if through.get(name) == module)})
        for name, module in self.names.items():
            if name not in by[shared]:
                by[module].append(name)
        uses = [f"{self.how} {module}.{{{', '.join(names)}}}{self.end}" for module, names in by.items() if names]
        return self.rest[: self.at] + uses + self.kept + self.rest[self.at :]


def write_side(crate, side):
    """Writes the imports of proofs, or those of specs and contracts. Returns how many lines it saved."""
    top, shared = Path("crates", crate, side), f"Rattle.{crate}.{side}.Shared"
    own = f"Rattle.{crate}.proofs." if side == "proofs" else f"Rattle.{crate}."
    code = Path("crates", crate, "src").rglob("*.rt") if side == "specs" else []
    paths = sorted(path for path in [*top.rglob("*.antt"), *code] if path.name not in ("Lib.antt", "Shared.antt", "Proof.antt"))
    files = [File(path, shared) for path in paths]
    cited = defaultdict(Counter)
    for file in files:
        for name, module in file.names.items():
            cited[home_of(module, name), name][module] += 1
    for file in files:
        file.names = {name: cited[home_of(module, name), name].most_common(1)[0][0] for name, module in file.names.items()}
    apart = (own, PRELUDE) if side == "specs" else own
    users = Counter(module for file in files for module in set(file.names.values()) if not module.startswith(apart))
    is_plain = lambda name: side == "specs" and "◌" in name
    counts = Counter((name, module) for file in files for name, module in file.names.items() if users[module] > 1 and not is_plain(name))
    through = {name: module for (name, module), _ in sorted(counts.items(), key=lambda it: (it[1], it[0]))}
    unfolded = {name for file in files for name in file.unfolded & set(file.names) if file.names[name] == through.get(name)}
    lines = shared_lines(top, crate, through, unfolded)
    texts = [file.written(shared, through) for file in files]
    before = sum(file.long for file in files) + (len((top / "Shared.antt").read_text().split("\n")) if (top / "Shared.antt").exists() else 0)
    saved = before - len(lines) - sum(map(len, texts))
    if saved > 0:
        top.mkdir(exist_ok=True)
        for file, text in zip(files, texts):
            file.path.write_text("\n".join(text))
        write_shared(top, lines)
    return saved


def shared_lines(top, crate, through, unfolded):
    by = defaultdict(list)
    for name, module in sorted(through.items()):
        rank = not module.startswith("Rattle.std."), module.startswith(f"Rattle.{crate}.")
        by[rank, module, "unfoldable pub" if name in unfolded else "pub"].append(name)
    return [HEADS[top.name], *(f"{how} use {module}.{{{', '.join(names)}}}" for (_, module, how), names in sorted(by.items())), ""]


def write_shared(top, lines):
    (top / "Shared.antt").write_text("\n".join(lines))
    lib = top / "Lib.antt"
    mods = lib.read_text().split("\n") if lib.is_file() else [""]
    if "mod Shared" not in mods:
        mods.insert(next((i for i, line in enumerate(mods) if line.split("mod ")[-1] > "Shared"), len(mods) - 1), "mod Shared")
        lib.write_text("\n".join(mods))


for one in sys.argv[1:]:
    print(f"{one}: {sum(max(write_side(one, side), 0) for side in HEADS)}")
