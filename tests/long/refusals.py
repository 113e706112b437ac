#!/usr/bin/env python3
"""Reports why the prover refuses each mutant: because of a goal of a clause, or only because of a name that is gone, which means nothing for
the contract; or that it finds no proof by itself.

    tests/long/refusals.py CRATE|EDIT..

The mutants of a CRATE are those of edits/CRATE and of crates/CRATE/must-fail. Only the mutated function is checked (rt check --only), in a
copy, with the libraries that are built here. A goal belongs to a clause if known values violate it, or if the prover refuses it and no
proof file is at fault. If an answer to a goal is at fault, the function is checked again without its answers, with the mutation and
without. Then a goal also belongs to a clause if the original function does not have its statement, or if known values violate it. If the
mutant is proved this way, it is not refused. If all remaining goals also remain for the original function, the mutant is open: the prover
finds no proof of them by itself. All other mutants are refused only because of a name, as far as this script can tell. In that case, change
a value, so that each name remains. Takes 15 seconds to some minutes for each mutant. The last line has the number of each kind.
Exit status: 0 if all are refused because of a clause, 1 otherwise, 2 for other arguments.
Environment: JOBS (1), the number of checks at a time.
"""
import concurrent.futures
import functools
import glob
import os
import re
import shutil
import subprocess
import sys
import tempfile

TOP = os.path.dirname(os.path.dirname(os.path.dirname(os.path.realpath(__file__))))
ENDS = {
    "clause": "by a clause",
    "name": "by a name alone",
    "open": "open",
    "none": "not refused",
    "bad": "not compiled",
    "unknown": "of which nothing is known",
}
FUNCTION = re.compile(r"\bfn (\w+)")
FAULT = re.compile(r"^(?:\./)?(proofs/\S+?\.antt):\d+:\d+: error", re.M)
REFUSED = re.compile(r"^note: (?:\./)?src/\S+: (?:it is not proved|`search` found no proof) [^\n]*?\(`([^`]+)`\)([^\n]*)", re.M)
FAILS = re.compile(r"^(?:\./)?proofs/\S+?/Answers\.antt:\d+:\d+: error: `([^`]+)`[^\n]* the goal fails, at ", re.M)
STATEMENT = re.compile(r"^note: `([^`]+)` of proofs/\S+ must prove: ([^\n]*)", re.M)


def read(path):
    with open(path, encoding="utf-8") as it:
        return it.read()


def edited(edit, crate):
    """Returns the file that the edit changes, its text with the edit, and the function that the first change is in, if any: its line is indented."""
    lines = [line.partition(": ") for line in read(edit).splitlines() if line.strip()]
    path, pairs = lines[0][2], list(zip(lines[1::2], lines[2::2]))
    text = read(f"{TOP}/crates/{crate}/{path}")
    at = text.find(pairs[0][0][2])
    line = text[text.rfind("\n", 0, at) + 1 : at + len(pairs[0][0][2])]
    names = FUNCTION.findall(text[: at + len(pairs[0][0][2])]) if line.startswith(" ") or FUNCTION.search(line) else []
    for (_, _, old), (_, _, new) in pairs:
        if text.count(old) != 1:
            sys.exit(f"refusals.py: {edit}: {text.count(old)} times in its file: {old}")
        text = text.replace(old, new)
    return path, text, names[-1] if names and path.startswith("src/") else None


def link(one, other):
    """Links a file, or copies it to another disk."""
    try:
        os.link(one, other)
    except OSError:
        shutil.copy2(one, other)


def copy_crates(crate, room):
    """Copies the crate and those that it stands on into the room, as a repository, with the libraries that are built."""
    lines = {re.match(r"\w+", it)[0]: it for it in read(f"{TOP}/crates.txt").splitlines() if re.match(r"\w", it)}
    found, left = [], [crate]
    while left:
        name = left.pop()
        if name in lines and name not in found:
            found.append(name)
            left += lines[name].partition(":")[2].split()
            for part in ("src", "specs", "proofs", *["out/rlib"] * (name != crate)):
                if os.path.isdir(f"{TOP}/crates/{name}/{part}"):
                    how = link if part == "out/rlib" else shutil.copy2
                    shutil.copytree(f"{TOP}/crates/{name}/{part}", f"{room}/crates/{name}/{part}", copy_function=how)
    with open(f"{room}/crates.txt", "w", encoding="utf-8") as it:
        it.writelines(f"{lines[name]}\n" for name in found)
    shutil.copyfile(f"{TOP}/HANDLES", f"{room}/HANDLES")
    os.mkdir(f"{room}/.git")


def module_of(crate, path):
    return "::".join([crate, *path[4:-3].split("/")])


def check(crate, function, path, text, without=()):
    """Checks the function, or the crate, in a copy with this text in the file, and without these proof files: what is said, and the status."""
    with tempfile.TemporaryDirectory() as room:
        copy_crates(crate, room)
        with open(f"{room}/crates/{crate}/{path}", "w", encoding="utf-8") as it:
            it.write(text)
        for name in without:
            os.remove(f"{room}/crates/{crate}/{name}")
        words = ["rt", "check", "--jobs", "1"]
        # (where several functions have the name, the module)
        for only in [["--only", function], ["--only", module_of(crate, path)]] if function else [[]]:
            how = {"stdout": subprocess.PIPE, "stderr": subprocess.STDOUT, "text": True, "check": False}
            ran = subprocess.run([*words, *only], cwd=f"{room}/crates/{crate}", **how)
            if "error: several functions are named" not in ran.stdout:
                break
        return ran.stdout, ran.returncode


@functools.lru_cache(maxsize=None)
def without_answers(crate, function, path, without):
    """Returns the statements that the function as it stands leaves unproved without its answers."""
    said, _ = check(crate, function, path, read(f"{TOP}/crates/{crate}/{path}"), without)
    return frozenset(it for _, it in STATEMENT.findall(said))


def refusal(crate, edit):
    """Returns by what the edit is refused, a word of `ENDS`, and what to say of it."""
    path, text, function = edited(edit, crate)
    said, status = check(crate, function, path, text)
    if status == 0:
        return "none", "NOT REFUSED"
    error = re.search(r"^(?:\./)?src/\S+: error.*", said, re.M)
    if error:
        return "bad", f"not compiled: {error[0]}"
    goals, faults = REFUSED.findall(said), FAULT.findall(said)
    if not goals and not faults:
        return "unknown", "nothing is known: " + " ".join(said.split("\n")[-4:])[:200]
    if not faults or FAILS.search(said) or any("allow values" in rest for _, rest in goals):
        return "clause", f"by a clause: {FAILS.search(said)[1] if FAILS.search(said) else goals[0][0]}"
    without = tuple(sorted({it for it in faults if it.endswith("/Answers.antt") and it != path}))
    if not without or not function:
        return "name", f"by a name alone: {re.search(FAULT.pattern + '.*', said, re.M)[0][:200]}"
    said, status = check(crate, function, path, text, without)
    if status == 0:
        return "none", f"NOT REFUSED without {', '.join(without)}"
    broken = {name for name, rest in REFUSED.findall(said) if "allow values" in rest}
    before = without_answers(crate, function, path, without)
    new = [name for name, it in STATEMENT.findall(said) if name in broken or it not in before]
    if new:
        return "clause", f"by a clause, without the answers: {new[0]}"
    if REFUSED.search(said) and not FAULT.search(said):
        return "open", f"open without the answers: {REFUSED.search(said)[1]}"
    return "name", f"by a name alone: {faults[0]}"


def main(words):
    edits = []
    for word in words:
        found = [word] if word.endswith(".edit") else sorted(glob.glob(f"{TOP}/edits/{word}/*.edit") + glob.glob(f"{TOP}/crates/{word}/must-fail/*.edit"))
        edits += [(re.search(r"(\w+)/(?:must-fail/)?[^/]*$", os.path.realpath(it))[1], it) for it in found if os.path.exists(it)]
    if not edits:
        print(__doc__, end="", file=sys.stderr)
        return 2
    counts = dict.fromkeys(ENDS, 0)
    with concurrent.futures.ThreadPoolExecutor(int(os.environ.get("JOBS", "1"))) as pool:
        for (crate, edit), (kind, what) in zip(edits, pool.map(lambda it: refusal(*it), edits)):
            counts[kind] += 1
            print(f"{crate}/{os.path.basename(edit)}: {what}", flush=True)
    print(", ".join(f"{counts[end]} {what}" for end, what in ENDS.items()))
    return 0 if counts["clause"] == len(edits) else 1


if __name__ == "__main__":
    sys.exit(main(sys.argv[1:]))
