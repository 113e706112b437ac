#!/usr/bin/env python3
"""Runs the gate and reports where its time goes: processor minutes by kind, seconds by crate, and the longest chain of proofs.

    measure/gate.py [FOLDER]

Runs `rt ci` from nothing in FOLDER, a clone of the repository (by default here), and samples its processes twice a second. Prints a line
for each crate with the seconds of its proof, its tests, the checks with which its mutants begin, and the mutants by their numbers; then the
mutants that took over 20 seconds; then the minutes of each kind. Finally, for the proofs that ./build makes: the longest chain, in which
each crate waits for the previous one, and the minutes by the clock of all proofs on four idle processors. These are simulated from the
seconds above and crates.txt: one processor for each proof, the longest chain first. The gate's own output goes to FOLDER/gate.log. The exit
status is the gate's. Processor time is measured by the system, so other work on the machine increases it.
"""
import functools
import os
import subprocess
import sys
import time
from collections import Counter

KINDS = ["proof", "tests", "begin", "mutants", "rest"]
PROCESSORS = 4
TICK = os.sysconf("SC_CLK_TCK")


def part_of(words, folder):
    """Returns the crate and the kind of a check from its arguments and its folder."""
    crate = words[words.index("--crate-name") + 1]
    if "--incremental" in words:
        kept = words[words.index("--incremental") + 1]
        return crate, "begin" if os.path.basename(kept) == "seed" else "mutants"
    if "/rt-edit-" in folder:
        return crate, "mutants"
    return crate, "tests" if "--test" in words else "proof"


def sample(found, below):
    """Stores the processor time of each process of the gate so far."""
    for number in os.listdir("/proc"):
        if not number.isdigit():
            continue
        try:
            with open(f"/proc/{number}/stat", encoding="utf-8", errors="replace") as it:
                head, _, rest = it.read().rpartition(")")
            fields = rest.split()
            if int(number) not in below and int(fields[1]) not in below:
                continue
            with open(f"/proc/{number}/cmdline", "rb") as it:
                words = it.read().decode(errors="replace").split("\0")
            folder = os.readlink(f"/proc/{number}/cwd")
        except (OSError, ValueError):
            continue
        below.add(int(number))
        key, seconds = (number, fields[19]), (int(fields[11]) + int(fields[12])) / TICK
        if words[0]:
            is_check = head.endswith("(rattle") and "--crate-name" in words
            found[key] = part_of(words, folder) if is_check else ("", "rest"), seconds
        elif key in found:
            # (the process has ended, so its arguments are gone)
            found[key] = found[key][0], seconds


def tell(found):
    """Prints the table."""
    sums, slow = {}, []
    for part, seconds in found.values():
        total, count = sums.get(part, (0.0, 0))
        sums[part] = total + seconds, count + 1
        if part[1] == "mutants" and seconds > 20:
            slow.append((seconds, part[0]))
    for crate in sorted({it for it, _ in sums if it}):
        parts = [(kind, *sums[crate, kind]) for kind in KINDS if (crate, kind) in sums]
        print(f"{crate:20}", ", ".join(f"{kind} {seconds:.0f} ({count})" for kind, seconds, count in parts))
    print("mutants over 20 seconds:", ", ".join(f"{crate} {seconds:.0f}" for seconds, crate in sorted(slow, reverse=True)) or "none")
    minutes = {kind: sum(seconds for (_, it), (seconds, _) in sums.items() if it == kind) / 60 for kind in KINDS}
    print("minutes of processor time:", ", ".join(f"{kind} {it:.0f}" for kind, it in minutes.items()), f"in all {sum(minutes.values()):.0f}")
    tell_chain(Counter({crate: seconds for (crate, kind), (seconds, _) in sums.items() if kind == "proof"}))


def tell_chain(seconds):
    """Prints the longest chain of the proofs that ./build makes, and the minutes of all proofs in parallel."""
    with open("crates.txt", encoding="utf-8") as it:
        lines = [line.partition("#")[0].split() for line in it]
    words_of = {words[0].rstrip(":"): words[1:] for words in lines if words}
    built = {"tmwatch", "tmw_c"}
    while more := {it for crate in built for it in words_of[crate] if it in words_of} - built:
        built |= more
    below = {crate: built.intersection(words_of[crate]) for crate in built}

    @functools.cache
    def chain(crate):
        longest, names = max((chain(it) for it in built if crate in below[it]), default=(0, ()))
        return seconds[crate] + longest, (crate, *names)

    now, ends, left = 0.0, {}, sorted(built, key=chain, reverse=True)
    while left:
        running = {it for it, end in ends.items() if end > now}
        for crate in [it for it in left if below[it] <= ends.keys() - running][: PROCESSORS - len(running)]:
            left.remove(crate)
            ends[crate] = now + seconds[crate]
        now = min((it for it in ends.values() if it > now), default=now)
    total, names = max(map(chain, built))
    print(f"longest chain {total / 60:.1f} minutes:", " > ".join(f"{it} {seconds[it]:.0f}" for it in names))
    print(f"proofs by the clock, simulated: {max(ends.values()) / 60:.1f} minutes")


def main():
    os.chdir(sys.argv[1] if len(sys.argv) > 1 else os.path.dirname(os.path.dirname(os.path.abspath(__file__))))
    # (a gate that stores its proofs has this option, which makes it prove everything again)
    help = subprocess.run(["rt", "ci", "--help"], capture_output=True, text=True, errors="replace")
    anew = ["--anew"] if "--anew" in help.stdout + help.stderr else []
    began, found = time.monotonic(), {}
    with open("gate.log", "w", encoding="utf-8") as log:
        gate = subprocess.Popen(["rt", "ci", *anew], stdout=log, stderr=subprocess.STDOUT, stdin=subprocess.DEVNULL)
        below = {gate.pid}
        while gate.poll() is None:
            sample(found, below)
            time.sleep(0.5)
    spent = os.times()
    tell(found)
    print(f"by the clock {(time.monotonic() - began) / 60:.0f} minutes; processor time as the system sums it {(spent.children_user + spent.children_system) / 60:.0f}")
    return gate.returncode


if __name__ == "__main__":
    sys.exit(main())
