#!/usr/bin/env python3
"""Compares the phases of a bench with those that this script computes from the seed.

    tests/legs.py LEGS SEED MARKED INSTRUMENTED

LEGS is the output of --print-phases, from a run with the default options and this seed. MARKED is 1 if the memory has steps of its own, and
INSTRUMENTED is 1 if it is linked with libtmwatch_steps.a. Prints the number of phases with each schedule.
Exit status: 0 if all are as computed and there are more than 40, 1 otherwise.
"""
import re
import sys

from draws import Draws

NAMES = ("threads", "registers", "accesses", "writes", "adds", "aborts", "pause", "mixed-rounds", "blind-writes")
USUAL = (4, 3, 3, 50, 20, 12, 100, 50, 10)
FIRST, MARKED_CYCLE, OTHER_CYCLE = 20, 20, 4


def schedule_of(leg, is_marked):
    """Returns the schedule of a leg, counted from 0: the first ones go by steps, and then most, or few if the memory has no mark."""
    if leg < FIRST:
        return "steps"
    if is_marked:
        return {0: "rounds", MARKED_CYCLE // 2: "permits"}.get((leg - FIRST) % MARKED_CYCLE, "steps")
    return ("rounds", "permits", "rounds", "steps")[(leg - FIRST) % OTHER_CYCLE]


def plan_of(draws, schedule, is_instrumented):
    """Returns the words of a leg that isn't the first."""
    seed, is_usual = draws.below(2**64 - 1), draws.below(2) == 0
    threads = 2 + draws.below(3 + 4 * draws.below(2))
    registers = 1 + draws.below(4 + 4 * draws.below(2))
    numbers = [threads, registers, 1 + draws.below(5), 30 + 20 * draws.below(4), 20 * draws.below(2)]
    numbers += [52 if draws.below(4) == 0 else 12, (0, 10, 100, 1000)[draws.below(4)], 50, 10]
    orders, is_plain = draws.below(4), draws.below(8) == 0
    words = [f"--schedule {schedule} --rounds 1000 --seed {seed}"]
    words += [f"--{name} {number}" for name, number in zip(NAMES, USUAL if is_usual else numbers)]
    marked = [{1: "--orders x86", 2: "--orders c++"}.get(orders), "--plain" if is_plain else None]
    return " ".join(words + [word for word in marked if word and is_instrumented])


def main(words):
    seed, is_marked, is_instrumented = int(words[1]), words[2] == "1", words[3] == "1"
    with open(words[0], encoding="ascii") as it:
        legs = [line.split(": ", 1)[1].strip() for line in it if line.startswith("phase ")]
    draws, counts = Draws(seed), {}
    for leg, found in enumerate(legs):
        schedule = schedule_of(leg, is_marked)
        counts[schedule] = counts.get(schedule, 0) + 1
        usual = " ".join(f"--{name} {number}" for name, number in zip(NAMES, USUAL))
        due = f"--schedule steps --rounds 1000 --seed {seed} {usual}"
        if leg > 0:
            due = plan_of(draws, schedule, is_instrumented and schedule == "steps")
        # (the last one may have fewer rounds)
        if re.sub("--rounds [0-9]+", "--rounds 1000", found) != due:
            print(f"leg {leg + 1}:\n{found}, and its plan\n{due}")
            return 1
    print(*(f"{count} {schedule}" for schedule, count in sorted(counts.items())))
    return 0 if len(legs) > 2 * FIRST else 1


if __name__ == "__main__":
    sys.exit(main(sys.argv[1:]))
