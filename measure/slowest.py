#!/usr/bin/env python3
"""Searches for the window that takes `tmwatch judge` longest, by hill climbing from random ones, and writes its trace to a file.

    measure/slowest.py SECONDS FILE [SEED]

A window has eight transactions that overlap, over eight registers. Each writes some of them, may read some first, and at the end is
committed, aborted, commit-pending or open, or reads a value that no transaction wrote. Windows of blind writers come before it, so that the
history has 64 outcomes. The measure is the program's processor time, the minimum of three runs. Only runs count in which nothing is wrong
before the window's last event; with OPAQUE set, in which nothing is wrong at all. Each run that is the slowest so far is written and
reported.
Environment: PROGRAM, OPAQUE.
"""
import json
import os
import random
import resource
import subprocess
import sys
import time
from pathlib import Path

PROGRAM = os.environ.get("PROGRAM", Path(__file__).resolve().parent.parent / "crates/tmwatch/out/tmwatch")
OPAQUE = "OPAQUE" in os.environ
EIGHT = range(8)

# Windows that leave 64 outcomes: of each writer its writes. In the second, three in four of them have a 2 in register 0.
STARTS = [
    [[[(0, i + 1)] for i in EIGHT], [[(1, i + 1)] for i in EIGHT]],
    [[[(1, i + 1)] for i in EIGHT], [[(0, 1), (2, 8)], [(2, 1)]] + [[(0, 2), (2, i)] for i in range(2, 7)]],
]


def blind_window(writers):
    """The events of writers that overlap and commit."""
    lines = [f"{i} {line}" for i, writes in enumerate(writers) for r, v in writes for line in (f"W {r} {v}", "K")]
    return lines + [f"{i} T" for i in range(len(writers))] + [f"{i} C" for i in range(len(writers))]


def random_transaction(rng, ends):
    """The registers that it writes, what it reads first, and how it ends: one of these."""
    reads = {rng.choice(EIGHT): rng.randrange(9)} if rng.random() < 0.2 else {}
    return {"writes": set(rng.sample(EIGHT, 3)), "reads": reads, "end": rng.choice(ends)}


def calls_of(number, transaction):
    """Its calls with their answers. The value that it writes is its number and 1."""
    reads = [(f"R {r}", f"V {v}") for r, v in sorted(transaction["reads"].items())]
    return reads + [(f"W {r} {number + 1}", "K") for r in sorted(transaction["writes"])] or [("W 0 0", "K")]


def window(transactions):
    """The events of the window: those that read nothing come first, so that they are commit-pending when others read."""
    calls = [calls_of(i, transaction) for i, transaction in enumerate(transactions)]
    lines = [f"{i} {calls[i][0][0]}" for i in EIGHT]
    for i in sorted(EIGHT, key=lambda i: bool(transactions[i]["reads"])):
        lines.append(f"{i} {calls[i][0][1]}")
        lines += [f"{i} {line}" for call in calls[i][1:] for line in call]
        if transactions[i]["end"] in "TCA":
            lines.append(f"{i} T")
    lines += [f"{i} {transactions[i]['end']}" for i in EIGHT if transactions[i]["end"] in "CA"]
    return lines + [f"{i} {event}" for i in EIGHT if transactions[i]["end"] == "V" for event in ("R 7", "V 9")][:2]


def trace(starts, transactions):
    lines = ["opacity-trace 1 8"]
    for writers in starts:
        lines += blind_window(writers)
    return "\n".join(lines + window(transactions)) + "\n"


def time_of(text):
    """The processor time of the program on the trace, in microseconds, where nothing is wrong before its last event; else 0."""
    times = []
    for _ in range(3):
        before = resource.getrusage(resource.RUSAGE_CHILDREN)
        run = subprocess.run([PROGRAM, "judge"], input=text, capture_output=True, text=True)
        after = resource.getrusage(resource.RUSAGE_CHILDREN)
        times.append(after.ru_utime + after.ru_stime - before.ru_utime - before.ru_stime)
    report = json.loads(run.stdout)
    allowed = text.count("\n") if OPAQUE else text.count("\n") - 1
    return round(min(times) * 1e6) if report.get("at", allowed) >= allowed else 0


def changed(rng, transactions):
    """The same, with one to three changes."""
    changed = [{**one, "writes": set(one["writes"]), "reads": dict(one["reads"])} for one in transactions]
    for _ in range(rng.randint(1, 3)):
        transaction, register = rng.choice(changed), rng.choice(EIGHT)
        what = rng.random()
        if what < 0.6:
            transaction["writes"] ^= {register}
        elif what < 0.8 and register in transaction["reads"]:
            del transaction["reads"][register]
        elif what < 0.8:
            transaction["reads"][register] = rng.randrange(9)
        else:
            transaction["end"] = rng.choice("TTCALV")
    return changed


def climb(rng, limit, tell):
    """Climbs from random windows for so many seconds, and tells each trace that is the worst so far."""
    began, worst = time.monotonic(), 0
    while time.monotonic() - began < limit:
        starts, ends = rng.choice(STARTS), rng.choice(["TTTTTC", "TTTTTV", "CCCCCA"])
        transactions, best, stale = [random_transaction(rng, ends) for _ in EIGHT], 0, 0
        while stale < 200 and time.monotonic() - began < limit:
            candidate = changed(rng, transactions)
            text = trace(starts, candidate)
            cost = time_of(text)
            stale = 0 if cost > 1.05 * best else stale + 1
            if cost >= best:
                transactions, best = candidate, cost
            if cost > worst:
                worst = cost
                tell(text, f"{cost} us after {time.monotonic() - began:.0f} s")


def main():
    limit, file = float(sys.argv[1]), Path(sys.argv[2])
    rng = random.Random(int(sys.argv[3]) if len(sys.argv) > 3 else 1)

    def tell(text, line):
        file.write_text(text)
        print(line, flush=True)

    climb(rng, limit, tell)


main()
