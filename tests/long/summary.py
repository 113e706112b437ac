#!/usr/bin/env python3
"""Counts traces by the plain definitions, for tests/long/summary.sh, whose head describes the checks and the output.

    tests/long/summary.py TOP PROGRAM RUNS SEED

TOP is the repository's folder. Nothing is counted incrementally: each count examines all transactions, or each prefix, from the beginning.
"""
import json
import random
import subprocess
import sys
from itertools import pairwise
from pathlib import Path

# The verdicts that have to occur, each with its reason.
VERDICTS = ["opaque so far", "strict so far", "violated", "undecided transactions", "undecided states", "malformed"]


def transactions(events):
    """Of each thread its events, parted after each C and A: the thread, and the places and the letters of a part's events."""
    found = []
    for thread in sorted({event[0] for event in events}):
        part = []
        for place, event in enumerate(events):
            if event[0] == thread:
                part.append((place, event[2]))
                if event[2] in "CA":
                    found.append((thread, part))
                    part = []
        if part:
            found.append((thread, part))
    return found


def letters(transaction):
    """The letters of its events."""
    return "".join(letter for _, letter in transaction[1])


def ended(transaction):
    """Whether it has committed or aborted."""
    return letters(transaction)[-1] in "CA"


def precedes(one, other):
    """Whether one has ended before the other begins."""
    return ended(one) and one[1][-1][0] < other[1][0][0]


def overlap(one, other):
    """Whether they are of two threads, and neither precedes the other."""
    return one[0] != other[0] and not precedes(one, other) and not precedes(other, one)


def counts_of(events):
    """Returns the eight counts of these events."""
    all_of = transactions(events)
    cuts = [length for length in range(1, len(events) + 1) if all(map(ended, transactions(events[:length])))]
    windows = [events[begin:end] for begin, end in pairwise([0, *cuts, len(events)])]
    return {
        "aborted": sum(letters(one)[-1] == "A" for one in all_of),
        "committed": sum(letters(one)[-1] == "C" for one in all_of),
        "concurrent": sum(any(overlap(one, other) for other in all_of) for one in all_of),
        "cuts": len(cuts),
        "forced_aborts": sum(letters(one)[-1] == "A" and letters(one)[-2:] != "XA" for one in all_of),
        "live": sum(not ended(one) for one in all_of),
        "max_window": max(len(transactions(window)) for window in windows),
        "transactions": len(all_of),
    }


def counted(report):
    """How many events the report lets be counted."""
    if report["verdict"] == "malformed":
        return report["at"] - 1
    return report.get("at", report["events"])


def summary_of(trace, reports):
    """Returns the line of counts that belongs after these reports on the trace and, if nothing is wrong, the line of what the run did not test, if any."""
    events = trace.splitlines()[1:]
    part = events[: max(counted(json.loads(report)) for report in reports)]
    counts = counts_of(part)
    untested = untested_by(counts, {event[0] for event in events}) if all("so far" in report for report in reports) else []
    lines = [counts] + ([{"untested": untested}] if untested else [])
    return "\n".join(json.dumps(line, sort_keys=True, separators=(",", ":")) for line in lines)


def untested_by(counts, threads):
    """Returns what a run of these threads did not test."""
    untested = ["threads"] if len(threads) < 2 else ["overlap"] if counts["concurrent"] == 0 else []
    if counts["committed"] == 0:
        return [*untested, "commits"]
    return [*untested, "progress"] if counts["transactions"] // 20 > counts["committed"] else untested


def rows_of(top):
    """The rows of tests/rows/summary.rows that have counts: the command line, its trace, and the lines of the output."""
    words, lines, wanted = "", [], []
    for line in (top / "tests/rows/summary.rows").read_text().splitlines():
        if line.startswith("tmwatch"):
            words, lines, wanted = line, [], []
        elif line.startswith("< "):
            lines += line[2:].split(" | ")
        elif line.startswith("> "):
            wanted += line[2:].split(" | ")
        elif line.startswith("= ") and len(wanted) > 1:
            place = words.partition(" < ")[2]
            at = next(number for number, it in enumerate(wanted) if it.startswith('{"aborted"'))
            yield words, (top / place).read_text() if place else "\n".join(lines), [*wanted[:at], "\n".join(wanted[at:])]


class Thread:
    """A thread of a random run: the state from which its transaction reads, what it has read and written, and its call that waits."""

    def __init__(self):
        self.start = None
        self.reads = set()
        self.writes = {}
        self.call = None


def call_of(rng, registers):
    """A call: mostly a read, a write or an add, else a request."""
    register = rng.randrange(registers)
    return rng.choices(
        [f"R {register}", f"W {register} {rng.randrange(9)}", f"N {register} 1", "T", "X"], weights=[3, 6, 1, 6, 1]
    )[0]


def answer_of(rng, thread, state, wrong):
    """The answer to the call that waits. A read may be answered wrongly; a commit is refused if what was read has changed."""
    words = thread.call.split()
    if words[0] == "X" or rng.random() < 0.05:
        return "A"
    if words[0] == "T":
        if any(thread.start[register] != state[register] for register in thread.reads):
            return "A"
        for register, value in thread.writes.items():
            state[register] = value
        return "C"
    register = int(words[1])
    if words[0] == "W":
        thread.writes[register] = int(words[2])
        return "K"
    held = thread.start[register]
    if register in thread.writes:
        held = thread.writes[register]
    else:
        thread.reads.add(register)
    if words[0] == "N":
        thread.writes[register] = held + 1
    return f"V {rng.randrange(4) if rng.random() < wrong else held}"


def random_trace(rng):
    """A trace: its threads begin transactions at any event, or only seldom while others are open."""
    registers, threads = rng.randint(1, 3), [Thread() for _ in range(rng.choice([1, 2, 2, 3, 3, 4, 8]))]
    state = [0] * registers
    wrong = rng.choice([0, 0, 0.1])
    begins = rng.choice([0.02, 0.1, 0.3, 0.3, 0.5])
    lines = []
    for _ in range(rng.randint(0, 60)):
        open_ones = [thread for thread in threads if thread.start is not None]
        thread = rng.choice(open_ones if open_ones and rng.random() > begins else threads)
        number = threads.index(thread)
        if thread.call is None:
            thread.call = call_of(rng, registers)
            thread.start = state.copy() if thread.start is None else thread.start
            lines.append(f"{number} {thread.call}")
            continue
        answer = answer_of(rng, thread, state, wrong)
        lines.append(f"{number} {answer}")
        thread.call = None
        if answer in "CA":
            thread.start, thread.reads, thread.writes = None, set(), {}
    if lines and rng.random() < 0.2:
        event = rng.choice(["V 0", "K", "C", "A", f"R {registers}", "T", "R 0"])
        lines.insert(rng.randrange(len(lines) + 1), f"{rng.randrange(8)} {event}")
    version = f"2 {registers} {' '.join('0' * registers)}" if any(" N " in line for line in lines) else f"1 {registers}"
    return "".join(f"{line}\n" for line in [f"opacity-trace {version}", *lines])


def words_of(rng):
    """The options of `judge`: a criterion and bounds, which are wide in every second run."""
    words = rng.choice([[], ["--criterion", "strict"], ["--criterion", "both"]])
    if rng.random() < 0.5:
        words = [*words, "--window", str(rng.randint(1, 8)), "--states", str(rng.choice([1, 1, 2, 4]))]
    return words


def judged(program, words, trace):
    """The status and the output of `judge`, and what it wrote to standard error."""
    run = subprocess.run([program, "judge", *words], input=trace, capture_output=True, text=True, check=False)
    return run.returncode, run.stdout, run.stderr


NOTHING = "warning: no two transactions overlapped, so this run tests nothing\n"
UNDECIDED = {
    "transactions": "undecided: more transactions than --window allows without a quiescent point. "
    "Put a barrier after every transaction or two (docs/RECORDING.md)\n",
    "states": "undecided: more possible states at a quiescent point than --states allows. "
    "Read each register before you write it (docs/RECORDING.md)\n",
}


def remark_on(trace, reports, counts):
    """What standard error is told of a run whose lines are these."""
    reports = [json.loads(report) for report in reports]
    verdicts = [report["verdict"] for report in reports]
    threads = {line.split()[0] for line in trace.splitlines()[1:]}
    shows_nothing = json.loads(counts.split("\n")[0])["concurrent"] == 0 and len(threads) > 1
    if "undecided" in verdicts:
        return UNDECIDED[reports[verdicts.index("undecided")]["why"]]
    return NOTHING if shows_nothing and all(verdict.endswith("so far") for verdict in verdicts) else ""


def first_part(trace, reports):
    """The trace up to the event at which the last verdict is final, or all of it."""
    ends = [json.loads(report).get("at") for report in reports]
    if None in ends:
        return trace
    return "".join(line + "\n" for line in trace.splitlines()[: 1 + max(ends)])


def main():
    """Compares the rows, then the histories."""
    top, program, runs, seed = Path(sys.argv[1]), sys.argv[2], int(sys.argv[3]), sys.argv[4]
    passed, failed = 0, 0
    for words, trace, wanted in rows_of(top):
        made = summary_of(trace, wanted[:-1])
        if made == wanted[-1]:
            passed += 1
        else:
            failed += 1
            print(f"{words}\n  the row has {wanted[-1]}\n  and not     {made}")
    print(f"{passed} rows counted as by hand, {failed} not")
    found = dict.fromkeys(VERDICTS, 0)
    for run in range(runs):
        rng = random.Random(f"{seed} {run}")
        trace, words = random_trace(rng), words_of(rng)
        status, plain, errors = judged(program, words, trace)
        reports = plain.splitlines()
        try:
            counts = summary_of(trace, reports)
            # (a warning about an event that fits no run comes without --summary too, and comes first)
            remark = errors if errors.startswith("warning: event ") else remark_on(trace, reports, counts)
            wanted = (status, f"{plain}{counts}\n", remark)
            first = judged(program, [*words, "--summary"], first_part(trace, reports))
            for report in map(json.loads, reports):
                found[" ".join(filter(None, [report["verdict"], report.get("why")]))] += 1
        except (KeyError, ValueError) as wrong:
            wanted = f"a report: {wrong}, {plain}{errors}"
            first = wanted
        came = judged(program, [*words, "--summary"], trace)
        came_first = judged(program, [*words, "--first", "--summary"], trace)
        if came == wanted and came_first == first:
            passed += 1
        else:
            failed += 1
            row = " | ".join(trace.splitlines())
            print(f"tmwatch judge --summary {' '.join(words)}\n< {row}\n  wanted {wanted}\n  came   {came}\n  wanted {first}\n  by --first {came_first}")
    if runs > 0:
        print(", ".join(f"{number} {verdict}" for verdict, number in found.items()))
        failed += sum(number == 0 for number in found.values())
    print(f"{passed} passed, {failed} failed")
    sys.exit(failed > 0)


main()
