#!/usr/bin/env python3
"""Compares the output of `tmwatch judge` with the plain definitions, for tests/long/verdicts.sh, whose head describes the checks.

    tests/long/verdicts.py PROGRAM HISTORIES SEED [PEER]
"""
import json
import random
import subprocess
import sys
from collections import Counter

from histories import TOP, Event, has_order, random_history, trace_of

CRITERIA = {"opacity": "opaque so far", "strict": "strict so far"}
ANSWERS = {"R": "VA", "N": "VA", "W": "KA", "T": "CA", "X": "A"}


def is_well_formed(registers, events):
    """Whether each thread's events are calls of registers that there are, each followed by an answer that fits, but for a last one."""
    pending = {}
    for event in events:
        letter, *numbers = event.kind
        call = pending.pop(event.thread, None)
        if call is None:
            if letter not in ANSWERS or letter in "RWN" and numbers[0] >= registers:
                return False
            pending[event.thread] = letter
        elif letter not in ANSWERS[call]:
            return False
    return True


def verdict_of(criterion, start, events, looks_at_each):
    """The verdict by the definitions, and the event at which something is wrong. An order is sought after each answer, or each event."""
    for size in range(1, len(events) + 1):
        prefix = events[:size]
        if not is_well_formed(len(start), prefix):
            return "malformed", size
        if (looks_at_each or prefix[-1].kind[0] in "VCA") and not has_order(criterion, [start], prefix):
            return "violated", size
    return CRITERIA[criterion], None


def changed(rng, start, events):
    """The history with a mistake: an answer that is another, two events that change places, or one that is missing."""
    events = list(events)
    place = rng.randrange(len(events))
    thread, kind = events[place].thread, events[place].kind
    match rng.randrange(4):
        case 0 | 1 if kind[0] == "V":
            kind = ("V", rng.choice([0, 1, 2, 5, TOP - 1]))
        case 0 | 1 if kind[0] in "CA":
            kind = ("A" if kind[0] == "C" else "C",)
        case 2 if place > 0:
            events[place - 1 : place + 1] = [events[place], events[place - 1]]
        case 3:
            del events[place]
    if place < len(events) and events[place].thread == thread:
        events[place] = Event(place + 1, thread, kind)
    return start, tuple(Event(number + 1, event.thread, event.kind) for number, event in enumerate(events))


def judged(program, criterion, trace, *options):
    command = [program, "judge", "--criterion", criterion, *options]
    done = subprocess.run(command, input=trace, stdout=subprocess.PIPE, stderr=subprocess.DEVNULL, text=True, check=False)
    return done.stdout, done.returncode


def is_as_alone(program, trace, *options):
    """Whether both criteria at once report what each does alone."""
    return judged(program, "both", trace, *options)[0] == "".join(judged(program, criterion, trace, *options)[0] for criterion in CRITERIA)


def main():
    """Judges each history by both criteria; and, if there is a peer, a longer one too, on which both must say the same."""
    program, histories, seed, peer = sys.argv[1], int(sys.argv[2]), sys.argv[3], [*sys.argv[4:], None][0]
    passed, failed, found = 0, 0, Counter()
    for history in range(histories):
        rng = random.Random(f"{seed} {history}")
        start, events = random_history(rng)
        if rng.random() < 0.3 and events:
            start, events = changed(rng, start, events)
        longer = random_history(rng, most=200, steps=900) if peer else None
        if longer and longer[1] and rng.random() < 0.7:
            longer = changed(rng, *longer)
        looks_at_each = rng.random() < 0.1
        bounds = ["--states", rng.choice(["1", "2", "64"]), "--window", rng.choice(["2", "8"])]
        for trace in [trace_of(start, events), trace_of(*random_history(rng, most=40, steps=200))]:
            is_right = is_as_alone(program, trace, *bounds)
            passed, failed = passed + is_right, failed + (not is_right)
            if not is_right:
                print(f"both at once by {' '.join(bounds)} is not as each alone\n< {' | '.join(trace.splitlines())}")
        for criterion in CRITERIA:
            trace = trace_of(start, events)
            line, _ = judged(program, criterion, trace)
            report = json.loads(line)
            verdict, at = verdict_of(criterion, start, events, looks_at_each)
            is_right = (report["verdict"], report.get("at")) == (verdict, at)
            for other in [trace, trace_of(*longer)] if peer else []:
                is_right &= judged(program, criterion, other) == judged(peer, criterion, other)
            found[f"{criterion}: {verdict}"] += 1
            passed, failed = passed + is_right, failed + (not is_right)
            if not is_right:
                print(f"{criterion}: {line.strip()}, where by the definitions it is {verdict} at {at}\n< {' | '.join(trace.splitlines())}")
    for kind, count in sorted(found.items()):
        print(f"{count:8d} {kind}")
    missing = [kind for kind in ("violated", "malformed") for criterion in CRITERIA if not found[f"{criterion}: {kind}"]]
    failed += len(missing)
    print(f"{passed} passed, {failed} failed")
    sys.exit(failed > 0)


main()
