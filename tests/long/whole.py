#!/usr/bin/env python3
"""Finds the first prefix of a whole trace that has no serial order, by trying all orders and completions.

    whole.py opacity|strict < run.trace

Prints its length, or `none`. The trace is divided at each cut, and all serial orders of a part are tried from the end states of the part
before it. Only prefixes that end in an answer are checked, because no other event can take an order away. The definitions are those of
histories.py.
Exit status: 0.
"""
import sys
from itertools import product

from histories import Event, transactions

MAY_HOLD = {"committed": [True], "pending": [False, True], "aborted": [False], "live": [False]}


def after(state, transaction, is_held):
    """The state after a transaction, or None if it reads what is not there."""
    own = list(state)
    for register, found, left in transaction.operations:
        if found not in (None, own[register]):
            return None
        own[register] = own[register] if left is None else left
    return tuple(own) if is_held else state


def ends(states, left, held, known):
    """The end states of all legal orders of the transactions that are left, from any of the states."""
    if not left:
        return states
    found = set()
    for t in left:
        if any(other.precedes(t) for other in left if other is not t):
            continue
        rest = tuple(other for other in left if other is not t)
        for state in states:
            key = rest, (end := after(state, t, t in held))
            if end is not None and key not in known:
                known.add(key)
                found |= ends({end}, rest, held, known)
    return found


def all_ends(criterion, states, events):
    ts, found = transactions(tuple(events)), set()
    for choice in product(*[MAY_HOLD[t.status] for t in ts]):
        held = [t for t, is_held in zip(ts, choice) if is_held]
        found |= ends(states, tuple(ts if criterion == "opacity" else held), held, set())
    return found


def first_violated(criterion, registers, lines):
    states, window, live = {(0,) * registers}, [], set()
    for number, line in enumerate(lines, 1):
        thread, letter, *numbers = line.split()
        window.append(Event(number, int(thread), (letter, *map(int, numbers))))
        (live.discard if letter in "CA" else live.add)(thread)
        if letter in "VKCA":
            found = all_ends(criterion, states, window)
            if not found:
                return number
        if not live:
            states, window = found, []
    return None


def main():
    header = sys.stdin.readline().split()
    assert header[:2] == ["opacity-trace", "1"], header
    print(first_violated(sys.argv[1], int(header[2]), sys.stdin) or "none")


if __name__ == "__main__":
    main()
