#!/usr/bin/env python3
"""Compares the transactions in a bench's trace with those that this script computes from the plan.

    tests/draws.py TRACE ROUNDS SEED THREADS CALLS WRITES ADDS ABORTS MIXES BLINDS [ATTEMPTS]

The trace is that of a whole run with --schedule rounds or steps, of a memory with `add`. Each attempt of each thread must be a beginning of
the transaction that the plan requires, with its registers and values. Each round must have its share of attempts, of which a transaction
has at most ATTEMPTS. A transaction that reads all registers while no other one runs is an audit; one that writes a register while no other
one runs, with a value that only audits write, belongs to it. Prints the number of attempts that were compared, and the number of values,
which must all be different.
Exit status: 0 if all is as required, 1 otherwise.
"""
import sys
from copy import deepcopy

WORD, SPLIT, ROUNDS, VALUES = 2**64, 0x9E3779B97F4A7C15, 0xD1342543DE82EF95, 0x9E3779B97F4A7C15
MOST_ATTEMPTS, MOST_USES, PLACES, SMALL_APART, SMALL_ADDENDS = 8, 16, 8, 16, 2**16
UNVALUE = pow(VALUES, -1, WORD)


class Draws:
    """Numbers by SplitMix64 (Steele, Lea and Flood, OOPSLA 2014)."""

    def __init__(self, state):
        self.state = state % WORD

    def below(self, most):
        self.state = word = (self.state + SPLIT) % WORD
        word = (word ^ word >> 30) * 0xBF58476D1CE4E5B9 % WORD
        word = (word ^ word >> 27) * 0x94D049BB133111EB % WORD
        return (word ^ word >> 31) % most


class Thread:
    """What a thread draws: by the plan (seed, threads, calls, writes, adds, aborts, mixes, blinds, attempts), and the registers' start."""

    def __init__(self, number, plan, start):
        self.number, self.plan, self.start, self.written, self.round = number, plan, start, 0, 0
        self.draws = Draws(plan[0] * PLACES + number)
        self.addends = Draws(~(plan[0] * PLACES + number))
        self.left, self.most, self.made, self.is_mixed, self.is_small = 0, 0, 0, False, False

    def draw_share(self):
        seed, threads, calls = self.plan[:3]
        self.round += 1
        draws = Draws(seed * ROUNDS + self.round)
        self.left, self.uses = self.plan[8] or MOST_ATTEMPTS // threads, calls
        self.is_mixed = threads > 1 and draws.below(100) < self.plan[6]
        if self.is_mixed:
            first, others = draws.below(threads), 1 + draws.below(threads - 1)
            owners = [(first + 1 + draws.below(others)) % threads for _ in range(1, MOST_ATTEMPTS)]
            self.left = owners.count(self.number) + (self.number == first)
            self.uses = min(2 * calls, MOST_USES) if self.number == first else 1 + self.draws.below(2)

    def draw_transaction(self):
        _, _, _, writes, adds, aborts, _, blinds, attempts = self.plan
        while self.left == 0:
            self.draw_share()
        self.calls, self.most, self.made = [], min(self.left, attempts or self.left), 0
        end = "X" if self.draws.below(100) < aborts else "T"
        is_blind = self.draws.below(100) < blinds and writes > 0
        for _ in range(self.uses):
            register, is_add = self.draws.below(len(self.start)), self.draws.below(100) < adds
            is_write = self.draws.below(100) < writes and not is_add
            self.calls += [] if is_blind else [("N" if is_add else "R", register)]
            self.calls += [("W", register)] if is_write or is_blind else []
        self.calls.append((end, None))

    def value_of(self, letter):
        if letter == "N":
            return self.addends.below(SMALL_ADDENDS if self.is_small else WORD - 1)
        while letter == "W":
            self.written += 1
            value = self.written * SMALL_APART + self.number if self.is_small else (self.written * PLACES + self.number) * VALUES % WORD
            if value not in self.start:
                return value

    def next_attempt(self):
        """Returns the calls of the next attempt, with their values."""
        if self.made == 0:
            self.draw_transaction()
        self.made += 1
        return [(letter, register, self.value_of(letter)) for letter, register in self.calls]

    def end_attempt(self, is_over):
        tried = self.made
        if is_over or self.made == self.most:
            self.made = 0
            self.left = self.left - tried if self.is_mixed else 0


def is_of_look(calls, registers):
    """Whether a look may make these calls: the first ones, if it was rolled back."""
    reads = [("R", k) for k in range(registers)] + [("T", None)]
    is_write = calls[0][0] == "W" and calls[0][2] * UNVALUE % WORD > WORD // 2 and [it[0] for it in calls[1:]] in ([], ["T"])
    return is_write or [it[:2] for it in calls] == reads[: len(calls)]


def read_attempts(lines, registers):
    """Yields each attempt at its end: the thread, its calls, whether none follows it, and whether it may be a look."""
    live = {}
    for line in lines:
        words = line.split()
        thread, letter = int(words[0]), words[1]
        if letter in "RWNTX":
            calls, met = live.setdefault(thread, ([], set(live)))
            for others in live.values():
                others[1].update(live)
            register = int(words[2]) if letter in "RWN" else None
            calls.append((letter, register, int(words[3]) if letter in "WN" else None))
        elif letter in "CA":
            calls, met = live.pop(thread)
            alone = met <= {thread} and is_of_look(calls, registers)
            yield thread, calls, letter == "C" or calls[-1][0] == "X", alone


def followed(thread, made, rounds):
    """Returns how many of the attempts that a thread made are its plan's, and their values; or what is not so. What may be a look, and the
    plan's too, is tried as both."""
    todo, seen, wrong = [(0, thread, thread.next_attempt(), 0, [])], set(), ""
    while todo:
        at, thread, due, count, values = todo.pop()
        for at, (calls, is_over, alone) in enumerate(made[at:], at + 1):
            fits = due[: len(calls)] == calls and thread.round <= rounds
            if not fits and not alone:
                wrong = f"attempt {at}: thread {thread.number} has {calls}, and its plan {due}"
                break
            if not fits:
                continue
            if alone and (at, count) not in seen:
                seen.add((at, count))
                todo.append((at, deepcopy(thread), due, count, list(values)))
            count += 1
            values += [value for letter, _, value in calls if letter in "WN"]
            thread.end_attempt(is_over)
            due = thread.next_attempt()
        else:
            if thread.round > rounds:
                return count, values
            wrong = f"thread {thread.number} has come to round {thread.round}"
    return wrong


def compare(lines, rounds, plan):
    start = [int(it) for it in lines[0].split()[3:]]
    made, attempts, values = [[] for _ in range(plan[1])], 0, []
    for thread, *attempt in read_attempts(lines[1:], len(start)):
        made[thread].append(attempt)
    for number, its_own in enumerate(made):
        found = followed(Thread(number, plan, start), its_own, rounds)
        if isinstance(found, str):
            return found
        attempts, values = attempts + found[0], values + found[1]
    if len(set(values)) < len(values):
        return "a value comes twice"
    print(f"{attempts} attempts, {len(values)} values")
    return None


def main(words):
    with open(words[0], encoding="ascii") as it:
        wrong = compare(it.read().splitlines(), int(words[1]), [int(word) for word in [*words[2:], 0]][:9])
    if wrong:
        print(wrong)
    return 1 if wrong else 0


if __name__ == "__main__":
    sys.exit(main(sys.argv[1:]))
