#!/usr/bin/env python3
"""Compares the whole output of a bench in C with the output that this script computes: the random choices, the schedule, the memory.

    tests/runs.py PROGRAM REPLAY FAULT OPTION..

PROGRAM is tests/c/bench_marks.c on the bench, with this FAULT, and REPLAY is tests/c/bench_replay.c; the OPTIONs are those of the program.
It runs with --schedule steps or all, or with one thread, because threads run in an arbitrary order otherwise. The script compares standard
output and error, the trace, FILE.report, FILE.steps (whose addresses are those of the functions that pause), and the report of --junit. It
leaves out the part of a run that exists only because the judge is late.
Exit status: 0 if nothing differs, 1 otherwise.
"""
import json
import os
import re
import subprocess
import sys
import tempfile
import time
import xml.etree.ElementTree as tree

import draws
import legs

WORD, UNDRAWN = 2**64, 2**64 - 1
REGISTERS, THREADS, LOOK, ATTEMPTS, LEG, KEPT, MOST_LOOKED, FIRST_ATTEMPTS = 8, 8, 64, 8, 1000, 2**17, 2**16, 8
LOOK_ATTEMPTS = 200  # after which, and the plan's timeout, a look may be given up
# The options in their order, each with its default, and the usual number of those that may be drawn.
DEFAULTS = {
    "schedule": "all", "rounds": 100000, "seconds": 0, "seed": 1, "keep-going": 0, "crashes": 0, "timeout": 5, "round": 0, "event": 0,
    "audit-first": 0, "threads": UNDRAWN, "registers": UNDRAWN, "accesses": UNDRAWN, "writes": UNDRAWN, "adds": UNDRAWN, "aborts": UNDRAWN,
    "pause": UNDRAWN, "mixed-rounds": UNDRAWN, "blind-writes": UNDRAWN, "attempts": 0, "orders": UNDRAWN, "plain": 0, "races": "report",
    "values": "wide",
}  # fmt: skip
FLAGS = ("audit-first", "plain", "keep-going", "crashes")
USUAL = dict(zip(legs.NAMES, legs.USUAL)) | {"orders": "sequential"}
LACKS = {
    "threads": "warning: only one thread ran, so no two transactions could overlap",
    "overlap": "warning: no two transactions overlapped, so this run tests nothing",
    "stores": "warning: nothing was written, so this run tests nothing",
    "commits": "warning: no transaction committed, so this run tests little",
    "aborts": "warning: the memory never aborted a transaction. Either it uses locks, or a conflict check is missing, or there were too few conflicts",
    "progress": "warning: nearly all transactions were rolled back, so this run tests little",
}
MEETS, NOBODYS = object(), 12345


def read_options(words):
    plan, left = dict(DEFAULTS), iter(words)
    for name in left:
        value = "1" if name[2:] in FLAGS else next(left)
        plan[name[2:]] = int(value) if value.isdigit() else value
    if plan["seconds"] and "--rounds" not in words:
        plan["rounds"] = UNDRAWN
    plan["rounds"] = plan["round"] or plan["rounds"]
    return plan


def words_of(plan):
    """Returns the options of a plan: its seed, and what isn't the default."""
    left = {"timeout"}
    left |= {"rounds"} if plan["round"] or plan["rounds"] == UNDRAWN else set()
    left |= {"orders"} if plan["schedule"] != "all" and plan["orders"] == "sequential" else set()
    return " ".join(f"--{name}" if name in FLAGS else f"--{name} {plan[name]}" for name in DEFAULTS
                    if name not in left and (plan[name] != DEFAULTS[name] or name == "seed"))


def filled(plan):
    return {name: USUAL[name] if number == UNDRAWN and name in USUAL else number for name, number in plan.items()}


class Memory:
    """tests/c/bench_marks.c. Each `yield` is one of its pauses, with the function that it stands in."""

    def __init__(self, fault):
        self.fault, self.words, self.marks = fault, [NOBODYS * (fault == "START")] + [0] * 7, [0] * REGISTERS
        self.begun = self.marked = self.asked = self.aborted = self.runs = 0

    def stay(self, tx, here, number):
        """Never returns from the call of this number, by this fault."""
        while self.fault == here and number == 200:
            tx["stays"] = here
            yield "stay"

    def run(self, tx):
        self.runs += 1
        yield from self.stay(tx, "RUN", self.runs)

    def begin(self, tx):
        self.begun += 1
        tx["self"] = self.begun
        yield from self.stay(tx, "BEGIN", self.begun)

    def clear(self, tx, restores, leaves):
        for reg in range(REGISTERS):
            if self.marks[reg] == tx["self"]:
                yield "clear"
                self.words[reg] = tx[reg] if restores else self.words[reg]
                self.marks[reg] = self.marks[reg] if leaves else 0

    def cancel(self, tx):
        self.aborted += 1
        number = self.aborted
        yield from self.stay(tx, "CANCEL", number)
        yield from self.clear(tx, True, self.fault == "LEFT" and number >= 3)

    def mark(self, tx, reg):
        yield "mark"
        self.marked += 1
        yield from self.stay(tx, "BOTH" if self.fault == "BOTH" else "MARK", self.marked)
        if self.marks[reg] in (0, tx["self"]):
            if self.marks[reg] == 0:
                self.marks[reg], tx[reg] = tx["self"], self.words[reg]
            return True
        yield from self.cancel(tx)
        return False

    def read(self, tx, reg):
        """Returns the value, or None if the transaction was rolled back."""
        yield "read"
        if self.fault != "READS" and not (yield from self.mark(tx, reg)):
            return None
        return NOBODYS if self.fault == "BOTH" and 195 < self.marked <= 200 else self.words[reg]

    def write(self, tx, reg, value):
        if not (yield from self.mark(tx, reg)):
            return False
        self.words[reg] = value
        return True

    def call(self, tx, letter, reg, value):
        """Returns the letter and the value of the answer, or None."""
        if letter == "W":
            return ("K", None) if (yield from self.write(tx, reg, value)) else None
        found = yield from self.read(tx, reg)
        if found is None or letter == "R":
            return None if found is None else ("V", found)
        return ("V", found) if (yield from self.write(tx, reg, (found + value) % WORD)) else None

    def commit(self, tx):
        yield "commit"
        self.asked += 1
        number = self.asked
        yield from self.stay(tx, "COMMIT", number)
        if self.fault == "REFUSED" and number % 5 != 0:
            yield from self.cancel(tx)
            return False
        yield from self.clear(tx, self.fault == "LOST" and number >= 1500, False)
        return True


class Thread(draws.Thread):
    """A thread of a leg: what it draws, and its transaction of the memory."""

    def __init__(self, number, plan, start, written):
        names = ("seed", "threads", "accesses", "writes", "adds", "aborts", "mixed-rounds", "blind-writes", "attempts")
        # (a memory without `add` is asked for none)
        given = plan | ({"adds": 0} if os.environ.get("LACKS") == "add" else {})
        super().__init__(number, [given[name] for name in names], start)
        self.written, self.tx, self.has_permits, self.is_small = written, {}, plan["schedule"] == "permits", plan["values"] == "small"

    def draw_share(self):
        if not self.has_permits:
            super().draw_share()
        else:
            self.uses, self.left, self.is_mixed = self.plan[2], self.plan[8] or WORD, False


def returned(steps):
    """Runs steps that nobody else's come between, and returns what they return."""
    while True:
        try:
            next(steps)
        except StopIteration as it:
            return it.value


class Leg:
    """One leg: its events, its steps and its rounds, as they have to be."""

    def __init__(self, session, plan):
        self.session, self.plan, self.memory = session, plan, session.memory
        self.start = session.start[: plan["registers"]]
        self.threads = [Thread(number, plan, self.start, session.written[number]) for number in range(plan["threads"])]
        self.draws = draws.Draws(~plan["seed"] % WORD * draws.VALUES)
        self.events, self.listed, self.starts, self.looks_end = [], [], {0: 0}, set()
        self.round = self.steps = self.switches = self.asked = self.committed = self.foreign = self.attempted = self.next_look = 0
        self.refused, self.stored, self.rejected, self.rejected_at, self.rejected_reg = set(), set(), 0, 0, None
        self.by_steps, self.is_over, self.is_stuck = plan["schedule"] == "steps", False, False
        self.lengths, self.is_mixed = [16 * 64, 16 * 64], False

    def record(self, thread, letter, reg=None, value=None):
        self.events.append(" ".join(str(it) for it in (thread.number, letter, reg, value) if it is not None))

    def attempt(self, thread, calls):
        """Makes an attempt, but its last event: returns what ends it, and whether none follows, however many there may be."""
        tx, before, stored = thread.tx, None, set()
        for place, (letter, reg, value) in enumerate(calls):
            self.record(thread, letter, reg, value)
            before = self.asked if before is None else before
            yield None
            if place == 0:
                yield from self.memory.begin(tx)
            if letter not in "RWN":
                break
            stored |= {reg} if letter != "R" else set()
            answer = yield from self.memory.call(tx, letter, reg, value)
            yield None
            if answer is None:
                return self.end_of(thread, False, False, before, stored), False
            self.record(thread, answer[0], None, answer[1])
        if letter == "X":
            yield from self.memory.cancel(tx)
            return self.end_of(thread, False, True, before, stored), True
        has_committed = yield from self.memory.commit(tx)
        return self.end_of(thread, has_committed, False, before, stored), has_committed

    def end_of(self, thread, has_committed, has_asked, before, stored):
        """Returns what ends the attempt, which comes after a step."""
        def end():
            self.foreign = max(self.foreign, self.committed - before)
            self.asked += has_committed
            self.record(thread, "C" if has_committed else "A")
            self.committed += has_committed
            if has_committed or not has_asked:
                (self.stored if has_committed else self.refused).update(stored)
        return end

    def share(self, thread):
        """A thread's transactions of one round, or its next one by permits."""
        thread.draw_share()
        while thread.left:
            is_over = False
            if self.session.runs_itself:
                yield from self.memory.run(thread.tx)
            while not is_over:
                if self.plan["schedule"] == "permits":
                    if thread.made and self.attempted >= self.next_look:
                        self.look_if_due(thread)
                    if self.rejected:
                        return
                    self.attempted += 1
                end, has_ended = yield from self.attempt(thread, thread.next_attempt())
                is_over = has_ended or thread.made == thread.most
                # (a memory that attempts again by itself goes on at once)
                if has_ended or not self.session.runs_itself:
                    yield None
                end()
                thread.end_attempt(has_ended)
                if is_over and self.session.runs_itself and not has_ended:
                    yield None
            thread.left = thread.left if thread.is_mixed else 0

    def alone(self, thread, calls_of):
        """Makes a transaction of a look until it commits, or is given up: whether it has committed."""
        began, made = len(self.events), 0
        if self.session.runs_itself:
            returned(self.memory.run(thread.tx))
        while not made or (len(self.events) - began < MOST_LOOKED and made < self.session.most_attempts):
            made += 1
            self.attempted += self.plan["schedule"] == "permits"
            end, has_committed = returned(self.attempt(thread, calls_of()))
            end()
            if made <= FIRST_ATTEMPTS:
                self.rejected_at = len(self.events)
            if has_committed:
                return True
        self.rejected, self.rejected_thread = made, thread.number
        return False

    def look(self, thread):
        registers, is_well = range(self.plan["registers"]), True
        due, self.refused, self.stored = self.refused - self.stored, set(), set()
        for reg in registers:
            if reg in due and is_well:
                is_well = self.alone(thread, lambda: [("W", reg, self.session.look_value()), ("T", None, None)])
                self.rejected_reg = reg
        if is_well:
            is_well = self.alone(thread, lambda: [("R", reg, None) for reg in registers] + [("T", None, None)])
            self.rejected_reg = None
            self.looks_end |= {len(self.events)} if is_well else set()

    def look_if_due(self, thread):
        if self.attempted >= self.next_look:
            self.next_look = self.attempted + LOOK * ATTEMPTS
            self.look(thread)

    def end_round(self, thread):
        """What is between two rounds: a look after each 64th, and at the end."""
        self.is_over = self.round == self.plan["rounds"]
        looks = self.round % LOOK == 0 or (self.plan["audit-first"] and self.round + 1 == self.plan["round"])
        if self.is_over or looks:
            self.look(thread)
        self.is_over = self.is_over or self.rejected > 0
        self.round += 1
        self.starts[self.round] = len(self.events)

    def run(self, events):
        """Runs it to its end, or to that of the round in which so many events are recorded."""
        if self.by_steps:
            self.run_by_steps(events)
            return
        thread, = self.threads
        if self.plan["schedule"] == "rounds":
            while len(self.events) < events and (self.end_round(thread) or not self.is_over):
                returned(self.share(thread))
            return
        while len(self.events) < events and self.round < self.plan["rounds"] and not self.rejected:
            self.round += 1
            self.look_if_due(thread)
            returned(self.share(thread))
        self.round += 1
        if not self.rejected:
            self.look(thread)

    def part(self, thread):
        """A thread's part of the leg, until its next step or the end of its round."""
        if thread.number == 0:
            yield MEETS
        while True:
            yield from self.share(thread)
            yield MEETS

    def run_by_steps(self, events):
        parts, runner, self.ready = [self.part(it) for it in self.threads], 0, {0}
        while not self.is_over and not self.is_stuck and self.starts[self.round] < events:
            step = next(parts[runner])
            if step is not MEETS:
                runner = self.step(runner, step)
                continue
            self.ready.discard(runner)
            if self.ready:
                self.switches += 1
            else:
                self.turn_round(self.threads[runner])
            self.spin, runner = 0, self.choose(self.ready)
            self.is_stuck = self.ready == {runner} and "stays" in self.threads[runner].tx

    def turn_round(self, thread):
        if self.round > 0:
            length = self.lengths[self.is_mixed]
            self.lengths[self.is_mixed] = length + self.step_of_round - length // 16
        self.end_round(thread)
        mix = draws.Draws(self.plan["seed"] * draws.ROUNDS + self.round)
        self.is_mixed = self.plan["threads"] > 1 and mix.below(100) < self.plan["mixed-rounds"]
        self.ready, self.step_of_round, self.changes = {it.number for it in self.threads}, 0, []
        self.odds = 2 << self.draws.below(4) if self.draws.below(2) == 0 else 0
        self.lowest = 2**32
        self.priorities = [self.lowest + self.draws.below(2**20) * THREADS + number for number in range(THREADS)]
        if not self.odds:
            length = self.lengths[self.is_mixed] // 16
            self.changes = [self.draws.below(length + length // 4 + 1) for _ in range(self.draws.below(4))]

    def choose(self, threads):
        if threads and self.odds:
            return sorted(threads)[self.draws.below(len(threads))]
        return max(threads, key=lambda it: self.priorities[it], default=None)

    def step(self, runner, place):
        """A step of the runner, in this function of the memory or beside a call: who runs then."""
        self.steps += 1
        self.step_of_round += 1
        self.spin = self.spin + 1 if place else 0
        if place:
            self.listed.append((len(self.events), runner, place))
        hands_over = self.spin > 128 and self.draws.below(4) == 0 or self.odds > 0 and self.draws.below(self.odds) == 0
        if not hands_over and self.step_of_round - 1 not in self.changes:
            return runner
        self.lowest -= 1
        self.priorities[runner], self.spin = self.lowest, 0
        following = self.choose(self.ready - {runner} if self.odds else self.ready)
        self.is_stuck = self.ready == {runner} and "stays" in self.threads[runner].tx
        if following in (None, runner):
            return runner
        self.switches += 1
        return following

    def round_of(self, at):
        return max(it for it in self.starts if it == 0 or self.starts[it] < at)


class Session:
    """A whole run, in one leg or several."""

    def __init__(self, fault, runs_itself, plan):
        self.memory, self.runs_itself, self.plan = Memory(fault), runs_itself, plan
        self.start, self.written, self.looked, self.legs = [0] * REGISTERS, [0] * THREADS, 0, []
        self.most_attempts = WORD  # of a look, after so much time

    def look_value(self):
        self.looked += 1
        return self.looked * draws.SMALL_APART + THREADS if self.plan["values"] == "small" else (2**63 + self.looked) * draws.VALUES % WORD

    def plans(self):
        """Yields the plan of each leg."""
        if self.plan["schedule"] != "all":
            yield filled(self.plan)
            return
        drawing, number, rounds = draws.Draws(self.plan["seed"]), 0, 0
        while rounds < self.plan["rounds"]:
            schedule = legs.schedule_of(number, True)
            words = legs.plan_of(drawing, schedule, False) if number else words_of({**filled(self.plan), "schedule": schedule})
            plan = read_options(words.split()) | {name: it for name, it in self.plan.items() if name in USUAL and it != UNDRAWN}
            left = self.plan["round"] - rounds
            plan |= {"rounds": min(LEG, self.plan["rounds"] - rounds), "round": left if 0 < left <= LEG else 0, "orders": "sequential"}
            plan |= {name: self.plan[name] for name in ("seconds", "attempts", "event", "audit-first", "timeout")}
            number, rounds = number + 1, rounds + plan["rounds"]
            yield plan

    def run(self, events):
        """Runs one leg after another, up to one with so many events in all, if something is wrong there."""
        for plan in self.plans():
            leg = Leg(self, plan)
            self.legs.append(leg)
            leg.run(events)
            events -= len(leg.events)
            if leg.rejected or leg.is_stuck or events <= 0:
                return
            self.start = self.memory.words[: plan["registers"]] + self.start[plan["registers"] :]
            for thread in leg.threads:
                self.written[thread.number] = thread.written


def counts_of(events):
    """Returns the counts of these events, by their definitions (docs/FORMATS.md)."""
    live, count = {}, dict.fromkeys(("aborted", "committed", "cuts", "live", "concurrent", "transactions", "forced_aborts", "max_window"), 0)
    overlap, before, window = set(), {}, 0
    for event in events:
        thread, letter = event.split()[:2]
        if thread not in live:
            count["transactions"] += 1
            window += 1
            overlap |= {*live.values(), count["transactions"]} if live else set()
            live[thread] = count["transactions"]
        if letter in "CA":
            count["committed" if letter == "C" else "aborted"] += 1
            count["forced_aborts"] += letter == "A" and before[thread] != "X"
            del live[thread]
        before[thread] = letter
        count["max_window"] = max(count["max_window"], window)
        if not live:
            count["cuts"], window = count["cuts"] + 1, 0
    return count | {"live": len(live), "concurrent": len(overlap)}


def line_of(it):
    return json.dumps(it, sort_keys=True, separators=(",", ":"))


class Told:
    """What a run has to print and write."""

    def __init__(self, session, report, replay, program):
        self.program, self.session, self.plan, self.last = program, session, session.plan, session.legs[-1]
        self.before = sum(len(leg.events) for leg in session.legs[:-1])
        self.is_violated, self.events = report.get("verdict") == "violated", report.get("events")
        self.at = self.judge(replay) if self.is_violated else 0
        self.end = self.at or (self.last.rejected_at if self.last.rejected else len(self.last.events))
        self.fails = self.is_violated or self.last.is_stuck or self.last.rejected > 0
        self.counts_of_legs = [counts_of(leg.events) for leg in session.legs[:-1]] + [counts_of(self.last.events[: self.at or None])]

    def judge(self, replay):
        """Returns at which event of the last leg the library finds the violation."""
        trace = "\n".join([self.header(self.last.start), *self.last.events, ""])
        told = subprocess.run([replay], input=trace, capture_output=True, text=True).stdout
        return json.loads(told.splitlines()[0]).get("at", 0)

    def header(self, start):
        return " ".join(str(it) for it in ["opacity-trace 2", self.last.plan["registers"], *start])

    def trace(self):
        """Returns the trace, and how many events of the last leg precede it."""
        earliest = max(0, len(self.last.events) - KEPT)
        after = [it for it in sorted(self.last.looks_end) if earliest < it < self.end]
        is_wrong = self.is_violated or self.last.rejected > 0
        from_place = after[-1] if is_wrong and after else 0
        if not is_wrong and earliest:
            from_place = next(it for it in after if it > earliest + 2 * self.last.plan["registers"] + 2)
        start = self.last.start
        looked = [line.split() for line in self.last.events[max(0, from_place - 2 * len(start) - 2) : from_place]]
        start = [int(words[2]) for words in looked if words[1] == "V"] or start
        return [self.header(start), *self.last.events[from_place : self.end]], from_place

    def again(self):
        again = dict(self.plan)
        is_deterministic = self.fails and self.last.by_steps
        if is_deterministic:
            # (the first look is of round 1)
            again |= dict.fromkeys(("rounds", "round"), max(1, self.rounds())) | {"seconds": 0, "event": 0}
            again["audit-first"] = int(again["audit-first"] and again["round"] == self.plan["round"])
        return {"reproduce": words_of(again), "deterministic": is_deterministic}

    def rounds(self):
        before = sum(leg.round - 1 for leg in self.session.legs[:-1])
        if self.is_violated and self.last.by_steps:
            return before + self.last.round_of(self.at)
        return before + (self.last.round if self.last.is_stuck else self.last.round - 1)

    def counts(self):
        return {name: (max if name == "max_window" else sum)(it[name] for it in self.counts_of_legs) for name in self.counts_of_legs[0]}

    def lacks(self):
        counts, letters = self.counts(), {line.split()[1] for leg in self.session.legs for line in leg.events}
        is_slow = 0 < counts["committed"] < counts["transactions"] // 20
        # (one thread alone is said to be one)
        none_overlap = not any(it["concurrent"] for it in self.counts_of_legs) and self.plan["threads"] > 1
        so = {"threads": self.plan["threads"] == 1, "overlap": none_overlap, "stores": not letters & {"W", "N"},
              "commits": counts["committed"] == 0, "aborts": counts["forced_aborts"] == 0, "progress": is_slow or self.last.rejected > 0}
        return [name for name, it in so.items() if it and not self.is_violated]

    def lines(self):
        """Returns the three lines, or the four of what is wrong. None stands for numbers that depend on when the judge comes."""
        all_legs, late = self.session.legs, self.is_violated or self.last.is_stuck
        events = sum(len(leg.events) for leg in all_legs)
        report = {"events": self.events if self.is_violated else events, "verdict": "violated" if self.is_violated else "opaque so far"}
        report |= {"at": self.before + self.at} if self.is_violated else {}
        rounds = {"max_interleaved_commits": None if self.is_violated else max(leg.foreign for leg in all_legs)}
        rounds["rounds"] = self.rounds() if self.last.by_steps or not self.is_violated else None
        begins = self.before + self.trace()[1]
        rounds |= {"skipped": begins} if begins else {}
        rounds |= {"untested": self.lacks()} if self.lacks() else {}
        if any(leg.by_steps for leg in all_legs):
            rounds |= {"stalls": 0, "steps": None if late else sum(leg.steps for leg in all_legs),
                       "context_switches": None if late else sum(leg.switches for leg in all_legs)}
        return [line_of(it) for it in (report, rounds, self.counts())] + ([line_of(self.again())] if self.fails else [])

    def stdout(self):
        if self.fails and not self.is_violated:
            return ['{"fault":"hang"}' if self.last.is_stuck else '{"fault":"no progress"}', line_of(self.again())]
        return self.lines()

    def stderr(self):
        told = []
        if self.plan["legs"]:
            told += [f"phase {number}: {words_of(leg.plan | {'seconds': 0})}" for number, leg in enumerate(self.session.legs, 1)]
        if self.last.is_stuck:
            told += [f"hang: no event for {self.plan['timeout']} seconds (--timeout)"]
            told += [self.place_of(thread) for thread in self.last.threads]
        elif self.last.rejected and not self.is_violated:
            of, hint = "read of all registers", ", or did a clock wrap"
            if self.last.rejected_reg is not None:
                of, hint = f"write to register {self.last.rejected_reg}", ""
            alone = f"no progress: thread {self.last.rejected_thread} ran alone, but its {of}"
            told += [f"{alone} was rolled back {self.last.rejected} times. Was a lock or a reader flag not released{hint}?"]
        if not self.fails:
            return told + [LACKS[name] for name in self.lacks()]
        again = self.again()
        line = f"to try again with the same options (this run may not come again): {self.program} {again['reproduce']}"
        if again["deterministic"]:
            line = f"to reproduce: {self.program} {again['reproduce']}"
            if self.is_violated:
                number = self.at - self.last.starts[self.last.round_of(self.at)]
                line += f"\nto stop in gdb just before the violation: add --event {number}, then 'break tmwatch_breakpoint'"
        if self.is_violated and sum(it["transactions"] for it in self.counts_of_legs) == 1:
            told += ["the very first read is wrong: are the registers initialized to plan.start?"]
        return told + line.split("\n") + ([f"options of this phase: {words_of(self.last.plan)}"] if self.plan["schedule"] == "all" else [])

    def place_of(self, thread):
        if "stays" not in thread.tx:
            return f"thread {thread.number}: waiting for the other threads"
        letter, reg = next(([*line.split(), ""][1:3] for line in reversed(self.last.events) if line[0] == str(thread.number)), ("", ""))
        call = {"R": "read", "W": "write", "N": "add", "T": "commit", "X": "abort"}.get(letter)
        if letter in "RWN" and thread.tx["stays"] not in ("BEGIN", "RUN"):
            return f"thread {thread.number}: {call}(register {reg}) has not returned"
        call = "run" if self.session.runs_itself else "begin" if thread.tx["stays"] == "BEGIN" else call
        return f"thread {thread.number}: {call} has not returned"

    def steps(self):
        """Returns the steps of the round that is wrong, if any are listed."""
        # (a thread that never returns makes more steps than are kept)
        if not self.last.by_steps or not self.at and not self.last.rejected or self.last.is_stuck:
            return []
        starts, number = self.last.starts, self.last.round_of(self.at) if self.at else self.last.round - 1
        end = starts.get(number + 1, WORD)
        return [f"{at - starts[number]} {thread} {place}" for at, thread, place in self.last.listed if starts[number] <= at < end]

    def junit(self):
        kind = "failure" if self.is_violated else "error" if self.fails else None
        case = [kind, "violated" if self.is_violated else "hang" if self.last.is_stuck else "no progress", "\n".join(["", *self.lines(), ""])] if kind else None
        suite = ["testsuite", "tmwatch_bench", "1", str(int(kind == "failure")), str(int(kind == "error"))]
        return [*suite, "testcase", "tmwatch_bench", self.program, case]


def without_late(line, wanted):
    """The line as it is wanted, if nothing differs but numbers that depend on when the judge comes."""
    try:
        found, due = json.loads(line), json.loads(wanted)
    except ValueError:
        return line
    if any(it is None for it in due.values()) and line == line_of(found):
        found |= {name: None for name, it in due.items() if it is None and isinstance(found.get(name), int)}
    return line_of(found)


def masked(lines, wanted):
    return [without_late(line, due) if line.startswith("{") and due.startswith("{") else line
            for line, due in zip(lines, wanted + [""] * len(lines))]


def read_steps(path, program):
    """Returns a listing's lines, with the functions that the addresses lie in, in a line that pauses."""
    try:
        with open(path, encoding="ascii") as it:
            lines = [line.split() for line in it]
    except FileNotFoundError:
        return []
    of = [*{words[3] for words in lines if len(words) > 3}, program][0]
    named = subprocess.run(["addr2line", "-fse", of], input="\n".join(words[2] for words in lines), capture_output=True, text=True)
    names, places = named.stdout.splitlines()[::2], named.stdout.splitlines()[1::2]
    with open(f"{os.path.dirname(os.path.realpath(__file__))}/c/bench_marks.c", encoding="ascii") as it:
        source = dict(enumerate(it, 1))
    is_pause = ["TMWATCH_PAUSE" in source.get(int(re.sub(r".*:|\D.*", "", place) or 0), "") for place in places]
    return [" ".join([*words[:2], name if it else "no pause"]) for words, name, it in zip(lines, names, is_pause, strict=True)]


def read_junit(path):
    suite = tree.parse(path).getroot()
    cases = list(suite)
    inner = [[it.tag, it.get("message"), it.text] for it in cases[0]] or [None]
    found = [suite.tag, *(suite.get(name) for name in ("name", "tests", "failures", "errors"))]
    return [*found, *(part for it in cases for part in (it.tag, it.get("classname"), it.get("name"))), *inner]


def compare(name, found, wanted):
    if found == wanted:
        return True
    place = next((at for at, (one, other) in enumerate(zip(found, wanted)) if one != other), min(len(found), len(wanted)))
    lines = [f"+ {it}" for it in found[place : place + 3]] + [f"- {it}" for it in wanted[place : place + 3]]
    print(f"{name}, line {place + 1}:", *lines, sep="\n")
    return False


def main(words):
    program, replay, fault, given = words[0], words[1], words[2], words[3:]
    options = [it for it in given if it != "--print-phases"]
    with tempfile.TemporaryDirectory() as folder:
        trace = f"{folder}/trace"
        began = time.monotonic()
        ran = subprocess.run([program, *given, "--trace", trace, "--junit", f"{folder}/junit"], env={**os.environ, "FAULT": fault}, capture_output=True,
                             text=True)
        lines = ran.stdout.splitlines()
        report = json.loads(lines[0])
        session = Session(fault.removesuffix("-RUNS"), fault.endswith("-RUNS"), read_options(options) | {"legs": "--print-phases" in given})
        given_up = re.search("rolled back ([0-9]+) times", ran.stderr)
        if given_up and 0 < session.plan["timeout"] <= time.monotonic() - began:
            session.most_attempts = max(LOOK_ATTEMPTS, int(given_up[1]))
        session.run(report.get("at", 10**9))
        told = Told(session, report, replay, program)
        with open(trace, encoding="ascii") as it:
            traced = it.read().splitlines()
        with open(f"{trace}.report", encoding="ascii") as it:
            run = it.read().splitlines()
        every = told.lines() if told.fails else told.lines() + [line_of(told.again())]
        found = [
            compare("status", [ran.returncode], [1 if told.is_violated else 4 if told.fails else 0]),
            compare("standard output", masked(lines, told.stdout()), told.stdout()),
            compare("standard error", ran.stderr.splitlines(), told.stderr()),
            compare("trace", traced, told.trace()[0]),
            compare("FILE.report", masked(run, every), every),
            compare("FILE.steps", read_steps(f"{trace}.steps", program), told.steps()),
        ]
        junit = read_junit(f"{folder}/junit")
        if junit[-1] and told.fails:
            junit[-1][2] = "\n".join(masked(junit[-1][2].split("\n"), ["", *told.lines(), ""]))
        found.append(compare("report", junit, told.junit()))
        events = sum(len(leg.events) for leg in session.legs)
        print(f"{len(session.legs)} legs, {events} events, {session.looked} writes of looks, {len(told.steps())} steps of the wrong round")
    return 0 if all(found) else 1


if __name__ == "__main__":
    sys.exit(main(sys.argv[1:]))
