#!/usr/bin/env python3
"""Decides whether a history of any number of clients and keys is strictly serializable. No proof covers this program.

    examples/import/whole.py [--configurations N] jepsen [KEY..] < history.edn
    examples/import/whole.py [--configurations N] intervals [KEY..] < history.jsonl

What is read, and which transactions count, is as in jepsen.py and intervals.py. Of their limits only those of clocks and of a value written
twice hold here. If KEYs are named, calls on others are left out.

It linearizes just in time (Wing and Gong; Lowe, "Testing for Linearizability", 2017). A configuration is a state of the keys, and the open
transactions that have a place in an order. When a transaction ends, open ones are placed, in each order, until it has a place. If that
leaves no configuration, no order explains what has ended. Configurations stay few, and the verdict the same, since
- no value is written over that one who ends up to some later moment has still to read: nobody writes it again. The end that leaves no
  configuration is then found by halves, since at that moment none is missing;
- values that nobody has still to read are one;
- who changes nothing that others can read is placed as soon as it fits.

Standard output has a line as that of `judge`, in which `at` is the line where the transaction stands, or begins, that can't be placed.
If violated, a second line says what it read that no configuration has.
    --configurations N    at most so many at one end (100000)
Exit status: 0 strict so far; 1 violated; 2 undecided, since there were more configurations; 4 as of jepsen.py.
"""
import json
from collections import namedtuple
from itertools import count

import intervals
import jepsen
from history import Options, Refused, counted, limited, moments_of, read_text, run

READERS = {"intervals": intervals.read, "jepsen": jepsen.read}
MOST = 100_000
UNREAD = -1  # what a key holds if nobody has still to read it
TO_COME = 1  # the mark of whoever has not begun

# What a transaction has to find and leaves, as numbers of keys and values, and the read that its own calls contradict.
Step = namedtuple("Step", "needs puts misfit")


class TooMany(Exception):
    """More configurations than may be, at the end of this transaction."""


class History:
    """Transactions, each by its place in a list: its step, the moments of its begin and end, and its mark, a bit while it is open."""

    def __init__(self, ts):
        self.ts, self.moments = ts, moments_of(ts)
        self.keys = {key: number for number, key in enumerate(dict.fromkeys(key for t in ts for _, key, _ in t.calls))}
        self.values = {(key, None): number for key, number in self.keys.items()}
        steps = [self.step_of(t) for t in ts]
        self.is_read = [False] * len(self.values)
        for step in steps:
            for _, value in step.needs:
                self.is_read[value] = True
        self.steps = [step._replace(puts=tuple((key, self.last_of(value)) for key, value in step.puts)) for step in steps]
        # (who changes nothing that another reads)
        self.is_silent = [not step.misfit and all(value == UNREAD for _, value in step.puts) for step in self.steps]
        self.begin, self.end, self.mark = [None] * len(ts), [None] * len(ts), [None] * len(ts)
        free, fresh = [], (TO_COME << place for place in count(1))
        for moment, (_, is_end, n) in enumerate(self.moments):
            if is_end:
                self.end[n] = moment
                free.append(self.mark[n])
            else:
                self.begin[n], self.mark[n] = moment, free.pop() if free else next(fresh)

    def last_of(self, value):
        return value if self.is_read[value] else UNREAD

    def step_of(self, t):
        needs, puts, misfit = {}, {}, None
        for kind, key, value in t.calls:
            number = self.values.setdefault((key, value), len(self.values))
            known = puts.get(key, needs.get(key))
            if kind == "w":
                puts[key] = number
            elif known is None:
                needs[key] = number
            elif known != number:
                misfit = misfit or (key, value)
        return Step(*[tuple((self.keys[key], value) for key, value in it.items()) for it in (needs, puts)], misfit)


class Waiting:
    """Who has still to read each value, of those who end before a moment: the marks of the open ones, and TO_COME if one has not begun."""

    def __init__(self, history, first, last):
        self.history, self.last = history, last
        self.to_come, self.marks = [0] * len(history.values), [0] * (len(history.values) + 1)
        for n, end in enumerate(history.end):
            if first <= end < last:
                for _, value in history.steps[n].needs:
                    self.to_come[value] += 1
                    self.marks[value] |= TO_COME
                if history.begin[n] < first:
                    self.begin(n)

    def begin(self, n):
        for _, value in self.history.steps[n].needs if self.history.end[n] < self.last else ():
            self.to_come[value] -= 1
            self.marks[value] = (self.marks[value] | self.history.mark[n]) & ~(0 if self.to_come[value] else TO_COME)

    def end(self, n):
        for _, value in self.history.steps[n].needs:
            self.marks[value] &= ~self.history.mark[n]


def holds(state, pairs):
    for key, value in pairs:
        if state[key] != value:
            return False
    return True


class Search:
    """The search from one moment to another."""

    def __init__(self, history, first, last, most):
        self.history, self.most, self.seen = history, most, set()
        self.ever, self.soon = Waiting(history, first, len(history.moments)), Waiting(history, first, last)
        self.open = [n for n, end in enumerate(history.end) if history.begin[n] < first <= end]

    def forgets(self, state, done, needs):
        """Forgets of what was needed what nobody has still to read, and returns whether that is any."""
        unread = [key for key, value in needs if state[key] == value and not self.ever.marks[value] & ~done]
        for key in unread:
            state[key] = UNREAD
        return bool(unread)

    def settled(self, state, done):
        """Returns the configuration in which each silent transaction that fits is placed."""
        goes_on = True
        while goes_on:
            goes_on = False
            for n in self.open:
                step, mark = self.history.steps[n], self.history.mark[n]
                if self.history.is_silent[n] and not done & mark and holds(state, step.needs) and holds(state, step.puts):
                    done |= mark
                    goes_on = self.forgets(state, done, step.needs) or goes_on
        return tuple(state), done

    def placed(self, state, done, n):
        """Returns the configuration in which an open transaction is placed too, or None if it doesn't fit."""
        step, done = self.history.steps[n], done | self.history.mark[n]
        if step.misfit or not holds(state, step.needs):
            return None
        for key, _ in step.puts:
            if self.soon.marks[state[key]] & ~done:
                return None
        state = list(state)
        for key, value in step.puts:
            state[key] = value
        self.forgets(state, done, step.needs)
        return self.settled(state, done)

    def begin(self, configurations, n):
        """Returns the configurations once a transaction has begun."""
        self.open.append(n)
        self.ever.begin(n)
        self.soon.begin(n)
        return {self.settled(list(state), done) for state, done in configurations} if self.history.is_silent[n] else configurations

    def end(self, configurations, n):
        """Returns the configurations once a transaction has ended, which is placed in each."""
        mark, left, self.seen, todo = self.history.mark[n], set(), set(configurations), list(configurations)
        while todo:
            state, done = todo.pop()
            if done & mark:
                left.add((state, done ^ mark))
                continue
            for it in self.open:
                found = None if done & self.history.mark[it] else self.placed(state, done, it)
                if found and found not in self.seen:
                    self.seen.add(found)
                    todo.append(found)
            if len(self.seen) > self.most:
                raise TooMany(n)
        self.open.remove(n)
        self.ever.end(n)
        self.soon.end(n)
        return left


def played(history, configurations, first, last, most, ahead=0):
    """Returns the configurations that are left at a moment, and those seen at the last end before it. It looks ahead up to that moment, or
    to the one that is named."""
    search = Search(history, first, ahead or last, most)
    for _, is_end, n in history.moments[first:last]:
        configurations = search.end(configurations, n) if is_end else search.begin(configurations, n)
        if not configurations:
            break
    return configurations, search.seen


def first_unplaced(history, most):
    """Returns the first transaction that can't be placed, or None, and the configurations seen at its end, or None if these are too many:
    then it is one up to which another can't be placed."""
    ends = [moment + 1 for moment, (_, is_end, _) in enumerate(history.moments) if is_end]
    known, first = {(tuple(history.last_of(number) for number in history.keys.values()), 0)}, 0
    left, seen = played(history, known, first, ends[-1], most)
    if left:
        return None, seen
    # (up to the end `low` these are known, and up to `high` there is none)
    low, high = 0, len(ends)
    try:
        while high - low > 1:
            middle = (low + high) // 2
            left, _ = played(history, known, first, ends[middle - 1], most)
            if left:
                low, known, first = middle, left, ends[middle - 1]
            else:
                high = middle
        last = ends[high - 1]
        seen = played(history, known, first, last, most, last - 1)[1]
    except TooMany:
        seen = None
    return history.moments[ends[high - 1] - 1][2], seen


def words_of(key, value):
    return f"key {key} as {value or 'at first'}"


def reason(history, n, seen):
    """Returns in words what a transaction has read that no configuration has."""
    t, step = history.ts[n], history.steps[n]
    if seen is None:
        return f"a transaction that ends up to that of line {t.line} can't be placed: which, more --configurations may show"
    if step.misfit:
        return f"line {t.line} can't be placed: it reads {words_of(*step.misfit)}, which its own calls contradict"
    names = {number: name for name, number in history.values.items()}
    missing = [need for need in step.needs if not any(holds(state, [need]) for state, _ in seen)]
    writers = {(key, value): other.line for other in history.ts for kind, key, value in other.calls if kind == "w"}
    found = [names[value] for _, value in missing or step.needs]
    words = [words_of(*name) + (f" (line {writers[name]} writes it)" if name in writers else "") for name in found]
    return f"line {t.line} can't be placed: no configuration has " + ("" if missing else "at once ") + ", ".join(words)


def main(words):
    options = Options(__doc__)
    options.add_argument("--configurations", type=int, default=MOST)
    options.add_argument("form", choices=READERS)
    options.add_argument("keys", nargs="*", default=[])
    options = options.parse_args(words)
    if options.configurations < 1:
        raise Refused("argument --configurations: expected at least 1")
    history = History(counted(limited(READERS[options.form](read_text()), options.keys)[1]))
    report = {"criterion": "strict", "proved": False, "transactions": len(history.ts), "verdict": "strict so far"}
    more, status = "", 0
    try:
        n, seen = first_unplaced(history, options.configurations)
        if n is not None:
            report.update(at=history.ts[n].line, verdict="violated")
            more, status = reason(history, n, seen) + "\n", 1
    except TooMany as it:
        report.update(at=history.ts[it.args[0]].line, verdict="undecided", why="configurations")
        status = 2
    print(json.dumps(report, sort_keys=True, separators=(",", ":")), more, sep="\n", end="")
    return status


if __name__ == "__main__":
    run(main)
