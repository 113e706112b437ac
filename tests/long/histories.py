"""Random histories, and the plain definition of a serial order, which tries each permutation with each completion.

Used by enough.py, parts.py, verdicts.py and whole.py.
"""
from collections import namedtuple
from functools import lru_cache
from itertools import combinations, permutations, product
from types import SimpleNamespace

TOP = 2**64
MOST = 5  # transactions of a history
FAR = [0, 1, 10**9, 2**63, TOP - 2, TOP - 1]  # values near the ends

# An event: its number in the history, its thread, and the letter and the numbers of its kind.
Event = namedtuple("Event", "number thread kind")


class Transaction:
    """A transaction of some events."""

    def __init__(self, events):
        self.events, self.first, self.last = events, events[0].number, events[-1].number
        self.status = {"C": "committed", "A": "aborted", "T": "pending"}.get(events[-1].kind[0], "live")
        self.is_over = self.status in ("committed", "aborted")
        self.operations = [done for done in map(operation, calls(events)) if done]

    def precedes(self, other):
        return self.is_over and self.last < other.first


def operation(call):
    """The register of an answered operation, the value that it was answered, and the value that it leaves."""
    match [word for event in call for word in event.kind]:
        case ["R", register, "V", value]:
            return register, value, None
        case ["W", register, value, "K"]:
            return register, None, value
        case ["N", register, added, "V", value]:
            return register, value, (value + added) % TOP
    return None


def calls(events):
    """Each call, with its answer if it has one."""
    return [
        [call, *[other for other in events[place + 1 :] if other.thread == call.thread][:1]]
        for place, call in enumerate(events)
        if call.kind[0] in "RWNTX"
    ]


def left_by(call):
    """The register and the value that a call leaves there. A write may leave its value even if no K answers it."""
    done = operation(call)
    return call[0].kind[1:] if call[0].kind[0] == "W" else done and (done[0], done[2])


def last_left(t, register):
    """What the transaction leaves in the register, or None."""
    return next((left for other, _, left in reversed(t.operations) if other == register and left is not None), None)


def first_unlike(t, register):
    """What the transaction had to find in the register by its own calls, and what it was answered instead, the first time; or None."""
    known = None
    for other, found, left in t.operations:
        if other == register:
            if None not in (known, found) and known != found:
                return known, found
            known = found if left is None else left
    return None


@lru_cache(maxsize=64)
def transactions(events):
    """The transactions, each up to its commit or abort event."""
    found, running = [], {}
    for event in events:
        if event.thread not in running:
            running[event.thread] = []
            found.append(running[event.thread])
        running[event.thread].append(event)
        if event.kind[0] in "CA":
            del running[event.thread]
    return [Transaction(own) for own in found]


def end_of(state, order, held):
    """The state after an order, of whose transactions these are held, or None if it is not legal."""
    for t in order:
        own = list(state)
        for register, found, left in t.operations:
            if found not in (None, own[register]):
                return None
            own[register] = own[register] if left is None else left
        state = own if t in held else state
    return tuple(state)


def ends(criterion, state, events):
    """The end state of each serial order that explains the events' transactions from the state."""
    ts = transactions(events)
    may_hold = {"committed": [True], "pending": [False, True], "aborted": [False], "live": [False]}
    for choice in product(*[may_hold[t.status] for t in ts]):
        held = [t for t, is_held in zip(ts, choice) if is_held]
        for order in permutations(ts if criterion == "opacity" else held):
            if not any(later.precedes(earlier) for earlier, later in combinations(order, 2)):
                end = end_of(state, order, held)
                if end is not None:
                    yield end


def has_order(criterion, states, events):
    return any(True for state in states for _ in ends(criterion, state, events))


class Memory:
    """A memory of snapshots that makes mistakes, at rates of its own: in reads, and in what a commit checks. A dense one has few values
    and mistakes, and its transactions are long."""

    def __init__(self, rng, state, dense=False):
        self.rng, self.state, self.running = rng, list(state), {}
        self.values = range(rng.randint(2, 5)) if dense else rng.choice([range(3), range(9), range(9), FAR])
        self.wrong, self.unchecked, self.refused = rng.choice([0, 0.5, 1, 1]), rng.choice([0, 1, 1]), rng.choice([0, 0, 0.1])
        self.wrong_own, self.ends = self.wrong / 10, 5
        if dense:
            self.wrong, self.refused, self.ends = rng.choice([0.01, 0.05, 0.2, 0.5]), 0, rng.choice([0.1, 0.3, 1])
            self.wrong_own = self.wrong

    def commit(self, own):
        """The answer to a commit. One that has written is refused if what it read is no longer there."""
        changed = any(self.state[register] != found for register, found in own.reads.items())
        if own.writes and changed and self.rng.random() >= self.unchecked:
            return "A"
        self.state = [own.writes.get(register, value) for register, value in enumerate(self.state)]
        return "C"

    def find(self, own, register):
        """What it reads there. A mistake is what is there now, what another one has not committed, or seldom any value."""
        known = own.writes.get(register, own.reads.get(register))
        if self.rng.random() < (self.wrong if known is None else self.wrong_own):
            dirty = [other.writes[register] for other in self.running.values() if register in other.writes]
            known = self.rng.choice([self.state[register], *dirty] * 9 + [self.rng.choice(self.values)])
        found = own.view[register] if known is None else known
        if register not in own.writes:
            own.reads[register] = found
        return found

    def call(self, own):
        """Its next call. A commit may take effect before it is answered."""
        ending = self.ends if own.reads or own.writes else 0.06 * self.ends
        letter = self.rng.choices("RWNTX", weights=[6, 6, 1, ending, 0.04 * self.ends])[0]
        more = {"R": (), "W": (self.rng.choice(self.values),), "N": (self.rng.choice([0, 1, TOP - 1]),)}
        own.call = (letter, self.rng.randrange(len(self.state)), *more[letter]) if letter in more else (letter,)
        own.answer = self.commit(own) if letter == "T" and self.rng.random() < 0.6 else None
        return own.call

    def answer(self, own):
        (letter, *numbers), own.call = own.call, None
        if letter == "X" or own.answer is None and self.rng.random() < self.refused:
            return ("A",)
        if letter == "T":
            return (own.answer or self.commit(own),)
        found = None if letter == "W" else self.find(own, numbers[0])
        if letter in "WN":
            own.writes[numbers[0]] = ((found or 0) + numbers[1]) % TOP
        return ("K",) if letter == "W" else ("V", found)


def several_states(rng, start, below=9):
    """Events of blind writes at the same time, register by register, and one of the states to which they may lead: up to 64."""
    events, state, left = [], list(start), 64
    for register in range(len(start)):
        values = [rng.randrange(below) for _ in range(rng.randint(1, min(4, left)))]
        left //= len(values)
        state[register] = rng.choice(values)
        writers = list(enumerate(values))
        for kinds in ([("W", register, value) for value in values], [("K",)] * 4, [("T",)] * 4, [("C",)] * 4):
            events += [Event(len(events) + 1 + place, thread, kinds[thread]) for place, (thread, _) in enumerate(writers)]
    return events, state


def random_history(rng, most=MOST, steps=60, from_several=0, dense=False):
    """A start state and events, of at most so many transactions. They begin in bursts, in slow and fast threads. Some stay commit-pending.

    As often as `from_several` says, blind writes come before them, so that they begin from several states. If dense, all begin in one
    burst, each in its thread."""
    start = [rng.randrange(3) for _ in range(rng.choice([1, 2, 2, 3]))]
    pace = [rng.choice([1, 6]) for _ in range(most if dense else rng.choice([2, 3, 3, 4]))]
    events, state = several_states(rng, start, 3 if dense else 9) if rng.random() < from_several else ([], start)
    memory, begun, burst = Memory(rng, state, dense), 0, 0
    for _ in range(rng.randint(20, steps)):
        running = memory.running
        burst = burst if running else min(rng.randint(1, 4), most - begun) if not dense else most - begun
        idle = [thread for thread in range(len(pace)) if thread not in running]
        if burst > 0 and idle and (not running or rng.random() < 0.6):
            own = {"view": list(memory.state), "reads": {}, "writes": {}, "call": None, "answer": None}
            running[rng.choice(idle)] = SimpleNamespace(**own, stays=rng.random() < (0.3 if dense else 0.12))
            begun, burst = begun + 1, burst - 1
        if not running:
            break
        thread = rng.choices(list(running), [pace[thread] for thread in running])[0]
        own = running[thread]
        if own.call != ("T",) or not own.stays:
            events.append(Event(len(events) + 1, thread, memory.call(own) if own.call is None else memory.answer(own)))
            if events[-1].kind[0] in "CA":
                del running[thread]
    return start, tuple(events)


def words(numbers):
    return " ".join(map(str, numbers))


def trace_of(start, events):
    lines = [f"opacity-trace 2 {len(start)} {words(start)}", *[f"{event.thread} {words(event.kind)}" for event in events]]
    return "".join(f"{line}\n" for line in lines)
