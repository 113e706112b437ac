#!/usr/bin/env python3
"""Checks whether the sentences of `show --why` are enough to conclude the violation. For tests/long/enough.sh, whose head lists the counts.

    tests/long/enough.py PROGRAM WINDOWS DENSE SEED

A reader of the sentences, without the drawing, may conclude this:

- The initial states that are shown are the only ones: each serial order of the window begins from one of them.
- A transaction that is drawn has the status that its last event shows. The sentences state which transactions precede others in real time.
- The part of a sentence before its colon is true. It states that a transaction ended before another began, what value one read, or what
  value one leaves. The part after the colon is a conclusion, which the reader wants to verify.
- `which only T1's commit can have left` means that nothing else that is not mentioned left the value there. But the reader still considers
  other sources that are mentioned: a state with the value, and each transaction that leaves it according to another sentence.
- If the lines distinguish sources of a value, they name all sources that it may have.
- A read without such a clause may have its value from anywhere. `not from T1` is also a conclusion.

With the drawing, the reader also knows the real-time order of the transactions that are drawn, and their operations. Each read that is
drawn has its answer, and each write or add that is drawn leaves its value, unless a later one of the same transaction is drawn.

A history agrees with this if it has these transactions with their status, real-time order, reads and changes, and perhaps others. Nothing
is known about the others, because they may be anywhere in a serial order and put any value into any register, except between a read and the
source that a sentence names. An explanation is enough if no such history has a serial order: for each order of the known transactions, each
completion and each state, some read cannot have been answered as it was.
"""
import json
import os
import random
import subprocess
import sys
from collections import Counter, defaultdict
from concurrent.futures import ProcessPoolExecutor
from functools import partial
from itertools import product
from types import SimpleNamespace

from histories import calls, first_unlike, last_left, left_by, operation, random_history, trace_of, transactions
from sentences import NOBODY, START, read_reason, read_text

MAY_HOLD = {"committed": (True,), "pending": (False, True), "aborted": (False,), "live": (False,), None: (False, True)}
CHUNK = 200  # histories at a time
MAY_COMMIT = ("committed", "pending")


class Known:
    """What is known of transactions by their names: their status, the values that they need of registers, what they leave, who precedes whom."""

    def __init__(self, status):
        self.status, self.needs, self.leaves, self.precedes = status, defaultdict(set), {name: {} for name in status}, set()

    def take(self, name, t):
        """Takes what the transaction's operations need and leave."""
        changed = set()
        for register, found, left in t.operations:
            if found is not None and register not in changed:
                self.needs[name, register].add(found)
            if left is not None:
                changed.add(register)
                self.leaves[name][register] = left

    def completions(self):
        """The transactions that are held, of each completion."""
        for choice in product(*[MAY_HOLD[status] for status in self.status.values()]):
            yield frozenset(name for name, is_held in zip(self.status, choice) if is_held)

    def orders(self, criterion):
        """Each completion, with each order of its transactions that keeps real time: of all of them, or by strict those that are held."""
        for held in self.completions():
            for order in self.orders_of(frozenset(self.status if criterion == "opacity" else held)):
                yield Order(order, held, self)

    def orders_of(self, left, done=()):
        if not left:
            yield done
        for name in left:
            if not any((other, name) in self.precedes for other in left):
                yield from self.orders_of(left - {name}, (*done, name))


class Order:
    """An order of transactions, of whom some are held, and of whom this is known."""

    def __init__(self, order, held, known):
        self.order, self.held, self.known = order, held, known
        self.places, self.sources = {name: place for place, name in enumerate(order)}, {}

    def source(self, reader, register):
        """The last transaction before the reader that is held and changes the register, or START."""
        if (reader, register) not in self.sources:
            own = (name for name in reversed(self.order[: self.places[reader]]) if name in self.held and register in self.known.leaves[name])
            self.sources[reader, register] = next(own, START)
        return self.sources[reader, register]

    def finds(self, reader, register, value, state):
        """Whether this is the value that the reader finds in the register, from this state."""
        source = self.source(reader, register)
        return (state[register] if source == START else self.known.leaves[source][register]) == value

    def is_before(self, one, other):
        return one in self.places and other in self.places and self.places[one] < self.places[other]

    def has_case(self, sentence):
        """Whether the sentence's case is the order's: where a read's value comes from."""
        return sentence.case is None or sentence.case[0] in self.places and self.source(*sentence.case[:2]) == sentence.case[3]

    def agrees(self, sentence, state):
        """Whether what the sentence says of a source and of answers can be so from this state."""
        reader = (sentence.read or sentence.unlike or [None])[0]
        if reader not in self.places:
            return True
        if sentence.unlike or sentence.source == NOBODY:
            return False
        return sentence.source is None or self.finds(*sentence.read, state)

    def can_be_read(self, reads, said, state, alone):
        """Whether others can have left what is read without a source that is said. Between a source and its reader they leave nothing."""
        kept = defaultdict(set)
        for reader, register, _ in said:
            source = self.source(reader, register)
            kept[register].update(range(0 if source == START else self.places[source] + 1, self.places[reader] + 1))
        for reader, register, value in reads:
            if reader not in self.places or self.finds(reader, register, value, state):
                continue
            source = self.source(reader, register)
            gaps = set(range(0 if source == START else self.places[source] + 1, self.places[reader] + 1))
            if alone or gaps <= kept[register]:
                return False
        return True


def known_of_words(shown):
    """What the sentences say, with the status of what is drawn."""
    named = [name for it in shown.sentences for name in names_in(it)]
    known = Known({name: shown.drawn[name].status if name in shown.drawn else None for name in dict.fromkeys([*named, *shown.drawn])})
    add_sentences(known, shown.sentences)
    return known


def known_of_drawing(shown):
    """What the sentences say and the drawing shows."""
    known = known_of_words(shown)
    for name, t in shown.drawn.items():
        known.take(name, t)
    known.precedes |= {(a, b) for a, b in product(shown.drawn, repeat=2) if shown.drawn[a].precedes(shown.drawn[b])}
    add_sentences(known, shown.sentences)
    return known


def add_sentences(known, sentences):
    for it in sentences:
        if it.ended:
            known.precedes.add(it.ended)
        if it.read:
            known.needs[it.read[:2]].add(it.read[2])
        if it.left:
            known.leaves[it.left[0]][it.left[1]] = it.left[2]


def names_in(sentence):
    words = [sentence.ended, sentence.read, sentence.left, sentence.unlike, sentence.put, sentence.cycle, sentence.before, sentence.case]
    named = [name for word in words if word for name in word if isinstance(name, str)]
    return [name for name in [*named, sentence.not_from] if name not in (None, START)]


def groups(sentences, states):
    """The states for which the same sentences are said, each once in the registers read, with these sentences."""
    registers = sorted({it.read[1] for it in sentences if it.read})
    found = defaultdict(dict)
    for number, state in enumerate(states, 1):
        own = tuple(place for place, it in enumerate(sentences) if it.states is None or number in it.states)
        found[own][tuple(state[register] for register in registers)] = state
    return [([sentences[place] for place in own], list(each.values())) for own, each in found.items()]


def is_enough(shown, known, alone):
    """Whether no history that agrees with what is known has a serial order. `alone`: nobody else exists."""
    reads = [(*it, value) for it, values in known.needs.items() for value in values]
    orders = list(known.orders(shown.criterion))
    for sentences, states in groups(shown.sentences, shown.states):
        cases = {it.case for it in sentences if it.case}
        for order in orders:
            own = [it for it in sentences if order.has_case(it)]
            said = [it.read for it in own if it.source not in (None, NOBODY) and it.read[0] in order.places]
            said += {(reader, register, value) for reader, register, value, _ in cases if reader in order.places}
            if cases and not any(it.case for it in own):
                continue
            for state in states:
                if all(order.agrees(it, state) for it in own) and order.can_be_read(reads, said, state, alone):
                    return False
    return True


def is_put(call, register, value):
    """Whether the call puts the value into the register: a write, answered or not, or an add that was answered so."""
    return left_by(call) == (register, value)


def is_said_rightly(sentence, shown):
    """Whether what the sentence names is so in the window, by its events alone."""
    whole, window, known = shown.whole, shown.window, shown.known
    states = [state for number, state in enumerate(shown.states, 1) if sentence.states is None or number in sentence.states]
    if any(name not in whole for name in names_in(sentence)):
        return False
    if sentence.ended and not whole[sentence.ended[0]].precedes(whole[sentence.ended[1]]):
        return False
    if sentence.read and sentence.read[2] not in known.needs[sentence.read[:2]]:
        return False
    if sentence.left and known.leaves[sentence.left[0]].get(sentence.left[1]) != sentence.left[2]:
        return False
    if sentence.left and sentence.source != sentence.left[0] and sentence.left[2] == sentence.read[2] and not sentence.not_from:
        return False
    if sentence.not_from == START and not any(state[sentence.read[1]] == sentence.read[2] for state in states):
        return False
    if sentence.not_from in whole and known.leaves[sentence.not_from].get(sentence.read[1]) != sentence.read[2]:
        return False
    if sentence.source == NOBODY:
        reader, register, value = sentence.read
        others = [known.leaves[name].get(register) for name, t in whole.items() if name != reader and t.status in MAY_COMMIT]
        return value not in [*others, *[state[register] for state in states]]
    if sentence.unlike:
        reader, register, expected, value = sentence.unlike
        return first_unlike(whole[reader], register) == (expected, value)
    if sentence.put:
        return is_put_rightly(sentence, shown)
    if sentence.stood:
        return any(state[sentence.stood[0]] == sentence.stood[1] for state in states)
    if sentence.unput:
        end = end_after(sentence, shown)
        answered = answer_of(whole[(end.read or end.unlike)[0]], *sentence.unput, end.unlike and end.unlike[2])
        return not any(is_put(call, *sentence.unput) and call[0].number < answered and call[-1].number != answered for call in calls(window))
    return True


def end_after(sentence, shown):
    """The sentence before which this one tells where its value comes from."""
    return shown.sentences[next(place for place, it in enumerate(shown.sentences) if it is sentence) + 1]


def answer_of(t, register, value, expected):
    """The number of the event by which the transaction is first answered the value, if one is expected while its calls make it that."""
    known = None
    for call in calls(t.events):
        done = operation(call)
        if done and done[0] == register:
            if done[1] == value and expected in (None, known):
                return call[1].number
            known = done[1] if done[2] is None else done[2]
    return None


def is_put_rightly(sentence, shown):
    """Whether the event puts the value there, and this became of its transaction."""
    name, register, value, event = sentence.put
    t = shown.whole[name]
    if not any(call[0].number == event and is_put(call, register, value) for call in calls(t.events)):
        return False
    if sentence.fate in ("aborted", "live", "leaving"):
        return ("leaving" if t.status == "live" and t.events[-1].kind[0] == "X" else t.status) == sentence.fate
    stays = t.status in MAY_COMMIT and shown.known.leaves[name].get(register) == value
    end = end_after(sentence, shown)
    is_own = name == (end.read or end.unlike)[0]
    return stays != (sentence.fate == "then") or is_own and sentence.fate == "then"


def follow(shown):
    """The sentences whose conclusion does not hold in some order of the whole window that keeps what is said up to it."""
    wrong = []
    for sentences, states in groups(shown.sentences, shown.states):
        said = []
        for it in sentences:
            said += [it.read] if it.read and it.source != NOBODY else []
            completions = shown.known.completions() if it.before or it.not_from or it.source not in (None, NOBODY) else []
            if any(Counterexample(shown, said, it, held, state).exists() for held in completions for state in states):
                wrong.append(it)
    return wrong


class Counterexample:
    """An order from a state, of whose transactions these are held, that keeps what is said and has a sentence's case, but not what that
    concludes: who stands before whom, where a value comes from, and who is held. Real time orders those that the order has."""

    def __init__(self, shown, said, sentence, held, state):
        self.names = list(shown.known.status) if shown.criterion == "opacity" else sorted(held)
        self.known, self.said, self.sentence, self.held, self.state = shown.known, said, sentence, held, state
        self.registers = sorted({register for _, register, *_ in [*said, *filter(None, [sentence.case, sentence.read])]})
        self.seen = set()

    def exists(self):
        it = self.sentence
        if it.case and it.case[0] not in self.names:
            return False
        fails = it.source not in (None, NOBODY) and it.read[0] not in self.names
        fails |= bool(it.before and it.left) and it.left[0] not in self.held
        fails |= bool(it.before and not it.ended) and not set(it.before) <= set(self.names)
        return self.ends(frozenset(), (START,) * len(self.registers), fails)

    def ends(self, placed, sources, fails):
        """Whether such an order begins with those that are placed, which leave the registers' values so."""
        if len(placed) == len(self.names):
            return fails
        if (placed, sources, fails) in self.seen:
            return False
        self.seen.add((placed, sources, fails))
        for name in self.names:
            if name in placed or any((other, name) in self.known.precedes for other in self.names if other not in placed):
                continue
            source = dict(zip(self.registers, sources))
            if self.keeps(name, source):
                left = self.known.leaves[name] if name in self.held else ()
                more = tuple(name if register in left else source[register] for register in self.registers)
                if self.ends(placed | {name}, more, fails or self.contradicts(name, placed, source)):
                    return True
        return False

    def keeps(self, name, source):
        """Whether the transaction finds what is said, and its value comes from where the sentence's case has it."""
        finds = all(
            value == (self.state[register] if source[register] == START else self.known.leaves[source[register]][register])
            for reader, register, value in self.said
            if reader == name
        )
        case = self.sentence.case
        return finds and not (case and case[0] == name and source[case[1]] != case[3])

    def contradicts(self, name, placed, source):
        it = self.sentence
        if it.read and it.read[0] == name:
            own = source[it.read[1]]
            if it.source not in (None, NOBODY, own) or it.not_from == own:
                return True
        return bool(it.before) and name == it.before[0] and it.before[1] in placed


def is_drawn(sentence, shown):
    """Whether each transaction, read, change and event that the sentence names is drawn."""
    drawn, events = shown.drawn, {event.number for event in shown.part}
    if any(name not in drawn for name in names_in(sentence)):
        return False
    if sentence.read and not any((register, found) == sentence.read[1:] for register, found, _ in drawn[sentence.read[0]].operations):
        return False
    if sentence.left and last_left(drawn[sentence.left[0]], sentence.left[1]) != sentence.left[2]:
        return False
    if sentence.unlike and first_unlike(drawn[sentence.unlike[0]], sentence.unlike[1]) != sentence.unlike[2:]:
        return False
    return not sentence.put or sentence.put[3] in events


def last_cut(events):
    """The length of the longest prefix whose transactions are all over."""
    running, cut = set(), 0
    for place, event in enumerate(events):
        (running.discard if event.kind[0] in "CA" else running.add)(event.thread)
        cut = cut if running else place + 1
    return cut


def explanation(program, criterion, start, events):
    """What `show --why` writes of a history, read, if it is violated."""
    command = [program, "show", "--why", "--criterion", criterion]
    written = subprocess.run(command, input=trace_of(start, events), stdout=subprocess.PIPE, text=True, check=False).stdout
    report, states, drawn, lines = read_text(written)
    at = json.loads(report).get("at")
    if json.loads(report)["verdict"] != "violated":
        return None
    window = events[last_cut(events[: at - 1]) : at]
    part = tuple(event for event in window if event.number in set(drawn))
    whole = {f"T{number}": t for number, t in enumerate(transactions(window), 1)}
    own = {event: name for name, t in whole.items() for event in t.events}
    known = Known({name: t.status for name, t in whole.items()})
    for name, t in whole.items():
        known.take(name, t)
    known.precedes |= {(a, b) for a, b in product(whole, repeat=2) if whole[a].precedes(whole[b])}
    drawn = {own[t.events[0]]: t for t in transactions(part)}
    words = {"criterion": criterion, "states": states, "window": window, "part": part, "whole": whole, "drawn": drawn, "known": known}
    return SimpleNamespace(**words, lines=lines, sentences=read_reason(lines))


WAYS = {
    "the words alone, nobody else": (known_of_words, True),
    "the words alone, others too": (known_of_words, False),
    "words and drawing, others too": (known_of_drawing, False),
}
UNREAD = "texts that can't be read"
FAULTS = {
    "no reason": "violated windows without a reason",
    "not so": "sentences that name what is not so",
    "no conclusion": "sentences whose conclusion does not hold in each order",
    "not drawn": "sentences that name what is not drawn",
    **{way: f"explanations that are not enough by {way}" for way in WAYS},
    UNREAD: "texts that can't be read",
}


def judge(shown, dense):
    """What is counted of a violated window. Of a dense one the orders are too many to see whether its explanation is enough."""
    found = Counter({"windows": 1, shown.criterion: 1, "sentences": len(shown.sentences), "several": len(shown.states) > 1})
    found["dense, no reason" if dense else "no reason"] = not shown.sentences
    found["not so"] = sum(not is_said_rightly(it, shown) for it in shown.sentences)
    found["no conclusion"] = len(follow(shown))
    found["not drawn"] = sum(not is_drawn(it, shown) for it in shown.sentences)
    for way, (known_of, alone) in WAYS.items():
        found[way] = not dense and bool(shown.sentences) and not is_enough(shown, known_of(shown), alone)
    return found


def judge_history(program, seed, dense, number):
    """A random history by a random criterion, or a dense one by strict, and if it is violated: what is counted, the lines of the reason and
    the events drawn."""
    rng = random.Random(f"{seed} {'dense ' if dense else ''}{number}")
    if dense:
        (start, events), criterion = random_history(rng, 8, rng.choice([100, 300, 1000]), 0.6, dense=True), "strict"
    else:
        (start, events), criterion = random_history(rng, from_several=0.4), rng.choice(["opacity", "strict"])
    try:
        shown = explanation(program, criterion, start, events)
        judged = shown and (judge(shown, dense), len(shown.lines), len(shown.part))
    except (LookupError, ValueError) as wrong:
        judged = Counter({"windows": 1, UNREAD: 1, repr(wrong): 1}), 0, 0
    return criterion, start, events, judged


def judge_windows(program, windows, dense, seed):
    """Judges as many violated windows. Returns the counts, the shortest history of each fault, and the sizes."""
    found, shortest, sizes, number = Counter(), {}, [], 0
    with ProcessPoolExecutor(int(os.environ.get("PROCESSES", "2"))) as pool:
        while found["windows"] < windows:
            histories = pool.map(partial(judge_history, program, seed, dense), range(number, number + CHUNK), chunksize=10)
            for criterion, start, events, (counts, *size) in [it for it in histories if it[-1]]:
                found += counts
                sizes.append(size)
                for fault in set(counts) & set(FAULTS):
                    if counts[fault] and len(events) < len(shortest.get(fault, (0, 0, range(len(events) + 1)))[2]):
                        shortest[fault] = criterion, start, events
            number += CHUNK
    return found, shortest, sizes


def main():
    """Judges violated windows, and dense ones. Of each fault the shortest history is printed."""
    program, windows, dense, seed = sys.argv[1], int(sys.argv[2]), int(sys.argv[3]), sys.argv[4]
    failed = sum(report(*judge_windows(program, *each, seed)) for each in ((windows, False), (dense, True)) if each[0])
    print(f"{2 * len(FAULTS) - failed} passed, {failed} failed")
    sys.exit(failed > 0)


def report(found, shortest, sizes):
    """Prints the counts, and returns how many faults there are."""
    for fault, (criterion, start, events) in shortest.items():
        print(f"{FAULTS[fault]}, by {criterion}:\n< {' | '.join(trace_of(start, events).splitlines())}")
    print(f"{found['windows']:8d} violated windows: {found['opacity']} by opacity, {found['strict']} by strict serializability")
    print(f"{found['several']:8d} from several states\n{found['sentences']:8d} sentences\n{found['dense, no reason']:8d} dense ones without a reason")
    for fault, told in FAULTS.items():
        print(f"{found[fault]:8d} {told}")
    lines, drawn = [sorted(each) for each in zip(*sizes)]
    print(f"{lines[len(lines) // 2]:8d} lines in the median reason, {lines[-1]} at most; {drawn[len(drawn) // 2]} events in the median part, {drawn[-1]} at most")
    return sum(found[fault] > 0 for fault in FAULTS)


if __name__ == "__main__":
    main()
