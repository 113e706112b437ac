#!/usr/bin/env python3
"""Checks `tmwatch show --why` against the plain definitions, for tests/long/parts.sh, whose head describes the checks and the output.

    tests/long/parts.py PROGRAM HISTORIES SEED

Serial orders are searched in each permutation with each completion. A counterexample is defined by its events, which keep their numbers.
"""
import json
import random
import re
import subprocess
import sys
from collections import Counter
from itertools import permutations

from histories import calls, ends, first_unlike, has_order, last_left, left_by, operation, random_history, trace_of, transactions, words
from sentences import NOBODY, read_reason

VERDICTS = {"opacity": ("opaque so far", "violates opacity"), "strict": ("strict so far", "violates strict serializability")}
BROKEN = {
    "reads": "a write may go though its value is read",
    "pending": "a commit-pending transaction may go though its value is read",
    "precedence": "precedence isn't compared",
}


def first_needed(t, register):
    """What the transaction's first operation on the register was answered, or None."""
    return next((found for other, found, _ in t.operations if other == register), None)


def is_part(part, window, broken=None):
    """Whether these events of the window are a part of it: with the last one, whole calls, and of each transaction its own status."""
    kept, own = set(part), {event: t for t in transactions(window) for event in t.events}
    left = {own[u.events[0]]: u for u in transactions(part)}
    if window[-1] not in kept or any(own[u.events[-1]] is not t or u.status != t.status for t, u in left.items()):
        return False
    told = (first_needed, last_left, first_unlike)
    agree = [of(u, register) in (None, of(t, register)) for t, u in left.items() for register in range(8) for of in told]
    if not all(agree):
        return False
    read = {(register, found) for u in left.values() for register, found, _ in u.operations if found is not None}
    for call in calls(window):
        is_kept, t = {event in kept for event in call}, own[call[0]]
        may_go = broken == "reads" or broken == "pending" and t.status == "pending" and t not in left
        if len(is_kept) > 1 or is_kept == {False} and left_by(call) in read and not may_go:
            return False
    return broken == "precedence" or all(a.precedes(b) == left[a].precedes(left[b]) for a, b in permutations(left, 2))


def pieces(window):
    """What is taken out at once: a transaction, or a call with its answer."""
    return [t.events for t in transactions(window)] + calls(window)


def with_readers(piece, window):
    """The piece and the calls, with their answers, that read a value which it puts into a register."""
    put = {left_by(call) for call in calls(window) if call[0] in piece}
    reads = [call for call in calls(window) if (done := operation(call)) and done[1] is not None and done[:2] in put]
    return [*piece, *[event for call in reads for event in call]]


def without(piece, events):
    return tuple(event for event in events if event not in piece)


def named(part, window):
    """The transaction of the window in which each one of the part lies, by the name that a sentence gives it."""
    own = {event: (f"T{number}", t) for number, t in enumerate(transactions(window), 1) for event in t.events}
    return dict(own[u.events[0]] for u in transactions(part))


def has_read(t, register, value):
    return any((other, found) == (register, value) for other, found, _ in t.operations)


def is_true(said, names, states, window):
    """Whether what the sentence says of these transactions is so of the window, by its events."""
    if said.ended and not names[said.ended[0]].precedes(names[said.ended[1]]):
        return False
    if said.stood and not any(state[said.stood[0]] == said.stood[1] for state in states):
        return False
    if said.read and not has_read(names[said.read[0]], *said.read[1:]):
        return False
    if said.left and last_left(names[said.left[0]], said.left[1]) != said.left[2]:
        return False
    if said.source == NOBODY:
        others = [t for t in transactions(window) if t is not names[said.read[0]] and t.status in ("committed", "pending")]
        own = [state for number, state in enumerate(states, 1) if said.states is None or number in said.states]
        left = [*[state[said.read[1]] for state in own], *[last_left(t, said.read[1]) for t in others]]
        return said.read[2] not in left
    return not said.unlike or said.unlike[2:] == first_unlike(names[said.unlike[0]], said.unlike[1])


def origin_of(end, names, states, window):
    """What has to be told before this last sentence of where the value comes from that it says was read."""
    found = re.fullmatch(r"(T\d+) read (\d+) from register (\d+).*?(?: make it (\d+))?", end)
    reader, value, register, expected = names[found[1]], int(found[2]), int(found[3]), found[4] and int(found[4])
    number = {event: n for n, t in enumerate(transactions(window), 1) for event in t.events}
    read, known, reading = None, None, None
    for call in calls(window):
        other, answer, left = operation(call) or (None, None, None)
        if call[0] in reader.events and other == register:
            if read is None and answer == value and expected in (None, known):
                read, reading = call[1].number, call
            known = answer if left is None else left
    puts = [call for call in calls(window) if left_by(call) == (register, value) and call[0].number < read and call != reading]

    def fate(call):
        t = transactions(window)[number[call[0]] - 1]
        if call[0] in reader.events:
            return ", then another value"
        if t.status == "live":
            return ", and has asked to abort" if t.events[-1].kind[0] == "X" else ", and has not yet asked to commit"
        return ", and aborted" if t.status == "aborted" else "" if last_left(t, register) == value else ", then another value"

    may_count = [call for call in puts if not fate(call)]
    if expected is not None and not may_count and any(state[register] == value for state in states):
        return f"a state has {value} in register {register}"
    if not puts:
        return f"no earlier event of this window sets register {register} to {value}"
    call = max(may_count or puts, key=lambda call: call[0].number)
    return f"T{number[call[0]]} set register {register} to {value} at event {call[0].number}{fate(call)}"


def random_part(rng, window, broken):
    """A part by these rules, made by taking out some pieces, up to three at once."""
    part, choices = window, pieces(window)
    for _ in range(rng.randint(1, 6)):
        gone = rng.choices(choices, k=rng.choice([1, 1, 1, 2, 3]))
        less = without([event for piece in gone for event in piece], part)
        part = less if is_part(less, window, broken) else part
    return part


def long_values(part):
    """The values of more than nine digits that these events have, each once, in their order: they have short names."""
    return list(dict.fromkeys(event.kind[-1] for event in part if event.kind[0] in "WNV" and event.kind[-1] >= 10**9))


def shown(kind, values):
    """An event's kind as it is drawn."""
    named = kind[0] in "WNV" and kind[-1] in values
    return words([*kind[:-1], f"v{values.index(kind[-1]) + 1}"]) if named else words(kind)


def drawing_of(states, part, window, mark):
    """What `show --why` draws of a part of a window, up to the comma and from the heads on."""
    values = long_values(part)
    told = [*[f"    state  {words(state)}" for state in states], f"    part   {len(part)} of {len(window)} events"]
    heads = f"    event  {'       '.join(f'thread {thread}' for thread in range(max(event.thread for event in part) + 1))}"
    own = {event: f"T{number} " for number, t in enumerate(transactions(window), 1) for event in t.events}
    begun = {u.events[0] for u in transactions(part)}
    names = {event: own[event] if event in begun else "   " for event in part}
    rows = [f"{event.number:9d}{' ' * (2 + 15 * event.thread)}{names[event]}{shown(event.kind, values)}" for event in part]
    lines = [f"    value  v{number} is {value}" for number, value in enumerate(values, 1)]
    return [*told, heads, *rows[:-1], f"{rows[-1].ljust(len(heads))}  {mark}", *lines]


def compare(program, criterion, start, events):
    """Compares what the program writes of a history with the definitions. Returns the window, its part and the states, if it is violated."""

    def written(*options, trace):
        command = [program, *options, "--criterion", criterion]
        return subprocess.run(command, input=trace, stdout=subprocess.PIPE, text=True, check=False).stdout

    first, *lines = written("show", "--why", trace=trace_of(start, events)).splitlines()
    report, (so_far, mark) = json.loads(first), VERDICTS[criterion]
    if report["verdict"] == so_far:
        assert has_order(criterion, [start], events), "not violated, without an order"
        return None
    assert report["verdict"] == "violated", "a verdict that no history has"
    begin = max(cut for cut in range(report["at"]) if all(t.is_over for t in transactions(events[:cut])))
    window, states = events[begin : report["at"]], sorted(set(ends(criterion, start, events[:begin])))
    assert not has_order(criterion, states, window), "the window has an order"
    assert has_order(criterion, states, window[:-1]), "the window is violated before its end"
    drawn = [line.partition(",")[0] if line.startswith("    part") else line for line in lines if not line.startswith("    why")]
    part = tuple(events[int(row[:9]) - 1] for row in drawn[len(states) + 2 :] if not row.startswith("    value"))
    why = [line.removeprefix("    why    ") for line in lines if line.startswith("    why")]
    why = [re.sub(r"\bv(\d+)", lambda name: str(long_values(part)[int(name[1]) - 1]), line) for line in why]
    assert drawn == drawing_of(states, part, window, mark), "another drawing"
    assert part == tuple(event for event in window if event in part), "events out of order, or not of the window"
    assert is_part(part, window), "no part"
    assert not has_order(criterion, states, part), "the part has an order"
    names = named(part, window)
    sentences = read_reason(why)
    origins = [origin_of(it.text, names, states, window) if it.source == NOBODY or it.unlike else None for it in sentences]
    told = [it.text if it.put or it.stood or it.unput else None for it in sentences]
    assert [None, *told] == [*origins, None], f"origins not told: {origins}"
    for sentence in sentences:
        assert is_true(sentence, names, states, window), f"false of the window: {sentence.text}"
    traces = [trace_of(state, part) for state in states]
    assert written("show", "--why", "--trace", trace=trace_of(start, events)) == "".join(traces), "other traces"
    for judged in [json.loads(written("judge", trace=trace)) for trace in traces]:
        assert judged["verdict"] == "violated" and (judged["at"] == len(part) or len(states) > 1), "a trace not violated at its end"
    for less in [without(gone, part) for piece in pieces(window) for gone in (piece, with_readers(piece, window))]:
        assert less == part or not is_part(less, window) or has_order(criterion, states, less), "a piece can be taken out"
    return window, part, states, why


def main():
    """Compares each history. Of those with an order it makes parts, by the rules and by each broken rule."""
    program, histories, seed = sys.argv[1], int(sys.argv[2]), sys.argv[3]
    passed, failed, found, noticed, sizes = 0, 0, Counter(), Counter(), []
    for history in range(histories):
        rng = random.Random(f"{seed} {history}")
        (start, events), criterion = random_history(rng), rng.choice(list(VERDICTS))
        try:
            shown = compare(program, criterion, start, events)
            if shown:
                found.update([VERDICTS[criterion][1], *["violated, from several states"] * (len(shown[2]) > 1)])
                found["sentences"] += len(shown[3])
                sizes.append((len(shown[0]), len(shown[1])))
            else:
                found[VERDICTS[criterion][0]] += 1
                for broken in [None, *BROKEN] * 2:
                    noticed[broken] += not has_order(criterion, [start], random_part(rng, events, broken))
                assert not noticed.pop(None), "a part without an order, of a history with one"
            passed += 1
        except (AssertionError, LookupError, ValueError) as wrong:
            failed += 1
            print(f"{criterion}: {wrong!r}\n< {' | '.join(trace_of(start, events).splitlines())}")
    for kind in [*[kind for both in VERDICTS.values() for kind in both], "violated, from several states", "sentences"]:
        print(f"{found[kind]:8d} {kind}")
        failed += found[kind] == 0
    for broken, rule in BROKEN.items():
        print(f"{noticed[broken]:8d} parts without an order, of histories with one, if {rule}")
        passed, failed = passed + (noticed[broken] > 0), failed + (noticed[broken] == 0)
    windows, parts = [sorted(each)[len(sizes) // 2] for each in zip(*sizes)] or (0, 0)
    print(f"{windows:8d} events in the median violated window, {parts} in the median part\n{passed} passed, {failed} failed")
    sys.exit(failed > 0)


main()
