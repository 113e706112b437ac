#!/usr/bin/env python3
"""Makes histories of clients that run freely on a store of registers, and checks the result of examples/import/whole.py.

    imported.py judge PROGRAM NUMBER    compares it with the verdict of PROGRAM, if that decides, and the transaction that ends at its event
    imported.py stale LENGTH            adds eleven stale reads, one at a time, to a correct history of LENGTH transactions
    imported.py jepsen LENGTH           writes a correct history of ten clients in the format of Jepsen
    imported.py intervals LENGTH        the same as intervals

Exit status: 0 if all results are right; 1 if one is not, and then the history is written.
"""
import heapq
import json
import os
import random
import subprocess
import sys

TOP = os.path.dirname(os.path.dirname(os.path.dirname(os.path.realpath(__file__))))
sys.path.insert(0, f"{TOP}/examples/import")
import history  # noqa: E402
import intervals  # noqa: E402
import whole  # noqa: E402

STALE = 11


class Store:
    """A store of keys, which answers some transactions by an older state: `stale` of those that read, and `lost` of all."""

    def __init__(self, rng, keys, stale, lost):
        self.rng, self.states, self.stale, self.lost = rng, [[None] * keys], stale, lost

    def answer(self, calls, begun):
        """Makes the calls at one moment, and returns them with what they read."""
        is_old = all(kind == "r" for kind, _, _ in calls) and self.rng.random() < self.stale
        place = max(len(self.states) - 20, 0) if is_old else begun if self.rng.random() < self.lost else -1
        own, answered, state = list(self.states[place]), [], list(self.states[-1])
        for kind, key, value in calls:
            if kind == "w":
                own[key] = state[key] = value
            answered.append((kind, key, own[key]))
        self.states.append(state)
        return answered


def free_history(rng, clients, length, keys, pause=0.3, stale=0.0, lost=0.0):
    """Returns (begin, end, result, process, calls)s, in the order of their ends. One in a hundred has an unknown result, and five fail."""
    store, found, values = Store(rng, keys, stale, lost), [], 0
    queue = [(rng.expovariate(1 / pause), process) for process in range(clients)]
    effects = []
    while len(found) < length:
        begin, process = heapq.heappop(queue)
        calls = []
        for _ in range(rng.randint(1, 4)):
            values += 1
            calls.append((rng.choice("rw"), rng.randrange(keys), values))
        span = rng.expovariate(1) + 0.05
        result = rng.choices(["ok", "fail", "info"], [94, 5, 1])[0]
        found.append([begin, begin + span, result, process, calls])
        heapq.heappush(effects, (begin + span * rng.random(), len(found) - 1))
        heapq.heappush(queue, (begin + span + rng.expovariate(1 / pause), process + clients if result == "info" else process))
    begins = sorted((it[0], n) for n, it in enumerate(found))
    moments = sorted([(time, 1, n) for time, n in effects] + [(time, 0, n) for time, n in begins])
    begun = {}
    for _, is_effect, n in moments:
        if not is_effect:
            begun[n] = len(store.states) - 1
        elif found[n][2] == "ok" or found[n][2] == "info" and rng.random() < 0.5:
            found[n][4] = store.answer(found[n][4], begun[n])
    return sorted(found, key=lambda it: it[1])


def lines_of(found):
    return [json.dumps({"begin": begin, "end": end, "result": result, "calls": calls}) for begin, end, result, _, calls in found]


def transactions(found):
    """Returns them as an importer does, by their lines."""
    return intervals.read("\n".join(lines_of(found)))


def edn_of(found):
    """Yields the operations of Jepsen."""
    moments = sorted([(it[0], "invoke", n) for n, it in enumerate(found)] + [(it[1], it[2], n) for n, it in enumerate(found)])
    for index, (time, kind, n) in enumerate(moments):
        _, _, _, process, calls = found[n]
        known = [(name, key, value if name == "w" or kind == "ok" else None) for name, key, value in calls]
        words = " ".join(f"[:{name} {key} {'nil' if value is None else value}]" for name, key, value in known)
        yield f"{{:type :{kind}, :f :txn, :value [{words}], :time {int(time * 1e9)}, :process {process}, :index {index}}}"


def compare_with_judge(program, number):
    rng, counts = random.Random(1), {"strict so far": 0, "violated": 0, "undecided": 0}
    for _ in range(number):
        clients, pause = rng.choice([(2, 1), (3, 2), (3, 4), (4, 6)])
        found = free_history(rng, clients, rng.choice([30, 100]), rng.randint(1, 8), pause, rng.choice([0, 0.05]), rng.choice([0, 0, 0.05]))
        keys, ts = history.limited(transactions(found), [])
        ts = history.counted(ts)
        trace = "".join(history.trace_of(ts, keys)[0])
        told = json.loads(subprocess.run([program, "judge", "--criterion", "strict"], input=trace, capture_output=True, text=True).stdout)
        counts[told["verdict"]] += 1
        n, _ = whole.first_unplaced(whole.History(ts), whole.MOST)
        ended = [place for _, is_end, place in history.moments_of(ts) if is_end]
        wanted = None
        if told["verdict"] == "violated":
            wanted = ended[sum(line.endswith("C") for line in trace.splitlines()[1 : told["at"] + 1]) - 1]
        if told["verdict"] != "undecided" and n != wanted:
            print(*lines_of(found), f"{told}: transaction {wanted}, by whole.py {n}", sep="\n")
            return 1
    print(counts)
    return 0 if min(counts["strict so far"], counts["violated"]) > number / 10 else 1


def places_for_stale(found):
    """Yields the places of reads, with an older value each that was overwritten for sure before the transaction began. It reads alone: else
    whoever has read what it writes may be the first that can't be placed."""
    writes = {}
    for line, (begin, end, result, _, calls) in enumerate(found):
        if result != "ok":
            continue
        for place, (_, key, _) in enumerate(calls if all(kind == "r" for kind, _, _ in calls) else []):
            # (writes that ended before this began, by their begins)
            before = sorted(it for it in writes.get(key, ()) if it[1] < begin)
            if len(before) > 1 and before[-2][1] < before[-1][0]:
                yield line, place, before[-2][2]
        for key, value in {key: value for kind, key, value in calls if kind == "w"}.items():
            writes.setdefault(key, []).append((begin, end, value))


def find_stale(length):
    rng = random.Random(1)
    found = free_history(rng, 10, length, 8)
    if whole.first_unplaced(whole.History(history.counted(transactions(found))), whole.MOST)[0] is not None:
        print("the history is not right")
        return 1
    for line, place, value in rng.sample(list(places_for_stale(found)), STALE):
        begin, end, result, process, calls = found[line]
        key = calls[place][1]
        # (later reads of the key by this transaction find the same)
        changed = [(kind, it, value if (kind, it, old) == ("r", key, calls[place][2]) else old) for kind, it, old in calls]
        ts = history.counted(transactions([*found[:line], (begin, end, result, process, changed), *found[line + 1 :]]))
        it = whole.History(ts)
        n, seen = whole.first_unplaced(it, whole.MOST)
        said = "" if n is None else whole.reason(it, n, seen)
        if not said.startswith(f"line {line + 1} can't be placed: no configuration has") or f" key {key} as {value} (" not in said:
            print(f"line {line + 1} reads key {key} as {value}, which is stale; {said}")
            return 1
    print(f"{STALE} stale reads among {length} transactions are found, each by itself")
    return 0


def main(words):
    if words[0] == "judge":
        return compare_with_judge(words[1], int(words[2]))
    if words[0] == "stale":
        return find_stale(int(words[1]))
    found = free_history(random.Random(1), 10, int(words[1]), 8)
    print(*(edn_of if words[0] == "jepsen" else lines_of)(found), sep="\n")
    return 0


if __name__ == "__main__":
    sys.exit(main(sys.argv[1:]))
