#!/usr/bin/env python3
"""Compares verdicts on random histories, which examples/import converts to traces, and those of whole.py, with the verdicts that all serial
orders and completions give; and the transaction that whole.py names with the event that tests/long/whole.py finds in the trace. Keys and
values may be negative, and blanks, commas and additional words are placed as Jepsen may write them. Lines with one invalid word must be
refused.

    tests/import.py PROGRAM HISTORIES
    tests/import.py FOLDER

PROGRAM is the built tmwatch. Each history passes through intervals.py and through jepsen.py. The last line has the number of histories, and
of those that were violated.
Exit status: 0 if all agree; 1 if one does not, which is printed.

The folders in FOLDER contain the arguments of a command of examples/import, a line each, and its input. Each folder receives the output,
the errors and the status.
"""
import importlib.util
import json
import os
import random
import runpy
import signal
import subprocess
import sys
from itertools import permutations, product

TESTS = os.path.dirname(os.path.realpath(__file__))
IMPORT = os.path.join(os.path.dirname(TESTS), "examples", "import")
sys.path[:0] = [IMPORT, os.path.join(TESTS, "long")]
import history  # noqa: E402
import intervals  # noqa: E402
import jepsen  # noqa: E402
import whole  # noqa: E402

# (it has the name of an importer)
loader = importlib.util.spec_from_file_location("definitions", os.path.join(TESTS, "long", "whole.py"))
loader.loader.exec_module(definitions := importlib.util.module_from_spec(loader))

MOST, FOREVER = 5, 10**9
LIMIT = 100  # the seconds after which a command is ended
# Words of a line that say something else; and what may stand in place of a part of a line, and why the history is refused then.
OTHERS = [":old-value []", ":old-type :fail", ":old-process 99"]
SPOILT = {
    ":r": (":append", ": expected :value "), "[[": ("[[[", " closes nothing: "), "]]": ("]", " closes nothing: "),
    ":value": (":values", ": expected :value "), ":ok": (":invoke", " has an operation already"),
}  # fmt: skip


def random_history(rng):
    """Up to five transactions, whose reads find what some transaction has written or what was there first."""
    keys = rng.sample(range(-3, 12), 2)
    values = {key: [None] for key in keys}
    times = rng.sample(range(4 * MOST), 2 * rng.randint(2, MOST))
    ts = []
    for fresh, (one, other) in enumerate(zip(times[::2], times[1::2]), 1):
        calls = [[rng.choice("rw"), rng.choice(keys), rng.choice([1, -1]) * (10 * fresh + place)] for place in range(rng.randint(1, 3))]
        for kind, key, value in calls:
            if kind == "w":
                values[key].append(value)
        result = rng.choices(["ok", "fail", "info"], [6, 1, 2])[0]
        ts.append({"begin": min(one, other), "end": max(one, other), "result": result, "calls": calls})
    for t in ts:
        own = {}
        for call in t["calls"]:
            if call[0] == "w":
                own[call[1]] = call[2]
            else:
                call[2] = own.get(call[1]) or rng.choice(values[call[1]])
    return ts


def is_legal(order):
    state = {}
    for t in order:
        own = dict(state)
        for kind, key, value in t["calls"]:
            if kind == "w":
                own[key] = value
            elif t["result"] == "ok" and own.get(key) != value:
                return False
        state = own
    return True


def is_strict(ts):
    """Whether an order of those that committed, and of some that nobody knows of, explains what they have read."""
    may_count = {"ok": [True], "fail": [False], "info": [False, True]}
    end = [t["end"] if t["result"] == "ok" else FOREVER for t in ts]
    for choice in product(*[may_count[t["result"]] for t in ts]):
        for order in permutations([n for n, counts in enumerate(choice) if counts]):
            keeps_time = all(end[later] >= ts[earlier]["begin"] for place, earlier in enumerate(order) for later in order[place + 1 :])
            if keeps_time and is_legal([ts[n] for n in order]):
                return True
    return False


def write_edn(rng, ts):
    def words(t, knows):
        known = [(kind, key, value if knows or kind == "w" else None) for kind, key, value in t["calls"]]
        return rng.choice([" ", ", ", "  "]).join(f"[:{kind} {key} {'nil' if value is None else value}]" for kind, key, value in known)

    def line_of(time, kind, n):
        parts = [f":type :{kind}", f":process {numbers[n]}", ":f :txn", f":value [{words(ts[n], kind == 'ok')}]", f":time {time}", *OTHERS]
        rng.shuffle(parts)
        return "{" + rng.choice([", ", " "]).join(parts) + "}"

    moments = [(t["begin"], "invoke", n) for n, t in enumerate(ts)] + [(t["end"], t["result"], n) for n, t in enumerate(ts)]
    numbers = rng.sample(range(30), len(ts))
    lines = [line_of(*moment) for moment in sorted(moments)]
    for other in "{:type :info, :process :nemesis, :f :start, :value nil}", "", "; {:type :ok, :process 1, :value [[:x]]}":
        lines.insert(rng.randrange(len(lines) + 1), other)
    return "\n".join(lines)


def is_refused_when_spoilt(rng, text):
    """Spoils one part of one line, if there is one, and returns whether the history is refused, by that line's number and the reason."""
    lines = text.split("\n")
    number, part = rng.randrange(len(lines)), rng.choice(sorted(SPOILT))
    spoilt, why = SPOILT[part]
    # (of what has not committed nobody reads what was read)
    if part not in lines[number] or ":txn" not in lines[number] or not (":invoke" in lines[number] or ":ok" in lines[number]):
        return True
    lines[number] = lines[number].replace(part, spoilt, 1)
    try:
        jepsen.read("\n".join(lines))
    except history.Refused as it:
        return str(it).startswith(f"line {number + 1}: ") and why in str(it)
    return False


def judge(program, trace):
    told = subprocess.run([program, "judge", "--criterion", "strict"], input=trace, capture_output=True, text=True).stdout
    return json.loads(told)["verdict"]


def verdicts(program, ts):
    """Returns the verdict of judge on the trace of a history, that of whole.py, and whether the definitions find that transaction too."""
    keys, ts = history.limited(ts, [])
    try:
        ts = history.counted(ts)
    except history.Refused:
        return ["strict so far", "strict so far", True]
    trace = "".join(history.trace_of(ts, keys)[0])
    header, *lines = trace.splitlines()
    at = definitions.first_violated("strict", int(header.split()[2]), lines)
    ended = [n for _, is_end, n in history.moments_of(ts) if is_end]
    found = ended[sum(line.endswith("C") for line in lines[:at]) - 1] if at else None
    n, _ = whole.first_unplaced(whole.History(ts), whole.MOST)
    return [judge(program, trace), "violated" if n is not None else "strict so far", n == found]


def run_command(folder):
    """Runs the command of a folder, in a process that is a copy of this one."""
    with open(f"{folder}/words", encoding="utf-8") as it:
        name, *words = it.read().splitlines()
    process = os.fork()
    if process:
        with open(f"{folder}/status", "w", encoding="utf-8") as it:
            print(os.waitstatus_to_exitcode(os.waitpid(process, 0)[1]), file=it)
        return
    signal.alarm(LIMIT)
    os.dup2(os.open(f"{folder}/input", os.O_RDONLY), 0)
    for number, file in (1, "output"), (2, "errors"):
        os.dup2(os.open(f"{folder}/{file}", os.O_CREAT | os.O_WRONLY), number)
    sys.argv = [os.path.join(IMPORT, name), *words]
    runpy.run_path(sys.argv[0], run_name="__main__")
    sys.exit(0)


def main(program, histories):
    rng, violated = random.Random(1), 0
    for _ in range(histories):
        ts = random_history(rng)
        wanted = "strict so far" if is_strict(ts) else "violated"
        violated += wanted == "violated"
        text = write_edn(rng, ts)
        if not is_refused_when_spoilt(rng, text):
            print(f"{text}\nis not refused, or for another reason")
            return 1
        for name, read in ("intervals.py", intervals.read("\n".join(map(json.dumps, ts)))), ("jepsen.py", jepsen.read(text)):
            if (found := verdicts(program, read)) != [wanted, wanted, True]:
                print(f"{text}\n{name}: by judge, whole.py, and with one place: {found}, and by all orders {wanted}")
                return 1
    print(f"{histories} histories, {violated} violated")
    return 0


if __name__ == "__main__":
    if len(sys.argv) == 3:
        sys.exit(main(sys.argv[1], int(sys.argv[2])))
    for row in os.listdir(sys.argv[1]):
        run_command(os.path.join(sys.argv[1], row))
