"""What the importers share: transactions with their intervals, which of them count, and the trace that is made of them.

Keys and values are texts as the history has them, `7`, `"x"` or `:y`, so that none is another. None is what a key holds at first.
"""
import argparse
import json
import os
import re
import sys
from itertools import count

MOST = 8
VALUES = 2**64
WHOLE = re.compile(r"[0-9]{1,20}")


class Refused(Exception):
    """Why nothing is imported."""


class Transaction:
    """A transaction: its line in the history, begin, end, result (`ok`, `fail` or `info`), and calls: (`r` or `w`, key, value)s."""

    __slots__ = ("line", "begin", "end", "result", "calls")

    def __init__(self, line, begin, end, result, calls):
        self.line, self.begin, self.end, self.result, self.calls = line, begin, end, result, calls


class Options(argparse.ArgumentParser):
    """Options of a command, whose help is the head of its file. Wrong words are refused."""

    def __init__(self, head):
        layout = argparse.RawDescriptionHelpFormatter
        super().__init__(usage=argparse.SUPPRESS, description=head, formatter_class=layout, allow_abbrev=False)

    def error(self, message):
        raise Refused(message)


def run(main):
    """Runs a command on its words, and ends with its status, or 4 if it is refused or can't read or write."""
    try:
        status = main(sys.argv[1:])
        sys.stdout.flush()
    except (Refused, OSError) as why:
        print(f"{os.path.basename(sys.argv[0])}: {why}", file=sys.stderr)
        sys.stderr.flush()
        # (what a failed write has left is not written at the end)
        os._exit(4)
    sys.exit(status)


def read_text():
    """Returns standard input."""
    text = sys.stdin.buffer.read()
    if not text.strip():
        raise Refused("the input is empty")
    try:
        return text.decode()
    except UnicodeDecodeError as why:
        line = text.count(b"\n", 0, why.start) + 1
        raise Refused(f"line {line}: expected UTF-8") from None


def limited(ts, words, most=None):
    """Returns the keys that the words name, or all, or so many that come first, and the transactions with their calls on them alone."""
    found = dict.fromkeys(key for t in ts for _, key, _ in t.calls)
    keys = {}
    for word in words:
        # (a text may stand without its quotes)
        key = word if word in found else json.dumps(word, ensure_ascii=False)
        if key not in found:
            raise Refused(f"no transaction has a key {word}")
        keys[key] = None
    keys = list(keys or found)[: None if words else most]
    if most and len(keys) > most:
        raise Refused(f"{len(keys)} keys are named: at most {most} can be judged")
    if len(keys) == len(found):
        return keys, ts
    print(f"{len(keys)} of {len(found)} keys are judged", file=sys.stderr)
    return keys, [Transaction(t.line, t.begin, t.end, t.result, [call for call in t.calls if call[1] in keys]) for t in ts]


def writers_of(ts):
    """Returns who writes each value of each key."""
    writers = {}
    for t in ts:
        for kind, key, value in t.calls:
            if kind == "w" and writers.setdefault((key, value), t) is not t:
                line = writers[key, value].line
                raise Refused(f"line {t.line}: key {key} is written {value}, as in line {line}: nobody knows whose write was read")
    return writers


def counted(ts):
    """Returns the transactions that count, each with an end. An unknown one has that of its first reader, and only its writes."""
    writers, end_of, unwritten = writers_of(ts), {}, []
    for t in ts:
        for kind, key, value in t.calls if t.result == "ok" else ():
            if kind == "r" and (key, value) in writers:
                writer = writers[key, value]
                end_of[writer] = min(t.end, end_of.get(writer, t.end))
            elif kind == "r" and value is not None:
                unwritten.append(f"line {t.line}: key {key} was read as {value}, which nobody writes")
    if unwritten:
        print(unwritten[0] + (f", and {len(unwritten) - 1} reads more" if unwritten[1:] else ""), file=sys.stderr)
    found = [t for t in ts if t.calls and (t.result == "ok" or t.result == "info" and t in end_of)]
    for place, t in enumerate(found):
        if t.result == "info":
            writes = [call for call in t.calls if call[0] == "w"]
            found[place] = Transaction(t.line, t.begin, max(end_of[t], t.begin), "info", writes)
    if not found:
        raise Refused("no transaction is known to have committed")
    return found


def moments_of(ts):
    """Returns the begins and ends in order, as time, rank and place. At one time begins come first, so that what touches overlaps, and
    unknown ends last."""
    return sorted([(t.begin, 0, n) for n, t in enumerate(ts)] + [(t.end, 1 + (t.result == "info"), n) for n, t in enumerate(ts)])


def numbers_of(texts, least, bound):
    """Numbers these texts: each by the number that it is, if that is in the bounds, and the others by those that are left."""
    numbers = {text: int(text) for text in texts if WHOLE.fullmatch(text) and least <= int(text) < bound}
    taken = set(numbers.values())
    left = (number for number in count(least) if number not in taken)
    return {text: numbers[text] if text in numbers else next(left) for text in texts}


def lines_of(ts, registers, numbers):
    """Yields the events."""
    free, thread_of = list(range(MOST)), {}
    for _, is_end, n in moments_of(ts):
        if is_end:
            free.append(thread_of[n])
            yield f"{thread_of[n]} C\n"
            continue
        if not free:
            raise Refused(f"line {ts[n].line}: more than {MOST} transactions at once: whole.py decides such a history")
        thread = thread_of[n] = free.pop(0)
        for kind, key, value in ts[n].calls:
            register, number = registers[key], 0 if value is None else numbers[key][value]
            yield f"{thread} R {register}\n{thread} V {number}\n" if kind == "r" else f"{thread} W {register} {number}\n{thread} K\n"
        yield f"{thread} T\n"


def trace_of(ts, keys):
    """Returns the lines of the trace of transactions on these keys, and those of its names."""
    values = {key: {} for key in keys}
    for t in ts:
        for _, key, value in t.calls:
            if value is not None:
                values[key][value] = None
    registers, numbers = numbers_of(keys, 0, MOST), {key: numbers_of(values[key], 1, VALUES) for key in keys}
    trace = [f"opacity-trace 1 {max(registers.values()) + 1}\n", *lines_of(ts, registers, numbers)]
    names = []
    for key in keys:
        names.append(f"{registers[key]} {key}\n")
        names += [f"{registers[key]} {number} {value}\n" for value, number in numbers[key].items()]
    return trace, names


def write_trace(read, head, words):
    """Writes the trace of the history on standard input, and the names in it: the main of an importer, which reads by `read`."""
    options = Options(head)
    options.add_argument("--names")
    options.add_argument("keys", nargs="*", default=[])
    options = options.parse_args(words)
    keys, ts = limited(read(read_text()), options.keys, MOST)
    trace, names = trace_of(counted(ts), keys)
    if options.names:
        with open(options.names, "w", encoding="utf-8", errors="backslashreplace") as it:
            it.writelines(names)
    sys.stdout.writelines(trace)
    return 0
