#!/usr/bin/env python3
"""Turns transactions with their intervals into a trace, to be judged by strict serializability.

    examples/import/intervals.py [--names FILE] [KEY..] < history.jsonl | ./tmwatch judge --criterion strict

A line is a transaction, in any order:

    {"begin": 10, "end": 25, "result": "ok", "calls": [["r", "x", null], ["w", "y", 7]]}

Times are numbers. Keys and values are strings or whole numbers, and null is what a key holds at first. `r` is a read of a key and what it
found, `w` a write. Results are Jepsen's: `ok` has committed, `fail` has not, and of `info` nobody knows, nor when it ended, so that its end
may be left out. A `fail` is left out, and an `info` of whose writes no `ok` has read any. Another `info` ends with its first reader: that
asks nothing more of an order, since whoever begins later comes after that reader. A line may have further fields.

A key that is a number below 8 is that register, and a value that is one from 1 on is that value of the trace, if it has 64 bits. FILE gets
the names: a line for each register with its key, and for each value its register, its number and itself.

Limits:
- Calls have no times of their own. All, and the request to commit, are placed at the begin, and the commit at the end. So only
  `--criterion strict` means something.
- No key is written one value twice: else nobody knows whose write was read.
- Eight keys: the KEYs, or the first eight. Calls on others are left out, which may hide a violation and adds none.
- Eight transactions at once, and for a verdict eight from one moment at which none is open to the next: whole.py has no such limit.
- One clock. Intervals that are too long may hide a violation; those that are too short may add one.
Exit status: 0 the trace is written; 4 nothing is written, and standard error says which line is wrong and what was expected.
"""
import json
import math

from history import Refused, Transaction, run, write_trace


def fields_of(pairs):
    fields = dict(pairs)
    if len(fields) < len(pairs):
        raise ValueError("a field stands there twice")
    return fields


def name_of(value):
    """Returns the text of a key or value, or None if it is neither a string nor a whole number."""
    return str(value) if type(value) is int else json.dumps(value, ensure_ascii=False) if type(value) is str else None


def calls_of(calls):
    found = []
    for call in calls if isinstance(calls, list) else [None]:
        kind, key, value = call if isinstance(call, list) and len(call) == 3 else ("", None, None)
        if kind not in ("r", "w") or name_of(key) is None or name_of(value) is None and not (kind == "r" and value is None):
            raise ValueError('expected "calls": a list of ["r", KEY, VALUE or null] and ["w", KEY, VALUE], each a string or a whole number')
        found.append((kind, name_of(key), name_of(value)))
    return found


def transaction_of(text, line):
    """Returns the transaction of a line."""
    it = json.loads(text, object_pairs_hook=fields_of)
    if not isinstance(it, dict):
        raise ValueError('expected {"begin": TIME, "end": TIME, "result": RESULT, "calls": [CALL, ..]}')
    begin, end, result = it.get("begin"), it.get("end"), it.get("result")
    if result not in ("ok", "fail", "info"):
        raise ValueError('expected "result": "ok", "fail" or "info"')
    for name, time in ("begin", begin), ("end", end):
        if not (type(time) in (int, float) and math.isfinite(time) or time is None and name == "end" and result == "info"):
            raise ValueError(f'expected "{name}": a number')
    if end is not None and end < begin:
        raise ValueError("a transaction ends before it begins")
    return Transaction(line, begin, end, result, calls_of(it.get("calls")))


def read(text):
    """Returns the transactions of a history."""
    ts = []
    for line, words in enumerate(text.split("\n"), 1):
        try:
            ts += [transaction_of(words, line)] if words.strip() else []
        except (ValueError, RecursionError) as why:
            raise Refused(f"line {line}: {why}") from None
    return ts


if __name__ == "__main__":
    run(lambda words: write_trace(read, __doc__, words))
