#!/usr/bin/env python3
"""A little transactional memory in Python: reads that are validated by value, and writes that are kept until the commit.

    tmwatch-bench --single-process -- python3 memory.py
    tmwatch-bench --single-process -- python3 memory.py reads     without the validation of reads, or of commits (commit)
"""
import sys, threading

from tmwatch_store import Refused, Store, serve_all


class Transaction(Store):
    """A thread's transactions on a list of values. `without` names a part that is left out on purpose."""

    def __init__(self, values, lock, without):
        self.values, self.lock, self.without = values, lock, without

    def begin(self):
        self.seen, self.kept = {}, {}

    def validate(self):
        if any(self.values[register] != value for register, value in self.seen.items()):
            raise Refused

    def read(self, register):
        if register in self.kept:
            return self.kept[register]
        with self.lock:
            if self.without != "reads":
                self.validate()
            return self.seen.setdefault(register, self.values[register])

    def write(self, register, value):
        self.kept[register] = value

    def commit(self):
        with self.lock:
            if self.without != "commit":
                self.validate()
            for register, value in self.kept.items():
                self.values[register] = value

    def abort(self):
        pass


shared = [0] * 8, threading.Lock(), sys.argv[1] if len(sys.argv) > 1 else "nothing"
serve_all([Transaction(*shared) for _ in range(8)])
