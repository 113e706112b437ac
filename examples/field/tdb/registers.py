#!/usr/bin/env python3
"""TDB, Samba's database in a file, by lines: a register is a key. Its locks are a process's.

    registers.py FILE setup|transaction|outside|none

`transaction` makes all calls in a transaction of TDB; `outside` begins one at the first write, so it reads before outside; `none` begins none,
so it can't abort.
"""
import os, sys

import tdb
from tmwatch_store import Store, serve


class Transaction(Store):
    """Each transaction begins as its kind says."""

    def __init__(self, name, kind):
        self.file, self.kind, self.is_open = tdb.open(name, flags=os.O_RDWR), kind, False

    def open(self, kind):
        if self.kind == kind and not self.is_open:
            self.file.transaction_start()
            self.is_open = True

    def begin(self):
        self.open("transaction")

    def read(self, register):
        return int(self.file.get(b"%d" % register))

    def write(self, register, value):
        self.open("outside")
        self.file.store(b"%d" % register, b"%d" % value)

    def commit(self):
        if self.is_open:
            self.is_open = False
            self.file.transaction_commit()

    def abort(self):
        if self.is_open:
            self.is_open = False
            self.file.transaction_cancel()


if sys.argv[2] == "setup":
    file = tdb.open(sys.argv[1], flags=os.O_RDWR | os.O_CREAT)
    for register in range(8):
        file.store(b"%d" % register, b"0")
else:
    serve(Transaction(*sys.argv[1:]))
