#!/usr/bin/env python3
"""SQLite in one process, whose connections share a cache and read what others have not committed (read_uncommitted).

    tmwatch-bench --single-process -- python3 shared.py
"""
import sqlite3
from tmwatch_store import Refused, Store, serve_all


class Connection(Store):
    def __init__(self):
        self.link = sqlite3.connect("file:registers?mode=memory&cache=shared", 0, isolation_level=None, check_same_thread=False, uri=True)
        self.ask("PRAGMA read_uncommitted = 1")

    def ask(self, words, *values):
        try:
            return self.link.execute(words, values).fetchone()
        except sqlite3.OperationalError as error:
            raise Refused from error

    def begin(self):
        self.ask("BEGIN")

    def read(self, register):
        return self.ask("SELECT v FROM registers WHERE k = ?", register)[0]

    def write(self, register, value):
        self.ask("UPDATE registers SET v = ? WHERE k = ?", value, register)

    def commit(self):
        self.ask("COMMIT")

    def abort(self):
        if self.link.in_transaction:
            self.ask("ROLLBACK")


stores = [Connection() for _ in range(8)]
stores[0].ask("CREATE TABLE registers (k INTEGER PRIMARY KEY, v INTEGER)")
stores[0].ask("INSERT INTO registers VALUES (0, 0), (1, 0), (2, 0), (3, 0), (4, 0), (5, 0), (6, 0), (7, 0)")
serve_all(stores)
