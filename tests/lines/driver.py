"""Stands in for sqlite3, psycopg2 and pymysql: tells each call on standard error, finds 7, and refuses the value 13 by the code ERROR."""
import os
import re
import sys


class Error(Exception):
    pgcode = os.environ.get("ERROR")


OperationalError = Error


class Link:
    """A connection, and its cursor too. Any name is one of a call."""

    def __getattr__(self, name):
        return lambda *words: self.call(name, *words)

    def __setattr__(self, name, value):
        print(name, "=", value, file=sys.stderr)

    def call(self, name, *words):
        print(name, *words, file=sys.stderr)
        if "13" in re.findall(r"\w+", f"{words[1:]}"):
            raise Error(int(Error.pgcode) if (Error.pgcode or "").isdigit() else Error.pgcode)
        if name in ("commit", "rollback") or re.match(r"BEGIN|UPDATE", "".join(words[:1])):
            Link.in_transaction = name == "execute"
        return self

    def fetchone(self):
        return (7,)


Link.in_transaction = False


def connect(*words, **named):
    print("connect", *words, named, file=sys.stderr)
    return Link()
