#!/usr/bin/env python3
"""PostgreSQL or MariaDB by Debian's driver: a row of the table `registers` is a register.

    tmwatch-bench --setup 'sql <registers.sql' -- python3 dbapi.py postgres 'dbname=test' SERIALIZABLE
    tmwatch-bench --setup 'sql <registers.sql' -- python3 dbapi.py mariadb SOCKET:USER:DATABASE SERIALIZABLE

A lock is waited for no longer than LOCKS (environment): by default so shortly that runs repeat. Packages: python3-psycopg2, -pymysql.
"""
import os, sys

from tmwatch_store import Refused, Store, serve

REFUSALS = {1213, 1205, 1020}  # of MariaDB: a deadlock, a lock that was waited for in vain, a row that has changed


class Connection(Store):
    """A connection of either driver, which commits by itself but for BEGIN."""

    def __init__(self, link, is_refusal):
        self.cursor, self.is_refusal = link.cursor(), is_refusal

    def ask(self, words, *values):
        try:
            self.cursor.execute(words, values)
        except Exception as error:
            if self.is_refusal(error):
                raise Refused from error
            raise

    def begin(self):
        self.ask("BEGIN")

    def read(self, register):
        self.ask("SELECT v FROM registers WHERE k = %s", register)
        return self.cursor.fetchone()[0]

    def write(self, register, value):
        self.ask("UPDATE registers SET v = %s WHERE k = %s", value, register)

    def commit(self):
        self.ask("COMMIT")

    def abort(self):
        self.ask("ROLLBACK")


system, server, level = sys.argv[1:]
if system == "postgres":
    import psycopg2
    link = psycopg2.connect(server, options=f"-c lock_timeout={os.environ.get('LOCKS', '1ms')}")
    link.autocommit = True
    # (55P03 is a lock that was waited for in vain)
    store = Connection(link, lambda error: (getattr(error, "pgcode", None) or "").startswith(("40", "55P03")))
else:
    import pymysql
    link = pymysql.connect(**dict(zip(("unix_socket", "user", "database"), server.split(":"))), autocommit=True)
    store = Connection(link, lambda error: isinstance(error, pymysql.Error) and error.args[0] in REFUSALS)
    store.ask(f"SET SESSION innodb_lock_wait_timeout = {os.environ.get('LOCKS', '0')}")
store.ask(f"SET SESSION {'CHARACTERISTICS AS ' if system == 'postgres' else ''}TRANSACTION ISOLATION LEVEL {level}")
serve(store)
