#!/usr/bin/env python3
"""SQLite by Python's own library: a row is a register. Without BEGIN, Python begins a transaction only before a write.

    tmwatch-bench --setup 'python3 sqlite.py setup FILE WAL' -- python3 sqlite.py FILE BEGIN
"""
import os, sqlite3, sys

if sys.argv[1] == "setup":
    db = sqlite3.connect(sys.argv[2])
    db.executescript(f"PRAGMA journal_mode = {sys.argv[3]}; DROP TABLE IF EXISTS registers; CREATE TABLE registers (k INTEGER PRIMARY KEY, v INTEGER)")
    db.executemany("INSERT INTO registers VALUES (?, 0)", [(k,) for k in range(8)])
    db.commit()
    sys.exit()

db = sqlite3.connect(sys.argv[1])
db.execute("PRAGMA synchronous = " + os.environ.get("SYNCHRONOUS", "OFF"))
# (a lock that another holds refuses at once, so that the run repeats)
db.execute("PRAGMA busy_timeout = 0")
for line in sys.stdin:
    thread, call, *words = line.split()
    try:
        if call in "RW" and not db.in_transaction and len(sys.argv) > 2:
            db.execute(sys.argv[2])
        if call == "R":
            answer = "V %d" % db.execute("SELECT v FROM registers WHERE k = ?", words).fetchone()
        elif call == "W":
            db.execute("UPDATE registers SET v = ?2 WHERE k = ?1", words)
            answer = "K"
        elif call == "T":
            db.commit()
            answer = "C"
        else:
            answer = "A"
    except sqlite3.OperationalError:
        answer = "A"
    if answer == "A":
        db.rollback()
    print(thread, answer, flush=True)
