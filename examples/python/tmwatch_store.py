"""A store in Python on the bench by lines (docs/LINES.md): a class with these methods, and a loop.

    class Mine(tmwatch_store.Store):
        def begin(self): ...                # before a transaction's first call
        def read(self, register): ...       # returns the value
        def write(self, register, value): ...
        def commit(self): ...
        def abort(self): ...                # rolls back: also after a Refused

    tmwatch_store.serve(Mine())             # tmwatch-bench -- python3 mine.py

Each but `abort` may raise Refused: a conflict, a deadlock, a lock waited for in vain. Another error ends the program, and the bench says so.
`serve_all` serves all threads in one process (--single-process): it gets a store for each, which has a thread of its own.
"""
import os, queue, sys, threading

# standard output is the bench's: what the store prints goes to standard error
OUTPUT = os.dup(1)
os.dup2(2, 1)


class Refused(Exception):
    pass


class Store:
    def answer(self, call, register=0, value=0):
        if call == "R":
            return f"V {self.read(int(register))}"
        if call == "W":
            self.write(int(register), int(value))
        if call == "T":
            self.commit()
        return {"W": "K", "T": "C"}[call]


def serve(store, lines=sys.stdin):
    is_open = False
    for line in lines:
        thread, *call = line.split()
        try:
            if not is_open and call != ["X"]:
                store.begin()
                is_open = True
            answer = "A" if call == ["X"] else store.answer(*call)
        except Refused:
            answer = "A"
        if answer == "A" and is_open:
            store.abort()
        is_open = answer not in ("A", "C")
        os.write(OUTPUT, f"{thread} {answer}\n".encode())


def serve_all(stores):
    calls = [queue.SimpleQueue() for _ in stores]
    threading.excepthook = lambda failure: (sys.excepthook(*failure[:3]), os._exit(1))
    for store, own in zip(stores, calls):
        threading.Thread(target=serve, args=(store, iter(own.get, None)), daemon=True).start()
    for line in sys.stdin:
        calls[int(line[0])].put(line)
