#!/usr/bin/env python3
"""Checks a program of the bench in C against its --help: each option must be accepted within its range and refused beyond it, and without the
option the plan must have the default. Then the program must name the function that its memory lacks.

    tests/options.py PROGRAM

PROGRAM is tests/c/bench_marks.c, compiled without libtmwatch_steps.a. Prints each problem, and finally the number of runs.
Exit status: 0 if there is no problem, 1 otherwise.
"""
import os
import re
import subprocess
import sys

import runs

# What goes with an option, so that its bounds alone decide.
BESIDE = {"round": ["--schedule", "steps"], "event": ["--round", "1"], "pause": ["--threads", "1"]}
FILES = ["trace", "junit", "jobs", "shrink", "print-phases", "quiet"]
FLAGS = ["audit-first", "shrink", "plain", "keep-going", "crashes", "print-phases", "quiet"]
TAKES = dict.fromkeys(["schedule", "orders", "races", "values"], "WORD") | {"trace": "FILE", "junit": "FILE"} | dict.fromkeys(FLAGS)
# Options that are refused although each of them is in its range, and why.
REFUSED = {
    "--rounds 0": "--rounds: 0 is not 1 or more", "--event 1": "--event: only with --round",
    "--attempts 3": "--attempts: its product with --threads is more than 8",
    "--attempts 2 --threads 5": "--attempts: its product with --threads is more than 8",
    "--attempts 2 --crashes": "--attempts: its product with --threads is more than 8",
    "--threads 8 --crashes": "--threads: 8 is not in 1 to 7, because --crashes needs a thread",
    "--schedule permits --crashes": "--crashes: not with --schedule permits",
    "--round 20001": "--round: only with --schedule steps, or with all up to 20000",
    "--round 1 --schedule rounds": "--round: only with --schedule steps, or with all up to 20000",
    "--round 1 --schedule permits": "--round: only with --schedule steps, or with all up to 20000",
}  # fmt: skip
TAKEN = [["--attempts", "2"], ["--attempts", "1", "--threads", "8"], ["--attempts", str(2**64 - 1), "--schedule", "permits"],
         ["--seed", "0"], ["--seed", str(2**64 - 1)], ["--event", "1", "--round", "1"], ["--event", "7", "--round", "20000"],
         ["--attempts", "2", "--threads", "3", "--crashes"]]
UNREAD = ["-1", "+1", "", "1x", "x", str(2**64), "0x1"]
USAGE = '{"fault":"usage"}\n'


class Runs:
    def __init__(self, program):
        self.program, self.number, self.is_right = program, 0, True

    def run(self, *words, **environment):
        self.number += 1
        ran = subprocess.run([self.program, *words], env={**os.environ, **environment}, capture_output=True, text=True, timeout=300)
        return ran.returncode, ran.stdout, ran.stderr

    def expect(self, words, found, wanted):
        if found != wanted:
            self.is_right = False
            print(f"{' '.join(words)}: {found}, and not {wanted}")

    def takes(self, words):
        few = [] if "--rounds" in words or "--round" in words else ["--rounds", "1"]
        self.expect(words, self.run(*words, *few, "--seconds", "1")[0], 0)

    def refuses(self, words, why):
        self.expect(words, self.run(*words), (4, USAGE, f"{why}\nTry --help.\n"))


def read_help(text):
    """Returns the options by name: what each takes, and what its text says."""
    lines = [re.fullmatch(r"  --([\w-]+) +(WORD|N|FILE|\d+-\d+)? +([a-z(].*)", line) for line in text.splitlines()]
    return {found[1]: (found[2], found[3]) for found in lines if found}


def look_at_help(it):
    """Returns the options that --help names."""
    status, text, _ = it.run("--help")
    options = read_help(text)
    it.expect(["--help"], (status, sorted(options)), (0, sorted([*runs.DEFAULTS, *FILES])))
    first, *_, last = text.splitlines()
    it.expect(["--help"], (first, last), (f"usage: {it.program} [OPTION VALUE]..", "             2 undecided, 3 malformed, 4 fault"))
    return options


def look_at_option(it, name, takes, beside):
    """An option within its range and beyond, and without a number."""
    it.expect([name, "takes"], "N" if takes and "-" in takes else takes, TAKES.get(name, "N"))
    if takes and "-" in takes:
        least, most = map(int, takes.split("-"))
        for number in {least, most}:
            it.takes([f"--{name}", str(number), *beside])
        for number in {least - 1, most + 1} - {-1}:
            it.refuses([f"--{name}", str(number), *beside], f"--{name}: {number} is not in {least} to {most}")
    for word in UNREAD if takes not in (None, "WORD", "FILE") else []:
        it.refuses([f"--{name}", word], f"--{name}: '{word}' is not a number")
    if takes:
        it.refuses([f"--{name}"], f"--{name}: the value is missing")


def look_at_words(it):
    for word in "rounds", "permits", "steps", "all":
        it.takes(["--schedule", word])
    for word in "report", "fail":
        it.takes(["--races", word])
    for word in "small", "wide":
        it.takes(["--values", word])
    names = {"schedule": "steps, rounds, permits, all", "orders": "sequential, x86, c++", "races": "report, fail", "values": "small, wide"}
    for name, those in names.items():
        it.refuses([f"--{name}", "alls"], f"--{name}: 'alls' is not one of {those}")
    for words in TAKEN:
        it.takes(words)
    for words, why in REFUSED.items():
        it.refuses(words.split(), why)
    for word in "x86", "c++":
        why = "--orders: compile the memory with -fsanitize=thread, and link libtmwatch_steps.a"
        it.refuses(["--orders", word], why)
    it.expect(["--version"], it.run("--version")[:2], (0, "tmwatch_bench (no release)\n"))
    it.refuses(["--version", "--seed"], "--version: no such option")


def look_at_functions(it):
    for lacks in "begin", "read", "write", "commit", "abort", "read write", "begin commit", "commit abort":
        told = f"tmwatch_memory: the function `{lacks.split()[0]}` is null\nTry --help.\n"
        it.expect([lacks], it.run("--rounds", "1", LACKS=lacks), (4, USAGE, told))
        is_run = 4 if lacks.split()[0] in ("read", "write") else 0
        it.expect([lacks, "with run"], it.run("--rounds", "1", LACKS=lacks, FAULT="NONE-RUNS")[0], is_run)
    it.expect(["add"], it.run("--rounds", "9", LACKS="add")[0], 0)


def main(program):
    it = Runs(program)
    options = look_at_help(it)
    legs = it.run("--print-phases", "--rounds", "1")[2].split()
    plan = dict(zip(legs[2::2], legs[3::2]))
    for name, (takes, said) in options.items():
        look_at_option(it, name, takes, BESIDE.get(name, []))
        default = re.search(r"\((\d+|all)[;)]", said)
        if default and f"--{name}" in plan and name not in ("schedule", "rounds"):
            it.expect([name], plan[f"--{name}"], default[1])
    look_at_words(it)
    look_at_functions(it)
    print(f"{it.number} runs")
    return 0 if it.is_right else 1


if __name__ == "__main__":
    sys.exit(main(sys.argv[1]))
