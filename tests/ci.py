#!/usr/bin/env python3
"""Runs examples/ci/bench.sh on programs that print a line and end with a status, in all pairs, and compares its whole output.

    tests/ci.py BENCH

BENCH is bench.sh. It runs in this folder, with stand-ins for `timeout` and tmwatch. Prints each difference, and finally the number of
tests.
Exit status: 0 if nothing differs, 1 otherwise.
"""
import os
import subprocess
import sys
import time
import xml.etree.ElementTree as tree

STATUSES = [0, 1, 2, 3, 4, 124, 137, 139]
LINES = {
    "opaque": '{"events":9,"verdict":"opaque so far"}', "little": '{"events":9,"verdict":"opaque so far"} {"untested":["overlap","aborts"]}',
    "locked": '{"events":9,"verdict":"opaque so far"} {"untested":["aborts"]}',
    "violated": '{"at":5,"events":9,"verdict":"violated"} {"rounds":3,"skipped":7} {"deterministic":true,"reproduce":"--seed 1 --round 3"}',
    "undecided": '{"at":1,"events":1,"verdict":"undecided","why":"states"}', "malformed": '{"at":1,"events":1,"verdict":"malformed"}',
    "stuck": '{"fault":"hang"} {"deterministic":false,"reproduce":"--seed \\"<&>\\""}', "nothing": "",
    "raced": '{"events":9,"verdict":"opaque so far"} {"race":"thread 0 reads at x.c:1 (read)","rounds":9}',
}  # fmt: skip
RACE = "a data race: see race"
VERDICTS = {(0, "opaque"): None, (0, "locked"): None, (0, "little"): "nothing is wrong, but the run tests little: see untested", (1, "violated"): "violated",
            (0, "raced"): RACE, (1, "raced"): RACE, (2, "undecided"): "undecided", (3, "malformed"): "malformed: the record fits no run"}
OUT, USAGE = "out & more", "usage: bench.sh OUT PROGRAM..\n"
WORDS = ["--seed", "5", "--seconds", "3"]
# It says for how long it was to run the program, and does so: for a second, if that doesn't end.
TIMEOUT = """#!/bin/sh
echo "$1 $2 $3" >>limits
case $4 in
./endless | ./deaf) shift 3 && exec "$REAL" -k 1 1 "$@" ;;
*) exec "$REAL" "$@" ;;
esac
"""
TMWATCH = """#!/bin/sh
echo "$@ $(cat)" >>pages
echo page
exit 1
"""


def write_program(name, text):
    with open(name, "w", encoding="utf-8") as it:
        it.write(text)
    os.chmod(name, 0o755)


def why_of(status, kind):
    """Returns what is wrong with a run, or None."""
    if status == 4 and kind == "stuck":
        return f"no verdict: {LINES[kind].split(' ', 1)[0]}"
    if status in (124, 137):
        return "no verdict: the program did not end"
    return VERDICTS.get((status, kind), f"no verdict: the program ended with status {status}")


def write_programs():
    """Writes the programs, and returns each with what is wrong with its run, and the lines that it prints."""
    programs = []
    for kind, line in LINES.items():
        lines = line.replace("} {", "}\n{")
        for status in STATUSES:
            name = f"./{kind}-{status}"
            write_program(name, f"#!/bin/sh\ncat <<'END'\n{lines}\nEND\necho \"$@\" >&2\necho trace $3 >\"$8\"\nexit {status}\n")
            programs.append((name, why_of(status, kind), lines))
    for name, signals in ("./endless", ""), ("./deaf", "trap '' TERM; "):
        write_program(name, f"#!/bin/sh\n{signals}echo '{LINES['opaque']}'\nsleep 20 & wait; sleep 20\n")
        programs.append((name, "no verdict: the program did not end", LINES["opaque"]))
    return [*programs, ("./none", "no verdict: the program ended with status 127", "")]


class Check:
    def __init__(self, programs):
        self.programs, self.is_right = programs, True

    def expect(self, name, found, wanted):
        if found != wanted:
            self.is_right = False
            print(f"{name}:\n{found}\nand not\n{wanted}")

    def run(self, bench, given, wanted, **environment):
        """Runs bench.sh: returns what it printed."""
        fakes = {"PATH": f"{os.getcwd()}/fakes:{os.environ['PATH']}", "SEED": "5", "EACH": "3", "TMWATCH": "./tmwatch", **environment}
        ran = subprocess.run([bench, OUT, *given], env={**os.environ, **fakes}, capture_output=True, text=True)
        # (the shell says that it has killed one)
        said = [line for line in ran.stderr.split("\n") if line and " Killed " not in line]
        self.expect(f"status of {given[:3]}", (ran.returncode, said), (wanted, []))
        return ran.stdout

    def tap(self):
        lines = [f"1..{len(self.programs)}"]
        for number, (name, why, printed) in enumerate(self.programs, 1):
            lines.append(f"{'not ok' if why else 'ok'} {number} - {name} {' '.join(WORDS)}")
            again = [line for line in printed.split("\n") if '"reproduce"' in line] or [f"see {number}.log"]
            lines += [f"# {why}", f"# {again[0]}"] if why else []
        return "\n".join([*lines, ""])

    def junit(self):
        cases = []
        for number, (name, why, _) in enumerate(self.programs, 1):
            text = f"see {number}.json, {number}.log and {number}.trace"
            cases.append(["testcase", "tmwatch", f"{name} {' '.join(WORDS)}", [["failure", why, text]] if why else []])
        failed = sum(why is not None for _, why, _ in self.programs)
        return ["testsuite", {"name": "tmwatch", "tests": str(len(cases)), "failures": str(failed)}, cases]


def read(path):
    with open(path, encoding="utf-8") as it:
        return it.read()


def read_junit(path):
    suite = tree.parse(path).getroot()
    cases = [[it.tag, it.get("classname"), it.get("name"), [[inner.tag, inner.get("message"), inner.text] for inner in it]] for it in suite]
    return [suite.tag, suite.attrib, cases]


def read_times(path):
    """Returns the seconds of each test."""
    return {it.get("name").split()[0]: int(it.get("time")) for it in tree.parse(path).getroot()}


def look_at_files(check):
    """Looks at what the first run has written of each test."""
    check.expect("junit.xml", read_junit(f"{OUT}/junit.xml"), check.junit())
    times = read_times(f"{OUT}/junit.xml")
    check.expect("times", (min(times.values()), times["./endless"] > 0, times["./deaf"] > 1), (0, True, True))
    wrong = [number for number, (_, why, _) in enumerate(check.programs, 1) if why == "violated"]
    for number, (name, _, printed) in enumerate(check.programs, 1):
        check.expect(f"{number}.json", read(f"{OUT}/{number}.json").strip(), printed)
        if name not in ("./endless", "./deaf", "./none"):
            check.expect(f"{number}.log", read(f"{OUT}/{number}.log"), f"{' '.join(WORDS)} --shrink --quiet --trace {OUT}/{number}.trace\n")
        check.expect(f"{number}.html", os.path.exists(f"{OUT}/{number}.html"), number in wrong)
    check.expect("pages", read("pages"), "".join("show --page --why --skipped 7 trace --seconds\n" for _ in wrong))
    check.expect("a page", [read(f"{OUT}/{number}.html") for number in wrong], ["page\n" for _ in wrong])
    check.expect("limits", read("limits"), "-k 10 123\n" * len(check.programs))
    for number in wrong:
        os.remove(f"{OUT}/{number}.html")


def look_at_status(check, bench):
    """The status is that of a violation, wherever it comes, and else that of any other end. Without tmwatch there is no page."""
    for given, status in (["violated-1", "stuck-4"], 1), (["stuck-4", "violated-1", "opaque-0"], 1), (["opaque-0", "little-0"], 2):
        check.run(bench, [f"./{name}" for name in given], status, TMWATCH="./none")
    check.expect("pages without tmwatch", [name for name in os.listdir(OUT) if name.endswith(".html")], [])
    ran = subprocess.run([bench, OUT], capture_output=True, text=True)
    check.expect("no program", (ran.returncode, ran.stderr), (4, USAGE))


def look_at_defaults(check, bench):
    os.remove("limits")
    days = {time.strftime("%Y%m%d", time.gmtime())}
    check.run(bench, ["./opaque-0"], 0, EACH="", SEED="")
    days.add(time.strftime("%Y%m%d", time.gmtime()))
    check.expect("the limit by default", read("limits"), "-k 10 180\n")
    words = {f"--seed {day} --seconds 60 --shrink --quiet --trace {OUT}/1.trace\n" for day in days}
    check.expect("the words by default", read(f"{OUT}/1.log") in words, True)


def look_at_again(check, bench):
    with open("again", "w", encoding="utf-8") as it:
        it.write("# all\n\n./opaque-0 --seed 9 --round 4   # mended\n  \n./violated-1 --round 2\n")
    printed = check.run(bench, ["./opaque-0"], 1, REPRODUCERS="again")
    tests = [line for line in printed.split("\n") if " - " in line]
    again = ["ok 1 - ./opaque-0 --seed 9 --round 4", "not ok 2 - ./violated-1 --round 2", "ok 3 - ./opaque-0 --seed 5 --seconds 3"]
    check.expect("what was found once", tests, again)


def main(bench):
    os.makedirs("fakes")
    os.environ["REAL"] = subprocess.run(["sh", "-c", "command -v timeout"], capture_output=True, text=True).stdout.strip()
    write_program("fakes/timeout", TIMEOUT)
    write_program("tmwatch", TMWATCH)
    check = Check(write_programs())
    check.expect("TAP", check.run(bench, [name for name, _, _ in check.programs], 1), check.tap())
    look_at_files(check)
    look_at_status(check, bench)
    look_at_defaults(check, bench)
    look_at_again(check, bench)
    print(f"{len(check.programs)} programs")
    return 0 if check.is_right else 1


if __name__ == "__main__":
    sys.exit(main(sys.argv[1]))
