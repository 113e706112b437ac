#!/usr/bin/env python3
"""Checks the blocks of a page: code in it is run, compiled, or found in the sources or tests.

    tests/pages.py PAGE

A block is a sequence of lines that begin with four blanks. Its beginning determines its kind, and therefore how it is checked (READERS).
Commands after `$ ` are not run here; tests/package.sh runs those of all pages. A block of columns or arrows is a table or a drawing. Any
other block that no reader accepts is an error.
Exit status: 0 if all blocks are right; 1 if one is not, which is printed.
Environment: CC (cc); BENCH, the built tmwatch-bench, without which programs for it are not run.
"""
import glob
import json
import os
import re
import subprocess
import sys
import tempfile

TOP = os.path.dirname(os.path.dirname(os.path.realpath(__file__)))
COMMENT = re.compile(r"(?<=\S)   +\S.*|\s*//.*")
# What the sample of docs/C.md takes from its program.
CONTEXT = """#include <tmwatch.h>
static uint64_t value, judged;
static tmwatch_result result;
static tmwatch_counts counts;
"""


def text_of(*patterns):
    """Returns the text of these files of the repository."""
    return "\n".join(open(path, encoding="utf-8").read() for it in patterns for path in sorted(glob.glob(f"{TOP}/{it}", recursive=True)))


def blocks_of(page):
    """Yields each block with the number of its first line."""
    with open(page, encoding="utf-8") as it:
        lines = it.read().split("\n")
    block = []
    for number, line in enumerate(lines, 1):
        if line.startswith("    "):
            block.append(line[4:])
        elif block:
            yield number - len(block), block
            block = []


def run(words, given="", **how):
    """Runs a command, and returns what it says if it fails."""
    ran = subprocess.run(words, input=given, capture_output=True, text=True, **how)
    return None if ran.returncode == 0 else f"{' '.join(words)[:80]}: status {ran.returncode}: {ran.stderr}{ran.stdout}"


def missing(lines, text):
    """Returns the first of these lines that a text lacks, whatever the blanks."""
    squeezed = re.sub(r"\s+", "", text)
    return next((f"nowhere: {line}" for line in lines if re.sub(r"\s+", "", line) not in squeezed), None)


def in_rattle(lines):
    """Each line stands in the sources in Rattle, which the gate compiles."""
    code = [line for line in (COMMENT.sub("", line) for line in lines) if line]
    return missing(code, re.sub("//.*", "", text_of("crates/*/src/**/*.rt")))


def in_specs(lines):
    """Each line stands in the definitions."""
    specs = text_of("crates/*/specs/*.antt")
    return missing(lines, specs + re.sub(r"\b(pub|abbrev) ", "", specs))


def in_c(lines):
    """The lines compile: sketches of functions get a body, and statements a function."""
    code = [re.sub(r"(static void .*)\{ \.\. \}", r"\1{ }", COMMENT.sub("", line)).replace("{ .. }", "{ return 0; }") for line in lines]
    if not code[0].startswith("#include"):
        outer = [line for line in code if line.startswith("static ")]
        code = [CONTEXT, *outer, "void sample(void) {", *(line for line in code if line not in outer), "}"]
    with tempfile.NamedTemporaryFile("w", suffix=".c") as file:
        file.write("\n".join(["struct tx { int any; };", *code, ""]))
        file.flush()
        compiler = [os.environ.get("CC", "cc"), "-std=c11", "-fsyntax-only", "-Wall", "-Werror", "-Wno-unused"]
        return run([*compiler, f"-I{TOP}/include", file.name])


def in_python(lines):
    """The lines are a client by lines: they read, write and commit over a store that the example sets up."""
    with tempfile.TemporaryDirectory() as folder:
        setup = run(["python3", f"{TOP}/examples/python/sqlite.py", "setup", "bank.db", "WAL"], cwd=folder)
        program = "import sqlite3, sys\n" + "\n".join(lines)
        calls = "0 W 1 7\n0 R 1\n0 T\n0 R 1\n0 X\n"
        ran = subprocess.run(["python3", "-c", program, "bank.db"], input=calls, capture_output=True, text=True, cwd=folder)
        return setup or (None if ran.stdout == "0 K\n0 V 7\n0 C\n0 V 7\n0 A\n" else f"it answers {ran.stdout!r}: {ran.stderr}")


def in_shell(lines):
    """The script puts a client on the bench, with the words that it gets."""
    bench = os.environ.get("BENCH")
    if not bench:
        print("a script for the bench: skipped, since BENCH names none")
        return None
    with tempfile.TemporaryDirectory() as folder:
        os.symlink(f"{TOP}/examples/python/memory.py", f"{folder}/client.py")
        for name, text in ("fill", "#!/bin/sh\n"), ("script", "\n".join(lines) + "\n"):
            with open(f"{folder}/{name}", "w", encoding="utf-8") as it:
                it.write(text)
            os.chmod(f"{folder}/{name}", 0o755)
        path = {**os.environ, "PATH": f"{os.path.dirname(bench)}:{os.environ['PATH']}"}
        return run(["./script", "--single-process", "--schedule", "steps", "--rounds", "20"], cwd=folder, env=path)


def in_yaml(lines):
    """A step has the inputs of the action in packaging, and a job runs examples/ci/bench.sh by its words."""
    inputs = re.findall(r"^  (\w+):$\n.*\n    (required|default)", text_of("packaging/action.yml"), re.M)
    given = re.findall(r"[{,] ?(\w+): ", "".join(line for line in lines if line.startswith("  with: ")))
    if given:
        is_fit = {name for name, how in inputs if how == "required"} <= set(given) <= {name for name, _ in inputs}
        return None if is_fit else f"the action has the inputs {inputs}"
    return None if re.search(r"^  script: EACH=\d+ ci/bench.sh out ", "\n".join(lines), re.M) else "no script"


def in_json(lines):
    """A workload is one of the tests', a list a script of an example, and a report one that a test expects or a command of a page prints."""
    if lines[0].endswith(","):
        return missing(["".join(lines)], text_of("crates/test_*/src/**/*.rt", "tests/rows/*"))
    told = [line for page in PAGES for _, block in blocks_of(page) if block[0].startswith("$ ") for line in block]
    tested = re.sub(r"\d+", "#", "\n".join([text_of("tests/rows/*", "examples/verdicts.txt"), *told]))
    scripts = [script for path in glob.glob(f"{TOP}/examples/*.json") for script in json.load(open(path, encoding="utf-8"))["scripts"]]
    for line in lines:
        found, _ = json.JSONDecoder().raw_decode(line)
        # (the ends of several threads are ends that each may have)
        ones = [f'{{"ends":["{it}"]}}' for it in found["ends"]] if "ends" in found else [re.sub(r"\d+", "#", line)]
        if found not in scripts if isinstance(found, list) else any(it not in tested for it in ones):
            return f"nowhere: {line}"
    return None


def in_heads(lines):
    """A command of the repository stands in the head of its own file."""
    words = [re.split("   +", line)[0] for line in lines]
    return next((f"its head lacks {it}" for it in words if it not in re.split(r" {2,}|\n", text_of(it.split()[0]))), None)


def in_steps(lines):
    """Steps of a ring are those of an example, in order, and each has a reply."""
    steps = [re.split("  +", line)[0] for line in lines if not line.startswith(" ")]
    found = any(is_within(steps, text_of(path).splitlines()) for path in ("examples/late_claim.steps", "examples/stopped_writer.steps"))
    return None if found else "no example has these steps"


def is_within(some, lines):
    left = iter(lines)
    return all(it in left for it in some)


def in_traces(lines):
    """A drawing of events is one of a trace of examples/."""
    drawn = [" " * 4 + line for line in lines]
    for row in text_of("examples/verdicts.txt").splitlines():
        name, criterion, _, told = row.split(" ", 3)
        if criterion == "both":
            opacity, strict = (re.search(r'"at":(\d+)|$', it)[1] or "" for it in told.split("} "))
            words = ["awk", "-v", f"opacity={opacity}", "-v", f"strict={strict}", "-f", f"{TOP}/examples/draw.awk"]
            if subprocess.check_output([*words, f"{TOP}/examples/{name}.trace"], text=True).splitlines() == drawn:
                return None
    return "no trace of examples is drawn so"


def in_outputs(lines):
    """What a program prints stands in its source or in a test, part by part, whatever the numbers, the quotes and the version."""
    text = text_of("crates/*/src/**/*.rt", "bench-c/*.c", "bench-lines/*.c", "tests/*.sh", "tests/rows/*")
    number = re.compile(r"\d+(\.\d+)*|VERSION")
    parts = [part for line in lines for part in re.split(r'"[^"]*"|[:;] ', number.sub("#", line))]
    return missing(parts, number.sub("#", text))


def are_columns(lines):
    """A table or a drawing has columns or arrows in each line, and no code."""
    is_plain = re.compile(r"\S {2,}\S|\S -?\S* ?-*> |^ {8}|^ *[\^:|]")
    return next((f"nobody reads {line}" for line in lines if not is_plain.search(line) or re.search("[;{}]$", line)), None)


PAGES = [f"{TOP}/README.md", *sorted(glob.glob(f"{TOP}/docs/*.md"))]
READERS = (
    (r"\$ ", lambda lines: None),
    (r"#include|static .*;$", in_c),
    (r"\w+ = \w+\.\w+\(|import ", in_python),
    (r"let |ghost |fn |// |[\w.:]+\(", in_rattle),
    (r"#!", in_shell),
    (r"\w+:$|- \w+: ", in_yaml),
    (r"[{\[]", in_json),
    (r"\./", in_heads),
    (r"event  thread", in_traces),
    (r"ring-steps ", in_steps),
    (r"\w+ [^=<]*=( |$)|pub record|EndsBy", in_specs),
    (r"error: |thread \d, |tmwatch |\d+ \w+, |no second run |  (violates|undecided)", in_outputs),
    (r"", are_columns),
)


def main(page):
    status = 0
    for number, lines in blocks_of(page):
        read = next(read for pattern, read in READERS if re.match(pattern, lines[0]))
        fault = read(lines)
        if fault:
            print(f"{page}:{number}: {fault}")
            status = 1
    return status


if __name__ == "__main__":
    sys.exit(main(sys.argv[1]))
