#!/usr/bin/env python3
"""Mutates source files, one mutation at a time, and reports the mutants that a command does not kill.

    measure/plant.py [OPTION VALUE].. FILE.. -- COMMAND..
    measure/plant.py [OPTION VALUE].. --edits FOLDER FILE..

A mutation changes an operator, a constant or a condition, drops a statement, or swaps two arguments, in a copy of the repository, where the
COMMAND then runs. It kills a mutant if it writes `: FAILED`, fails, or exceeds its time limit. The FILEs are .c, .h, .rs, .rt, .py or .sh.
With --edits nothing runs. Instead, --number mutants of all FILEs together, of no clause in a .rt, are written as edits into FOLDER/CRATE;
tests/long/refusals.py reports why the prover refuses them.

    --seed N          chooses the mutations (1)
    --number N        mutants of each FILE (30); 0: all
    --lines M-N       only mutations in these lines
    --limit SECONDS   of each run (four times the command's time without a mutation, and ten)
    --build COMMAND   runs first, in sh: if it fails, the mutant does not compile. If it writes the file $OBJECT, a mutation that leaves the
                      bytes of that file unchanged changes nothing.
    --then COMMAND    runs in sh if the COMMAND has not killed a mutant, and may kill it
    --jobs N          runs N at a time, each in a copy of its own (1)

plant.txt lists equivalent mutants, with reasons. They do not count, nor do mutations that change nothing. Standard output has each mutant
that survived or was late (a survivor may also be late because of load), with the original line and the mutated one, and then a table. No
copy and no process is left behind.
Exit status: 0 if in each FILE at most one in ten of the mutants that count survives; 1 if more do; 2 for wrong arguments, an interrupt, or
if the command fails without a mutation.
"""
import argparse
import collections
import concurrent.futures
import functools
import glob
import os
import queue
import random
import re
import shutil
import signal
import subprocess
import sys
import tempfile
import threading
import time
import uuid

TOP = os.path.dirname(os.path.dirname(os.path.realpath(__file__)))
LANGUAGES = {".c": "c", ".h": "c", ".rs": "rust", ".rt": "rattle", ".py": "python", ".sh": "shell"}
STRING = r'"(?:\\.|[^"\\])*"'
SKIPPED = {
    "c": r"//[^\n]*|/\*.*?\*/|^[ \t]*\#define \w+\([^)]*\)|^[ \t]*\#(?!define \w+\()(?:\\\n|[^\n])*",
    "rust": r"//[^\n]*|/\*.*?\*/|\#!?\[[^\]]*\]",
    "python": r'"""(?:.|\n)*?"""|\#[^\n]*',
    "shell": r"(?<![\w$\{\\(?*])\#[^\n]*|^[ ]*(?:set|shift|trap) [^\n]*",
}
QUOTED = {"c": r"'(?:\\.[^']*|[^'\\])'", "rust": r"'(?:\\.[^']*|[^'\\])'", "python": r"'(?:\\.|[^'\\])*'", "shell": r"'[^']*'"}
SKIPPED["rattle"], QUOTED["rattle"] = SKIPPED["rust"], QUOTED["rust"]
OPERATORS = r"<<=|>>=|\.\.=|->|=>|::|\+\+|--|<<|>>|[=!<>+\-*/%&|^]=|&&|\|\||\.\.|[-+*/%&|^~!<>=?:;,.(){}\[\]@$#]"
TURNED = {
    "==": "!=", "!=": "==", "<": "<=", "<=": "<", ">": ">=", ">=": ">", "&&": "||", "||": "&&", "+": "-", "-": "+", "*": "+", "/": "*",
    "%": "/", "+=": "-=", "-=": "+=", "|=": "=", "&=": "|=", "++": "--", "--": "++", "<<": ">>", ">>": "<<", "|": "&", "&": "|", "^": "|",
    "true": "false", "false": "true", "True": "False", "False": "True", "and": "or", "or": "and",
}
SHELL_TESTS = {"-eq": "-ne", "-ne": "-eq", "-lt": "-le", "-le": "-lt", "-gt": "-ge", "-ge": "-gt", "-z": "-n", "-n": "-z"}
OPEN, CLOSED = "([{", ")]}"
MOST_SURVIVORS = 0.1
FAILED = b": FAILED"  # a row of a script has
# Types of a .rt whose values may be passed twice.
COPIED = r"&(?!mut\b)|[ui]\d|usize|bool|Ix"
# What is proved, and what is no code, in a .rt.
CLAUSE = re.compile(r"\bghost\b[^;{]*(?:;|\{(?:[^{}]|\{[^{}]*\})*\}(?: by \{[^{}]*\})?)"
                    r"|\b(?:ensures|requires|invariant)\b[^{]*\{(?:[^{}]|\{[^{}]*\})*\}|\b(?:pub )?use [^;]*;|\bconst \w+:|\bextern .C.")


class Token:
    def __init__(self, found):
        self.kind, self.text, self.at, self.end = found.lastgroup, found[0], found.start(), found.end()


def tokens_of(text, language):
    flags = re.MULTILINE | (0 if language == "python" else re.DOTALL)
    pattern = (f"(?P<skipped>{SKIPPED[language]})|(?P<string>{STRING}|{QUOTED[language]})"
               r"|(?P<number>\b(?:0[xX][0-9a-fA-F_]+|\d[\d_]*(?:\.\d+)?))|(?P<word>[A-Za-z_]\w*)" f"|(?P<operator>{OPERATORS})")
    return [it for it in map(Token, re.finditer(pattern, text, flags)) if it.kind != "skipped"]


def closing(tokens, at):
    """Returns the place of the bracket that closes the one at this place."""
    depth = 0
    for place in range(at, len(tokens)):
        depth += (tokens[place].text in OPEN) - (tokens[place].text in CLOSED)
        if depth == 0:
            return place
    return len(tokens) - 1


def parts_between(tokens, first, last, separator):
    """Returns the spans of what these separators part between two places, outside of further brackets."""
    spans, from_place, place = [], first, first
    while place < last:
        if tokens[place].text in OPEN:
            place = closing(tokens, place)
        elif tokens[place].text == separator:
            spans.append((from_place, place))
            from_place = place + 1
        place += 1
    return spans + [(from_place, last)]


def changed_word(token, language, before):
    """Returns what an operator, a constant or a word of a test is turned to, or None."""
    if token.kind == "number" and token.text[:2] not in ("0x", "0X"):
        return str(int(token.text) + 1) if token.text.isdigit() else token.text + "1"
    if token.kind == "string" and len(token.text) > 2 and not token.text[1:-1].isspace():
        return f"{token.text[0]}_{token.text[2:]}" if token.text[1] not in "_\\%{" else None
    if language == "shell":
        return {"&&": "||", "||": "&&", "==": "!=", "!=": "=="}.get(token.text)
    is_unary = before is None or before.kind == "operator" and before.text not in (")", "]") or before.text in ("return", "in", "and", "or")
    if token.text in ("-", "*", "&", "<", ">", "|", "+") and (is_unary or language in ("rust", "rattle") and token.text not in "+-"):
        return None
    return TURNED.get(token.text)


def is_no_value(text, token, before):
    """Whether this of a .rt is of a bound or a type, a field's number, an array's length, the largest number of a type, or a pattern."""
    if token.kind == "number":
        return before.text == "." or text[:token.at].endswith("; ") or token.text in ("255", "65535", "4294967295")
    return (token.text == "+" and re.fullmatch(r"[A-Z]\w*[a-z]\w*", before.text) or token.text in ("<<", ">>") and text[token.at - 1] != " "
            or token.text in ("true", "false") and text[token.end:].startswith(" =>"))


def turned(text, tokens, language):
    for place, token in enumerate(tokens):
        before = tokens[place - 1] if place else None
        word = changed_word(token, language, before)
        if word is not None and not (language == "rattle" and before and is_no_value(text, token, before)):
            yield token.at, token.end, word
        if token.text == "!" and language != "shell" and before and before.kind == "operator":
            yield token.at, token.end, ""
    if language == "shell":
        for found in re.finditer(r"(?<= )-[a-z]+(?= )", text):
            if found[0] in SHELL_TESTS:
                yield found.start(), found.end(), SHELL_TESTS[found[0]]


def turned_conditions(text, tokens, language):
    for place, token in enumerate(tokens):
        if token.text not in ("if", "while", "elif", "until"):
            continue
        after = tokens[place + 1]
        if language == "python" or language == "shell":
            yield token.end, token.end, " not" if language == "python" else " !"
        elif language == "c":
            end = tokens[closing(tokens, place + 1)]
            yield after.end, end.at, f"!({text[after.end:end.at]})"
        elif after.text != "let":
            end = next((it for it in range(place + 1, len(tokens)) if tokens[it].text in "{=" ), None)
            if end and tokens[end].text == "{":
                yield after.at, tokens[end].at, f"!({text[after.at:tokens[end].at].strip()}) "


def swapped_arms(text, tokens, language):
    """In C, `c ? a : b` with a and b swapped."""
    for place, token in enumerate(tokens if language == "c" else []):
        if token.text != "?":
            continue
        end = place + 1
        while end < len(tokens) and tokens[end].text not in (")", "]", "}", ";", ","):
            end = closing(tokens, end) + 1 if tokens[end].text in OPEN else end + 1
        arms = parts_between(tokens, place + 1, end, ":")
        if len(arms) == 2:
            (a, b), (c, d) = [(tokens[first].at, tokens[last - 1].end) for first, last in arms]
            yield a, d, text[c:d] + text[b:c] + text[a:b]


@functools.lru_cache(maxsize=None)
def parameters():
    """Returns by its name the lists of types that each function and variant of the .rt takes."""
    found = collections.defaultdict(list)
    for path in glob.glob(f"{TOP}/crates/*/src/**/*.rt", recursive=True):
        with open(path, encoding="utf-8") as it:
            text = it.read()
        tokens = tokens_of(text, "rattle")
        for place in (it for it, token in enumerate(tokens) if token.text == "fn" and tokens[it + 1].kind == "word"):
            name = tokens[place + 1].text
            first = next(it for it in range(place + 2, len(tokens)) if tokens[it].text == "(" and tokens[it - 1].text in (name, ">", ">>"))
            spans = parts_between(tokens, first + 1, closing(tokens, first), ",")
            whole = [text[tokens[a].at:tokens[b - 1].end] for a, b in spans if a < b]
            found[name].append([it.partition(": ")[2] for it in whole if ": " in it])
        for name, types in re.findall(r"^    ([A-Z]\w*)\((.*)\),$", text, re.MULTILINE):
            found[name].append(types.split(", "))
    return found


def swapped_arguments(text, tokens, language):
    """Two arguments swapped, or the first of them twice; in a .rt only those whose types are the same."""
    for place, token in enumerate(tokens[:-1]):
        line = text[text.rfind("\n", 0, token.at) + 1:token.at]
        is_defined = line == line.lstrip() and language == "c" or re.search(r"\b(def|fn|class)\b", line)
        if token.kind != "word" or tokens[place + 1].text != "(" or is_defined or language == "shell":
            continue
        spans = [it for it in parts_between(tokens, place + 2, closing(tokens, place + 1), ",") if it[0] < it[1]]
        known = [it for it in parameters().get(token.text, ()) if len(it) == len(spans)] if language == "rattle" else []
        for at, (one, other) in enumerate(zip(spans, spans[1:])):
            (a, b), (c, d) = [(tokens[first].at, tokens[last - 1].end) for first, last in (one, other)]
            alike = language != "rattle" or known and all(it[at] == it[at + 1] for it in known)
            if alike and token.text not in ("max", "min"):
                yield a, d, text[c:d] + text[b:c] + text[a:b]
            if alike and (language != "rattle" or token.text[0].islower() and re.match(COPIED, known[0][at])):
                yield c, d, text[a:b]


def dropped_statements(text, tokens, language):
    """A statement of one line, with nothing or a word that does nothing in its place."""
    nothing = {"c": ";", "rust": "", "rattle": ";", "python": "pass", "shell": ":"}[language]
    places, before = {token.at for token in tokens}, ";"
    lines = r"^([ ]+)(\S.*?)(?: *\\)?$" if language == "c" else r"^([ ]+)(\S.*)$"
    for found in re.finditer(lines, text, re.MULTILINE):
        line, is_code = found[2], found.start(2) in places
        is_whole = before[-1:] in ";{}:)" or before.endswith(("else", "then", "do", "*/")) or language in ("python", "shell")
        is_headed = re.match(r"(return|if|else|for|while|until|do|done|fi|case|esac|elif|def|class|with|try|except|break|continue|then)\b", line)
        is_headed = is_headed or language == "rattle" and (re.match(r'(let|use|const|type)\b|b"|[^\w*]', line) or line.count("(") != line.count(")"))
        is_simple = line.endswith(";") if language in ("c", "rust", "rattle") else not line.endswith((":", "\\", "(", ",", "{", "[", ";;", ")", "|"))
        is_simple = is_simple or language == "python" and re.fullmatch(r"[\w.]+(\(.*\)| [-+]?= .*[^,])", line)
        if is_code and is_whole and is_simple and not is_headed:
            yield found.start(2), found.end(2), nothing
        before = line if is_code else before


class Mistake:
    """One change of a file."""

    def __init__(self, path, text, change):
        at, end, word = change
        self.path, self.text = path, text[:at] + word + text[end:]
        self.line = text.count("\n", 0, at) + 1
        first, last = text.rfind("\n", 0, at) + 1, text.find("\n", end)
        self.was = " ".join(text[first:last].split())
        self.now = " ".join((text[first:at] + word + text[end:last]).split())


def mistakes_in(path, lines):
    with open(f"{TOP}/{path}", encoding="utf-8") as it:
        text = it.read()
    language = LANGUAGES[os.path.splitext(path)[1]]
    clauses = [it.span() for it in CLAUSE.finditer(text)] if path.endswith(".rt") else []
    tokens, seen = [it for it in tokens_of(text, language) if not any(a <= it.at < b for a, b in clauses)], set()
    for ways in (turned, turned_conditions, swapped_arms, swapped_arguments, dropped_statements):
        for change in ways(text, tokens, language):
            mistake = Mistake(path, text, change)
            if mistake.text not in seen | {text} and lines[0] <= mistake.line <= lines[1]:
                seen.add(mistake.text)
                yield mistake


def read_unseen():
    """Returns the mistakes that nobody can observe: file, line as it was, and as it is, or * for any change of it."""
    unseen, path, was = set(), "", ""
    with open(f"{TOP}/measure/plant.txt", encoding="utf-8") as it:
        for line in it:
            if line.startswith("- "):
                was = line[2:].strip()
            elif line.startswith("+ "):
                unseen.add((path, was, line[2:].strip()))
            elif line.startswith("in "):
                path = line[3:].strip()
    return unseen


# Set by an interrupt: nothing more is tried, and what runs is ended.
is_over = threading.Event()


class Copy:
    """A copy of the repository, in which one mistake stands at a time."""

    def __init__(self, folder):
        self.folder, self.mark = folder, f"TMWATCH_PLANTED={uuid.uuid4().hex}"
        self.top, self.object = f"{folder}/copy", f"{folder}/object"
        files = subprocess.run(["git", "ls-files", "-co", "--exclude-standard", "-z"], cwd=TOP, check=True, capture_output=True).stdout
        for path in files.decode().split("\0"):
            if path and os.path.exists(f"{TOP}/{path}"):
                os.makedirs(os.path.dirname(f"{self.top}/{path}"), exist_ok=True)
                shutil.copy2(f"{TOP}/{path}", f"{self.top}/{path}")

    def write(self, path, text):
        with open(f"{self.top}/{path}", "w", encoding="utf-8") as it:
            it.write(text)

    def end_processes(self):
        """Ends what the command has started and left, also in a session of its own."""
        for _ in range(100):
            left = [path for path in glob.glob("/proc/[0-9]*/environ") if self.is_marked(path)]
            for path in left:
                try:
                    os.kill(int(path.split("/")[2]), signal.SIGKILL)
                except ProcessLookupError:
                    pass
            if not left:
                return
            time.sleep(0.02)

    def is_marked(self, path):
        try:
            with open(path, "rb") as it:
                return self.mark.encode() in it.read()
        except OSError:
            return False

    def run(self, command, seconds):
        """Runs a command: its exit status, or what ended it."""
        scratch = tempfile.mkdtemp(dir=self.folder)
        name, value = self.mark.split("=")
        environment = {**os.environ, name: value, "TMPDIR": scratch, "OBJECT": self.object}
        with open(f"{self.folder}/output", "wb") as output:
            process = subprocess.Popen(command, cwd=self.top, env=environment, stdin=subprocess.DEVNULL, stdout=output,
                                       stderr=subprocess.STDOUT, start_new_session=True)
            try:
                return self.status_of(process, seconds)
            finally:
                self.end_processes()
                process.wait()
                shutil.rmtree(scratch, ignore_errors=True)

    def status_of(self, process, seconds):
        """Waits for its exit status: `late` if it isn't done in time, and `noticed` once a row has failed."""
        began = time.monotonic()
        while process.poll() is None:
            time.sleep(0.05)
            with open(f"{self.folder}/output", "rb") as output:
                if is_over.is_set() or FAILED in output.read():
                    return "noticed"
            if seconds and time.monotonic() - began > seconds:
                return "late"
        return process.returncode

    def bytes_of_object(self):
        if not os.path.exists(self.object):
            return None
        with open(self.object, "rb") as it:
            return it.read()


def end_of(mistake, copy, options, bytes_before):
    """Plants a mistake, runs the command, and takes it out again: what has become of it."""
    with open(f"{TOP}/{mistake.path}", encoding="utf-8") as it:
        text = it.read()
    copy.write(mistake.path, mistake.text)
    try:
        if options.build and copy.run(["sh", "-c", options.build], options.limit) != 0:
            return "not compiled"
        if options.build and bytes_before and copy.bytes_of_object() == bytes_before:
            return "the same"
        if mistake.path.endswith(".py"):
            try:
                compile(mistake.text, mistake.path, "exec")
            except SyntaxError:
                return "not compiled"
        status = next((it for it in (copy.run(command, options.limit) for command in options.commands) if it != 0), "survived")
        return status if status in ("survived", "late") else "noticed"
    finally:
        copy.write(mistake.path, text)


def read_options(words):
    parser = argparse.ArgumentParser(usage=__doc__)
    for name, default in ("--seed", 1), ("--number", 30), ("--jobs", 1), ("--limit", 0):
        parser.add_argument(name, type=int, default=default)
    parser.add_argument("--build")
    parser.add_argument("--then")
    parser.add_argument("--lines", default="1-1000000")
    parser.add_argument("--edits")
    parser.add_argument("files", nargs="+")
    if "--" not in words and "--edits" not in words:
        parser.error("no command")
    words = words if "--" in words else [*words, "--"]
    options = parser.parse_args(words[:words.index("--")])
    options.commands = [words[words.index("--") + 1:]] + ([["sh", "-c", options.then]] if options.then else [])
    options.span = [int(it) for it in options.lines.split("-")]
    return options


def drawn_mistakes(options):
    for path in options.files:
        found = list(mistakes_in(path, options.span))
        rng = random.Random(f"{options.seed} {path}")
        yield from sorted(rng.sample(found, min(options.number or len(found), len(found))), key=lambda it: it.line)


def write_edits(options):
    """Writes mistakes of all files as edits, each where one line is another that stands once in its file: 0, or 1 if they are fewer."""
    found = [it for path in options.files for it in mistakes_in(path, options.span)]
    random.Random(options.seed).shuffle(found)
    written = 0
    for mistake in found:
        crate, path = re.fullmatch(r"crates/(\w+)/(.*)", mistake.path).groups()
        with open(f"{TOP}/{mistake.path}", encoding="utf-8") as it:
            text = it.read()
        before, after = text.split("\n"), mistake.text.split("\n")
        changed = [(one, other) for one, other in zip(before, after) if one != other]
        if written < options.number and len(before) == len(after) and len(changed) == 1 and text.count(changed[0][0]) == 1 and changed[0][1].strip():
            os.makedirs(f"{options.edits}/{crate}", exist_ok=True)
            written += 1
            with open(f"{options.edits}/{crate}/{written:03}.edit", "w", encoding="utf-8") as it:
                it.write(f"file: {path}\nold: {changed[0][0]}\nnew: {changed[0][1]}\n")
    return 0 if written == options.number else 1


def try_all(mistakes, copies, options, bytes_before):
    """Returns what has become of each mistake; each survivor is printed once it is known."""
    free, unseen = queue.Queue(), read_unseen()
    for copy in copies:
        free.put(copy)

    def end(mistake):
        if unseen & {(mistake.path, mistake.was, mistake.now), (mistake.path, mistake.was, "*")}:
            return "not seen"
        copy = free.get()
        try:
            found = "" if is_over.is_set() else end_of(mistake, copy, options, bytes_before)
            return "not tried" if is_over.is_set() else found
        finally:
            free.put(copy)

    with concurrent.futures.ThreadPoolExecutor(len(copies)) as pool:
        ends = []
        for mistake, found in zip(mistakes, pool.map(end, mistakes)):
            ends.append(found)
            if found in ("survived", "late"):
                print(f"{mistake.path}:{mistake.line} {found}\n- {mistake.was}\n+ {mistake.now}", flush=True)
        return ends


def print_table(mistakes, ends, files):
    columns, status = ("planted", "not compiled", "the same", "not seen", "noticed", "late", "survived", "not tried"), 0
    print(" ".join(f"{name:>12}" for name in columns), " file")
    for path in [*files, "all"]:
        of_file = [end for mistake, end in zip(mistakes, ends) if path in ("all", mistake.path)]
        numbers = [len(of_file)] + [of_file.count(name) for name in columns[1:]]
        print(" ".join(f"{number:>12}" for number in numbers), f" {path}")
        survived, counted = of_file.count("survived"), sum(of_file.count(name) for name in ("noticed", "late", "survived"))
        status = 1 if survived > MOST_SURVIVORS * counted else status
    return status


def main(words):
    options = read_options(words)
    if options.edits:
        return write_edits(options)
    for number in signal.SIGINT, signal.SIGTERM:
        signal.signal(number, lambda *_: is_over.set())
    mistakes = list(drawn_mistakes(options))
    with tempfile.TemporaryDirectory() as folder:
        copies = [Copy(f"{folder}/{job}") for job in range(options.jobs)]
        if options.build and copies[0].run(["sh", "-c", options.build], None) != 0:
            print("the build fails without a mistake", file=sys.stderr)
            return 2
        bytes_before, began = copies[0].bytes_of_object(), time.monotonic()
        if any(copies[0].run(command, options.limit or None) != 0 for command in options.commands):
            with open(f"{copies[0].folder}/output", encoding="utf-8", errors="replace") as it:
                print(it.read(), "the command fails without a mistake", sep="", file=sys.stderr)
            return 2
        options.limit = options.limit or 10 + 4 * (time.monotonic() - began)
        ends = try_all(mistakes, copies, options, bytes_before)
    status = print_table(mistakes, ends, options.files)
    return 2 if is_over.is_set() else status


if __name__ == "__main__":
    sys.exit(main(sys.argv[1:]))
