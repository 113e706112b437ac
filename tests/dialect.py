#!/usr/bin/env python3
"""A thermometer, not a goal: finds habits that make English text hard to read, and prints each place.

    tests/dialect.py [--rates] FILE..

A FILE is a page in Markdown, a header or source in C, Rattle or Rust, or `-` for plain text on standard input, such as a commit message.
Each habit has a limit in places per 1,000 words, which is about twice the highest rate in the documentation of SQLite 3.40, ripgrep 13 and
Rust's std 1.63. Up to three places of each are fine. Text in backquotes, code blocks and targets of links are skipped. `--rates` prints
only the rates. When a habit is over its limit, read the sentence aloud and fix the sentence: another word in the same construction is no
better. A sentence that is right and natural may stay.
Exit status: 0 if all rates are within their limits, 1 otherwise.
"""
import re
import sys

# A habit, its pattern, its limit per 1,000 words, and a better way to write.
HABITS = [
    ("what-clause", r"\b[Ww]hat (?!is\b|are\b|if\b|to\b|'s)(?=[a-z`])", 0.8, 'name the thing: "the events of the window", not "what the window has"'),
    ("so-many", r"\b[Ss]o (?:many|few|long|much)\b(?! (?:that|as|faster|more|better|slower))", 0.2, '"n", "the given number of", "a limited number of"'),
    ("tell", r"\b(?:[Tt]ells?|told)\b", 0.5, "returns, prints, reports, distinguishes"),
    ("ask", r"\b(?:[Aa]sks?|asked|unasked)\b", 0.2, "calls, requests, checks, requires, tries to"),
    ("keep", r"\b(?:kept|is kept|what .{0,20}keeps)\b", 0.4, "stored, retained, cached, unchanged"),
    ("stand", r"\b(?:stands?|stood)\b(?!ard|alone| for)", 0.15, "is, is in, precedes, holds"),
    ("by-mode", r"\bby (?:steps|rounds|permits|lines|turns|all|both|opacity|strict|hand|chance|walk|priorities)\b", 0.2, "with `steps`, under opacity, manually, at random"),
    ("where-if", r"(?:[.;,] |^)[Ww]here (?!to\b|is\b|are\b|possible\b)", 0.8, "if, when"),
    ("else", r"(?:[.;:,] |^)(?:[Ee]lse|or else)\b", 0.2, "otherwise"),
    ("alone", r"\balone\b", 0.15, "only, by itself"),
    ("who-thing", r"\b(?:[Ww]hoever|[Nn]obody|[Ss]omebody|[Ww]ho)\b", 0.25, "the thread that, no thread, the caller"),
    ("old-place", r"\b(?:[Bb]eside|behind|anew|at last|mends?)\b", 0.15, "next to, after, again, finally, fix"),
    ("give-back", r"\b(?:gives?|given|giving) (?:back|up)\b", 0.2, "frees, releases, returns, abandons"),
    ("is-none", r"\b(?:is|are) (?:none|no)\b(?! longer)", 0.7, '"there is no ..", "is not a .."'),
    ("of-first", r"(?:[.;] |^)Of (?:a|an|the|all|several|two|one|these|those|such|each|what)\b", 0.1, "put the subject first"),
    ("words", r"\b(?:the|its|these|wrong|which|program's|given) words\b", 0.1, "options, arguments"),
    ("growth", r"growth (?:of memory )?was refused|\b[Ww]ant of memory|takes no memory", 0.1, "allocation failed, out of memory, does not allocate"),
    ("hedge-one", r"\b(?:those that|that which|all that|one that|ones that)\b", 0.7, "name the things"),
    ("perfect", r"\b(?:has|have|had)(?: not| never| also)? (?:\w+ed|begun|read|written|made|given|taken|kept|told|shown|drawn|found|left|met|run|lost|seen|said|come|gone|done)\b", 2.5, 'present or past: "if the transaction aborted"'),
]
JOINTS = r"\b(?:[Bb]ecause|[Aa]lthough|[Oo]therwise|[Ii]nstead|[Hh]owever|[Ww]hen|[Ww]henever|[Tt]herefore|[Ff]or example)\b"
LEAST_JOINTS = 2.0
FEW = 3  # places of a habit that are fine at any rate


def blank(match):
    """Returns as many blanks and line feeds as the match has characters."""
    return re.sub(r"[^\n]", " ", match[0])


def prose_of(path, text):
    """Returns the prose of a text, each line at its place."""
    if path.endswith((".c", ".h", ".hpp", ".cc")):
        prose = list(re.sub(r"[^\n]", " ", text))
        for match in re.finditer(r"/\*.*?\*/|//[^\n]*", text, re.S):
            prose[match.start() : match.end()] = match[0]
        text = "".join(prose)
    elif path.endswith((".rt", ".rs")):
        text = re.sub(r"(?m)^(?!\s*//[/!]).*$", "", text)
    elif path.endswith(".md"):
        text = re.sub(r"(?m)^(?:    |\t).*$", "", text)
        text = re.sub(r"\]\([^)\n]*\)", "]", re.sub(r"```.*?```", blank, text, flags=re.S))
    return re.sub(r"`[^`\n]*`", "`x`", text)


def report(path, text, shows_places):
    """Prints each habit of a text that is over its limit, and returns whether there is one."""
    words = max(1, len(re.findall(r"[A-Za-z][A-Za-z'-]*", text)))
    is_over = False
    for name, pattern, limit, better in HABITS:
        found = [(number, line.strip()) for number, line in enumerate(text.split("\n"), 1) for _ in re.findall(pattern, line)]
        if len(found) > max(FEW, limit * words / 1000):
            is_over = True
            print(f"{path}: {name}: {len(found)} in {words} words ({len(found) * 1000 / words:.1f} per 1,000, limit {limit}): {better}")
            for number, line in found if shows_places else []:
                print(f"    {number}: {line[:140]}")
    joints = len(re.findall(JOINTS, text))
    if words > 300 and joints < LEAST_JOINTS * words / 1000:
        is_over = True
        print(f"{path}: few joints: {joints} in {words} words: because, when, otherwise, instead, for example")
    return is_over


def main():
    is_over = False
    for path in (path for path in sys.argv[1:] if path != "--rates"):
        with sys.stdin if path == "-" else open(path, encoding="utf-8") as source:
            is_over |= report(path, prose_of(path, source.read()), "--rates" not in sys.argv)
    return 1 if is_over else 0


if __name__ == "__main__":
    sys.exit(main())
