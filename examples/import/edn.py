"""Reads EDN (edn-format.org), the notation of Clojure in which Jepsen writes histories. Debian has no package of Python that does, and an
importer has to run where nothing is installed.

What stands alone is read as its text: `7` as "7", `nil` as "nil", `:ok` as ":ok", and a string with its quotes, so that none is another.
Vectors and lists are tuples, sets frozensets, a map is a Map, a tagged literal Tagged. Numbers may also be as Clojure prints them: 1/2,
0x1f, ##Inf.
"""
import json
import re
from collections import namedtuple

from history import Refused

STRING = r'"(?:[^"\\]|\\.)*"'
# A line, and what goes on after it if a string does. A line without these characters consists of brackets, commas and what stands alone.
LINE = re.compile(rf'(?:[^"\\;\n]+|\\.|;[^\n]*|{STRING})*\n?', re.DOTALL)
SPECIAL = re.compile(r'["\\;#]')
TOKEN = re.compile(rf"""{STRING}|;[^\n]*|#[_{{]|[()\[\]{{}}]|\\.[^\s,;"()\[\]{{}}\\]*|[^\s,;"()\[\]{{}}\\]+""", re.DOTALL)
PREFIX = re.compile(r"#(?:_|:?[A-Za-z].*)")
NUMBER = re.compile(
    r"([+-]?(?:0|[1-9][0-9]*))N?|[+-]?[0-9]+(?:\.[0-9]*(?:[eE][+-]?[0-9]+)?M?|[eE][+-]?[0-9]+M?|M|/[0-9]+)|0x[0-9a-f]+|##-?Inf|##NaN"
)
DEEPEST = 1000
CLOSED_BY = {"(": ")", "[": "]", "{": "}", "#{": "}"}
ESCAPED = {"t": "\t", "r": "\r", "n": "\n", "b": "\b", "f": "\f", "\\": "\\", '"': '"'}

Tagged = namedtuple("Tagged", "tag value")


class Map(dict):
    """A map, which knows the line where it begins."""

    def __hash__(self):
        return hash(frozenset(self))


def unescaped(found):
    if found[1]:
        return chr(int(found[1], 16))
    if found[2] not in ESCAPED:
        raise ValueError(f"a string has the escape {found[0]}")
    return ESCAPED[found[2]]


def text_of(token):
    """Returns the text of what stands alone, which is the same for what is equal."""
    if token.isdigit() and token.isascii() and (token[0] != "0" or token == "0"):
        return token
    if token[0] == '"':
        return json.dumps(re.sub(r"\\(?:u([0-9a-fA-F]{4})|(.))", unescaped, token[1:-1], flags=re.DOTALL), ensure_ascii=False)
    if re.match(r"[+-]?[0-9]|##", token):
        number = NUMBER.fullmatch(token)
        if not number:
            raise ValueError(f"{token[:80]} is no number")
        return number[1].lstrip("+").replace("-0", "0") if number[1] else token
    if token == ":" or token[0] in "#@^`~'":
        raise ValueError(f"{token[:80]} is no EDN")
    return token


def closed(opener, line, items):
    """Returns the form of these elements, which stand between brackets."""
    if opener == "[" or opener == "(":
        return tuple(items)
    if opener == "#{":
        return frozenset(items)
    form = Map(zip(items[::2], items[1::2]))
    if 2 * len(form) != len(items):
        raise ValueError(f"the map of line {line} has a key " + ("without a value" if len(items) % 2 else "twice"))
    form.line = line
    return form


def form_by(token, frames, known):
    """Returns the form that this token completes, or None: of a comment, of what #_ discards, and at the end of a history's vector."""
    if token in ")]}":
        opener, line, items = frames.pop() if frames else ("", 0, None)
        if CLOSED_BY.get(opener) != token:
            raise ValueError(f"{token} closes nothing" + (f": {opener} of line {line} is open" if opener else ""))
        form = None if items is None else closed(opener, line, items)
    elif token[0] == ";":
        return None
    else:
        form = known.get(token) or known.setdefault(token, text_of(token))
    while form is not None and frames and frames[-1][0] not in CLOSED_BY:
        opener = frames.pop()[0]
        form = None if opener == "#_" else Tagged(opener[1:], form)
    return form


def tokens_of(text):
    """Yields the tokens of each line, with its number."""
    number, at = 1, 0
    while at < len(text):
        end = text.find("\n", at) + 1 or len(text)
        line = text[at:end]
        if SPECIAL.search(line):
            end = LINE.match(text, at).end()
            if end == at or end < len(text) and text[end - 1] != "\n":
                raise Refused(f"line {number + text.count(chr(10), at, end)}: a string has no end")
            yield number, TOKEN.findall(text, at, end)
        else:
            for mark in "()[]{}":
                line = line.replace(mark, f" {mark} ")
            yield number, line.replace(",", " ").split()
        number += text.count("\n", at, end)
        at = end


def elements_of(text):
    """Yields the elements of a history, with their lines: the forms at the top, and of a vector or list there those in it."""
    known, frames, items = {}, [], None
    for line, tokens in tokens_of(text):
        try:
            for token in tokens:
                form = known.get(token) if items is not None else None
                if form is None:
                    if token in CLOSED_BY or token[0] == "#" and PREFIX.fullmatch(token):
                        items = [] if token in CLOSED_BY and (frames or token[-1] == "{") else None
                        frames.append((token, line, items))
                        if len(frames) > DEEPEST:
                            raise ValueError(f"more than {DEEPEST} brackets are open")
                        continue
                    form = form_by(token, frames, known)
                    items = frames[-1][2] if frames else None
                if form is not None and items is not None:
                    items.append(form)
                elif form is not None:
                    yield getattr(form, "line", line), form
        except ValueError as why:
            raise Refused(f"line {line}: {why}") from None
    if frames:
        raise Refused(f"line {frames[-1][1]}: what begins with {frames[-1][0]} has no end")
