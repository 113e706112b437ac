"""The sentences of `show --why`: a table of their forms, and a parser for the text. Used by enough.py.

A form is a sentence with letters for the things that it names: A, B and C are transactions, V and W values, R a register, E an event. Its
meaning is described by some of the following words, each with its letters:

    ended    A B        A ended before B began
    read     A R V      before its own changes, A read V from register R
    left     B R W      if the completion holds B, B leaves W in register R
    source   B          the source of that read's value: a transaction, START or NOBODY. With this word, no undrawn transaction left the value
    not_from B          a transaction that is not its source, as the sentence concludes
    unlike   A R W V    A read V, but its own earlier operations require W in register R
    put      A R V E    event E belongs to A, and sets register R to V
    fate     STATUS     the fate of that transaction, or `then`: it leaves another value or none
    stood    R V        one of the states has V in register R
    unput    R V        no event before the read of V that the next sentence names sets register R to V
    cycle    A          nothing more: the orders at the ends of the sentences contradict each other

A sentence that ends in `: A before B` concludes that order. A context is a line by itself, and applies to the following lines until the
next one. The contexts of one read are all possible sources of its value.
"""
import re
from types import SimpleNamespace

START, NOBODY = "the start", "nobody"
READ = "A read V from register R"
FORMS = {
    "A ended before B began: A before B": {"ended": "A B"},
    READ + ", which only B's commit can have left: B before A": {"read": "A R V", "left": "B R V", "source": "B"},
    READ + ", which only the start can have left, and B left W there: A before B": {"read": "A R V", "left": "B R W", "source": START},
    READ + ", where B left W: A before B": {"read": "A R V", "left": "B R W"},
    "B left W in register R, where A read V: B before C": {"read": "A R V", "left": "B R W"},
    READ + ", not from B, which comes after it": {"read": "A R V", "not_from": "B"},
    READ + ", not from B: C left W there in between": {"read": "A R V", "left": "C R W", "not_from": "B"},
    READ + ", not from the start: C left W there in between": {"read": "A R V", "left": "C R W", "not_from": START},
    READ + ": the start does not have it, and no other transaction that may have committed left it": {"read": "A R V", "source": NOBODY},
    READ + ", where its own earlier calls make it W": {"unlike": "A R W V"},
    "A set register R to V at event E": {"put": "A R V E", "fate": "stays"},
    "A set register R to V at event E, and aborted": {"put": "A R V E", "fate": "aborted"},
    "A set register R to V at event E, and has not yet asked to commit": {"put": "A R V E", "fate": "live"},
    "A set register R to V at event E, and has asked to abort": {"put": "A R V E", "fate": "leaving"},
    "A set register R to V at event E, then another value": {"put": "A R V E", "fate": "then"},
    "a state has V in register R": {"stood": "R V"},
    "no earlier event of this window sets register R to V": {"unput": "R V"},
    "A would come before itself": {"cycle": "A"},
}
CONTEXTS = {
    r"from (?P<states>state line \d+(?:, state line \d+)*):": "states",
    r"if (?P<reader>T\d+) read (?P<value>\d+) from register (?P<register>\d+) as (?P<source>T\d+|the start) left it:": "source",
}
LETTERS = {**dict.fromkeys("ABC", r"T\d+"), **dict.fromkeys("VWRE", r"\d+")}


def pattern_of(form):
    """The regular expression of a form, with a group for each letter. A letter that comes again is what it was."""
    found = set()

    def group(letter):
        again = letter[0] in found
        found.add(letter[0])
        return f"(?P={letter[0]})" if again else f"(?P<{letter[0]}>{LETTERS[letter[0]]})"

    return re.compile(re.sub(r"\b[ABCVWRE]\b", group, form))


PATTERNS = [(pattern_of(form), meaning) for form, meaning in FORMS.items()]


def read_sentence(text):
    """What a sentence of one of the forms says, or None."""
    for pattern, meaning in PATTERNS:
        if found := pattern.fullmatch(text):
            letters = {letter: word if word[0] == "T" else int(word) for letter, word in found.groupdict().items()}
            said = {
                word: tuple(letters[it] for it in about.split()) if word not in ("source", "not_from", "fate") else letters.get(about, about)
                for word, about in meaning.items()
            }
            before = tuple(re.findall(r": (T\d+) before (T\d+)$", text)[0]) if " before T" in text and ": " in text else None
            words = dict.fromkeys(["ended", "read", "left", "source", "not_from", "unlike", "put", "fate", "stood", "unput", "cycle"])
            return SimpleNamespace(**{**words, **said}, before=before, text=text)
    return None


def read_reason(lines):
    """The sentences, each with its contexts: the numbers of the states for which it is said, or None, and a case, or None: a reader, a
    register, the value that it read, and the source of it that is assumed."""
    sentences, states, case = [], None, None
    for line in lines:
        found = {kind: re.fullmatch(pattern, line) for pattern, kind in CONTEXTS.items()}
        if it := found["states"]:
            states, case = frozenset(map(int, re.findall(r"\d+", it["states"]))), None
        elif it := found["source"]:
            case = it["reader"], int(it["register"]), int(it["value"]), it["source"]
        else:
            sentence = read_sentence(line)
            if sentence is None:
                raise ValueError(f"a sentence of no known form: {line}")
            sentence.states, sentence.case = states, case
            sentences.append(sentence)
    return sentences


def read_text(text):
    """What `show --why` has written: its report line, the states, the numbers of the events drawn, and the sentences, each value in digits."""
    report, *lines = text.splitlines()
    named = dict(re.fullmatch(r"    value  (v\d+) is (\d+)", line).groups() for line in lines if line.startswith("    value"))
    states = [tuple(map(int, line.split()[1:])) for line in lines if line.startswith("    state")]
    drawn = [int(found[1]) for line in lines if (found := re.match(r" *(\d+) ", line))]
    why = [line.removeprefix("    why    ") for line in lines if line.startswith("    why")]
    return report, states, drawn, [re.sub(r"\bv\d+\b", lambda name: named[name[0]], line) for line in why]
