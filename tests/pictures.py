#!/usr/bin/env python3
"""Draws the drawings among the pictures of docs/pictures, as SVG, on standard output.

    tests/pictures.py crates     the groups of crates.txt, and their dependencies
    tests/pictures.py verdict    from a byte of a trace to the report
    tests/pictures.py cut        a cut and a window of a history
    tests/pictures.py moments    why early calls and late answers add no violation

tests/pictures.sh compares and writes the files. Exit status: 0 if it is drawn, 2 for other arguments.
"""
import os
import re
import sys
from html import escape

TOP = os.path.dirname(os.path.dirname(os.path.realpath(__file__)))
FONT = 'font-family="DejaVu Sans, Verdana, sans-serif"'
INK, SOFT, EDGE, PAPER, BAND = '#1c2430', '#5d6878', '#b9c1cc', '#ffffff', '#f7f8fa'
GREEN, GREEN_FILL, BLUE, BLUE_FILL, RED = '#2f8465', '#e3f2eb', '#2f6cb3', '#e2edf9', '#c4232b'


class Drawing:
    """What is drawn, in the order in which it covers."""

    def __init__(self, width, height, title):
        self.parts = [f'<svg xmlns="http://www.w3.org/2000/svg" viewBox="0 0 {width} {height}" width="{width}" height="{height}" {FONT}>',
                      f'<title>{escape(title)}</title>', f'<rect width="{width}" height="{height}" fill="{PAPER}"/>',
                      f'<defs><marker id="tip" viewBox="0 0 8 8" refX="8" refY="4" markerWidth="7" markerHeight="7" orient="auto">'
                      f'<path d="M0,0 L8,4 L0,8 z" fill="{SOFT}"/></marker></defs>']

    def box(self, x, y, width, height, fill=BAND, edge=EDGE, dashed=False):
        dash = ' stroke-dasharray="4 3"' if dashed else ''
        self.parts.append(f'<rect x="{x}" y="{y}" width="{width}" height="{height}" rx="4" fill="{fill}" stroke="{edge}"{dash}/>')

    def text(self, x, y, words, size=12, color=INK, anchor='start', bold=False):
        weight = ' font-weight="600"' if bold else ''
        self.parts.append(f'<text x="{x}" y="{y}" font-size="{size}" fill="{color}" text-anchor="{anchor}"{weight}>{escape(words)}</text>')

    def line(self, points, color=SOFT, dashed=False, tip=False):
        dash, end = ' stroke-dasharray="4 3"' if dashed else '', ' marker-end="url(#tip)"' if tip else ''
        path = 'M' + ' L'.join(f'{x},{y}' for x, y in points)
        self.parts.append(f'<path d="{path}" fill="none" stroke="{color}"{dash}{end}/>')

    def __str__(self):
        return '\n'.join([*self.parts, '</svg>'])


def groups_of_crates():
    """Returns the groups of crates.txt: each heading with its crates, and what each of these stands on."""
    groups = []
    with open(f'{TOP}/crates.txt', encoding='utf-8') as lines:
        for line in lines:
            if line.startswith('#'):
                groups.append((line[1:].strip(), {}))
            elif line.strip():
                name, below = line.split(':', 1)
                groups[-1][1][name.split()[0]] = below.split()
    return groups


def draw_crates():
    """A box for each group, its crates in it; an arrow to each group on which one of its crates stands."""
    groups = groups_of_crates()
    home = {crate: at for at, (_, crates) in enumerate(groups) for crate in crates}
    row, gap, wide, left = 17, 26, 470, 20
    tops, y = [], 20
    for _, crates in groups:
        tops.append(y)
        y += 28 + row * ((len(crates) + 2) // 3) + gap
    drawing = Drawing(left + wide + 30 + 20 * len(groups), y - gap + 20, 'The groups of crates; an arrow goes to each group that a group stands on')
    for at, (name, crates) in enumerate(groups):
        drawing.box(left, tops[at], wide, 28 + row * ((len(crates) + 2) // 3))
        drawing.text(left + 10, tops[at] + 17, name, 13, INK, bold=True)
        for n, crate in enumerate(crates):
            drawing.text(left + 12 + (n % 3) * 154, tops[at] + 34 + row * (n // 3), crate, 11, SOFT)
        for to in sorted({home[it] for below in crates.values() for it in below if home.get(it, at) != at}):
            lane, start, end = left + wide + 18 + 20 * to, tops[at] + 6 + 5 * to, tops[to] + 8 + 5 * at
            drawing.line([(left + wide, start), (lane, start), (lane, end), (left + wide + 2, end)], tip=True)
    return drawing


# The two ways to a verdict: what passes, and which crate takes it.
WAYS = (('A trace', ('bytes', 'tmw_streams'), ('lines', 'tmw_lines'), ('events', 'tmw_trace'), ('verdict', 'tmw_monitor'), ('report line', 'tmw_report')),
        ('Threads', ('calls and answers', 'tmw_watch'), ('places of a log', 'tmw_ring'), ('events', 'tmw_pump'), ('verdict', 'tmw_monitor'),
         ('report', 'tmw_watch')))


def draw_verdict():
    """Two rows of boxes: what passes, with its crate below."""
    known = {crate for _, crates in groups_of_crates() for crate in crates}
    drawing = Drawing(800, 150, 'From a trace, and from threads, to the verdict')
    for row, (name, *steps) in enumerate(WAYS):
        y = 16 + row * 68
        drawing.text(12, y + 25, name, 13, INK, bold=True)
        for n, (what, crate) in enumerate(steps):
            if crate not in known:
                sys.exit(f'pictures.py: {crate} is not in crates.txt')
            x = 80 + n * 144
            drawing.box(x, y, 122, 48)
            drawing.text(x + 61, y + 20, what, 12, INK, 'middle')
            drawing.text(x + 61, y + 38, crate, 11, SOFT, 'middle')
            if n:
                drawing.line([(x - 22, y + 24), (x - 2, y + 24)], tip=True)
    return drawing


def transactions_of(events):
    """Returns the transactions of a trace, each with its thread, first and last event; and the cuts."""
    found, current, cuts = [], {}, [0]
    for number, line in enumerate(events, 1):
        thread = int(line[0])
        if thread not in current:
            current[thread] = {'thread': thread, 'first': number}
            found.append(current[thread])
        current[thread]['last'] = number
        if line[2] in 'CA':
            del current[thread]
        if not current:
            cuts.append(number)
    return found, cuts


def draw_cut():
    """The events of a trace in columns, their transactions, the cuts between them and the windows."""
    with open(f'{TOP}/examples/opposite_readers.trace', encoding='ascii') as source:
        events = source.read().split('\n')[1:-1]
    transactions, cuts = transactions_of(events)
    left, column, lane = 80, 42, 50
    at = lambda number: left + column * number
    drawing = Drawing(at(len(events)) + 20, 196, 'Cuts and windows of examples/opposite_readers.trace')
    for thread in (0, 1):
        drawing.text(12, 62 + lane * thread, f'thread {thread}', 12, SOFT)
    for tx in transactions:
        y = 34 + lane * tx['thread']
        drawing.box(at(tx['first'] - 1) + 3, y, column * (tx['last'] - tx['first'] + 1) - 6, 42, GREEN_FILL, GREEN)
    for number, line in enumerate(events, 1):
        drawing.text(at(number) - column / 2, 20, str(number), 11, SOFT, 'middle')
        drawing.text(at(number) - column / 2, 60 + lane * int(line[0]), line[2:], 11, INK, 'middle')
    for cut in cuts:
        drawing.line([(at(cut), 26), (at(cut), 146)], RED, dashed=True)
        drawing.text(at(cut), 160, 'cut', 11, RED, 'middle')
    for start, end in zip(cuts, cuts[1:]):
        drawing.line([(at(start) + 22, 178), (at(start) + 4, 178)], tip=True)
        drawing.line([(at(end) - 22, 178), (at(end) - 4, 178)], tip=True)
        drawing.text((at(start) + at(end)) / 2, 182, 'window', 11, INK, 'middle')
    return drawing


# Two calls: when each was recorded, made and answered in the memory, and when the answer was recorded.
CALLS = ((0, 90, 150, 250, 330), (1, 230, 300, 420, 500))


def draw_moments():
    """For each thread what the memory does, and above it what the trace has: earlier calls, later answers."""
    drawing = Drawing(640, 196, 'Calls are recorded early and answers late')
    for thread, called, begins, ends, answered in CALLS:
        y = 22 + 84 * thread
        drawing.text(12, y + 28, f'thread {thread}', 12, INK)
        drawing.box(called, y, answered - called, 24, BLUE_FILL, BLUE, dashed=True)
        drawing.box(begins, y + 28, ends - begins, 24, GREEN_FILL, GREEN)
        drawing.text(called + 6, y + 16, 'call recorded', 10, BLUE)
        drawing.text(answered - 6, y + 16, 'answer recorded', 10, BLUE, 'end')
        drawing.text((begins + ends) / 2, y + 44, 'the call', 11, GREEN, 'middle')
    drawing.text(520, 38, 'in the trace', 11, BLUE)
    drawing.text(520, 66, 'in the run', 11, GREEN)
    drawing.line([(40, 186), (620, 186)], tip=True)
    drawing.text(30, 180, 'time', 10, SOFT)
    return drawing


DRAWINGS = {'crates': draw_crates, 'verdict': draw_verdict, 'cut': draw_cut, 'moments': draw_moments}

if __name__ == '__main__':
    if len(sys.argv) != 2 or sys.argv[1] not in DRAWINGS:
        print(__doc__, end='', file=sys.stderr)
        sys.exit(2)
    print(DRAWINGS[sys.argv[1]]())
