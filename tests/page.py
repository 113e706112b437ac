#!/usr/bin/env python3
"""Opens the pages of `show --page` in a headless browser, and compares their drawing and text with the trace.

    tests/page.py PROGRAM BROWSER 'TRACE OPTION.. [#HASH]'..
    tests/page.py PROGRAM BROWSER --sizes FOLDER 'TRACE OPTION..'
    tests/page.py PROGRAM BROWSER --picture FILE SIZE MODE SCRIPT 'TRACE OPTION..'
    tests/page.py PROGRAM - --compare FILE SIZE MODE SCRIPT 'TRACE OPTION..'

The expected content is read from the trace itself and from the text that `show` writes, never from the JSON in the page. Each page that
differs is printed. The last line is 'N passed, M failed', and the exit status is 1 if one failed. #HASH opens the page in that state:
`all`, or the first event of a fold.

With --sizes, the page is opened at each size, light and dark: it must be visible as a whole, or in rows after a click. The folder gets the
screenshots.

--picture writes a screenshot of SIZE pixels, for example 1440x520, in MODE light or dark, after the page has run SCRIPT. The file contains
a checksum of the page and of these arguments. --compare writes nothing; the exit status is 1 if the page and these arguments have another
checksum than the file.
"""
import hashlib
import html
import json
import os
import re
import struct
import subprocess
import sys
import tempfile
import zlib
from itertools import product

MOST = 400
# What a picture's text begins with, and how many bytes the last chunk of a picture has.
KEPT, LAST = b'page\0', 12
CALLS = {'R': 'R {}', 'W': 'W {} := {}', 'N': 'N {} += {}', 'T': 'commit', 'X': 'abort'}
ENDS = {'C': 'committed', 'A': 'aborted', 'T': 'commit-pending'}

# Tells each text whose contrast to what is behind it is less than WCAG asks of texts.
CONTRAST = """
const least = 4.5, channels = color => (color.match(/[\\d.]+/g) || []).map(Number);
const bright = color => color.slice(0, 3).map(c => c / 255).map(c => c <= 0.03928 ? c / 12.92 : ((c + 0.055) / 1.055) ** 2.4)
  .reduce((sum, c, i) => sum + c * [0.2126, 0.7152, 0.0722][i], 0);
const over = (below, [r, g, b, a = 1], opacity) => below.map((c, i) => c + ([r, g, b][i] - c) * a * opacity);
const faded = node => node ? Number(getComputedStyle(node).opacity) * faded(node.parentElement) : 1;
function painted(below, node) {
  const style = getComputedStyle(node), isShape = node instanceof SVGElement, color = channels(isShape ? style.fill : style.backgroundColor);
  if (!color.length || (isShape && node.tagName !== 'rect')) return below;
  return over(below, color, faded(node) * (isShape ? Number(style.fillOpacity) : 1));
}
function contrast(node) {
  node.scrollIntoView({ block: 'center', inline: 'center' });
  const box = node.getBoundingClientRect(), all = document.elementsFromPoint(box.x + box.width / 2, box.y + box.height / 2);
  const below = all.slice(all.indexOf(node) + (node instanceof SVGElement ? 1 : 0)).reverse().reduce(painted, [255, 255, 255]);
  const style = getComputedStyle(node), color = over(below, channels(node instanceof SVGElement ? style.fill : style.color), faded(node));
  const [dim, light] = [bright(below), bright(color)].sort((a, b) => a - b);
  return (light + 0.05) / (dim + 0.05);
}
const isText = node => node.getBoundingClientRect().width && [...node.childNodes].some(child => child.nodeType === 3 && child.data.trim());
const kindOf = node => [node.tagName, node.getAttribute('class'), node.parentNode.getAttribute('class')].join();
const faint = () => [...document.querySelectorAll('main *, header *')].filter(node => node.tagName !== 'title' && !node.closest('#print, #rows') && isText(node))
  // (one of each kind: of a long window all would take minutes)
  .filter((node, i, all) => all.findIndex(other => kindOf(other) === kindOf(node)) === i).map(node => [node.textContent, contrast(node)]).filter(([, ratio]) => ratio < least);
"""

# Acts on the page as a reader does: each transaction gets the focus and each read the Enter key, and what lights up is noted.
PROBE = """<script>(() => {""" + CONTRAST + """
const told = () => document.getElementById('told').textContent, out = { reads: [], txs: [], steps: 0, lit: [], faint: faint() };
const key = (node, name) => node.dispatchEvent(new KeyboardEvent('keydown', { key: name, bubbles: true }));
const firsts = selector => [...document.querySelectorAll(selector)].map(node => Number(node.dataset.first));
for (const node of document.querySelectorAll('#chart .tx')) {
  node.focus();
  if (!out.txs.length) out.faint.push(...faint());
  out.txs.push([Number(node.dataset.first), firsts('#chart .tx.before'), firsts('#chart .tx.after'), firsts('#chart .tx.self')]);
  node.blur();
}
for (const node of document.querySelectorAll('#chart .op.reads')) {
  node.focus();
  key(node, 'Enter');
  if (!out.reads.length) out.faint.push(...faint());
  out.reads.push([Number(node.dataset.first), firsts('#chart .op.source'), told()]);
  key(node, 'Escape');
}
for (const node of document.querySelectorAll('#why li[tabindex], #chart .arrow')) {
  node.focus();
  out.lit.push([...document.querySelectorAll('#why li.lit, #chart .arrow.lit')].map(it => it.getAttribute('aria-label') || it.textContent));
  node.blur();
}
if (document.querySelector('#chart .tx')) {
  document.querySelector('#chart .tx').focus();
  for (;;) {
    const was = document.activeElement;
    key(was, 'ArrowRight');
    if (document.activeElement === was) break;
    out.steps++;
  }
}
out.left = document.querySelectorAll('.picked, .source, .lit').length;
const pre = document.createElement('pre');
pre.id = 'probe';
pre.textContent = JSON.stringify(out);
document.body.append(pre);
})()</script>
</body>"""


# Measures how wide the drawing is, or its rows once a click has shown them.
MEASURE = """<script>(() => {""" + CONTRAST + """
const texts = faint(), board = document.getElementById('scroll');
const button = [...document.querySelectorAll('button')].find(it => it.textContent.includes('in rows'));
if (button) button.click();
const drawing = document.querySelector(button ? '#rows > svg' : '#scroll > svg'), box = drawing.getBoundingClientRect();
const parts = button ? [...drawing.querySelectorAll('svg')].map(it => it.viewBox.baseVal).map(({ x, width }) => [x, x + width]) : [[0, box.width]];
window.measured = JSON.stringify({ texts, parts, wide: innerWidth, right: box.right, size: box.width / drawing.width.baseVal.value,
  most: document.querySelector('#scroll > svg').width.baseVal.value, pages: document.documentElement.scrollWidth });
})()</script>
</body>"""

# A window of this size (headless Chromium has none less than 500 pixels wide), with a page.
FRAME = """<!DOCTYPE html><body style="margin: 0"><iframe style="border: 0; width: {}px; height: {}px" srcdoc="{}"></iframe>
<script>onload = () => {{
const pre = document.createElement('pre');
pre.id = 'probe';
pre.hidden = true;
pre.textContent = document.querySelector('iframe').contentWindow.measured;
document.body.append(pre);
}}</script>
</body>"""
SIZES, LEAST_SIZE = ((1280, 760), (400, 1300)), 0.75


def opened(browser, page, *options, opened_at=''):
    """Runs the browser on a page, with this hash, and returns what it writes."""
    with tempfile.NamedTemporaryFile('w', suffix='.html', delete=False) as file:
        file.write(page)
    try:
        return subprocess.run([browser, '--headless', '--no-sandbox', '--disable-gpu', '--hide-scrollbars', '--virtual-time-budget=5000', *options,
                               'file://' + file.name + opened_at], capture_output=True, timeout=300, check=True).stdout.decode()
    finally:
        os.unlink(file.name)


def shown(program, trace, *options):
    """Runs `show` on a trace, and returns its text."""
    with open(trace, 'rb') as source:
        return subprocess.run([program, 'show', *options], stdin=source, capture_output=True, check=False).stdout.decode('ascii')


def shortened(text):
    """A text as it is drawn: of a long number only both ends."""
    return re.sub(r'\d{11,}', lambda number: number[0][:4] + '\u2026' + number[0][-4:], text)


def operations_of(transaction):
    """The operations of a transaction: first and last event, text, the register and value read, and those written."""
    events, found = transaction['events'], []
    while events:
        (number, call), events = events[0], events[1:]
        if call[0] not in CALLS:
            found.append((number, number, ' '.join(call), None, None))
            continue
        text, wrote = CALLS[call[0]].format(*call[1:]), (call[1], call[2]) if call[0] == 'W' else None
        if not events or events[0][1][0] in CALLS:
            found.append((number, number, text + ' \u2026', None, wrote))
            continue
        (last, answer), events = events[0], events[1:]
        pair, read = call[0] + answer[0], None
        if pair in ('RV', 'NV'):
            read = (call[1], answer[1])
        if pair == 'NV':
            wrote = (call[1], str((int(call[2]) + int(answer[1])) % 2**64))
        ends = {'RV': ' = ' + answer[-1], 'NV': ' was ' + answer[-1], 'WK': '', 'TC': '', 'XA': ''}
        text += ends.get(pair, ' \u2192 abort' if answer[0] == 'A' else ', ' + ' '.join(answer))
        found.append((number, last, text, read, wrote))
    return found


def runs(numbers):
    """The first and the last of numbers that follow each other."""
    return [(n, next(m for m in range(n, n + len(numbers)) if m + 1 not in numbers)) for n in sorted(numbers) if n - 1 not in numbers]


def wanted(trace, text, before, opened_at):
    """What is to be drawn of a trace before which so many events come, if it is opened so: its window, transactions, operations, states and
    mark."""
    lines = text.split('\n')
    report = json.loads(lines[0])
    with open(trace, encoding='ascii') as source:
        events = source.read().split('\n')[1:-1]
    end = before + report.get('at', len(events))
    active, cut = set(), before
    for number, line in enumerate(events[:end - before - 1], before + 1):
        (active.discard if line[2] in 'CA' else active.add)(line[0])
        if not active:
            cut = number
    current, transactions = {}, []
    for number in range(cut + 1, end + 1):
        thread, *words = events[number - before - 1].split()
        if thread not in current:
            current[thread] = {'thread': thread, 'events': []}
            transactions.append(current[thread])
        current[thread]['events'].append((number, words))
        if words[0] in 'CA':
            del current[thread]
    for tx in transactions:
        tx['first'], tx['last'] = tx['events'][0][0], tx['events'][-1][0]
        fitting = [words for number, words in tx['events'] if report['verdict'] != 'malformed' or number != end]
        tx['status'] = ENDS.get(fitting[-1][0], 'live') if fitting else 'live'
        tx['operations'] = operations_of(tx)
    mark = re.search(r'  (violates .*|undecided: .*|malformed: .*)$', text, re.M)
    rows = {int(number) for number in re.findall(r'^ *(\d+)  ', text, re.M)}
    is_part = re.search(r'^    part   \d', text, re.M)
    why = [line.split(None, 1)[1] for line in lines if line.startswith('    why    ')]
    names = dict(re.fullmatch(r'    value  (v\d+) is (\d+)', line).groups() for line in lines if line.startswith('    value  '))
    # (the page has digits)
    why = [re.sub(r'\bv\d+', lambda name: names[name[0]], line) for line in why]
    spare = runs(set(range(cut + 1, end + 1)) - rows) if is_part and opened_at != '#all' else []
    folds = [fold for fold in spare if opened_at != f'#{fold[0]}']
    start = cut + 1 if is_part else max(cut + 1, end - MOST + 1)
    return {'folds': folds, 'drawn': [n for n in range(start, end + 1) if not any(first <= n <= last for first, last in folds)],
            'why': ''.join(f'{sentence}; ' for sentence in why) or None, 'needed': ''.join('01'[number in rows] for number in range(cut + 1, end + 1)) if is_part else None,
            'report': report, 'line': lines[0], 'start': start, 'cut': cut, 'end': end, 'transactions': transactions,
            'events': events[cut - before:end - before], 'states': [line.split()[1:] for line in lines if line.startswith('    state')],
            'mark': end if 'at' in report else None, 'told': mark and mark.group(1)}


def differences(page, text, want):
    """How what is drawn differs from what is wanted."""
    found = []

    def same(what, got, right):
        if got != right:
            found.append(f'{what}: {got!r}, not {right!r}')

    every = lambda pattern: re.findall(pattern, text)
    all_bars = [bar for tx in want['transactions'] for bar in tx['operations']]
    bars = sorted(bar for bar in all_bars if set(bar[:2]) & set(want['drawn']))
    is_open = lambda tx: tx['status'] not in ('committed', 'aborted') and not want['needed']
    boxes = [tx for tx in want['transactions'] if is_open(tx) or any(bar in bars for bar in tx['operations'])]
    threads = sorted({tx['thread'] for tx in boxes})
    mark, report = [want['mark']] if want['mark'] else [], want['report']

    run = json.loads(page.split('id="run">', 1)[1].split('</script>', 1)[0])
    same('the report', run['report'], report)
    same('its line', page.split('{"report":', 1)[1].split('\n', 1)[0], want['line'])
    same('the states in the page', [state.split() for state in run['states']], want['states'])
    same('the events in the page', run['events'], want['events'])
    same('the number before them', run['before'], want['cut'])
    same('what is needed', run.get('needed'), want['needed'])
    same('why', run.get('why'), want['why'])
    told = text.split('<section id="why"', 1)[1].split('</section>', 1)[0]
    same('the sentences of the reason', ''.join(f'{html.unescape(item)}; ' for item in re.findall(r'<li[^>]*>([^<]*)</li>', told)) or None, want['why'])
    faint = [bar[0] for bar in bars if want['needed'] and want['needed'][bar[0] - want['cut'] - 1] == '0']
    same('what is faint', sorted(int(first) for first in every(r'<g class="op spare[^>]*data-first="(\d+)"')), sorted(faint))
    same('the mark in the page', (run.get('mark'), run.get('verdict_text')), (want['mark'], want['told']))

    same('lanes', sorted(every(r'<rect class="lane[^"]*"[^>]*data-thread="(\d)"')), threads)
    same('names', every(r'<div style="height[^>]*>thread (\d)</div>'), threads)
    same('boxes', sorted(every(r'<g class="tx[^>]*data-first="(\d+)" data-last="(\d+)" data-thread="(\d)" data-status="([^"]*)"')),
         sorted((str(tx['first']), str(tx['last']), tx['thread'], tx['status']) for tx in boxes))
    drawn = every(r'<g class="op[^>]*data-first="(\d+)" data-last="(\d+)"><rect[^>]*></rect>(?:<line[^>]*></line>)?<text[^>]*>([^<]*)</text>')
    names = [f'T{want["transactions"].index(tx) + 1}' for tx in boxes]
    same('the names of transactions', every(r'<g class="tx[^>]*aria-label="(T\d+), '), names)
    arrows = [re.search(r': (T\d+) before (T\d+)$', sentence) for sentence in (want['why'] or '').split('; ')]
    same('arrows', [html.unescape(words) for words in every(r'<g class="arrow"[^>]*aria-label="([^"]*)"')],
         [arrow.string for arrow in arrows if arrow and set(arrow.groups()) <= set(names)])
    same('operations', sorted((int(first), int(last), html.unescape(words)) for first, last, words in drawn),
         [(first, last, shortened(words)) for first, last, words, *_ in bars])
    same('the numbers of events', [int(n) for n in every(r'<text class="number[^>]*data-event="(\d+)"')], want['drawn'] if boxes else [])
    folds = every(r'<g class="fold"[^>]*data-first="(\d+)" data-last="(\d+)">.*?<text[^>]*>([^<]*)</text>')
    same('folds', [(int(first), int(last), words) for first, last, words in folds], [(*fold, f'..{fold[1] - fold[0] + 1}') for fold in want['folds']])
    same('the number marked', [int(n) for n in every(r'<text class="number mark"[^>]*data-event="(\d+)"')], mark)
    same('the operation marked', [(int(a), int(b)) for a, b in every(r'<g class="op[^"]* marked[^>]*data-first="(\d+)" data-last="(\d+)"')],
         [bar[:2] for bar in bars if mark and mark[0] in bar[:2]])
    same('columns marked', len(every(r'class="column"')), len(mark))
    head = html.unescape(re.search(r'<h1[^>]*>([^<]*)', text).group(1))
    same('the verdict', head.lower().startswith(report['verdict']) and (not mark or f' at event {mark[0]}: ' in head), True)
    if report['verdict'] == 'malformed':
        same('the reason', head.split(': ', 1)[1], want['told'].split(': ', 1)[1])
    legend = html.unescape(text.split('id="legend"', 1)[1].split('id="board"', 1)[0])
    letters = {words.split()[0] for _, _, words, *_ in bars} & {'R', 'W', 'N'}
    explained = re.search(r'<p id="letters"[^>]*>([^<]*)', text).group(1)
    same('the letters explained', set(re.findall(r'\b([RWN]) 0 ', explained)), letters)
    same('the legend', not mark or f'event {mark[0]}: {want["told"]}' in legend, True)
    about = re.search(r'<p id="about"[^>]*>([^<]*)', text).group(1)
    has_spare = '0' in (want['needed'] or '')
    same('what is said to be faint or folded', (re.findall(r'The others are (\w+)', about)), ['folded' if want['folds'] else 'faint'] * has_spare)
    same('a button', bool(re.search('<button[^>]*>Show (all|the)', legend)), has_spare)
    same('the extent', f'{want["start"]} to {want["end"]}' in about or not boxes, True)
    same('what is left out', f'the last {MOST} are drawn' in about, want['start'] > want['cut'] + 1)
    same('states', [re.findall(r'<td>(\d+)</td>', row) for row in every(r'<tr>((?:<td>\d+</td>)+)</tr>')], want['states'])

    probe = json.loads(html.unescape(re.search(r'<pre id="probe">(.*?)</pre>', text).group(1)))
    precedes = lambda a, b: a['status'] in ('committed', 'aborted') and a['last'] < b['first']
    same('real time', sorted(probe['txs']), sorted([tx['first'], [o['first'] for o in boxes if precedes(o, tx)],
                                                   [o['first'] for o in boxes if precedes(tx, o)], [tx['first']]] for tx in boxes))
    writes = lambda bar: [other for other in all_bars if other[4] == bar[3] and other is not bar]
    reads = {bar[0]: bar for bar in bars if bar[3]}
    same('writes that light up', sorted([first, sorted(lit)] for first, lit, _ in probe['reads']),
         sorted([bar[0], sorted(other[0] for other in writes(bar) if other in bars)] for bar in reads.values()))
    for first, _, told in [read for read in probe['reads'] if read[0] in reads]:
        register, value = reads[first][3]
        have = sum(int(register) < len(state) and state[int(register)] == value for state in want['states'])
        same(f'that nobody wrote what {first} reads', 'No write in this window' in told, not writes(reads[first]))
        same(f'that {first} reads no value of the start', 'no state at the start' in told, have == 0)
    first = min(boxes, key=lambda tx: tx['first'], default=None)
    same('steps by the arrow key', probe['steps'],
         sum(bar in tx['operations'] for tx in boxes if first and tx['thread'] == first['thread'] for bar in bars))
    same('what is left lit', probe['left'], 0)
    arrows = [html.unescape(words) for words in every(r'<g class="arrow"[^>]*aria-label="([^"]*)"')]
    same('sentences and arrows that light up together', probe['lit'], [[words] * 2 for words in arrows] * 2)
    same('texts of too little contrast', probe['faint'], [])
    return found


def compare(program, browser, words):
    """Compares the page of a trace by these options, and returns whether it is right."""
    words, opened_at = words.split('#')[0], ''.join(re.findall('#.*', words))
    trace, *options = words.split()
    page = shown(program, trace, '--page', *options)
    if not page.startswith('<!DOCTYPE html>'):
        print(f'{words}: no page: {page[:200]!r}')
        return False
    before = int(options[options.index('--skipped') + 1]) if '--skipped' in options else 0
    want, found = wanted(trace, shown(program, trace, *options), before, opened_at), []
    # A browser on busy processors may open a page without the focus, and no focus event comes: the page is opened anew.
    for _ in range(3):
        found = differences(page, opened(browser, page.replace('</body>', PROBE), '--dump-dom', opened_at=opened_at), want)
        if not found:
            return True
    print(f'{words}{opened_at}: ' + '; '.join(found)[:800])
    return False


def in_mode(page, mode):
    return page.replace('@media screen and (prefers-color-scheme: dark)', '@media screen') if mode == 'dark' else page


def size_faults(browser, page, file, width, height):
    """Opens a page in a window of this size, writes a screenshot, and returns what is not seen or hardly seen."""
    frame = FRAME.format(width, height, html.escape(page.replace('</body>', MEASURE)))
    opened(browser, frame, f'--window-size={width},{height}', '--screenshot=' + os.path.abspath(file))
    seen = json.loads(html.unescape(re.search(r'<pre id="probe"[^>]*>(.*?)</pre>', opened(browser, frame, '--dump-dom')).group(1)))
    with open(file, 'rb') as source:
        wide, high = struct.unpack('>II', source.read(24)[16:])
    starts, ends = zip(*[(round(start), round(end)) for start, end in seen['parts']])
    faults = {
        f'a window {seen["wide"]} wide': seen['wide'] != width,
        f'a screenshot of {wide}x{high}': (wide, high) != (width, height),
        f'texts of too little contrast: {seen["texts"]}': seen['texts'],
        f'the rows have {seen["parts"]} of {seen["most"]}': starts != (0, *ends[:-1]) or ends[-1] != round(seen['most']),
        f'the drawing ends at {seen["right"]}, the page at {seen["pages"]}': max(seen['right'], seen['pages']) > width,
        f'its texts are {seen["size"]} as large': seen['size'] < LEAST_SIZE,
    }
    return [fault for fault, is_one in faults.items() if is_one]


def compare_sizes(program, browser, folder, words):
    """Opens a page at each size, light and dark, and returns for each whether all is seen."""
    trace, *options = words.split()
    page, right = shown(program, trace, '--page', *options), []
    for (width, height), mode in product(SIZES, ('light', 'dark')):
        faults = size_faults(browser, in_mode(page, mode), f'{folder}/{width}-{mode}.png', width, height)
        if faults:
            print(f'{words}, {width} wide, {mode}: ' + '; '.join(faults)[:800])
        right.append(not faults)
    return right


def pictured(program, size, mode, script, words):
    """Returns the page that is drawn in a picture, and the checksum that the picture keeps."""
    trace, *options = words.split()
    page = shown(program, trace, '--page', *options).replace('</body>', f'<script>{script}</script>\n</body>')
    page = in_mode(page, mode)
    return page, hashlib.sha256(f'{size} {page}'.encode()).hexdigest().encode()


def picture(program, browser, file, size, *words):
    """Writes a screenshot, with the checksum as a text of its own before the last chunk."""
    page, checksum = pictured(program, size, *words)
    opened(browser, page, '--window-size=' + size.replace('x', ','), '--screenshot=' + os.path.abspath(file))
    with open(file, 'rb') as source:
        image = source.read()
    text = b'tEXt' + KEPT + checksum
    chunk = struct.pack('>I', len(text) - 4) + text + struct.pack('>I', zlib.crc32(text))
    with open(file, 'wb') as sink:
        sink.write(image[:-LAST] + chunk + image[-LAST:])


def is_pictured(program, file, *words):
    """Whether a picture is one of what the program writes now."""
    with open(file, 'rb') as source:
        return b'tEXt' + KEPT + pictured(program, *words)[1] in source.read()


def main(program, browser, *rest):
    if rest[0] == '--picture':
        picture(program, browser, *rest[1:])
        return 0
    if rest[0] == '--compare':
        return 0 if is_pictured(program, *rest[1:]) else 1
    if rest[0] == '--sizes':
        right = compare_sizes(program, browser, *rest[1:])
    else:
        right = [compare(program, browser, trace) for trace in rest]
    print(f'{sum(right)} passed, {len(right) - sum(right)} failed')
    return 0 if all(right) else 1


if __name__ == '__main__':
    sys.exit(main(*sys.argv[1:]))
