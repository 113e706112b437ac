#!/usr/bin/env python3
"""Follows each link from the pages of a folder to a file or a heading. Links to the internet are not followed.

    tests/links.py [FOLDER]

Without FOLDER, it checks the repository. A page is a *.md file, unless it is in a folder of build output. Each link that leads nowhere is
printed.
Exit status: 0 if all links lead somewhere, 1 otherwise.
"""
import os
import re
import sys

TOP = sys.argv[1] if len(sys.argv) > 1 else os.path.dirname(os.path.dirname(os.path.realpath(__file__)))
BUILT = {'.git', 'out', 'built', 'target'}
LINK = re.compile(r'\]\(([^)\s]+)\)')


def text_of(page):
    """Returns a page without its drawings and quotations of code."""
    with open(f'{TOP}/{page}', encoding='utf-8') as source:
        return re.sub(r'^    .*$', '', source.read(), flags=re.M)


def anchors_of(page):
    """Returns the names by which the headings of a page are linked."""
    headings = re.findall(r'^#+ (.*)$', text_of(page), flags=re.M)
    return [re.sub(r'[^\w\- ]', '', heading.lower()).replace(' ', '-') for heading in headings]


def fault_of(page, link):
    """Returns what is wrong with a link, or nothing."""
    path, _, anchor = link.partition('#')
    to = os.path.normpath(os.path.join(os.path.dirname(page), path)) if path else page
    if not os.path.exists(f'{TOP}/{to}'):
        return 'no such file'
    if anchor and anchor not in anchors_of(to):
        return 'no such heading'
    return None


def pages():
    """Yields each page's path."""
    for at, folders, names in os.walk(TOP):
        folders[:] = sorted(set(folders) - BUILT)
        yield from (os.path.relpath(f'{at}/{name}', TOP) for name in sorted(names) if name.endswith('.md'))


def main():
    wrong = [f'{page}: {link}: {fault}' for page in pages() for link in LINK.findall(re.sub(r'`[^`\n]*`', '', text_of(page)))
             if '://' not in link for fault in [fault_of(page, link)] if fault]
    print('\n'.join(wrong), end='\n' if wrong else '')
    return 1 if wrong else 0


if __name__ == '__main__':
    sys.exit(main())
