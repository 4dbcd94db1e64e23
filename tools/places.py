#!/usr/bin/env python3
"""Counts the places in crates/*/src that the page docs/DESIGN-PASS.md speaks of, point by point.

    tools/places.py [FOLDER]      FOLDER: a checkout; this one where none is given. With -l each place is listed.

It goes by text: tests, comments and clauses are left out.
"""
import glob
import os
import re
import sys

words = [a for a in sys.argv[1:] if not a.startswith('-')]
listing = '-l' in sys.argv
root = words[0] if words else os.path.join(os.path.dirname(os.path.abspath(__file__)), '..')


def code(path):
    """The lines of a file with their numbers, without comments, clauses and tests."""
    text = open(path).read()
    cut = text.find('#[cfg(test)]')
    if cut >= 0:
        text = text[:cut]
    out = []
    for n, line in enumerate(text.split('\n'), 1):
        bare = re.sub(r'//.*', '', line)
        if re.match(r'\s*(requires|ensures|ghost)\b', bare):
            bare = ''
        out.append((n, bare))
    return out


sources = sorted(glob.glob(os.path.join(root, 'crates/*/src/**/*.rt'), recursive=True))
lines = [(os.path.relpath(f, root), n, l) for f in sources for n, l in code(f)]


def find(pattern):
    return [(f, n, l.strip()) for f, n, l in lines if re.search(pattern, l)]


def functions():
    """Each function: where it is, its name and its body."""
    for f in sources:
        text = '\n'.join(l for _, l in code(f))
        for m in re.finditer(r'(?:pub )?(?:extern "C" )?fn (\w+)', text):
            start = text.find('{', m.end())
            if start < 0:
                continue
            depth, end = 0, start
            while end < len(text):
                depth += {'{': 1, '}': -1}.get(text[end], 0)
                end += 1
                if depth == 0:
                    break
            yield os.path.relpath(f, root), text[:m.start()].count('\n') + 1, m.group(1), text[m.start():end]


KEPT = set('fn pub let mut if else while for in return match true false as self usize bool'.split())


def shape(name, text):
    """A function with its own names, its types and its numbers left out: twins have one shape."""
    text = re.sub(r'\b[ui](8|16|32|64)\b', 'T', text)
    text = re.sub(r'\b\d+\b', 'N', text)
    text = re.sub(r'\b[A-Z]\w*\b', 'T', text)
    seen = {}

    def own(m):
        word = m.group(0)
        if word in KEPT or word in 'NT':
            return word
        return seen.setdefault(word, 'v%d' % len(seen))
    return re.sub(r'\s+', ' ', re.sub(r'\b[a-z_]\w*\b', own, text))


def twins():
    groups = {}
    for f, n, name, text in functions():
        if len(text.split('\n')) >= 6:
            groups.setdefault(shape(name, text), []).append((f, n, name))
    return [x for g in groups.values() if len(g) > 1 for x in g]


points = [
    ('1', 'own enums of the shape of Option or Result: their variants named', find(r'\b(Answer|Shown|Decoded|Reading)::\w')),
    ('1', 'flags that say whether a value is there', find(r'\bfound\b.*(=|bool)|\barmed: bool')),
    ('1', 'numbers for kinds: tested or written', find(r'\b(kind|status)\)? (==|!=) \d|\b(kind|status): \d|of_kind\([^)]*\d')),
    ('2', 'twins: functions of one shape', twins()),
    ('3', 'loops that count an index by hand', find(r'\bwhile \w+(\.\w+)? < ')),
    ('3', '`for` over an index that only picks elements', find(r'\bfor \w+ in 0\.\.\w+(\.len\(\))? ?\{')),
    ('4', 'numbers of two values compared through `.0`', find(r'\.0 (==|!=) \w+(\.\w+)*\.0\b')),
    ('4', 'matches that list every variant to answer true or false', find(r'=> (true|false),')),
    ('4', 'free values and copies written field by field', find(r'^\s*(status|kind): 0,|^\s*limit: pair\.limit,')),
    ('5', 'a text and a place that travel together', find(r'text: &mut \[u8\], at: usize')),
    ('6', 'whole arrays of slots by value', find(r'fn \w+\(.*: \[(Interrupt|Message|OpNo); \d+\]')),
    ('7', 'chains of tests of one number', find(r'if kind == \d')),
]
for point, what, found in points:
    print('%s  %3d  %s' % (point, len(found), what))
    if listing:
        for f, n, l in found:
            print('          %s:%s  %s' % (f, n, l))
