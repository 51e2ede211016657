#!/usr/bin/env python3
"""Functions of crates/*/src whose bodies have one shape: the same text once names, numbers and strings are left out. They are candidates for one
function over a type, a size or a constant. `tools/shapes.py [LINES]`: bodies of at least LINES lines (3 if left out)."""
import collections
import glob
import re
import sys

least = int(sys.argv[1]) if len(sys.argv) > 1 else 3
KEYWORDS = {'if', 'else', 'for', 'while', 'loop', 'match', 'return', 'let', 'mut', 'in', 'break', 'continue', 'self', 'as'}


def functions(path):
    """name, line and body of each function of a file: it begins at its `fn` and ends at the brace in the same column"""
    name = None
    for number, line in enumerate(open(path), 1):
        begins = re.match(r'( *)(?:pub )?(?:extern "C" )?fn (\w+)', line)
        if begins and name is None:
            indent, name, at, body, inside = begins.group(1), begins.group(2), number, [], line.rstrip().endswith('{')
        elif name and line.rstrip() == indent + '{':
            inside = True
        elif name and line.rstrip() == indent + '}':
            yield name, at, body
            name = None
        elif name and inside:
            body.append(line)


def shape(body):
    text = re.sub(r'//.*', '', ''.join(body))
    words = re.findall(r"b?'[^']*'|b?\"[^\"]*\"|\w+|[^\s\w]", text)
    return ' '.join(w if w in KEYWORDS or not re.match(r"[\w'\"]", w) else '_' for w in words)


shapes = collections.defaultdict(list)
for path in sorted(glob.glob('crates/*/src/**/*.rt', recursive=True)):
    for name, line, body in functions(path):
        if len(body) >= least:
            shapes[shape(body)].append(f'{path[7:]}:{line} {name}')
groups = [names for names in shapes.values() if len(names) > 1]
for names in groups:
    print(', '.join(names))
print(f'{len(groups)} shapes, {sum(len(n) for n in groups)} functions')
