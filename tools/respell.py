#!/usr/bin/env python3
"""Respells the names that this repository's specs and proofs declare: words in snake case, types in camel case.

Run once at the top of the repository, after the toolchain's own script. Names of std and names that the check makes
(goals, steps of the code) keep their spelling, as do code, strings, inputs and outputs.
"""
import os
import re

# names that would fall together with another, and lower-case names of facts
SPECIAL = {
    'No-ring': 'NamesNoRing',
    'No-item': 'NamesNoItem',
    'In-range': 'SettingsInRange',
    'Opened-over': 'JustOpenedOver',
    'makes': 'Makes',
}
# facts that a table names for its own rows
TABLES = ('crates/lane/specs/PutTable.antt', 'crates/lane/specs/TakeTable.antt')
ROWS = {'at': 'At', 'looks': 'Looks', 'stores': 'Stores', 'bars': 'Bars'}
# variables of proofs whose names no declaration shows
LOCALS = ('at-d at-h at-t b-is c-drawer c-feeder check-of gone-c kept-c kept-m l1-bare l3-bare l8-bare memory-kind '
          'no-drawer no-feeder older-is stop-of told-all').split()

TOKEN = re.compile(r"(?<![\w'₀-₉-])[^\W\d_](?:[\w'₀-₉]|-(?=\w))*")
DECLARES = re.compile(r"\s*(?:abbrev |unfoldable |pub )*(?:record |data )?([^\W\d_][\w'-]*)(?: [({].*)? ?:(?: |$)(.*)")
GOAL = re.compile(r'\s*(goal|need|Goals|Given)\.')
# in a proof of a function these stand for the steps of its code
STEPS = {'c', 'w', 'l', 'goal'}


def sources():
    for folder, _, names in os.walk('crates'):
        for name in names:
            if name.endswith(('.antt', '.rt')):
                yield os.path.join(folder, name)


def code_and_rest(path, line):
    m = re.search(r'(^|\s)--' if path.endswith('.antt') else r'//', line)
    return (line[:m.start()], line[m.start():]) if m else (line, '')


def declared():
    names = set(LOCALS)
    for path in sources():
        if not path.endswith('.antt'):
            continue
        for line in open(path, encoding='utf-8'):
            code = code_and_rest(path, line)[0]
            m = DECLARES.match(code)
            if m and '-' in m.group(1) and not GOAL.match(m.group(2)) and not code.strip().startswith(('use ', 'mod ', 'let ')):
                names.add(m.group(1))
    return names


def respelled(name):
    if name in SPECIAL:
        return SPECIAL[name]
    if name[0].isupper():
        return ''.join(part[0].upper() + part[1:] for part in name.split('-'))
    return name.replace('-', '_')


def turn_code(path, code, names):
    answers = path.endswith(('Answers.antt', 'Invariants.antt'))

    def one(m):
        name = m.group()
        before = code[:m.start()]
        root = re.search(r"(?<![\w.'-])(\w+)\.$", before)
        if answers and root and root.group(1) in STEPS:
            return name
        if path in TABLES and name in ROWS and not before.endswith(('.', '{', ', ')):
            return ROWS[name]
        return respelled(name) if name in names else name
    pieces = re.split(r'("(?:[^"\\]|\\.)*")', code)
    out = ''
    for piece in pieces:
        if piece.startswith('"'):
            out += piece
        else:
            code = piece
            out += TOKEN.sub(one, piece)
    return out


def main():
    names = declared() | set(SPECIAL)
    for path in sources():
        text = open(path, encoding='utf-8').read()
        lines = []
        for line in text.split('\n'):
            code, rest = code_and_rest(path, line)
            if path.endswith('.rt') and 'makes' in code and '-' not in code:
                lines.append(re.sub(r'\bmakes\b', 'Makes', code) + rest if re.search(r'ghost use|ensures|requires|λ', code) else line)
            else:
                lines.append(turn_code(path, code, names) + re.sub(r'`([^`]*)`', lambda m: '`' + turn_code(path, m.group(1), names) + '`', rest))
        new = '\n'.join(lines)
        if new != text:
            open(path, 'w', encoding='utf-8').write(new)
    for old in sorted(names):
        print(old, respelled(old))


main()
