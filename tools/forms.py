#!/usr/bin/env python3
"""Counts, at a commit, the places in src/ that docs/DESIGN-PASS.md speaks of: forms.py COMMIT [POINT]."""
import collections, re, subprocess, sys

commit = sys.argv[1]
only = sys.argv[2] if len(sys.argv) > 2 else ''


def git(*args):
    return subprocess.run(('git',) + args, capture_output=True, text=True, check=True).stdout


files = [f for f in git('ls-tree', '-r', '--name-only', commit, 'crates').split() if '/src/' in f and f.endswith('.rt')]
text = {f: git('show', commit + ':' + f) for f in files}


def lines(pattern, also=None):
    found = []
    for f in files:
        rows = text[f].split('\n')
        for n, row in enumerate(rows, 1):
            if row.lstrip().startswith(('//', 'ghost ', 'ensures', 'requires')):
                continue
            if re.search(pattern, row) and (also is None or re.search(also, rows[n] if n < len(rows) else '')):
                found.append(f'{f[7:]}:{n}: {row.strip()}')
    return found


def functions():
    for f in files:
        for m in re.finditer(r'fn (\w+)(?:<[^(]*>)?\(([^)]*)\)', text[f]):
            yield f[7:], m.group(1), [re.sub(r"'a ", '', p.strip()) for p in m.group(2).replace('\n', ' ').split(',') if ':' in p]


def clauses():
    seen = collections.defaultdict(list)
    for f in files:
        name = ''
        for row in text[f].split('\n'):
            m = re.match(r'\s*(?:pub(?:\(crate\))? )?fn (\w+)', row)
            name = m.group(1) if m else name
            m = re.match(r'\s*(requires|ensures) ?\w* ?\{(.*)\}\s*$', row)
            if m:
                seen[m.group(1) + ' ' + m.group(2).strip()].append(f[7:] + ' ' + name)
    return [f'{len(v)} times: {c}' for c, v in seen.items() if len(v) > 2]


def parameters():
    seen = collections.defaultdict(set)
    for f, name, ps in functions():
        for i, p in enumerate(ps):
            for q in ps[i + 1:]:
                seen[f.split('/')[0] + ': ' + p + ', ' + q].add(f + ' ' + name)
    return [f'{len(v)} functions of {c}' for c, v in seen.items() if len(v) > 2]


POINTS = {
    '1 on: a None or an error handed on without ?': lines(r'let (Some|Ok)\(.*else \{$', r'return None') + lines(r'Err\(\w+\) => Err\(|None => None'),
    '1 apart: a Result or an Option taken apart by hand': lines(r'^\s*(Ok|Err|None|Some)\(?\w*\(?\)?\)? => (\(\)|0|1|false|true|None|Some|Ok|Symbol|refusal|value)'),
    '1 flags: a flag beside a value': lines(r'&mut.*-> bool') + lines(r'let mut \w+ = (true|false);'),
    '1 kinds: numbers for kinds': lines(r'^\s*[0-9]+ => ') + lines(r'_reply\(heap, [0-9]') + lines(r'fn (number|rank)\(self\)'),
    '1 enums: own enums of the shape of Option or Result': lines(r'^\s+(Nothing|Nobody|Missing),$'),
    '3 index: an index counted by hand': lines(r'while | \+= 1;| -= 1;'),
    '3 range: a loop over numbers, or with an index': lines(r'for .* in .*\.\.') + lines(r'enumerate\(\)'),
    '4 order: equality and order': lines(r'fn against|rank\(\) [=<]=|fn same\('),
    '4 convert: conversion': lines(r'fn (of_\w+|bit|value|new)\((self|value: u8|rank: u8|bit: Symbol|early: Level, late: Level)\)'),
    '4 print: printing': lines(r"fn (letter|level|wave|word|verdict)\(|-> &'static str") + lines(r'push_str\(format!'),
    '5 clauses: clauses in three contracts or more': clauses(),
    '5 pairs: pairs of parameters in three functions of a crate or more': parameters(),
    '6 buffers: buffers with a length beside, tables by number': lines(r'^\s+(pub )?used: ') + lines(r'fn (name|first|second|numbered)\(.*number: u8'),
    '7 steps: a switch on which step to run': lines(r'Row::\w+ =>'),
}
for point, found in POINTS.items():
    if point.startswith(only):
        print(f'{point}: {len(found)}')
        for place in found if only else []:
            print('    ' + place)
