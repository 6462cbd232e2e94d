#!/usr/bin/env python3
"""Counts, in the src/ folders below a checkout, the places of docs/DESIGN-PASS.md, point by point; with -v names each.

    python3 tools/design_places.py [-v] [CHECKOUT]
"""
import glob
import os
import re
import sys

verbose = '-v' in sys.argv
root = next((a for a in sys.argv[1:] if a != '-v'), '.')
files = sorted(glob.glob(f'{root}/crates/*/src/**/*.rt', recursive=True))
texts = {f: open(f).read() for f in files}


def code(text):
    """The text without comments and ghost imports."""
    lines = (l for l in text.split('\n') if not l.lstrip().startswith(('//', 'ghost use')))
    return '\n'.join(re.sub(r' // .*', '', l) for l in lines)


def crate(f):
    return os.path.relpath(f, root).split(os.sep)[1]


def show(point, what, places):
    print(f'{point:4} {len(places):5}  {what}')
    if verbose:
        for p in places:
            print('              ', p)


def grep(pattern, flags=0):
    out = []
    for f, t in texts.items():
        for m in re.finditer(pattern, code(t), flags):
            out.append(f'{crate(f)}: ' + ' '.join(m.group(0).split())[:100])
    return out


def enums():
    for f, t in texts.items():
        for m in re.finditer(r'enum (\w+) \{\n(.*?)\n\}', code(t), re.S):
            cases = re.findall(r'^    (\w+(?:\([^)]*\))?),?$', m.group(2), re.M)
            yield f, m.group(1), [v.strip().rstrip(',') for v in cases]


def functions():
    """Each function's crate, name, parameters, requires and body."""
    for f, t in texts.items():
        c = code(t)
        for m in re.finditer(r'fn (\w+)(?:<[^(]*>)?\(', c):
            depth, i = 1, m.end()
            while depth:
                depth += {'(': 1, ')': -1}.get(c[i], 0)
                i += 1
            params = c[m.end():i - 1]
            indent = re.match(r' *', c[c.rfind('\n', 0, m.start()) + 1:]).group(0)
            end = re.search(r'^' + indent + r'\}', c[i:], re.M)
            rest = c[i:i + end.start()] if end else ''
            yield crate(f), m.group(1), params, rest


two = [f'{crate(f)}: {n} {v}' for f, n, v in enums() if len(v) == 2 and any('(' in x for x in v)]
odd = [f'{crate(f)}: {n} {v}' for f, n, v in enums()
       if len(v) != 2 and any(re.match(r'(Malformed|NoRoom|Failed|Closed|Refused|Faulty|Bad)\b', x) for x in v)]
unit = [f'{crate(f)}: {n} {v}' for f, n, v in enums() if len(v) == 2 and not any('(' in x for x in v)
        and any(re.match(r'(Bad|Malformed|Read)\b', x) for x in v)]
show('1a', 'enums of the shape of Option or Result', two + unit)
show('1b', 'other enums with a variant for a failure', odd)
show('1c', 'a flag beside values (a bool field of a struct, or a bool parameter that says what is done)',
     grep(r'^\s+pub \w+: bool,$|^\s+\w+: bool,$|\bwrites: bool', re.M))
show('1d', 'numbers for kinds, refusals or absence (fields and parameters kind, halt, up, other, mark)',
     grep(r'\b(kind|halt|up|other|mark): (u8|u32|usize)\b'))
fs = list(functions())


def functions_where(test):
    """The functions whose name n, parameters p and text after them r pass a test."""
    return [f'{c}: {n}' for c, n, p, r in fs if test(n, p, r)]


def has_name(words):
    """A test for functions of these names."""
    return lambda n, p, r: re.match(f'({words})$', n)


one_call = r'\{\s*(get|size|put|number_at|fill)\([^{};]*\)(;| as usize)?\s*$'
show('2a', 'functions whose whole body is one call that differs from its neighbours in a constant',
     functions_where(lambda n, p, r: re.search(one_call, r)))
names = {}
for c, n, p, r in fs:
    body = r[r.rfind('{\n') if '{\n' in r else 0:]
    shape = re.sub(r'\b[a-z_]+\b|\d+|b?"[^"]*"', 'x', ' '.join(body.split()))
    if len(shape) > 60:
        names.setdefault(shape, []).append(f'{c}::{n}')
show('2b', 'functions whose body has the shape of another one',
     sorted(x for v in names.values() if len(v) > 1 for x in v))
show('3', 'while loops', grep(r'\bwhile (?!let)[^{]*\{'))
show('4a', 'equality written by hand',
     functions_where(lambda n, p, r: re.match(r'same_(bytes|job|answer|version)|is_same|kept$|is_unknown', n)))
show('4b', 'chains of ifs that return a truth value', grep(r'if [^{}]*\{\s*return (true|false);\s*\}'))
show('4c', 'conversions by a function of their own',
     functions_where(has_name(r'\w+_number(ed)?|answer_of|ended_of|end_of|code_of|wide|bit|job_named|read_ending'
                              r'|entry_of|times_of|move_from')))
by_hand = has_name(r'find|scan|count|fill\w*|copy_words|put_bytes|put_words|open_statuses|clear|same_lines|width'
                   r'|published|reclaim')
show('4d', 'copying, filling, searching or counting by hand',
     functions_where(lambda n, p, r: by_hand(n, p, r)
                     and ('while' in r or re.search(r'\*\w+ = \w+\[\w+\];', r))))
tables = r'\b(cells|stat|store|addr|old|new|commits): &'
show('5a', 'functions that take two or more of the seven tables',
     functions_where(lambda n, p, r: len(set(re.findall(tables, p))) > 1))
show('5b', 'functions that take how far a reading has come, and its tables beside it',
     functions_where(lambda n, p, r: re.search(r'\b(p|progress): Progress|c: Cursor', p) and 'plan:' in p
                     or re.search(r'parsed: Parsed', p)))
show('5c', 'functions that take the names of a case, one by one', functions_where(lambda n, p, r: 'case_name' in p))
show('5d', 'functions that take a buffer and a place in it',
     functions_where(lambda n, p, r: re.search(r'buffer: &mut \[u8\],\s*at: usize', p)))
for fact in ['Consistent', 'Sound', 'PlanFits', 'CellsFit', 'RegistersFit', 'InMove',
             r'length (stat|notes|store|cells)\.(now|old) ≡', 'Whole']:
    clause = r'requires[^\n]*(\n[^{e]*)*?' + fact
    show('5e', f'functions whose requires has {fact}',
         functions_where(lambda n, p, r: re.search(clause, r.split('ensures')[0])))
show('6a', 'tables of numbers in the place of a type (PLAN_PLACES, NOTE_PLACES, CELL_PLACES)',
     grep(r'\[u32; (PLAN|NOTE|CELL)_PLACES\]'))
show('6b', 'an array with its count beside it',
     grep(r'(records|list|entries): \[Entry; \w+\],|noted: usize|commits: &(mut )?\[\[u32; 3\]; 4000\]'))
show('6c', 'parallel arrays (addr, old, new; text, length)',
     grep(r'(addr|old|new): (&(mut )?)?\[(\[u32; 16\]|u32); 16\]'))
show('7', 'a match that picks the step to run, or a flag that picks the function to call',
     grep(r'match (place|st|kind|judgement|s) \{|if writes \{'))


def lines(pattern):
    """How many lines the files of proofs/ have whose paths fit a pattern."""
    paths = glob.glob(f'{root}/crates/*/proofs/{pattern}', recursive=True)
    return sum(len(open(f).read().split('\n')) - 1 for f in paths)


print(f'8    {lines("**/Answers.antt"):5}  lines of answers')
print(f'8    {lines("**/Invariants.antt"):5}  lines of invariants')
print(f'8    {lines("*.antt"):5}  lines of lemmas')
print(f'     {sum(len(t.split(chr(10))) - 1 for t in texts.values()):5}  lines of src/')
