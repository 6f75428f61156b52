#!/usr/bin/env python3
"""places.py [FOLDER]: counts, in the .rt files of a checkout's crates, the places that docs/DESIGN-PASS.md speaks of.

Without FOLDER the checkout that the script stands in. With -l each place is listed. It goes by text: a place is a line or a
function of the shape that a point names, and docs/DESIGN-PASS.md says which of them stay and why.
"""
import collections
import os
import re
import sys

LIST = '-l' in sys.argv
ARGS = [a for a in sys.argv[1:] if a != '-l']
ROOT = ARGS[0] if ARGS else os.path.join(os.path.dirname(os.path.abspath(__file__)), '..')
FN = re.compile(r'^(\s*)(pub(\([^)]*\))? )?(extern "C" )?fn (\w+)')


class Function:
    """Name, parameters, clauses and body of a function, as rt fmt lays it out."""

    def __init__(self, path, name, lines):
        self.path, self.name = path, name
        indent = re.match(r'\s*', lines[0]).group()
        start = next(i for i, l in enumerate(lines) if l == indent + '{' or (l.endswith('{') and 'ensures' not in l))
        head = ' '.join(l.strip() for l in lines[: start + 1])
        self.body = [l.strip() for l in lines[start + 1 : -1]]
        self.clauses = [l.strip() for l in lines[:start] if re.match(r'\s+(requires|ensures)', l)]
        inside = re.search(r'fn \w+(?:<[^(]*>)?\((.*?)\)(?: ->| requires| ensures| \{)', head)
        self.params = [p.strip() for p in re.split(r',(?![^<(]*[>)])', inside.group(1)) if p.strip()] if inside else []
        found = re.search(r'\) -> (.*?)(?: requires| ensures| \{)', head)
        self.gives = found.group(1) if found else '()'


def functions(path, text):
    lines, i = text.split('\n'), 0
    while i < len(lines):
        found = FN.match(lines[i])
        if found:
            end = next((j for j in range(i + 1, len(lines)) if lines[j] == found.group(1) + '}'), None)
            if end is not None and not lines[i].endswith(';'):
                yield Function(path, found.group(5), lines[i : end + 1])
                i = end
        i += 1


def enums(text):
    for found in re.finditer(r'enum (\w+)[^{]*\{(.*?)\n\}', text, re.S):
        variants = [v for v in re.findall(r'^    (\w+.*?),$', found.group(2), re.M)]
        yield found.group(1), variants


def structs(text):
    for found in re.finditer(r'struct (\w+)[^{;]*\{(.*?)\n\}', text, re.S):
        yield found.group(1), re.findall(r'^    (?:pub )?(\w+): (.*?),$', found.group(2), re.M)


files = {}
for crate in sorted(os.listdir(os.path.join(ROOT, 'crates'))):
    folder = os.path.join(ROOT, 'crates', crate, 'src')
    if os.path.isdir(folder):
        for name in sorted(os.listdir(folder)):
            if name.endswith('.rt') and name != 'absurd.rt':
                files[f'{crate}/{name}'] = open(os.path.join(folder, name)).read()
every = [f for path, text in files.items() for f in functions(path, text)]
places = collections.OrderedDict()


def note(point, what):
    places.setdefault(point, []).append(what)


# 1. Option, Result, flags beside values, numbers for kinds.
for path, text in files.items():
    for name, variants in enums(text):
        if len(variants) == 2 and any('(' in v for v in variants):
            note('1 an enum of two variants, one at least with a value', f'{path} {name}')
    for name, fields in structs(text):
        for field, kind in fields:
            if kind == 'bool':
                note('1 a flag in a struct', f'{path} {name}.{field}')
            if kind == 'u8' and re.match(r'(kind|mode|outcome|gate|parsed|hastip|awaits|fault)$', field):
                note('1 a number for a kind or a flag in a struct', f'{path} {name}.{field}')
    for name in re.findall(r'^(?:pub )?const (\w+): (?:u8|u64) = (?:0x[0-9a-f]+|\d+);$', text, re.M):
        note('1 a constant that numbers a kind', f'{path} {name}')
for f in every:
    codes = [l for l in f.body if re.match(r'(return )?\d+;?$', l)]
    if f.gives == 'u32' and len(codes) > 1:
        note('1 a function that answers numbers for refusals', f'{f.path} {f.name}')
    if re.search(r'\bkind: u8|\bcall: u8|\bmade: u8', ' '.join(f.params)) or any(re.match(r'match (kind|call\.kind)', l) for l in f.body):
        note('1 a function that goes by the number of a kind', f'{f.path} {f.name}')

# 2. Functions that differ in types, numbers and constants alone.
shapes = collections.defaultdict(list)
for f in every:
    body = ' '.join(f.body)
    shape = re.sub(r'\b%s\b' % f.name, 'F', ' ; '.join(f.params) + ' -> ' + f.gives + ' : ' + body)
    shape = re.sub(r'\b(u8|u16|u32|u64|usize|bool)\b', 'T', shape)
    shape = re.sub(r'\b(0x[0-9a-f_]+|\d+)(T|u8|u16)?\b', 'N', shape)
    shape = re.sub(r'\b[A-Z][A-Z_]+\b', 'N', shape)
    names = {}
    shape = re.sub(r'(?<![\w.:])[a-z_]\w*(?=[:, ;)\].]|$)', lambda m: names.setdefault(m.group(), f'v{len(names)}'), shape)
    shapes[shape].append(f'{f.path} {f.name}')
for group in shapes.values():
    if len(group) > 1:
        for one in group:
            note('2 a function of the same shape as another', one + '  ~ ' + ', '.join(g for g in group if g != one))

# 3. Loops that count by hand.
for path, text in files.items():
    lines = text.split('\n')
    for i, line in enumerate(lines):
        found = re.match(r'(\s*)while (.*) \{$', line)
        if found:
            end = next(j for j in range(i + 1, len(lines)) if lines[j] == found.group(1) + '}')
            steps = [l for l in lines[i + 1 : end] if re.match(r'\s+(\w+) (\+=|-=) ', l) or re.match(r'\s+(\w+) = (\1 [+-] |end;|next;|\w+ \+ )', l)]
            note('3 a while that counts' if steps else '3 another while', f'{path}:{i + 1} {line.strip()}')
        elif re.match(r'\s*loop \{', line):
            note('3 another while', f'{path}:{i + 1}')

# 4. Conversions, lesser and greater, copies written out.
for f in every:
    body = ' '.join(f.body)
    if re.fullmatch(r'\w+ as \w+', body):
        note('4 a function that is a conversion', f'{f.path} {f.name}')
    if re.fullmatch(r'if [^{}]+ \{ return 1; \} 0', body):
        note('4 a function that makes a number of a test', f'{f.path} {f.name}')
    if re.fullmatch(r'if (\S+) < (\S+) \{ return (\S+); \} (\S+)', body):
        note('4 a lesser or greater written out', f'{f.path} {f.name}')

# 5. Facts and parameters that stand together in three functions or more.
facts, where = collections.Counter(), collections.defaultdict(list)
for f in every:
    mine = set()
    for clause in f.clauses:
        if clause.startswith('requires'):
            inside = clause[clause.index('{') + 1 : -1]
            for atom in re.split(r' × ', inside):
                mine.add(re.sub(r'\s+', ' ', atom.replace('(', ' ( ').replace(')', ' ) ')).strip(' ()'))
    facts.update(mine)
    for fact in mine:
        where[fact].append(f'{f.path} {f.name}')
for fact, n in sorted(facts.items(), key=lambda x: -x[1]):
    if n >= 3:
        note('5 a fact required by three functions or more', f'{n} × {fact}  in ' + ', '.join(where[fact]))
runs = collections.Counter()
for f in every:
    mine = set()
    for size in range(3, len(f.params) + 1):
        for i in range(len(f.params) - size + 1):
            mine.add(tuple(re.sub(r'&mut |&', '', p) for p in f.params[i : i + size]))
    runs.update(mine)
    for run in mine:
        where[run].append(f'{f.path} {f.name}')
kept = [r for r, n in runs.items() if n >= 3]
for run in sorted(kept, key=lambda r: (-runs[r], r)):
    if not any(len(o) > len(run) and runs[o] == runs[run] and any(o[i : i + len(run)] == run for i in range(len(o))) for o in kept):
        note('5 three parameters or more that travel together', f'{runs[run]} × ' + ', '.join(run) + '  in ' + ', '.join(where[run]))

# 6. Buffers with a length beside them.
for path, text in files.items():
    for name, fields in structs(text):
        if any(k.startswith('[') for _, k in fields) and any(n in ('count', 'len', 'length') for n, _ in fields):
            note('6 an array with a count in a struct', f'{path} {name}')
for f in every:
    names = ', '.join(f.params)
    if re.search(r': &(mut )?\[\w+\], (width: usize, )?count: usize', names):
        note('6 a slice with a count beside it', f'{f.path} {f.name}')
    if re.search(r'out: &mut \[u8\](, \w+: \S+)*, at: usize', names):
        note('6 room with a place beside it', f'{f.path} {f.name}')

# 7. Tables, and tests on which call or step it is.
for f in every:
    chain = [l for l in f.body if re.match(r'if \(?(kind|call|head|made|fault|letter|key|flag) == ', l)]
    if len(chain) > 1:
        note('7 a chain of tests on what is to be done', f'{f.path} {f.name}')
    for line in f.body:
        if re.match(r'let table = \[', line):
            note('7 a table of numbers', f'{f.path} {f.name}')

for point, found in places.items():
    print(f'{len(found):4}  {point}')
    if LIST:
        for what in found:
            print('        ' + what)
