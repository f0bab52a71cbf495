#!/usr/bin/env python3
"""Counts, in src/ of every crate, the places that docs/DESIGN-PASS.md speaks of: `python3 tools/places.py [TREE]`; with -v each place."""
import collections
import glob
import os
import re
import sys

say = '-v' in sys.argv
trees = [a for a in sys.argv[1:] if a != '-v']
os.chdir(trees[0] if trees else '.')

places = collections.OrderedDict()


def place(point, where, what=''):
    places.setdefault(point, []).append((where, what))


def items(text):
    """The functions of a file: name, head (parameters and clauses), body, line."""
    for m in re.finditer(r'^(?:#\[[^\n]*\]\n)*(?:pub )?(?:extern "C" )?fn (\w+)', text, re.M):
        at = min((i for i in (text.find('\n{\n', m.start()), text.find(' {\n', m.start())) if i >= 0), default=-1)
        if at < 0:
            continue
        end = text.find('\n}', at)
        yield m.group(1), text[m.start():at], text[at:end], text.count('\n', 0, m.start()) + 1


conditions = collections.defaultdict(set)
together = collections.defaultdict(set)
for path in sorted(glob.glob('crates/*/src/*.rt')):
    text = open(path).read()
    crate = path.split('/')[1]
    plain = re.sub(r'//[^\n]*', '', text)
    # 1: enums of the shape of Option or Result
    for m in re.finditer(r'^(?:pub )?enum (\w+) \{\n(.*?)^\}', plain, re.M | re.S):
        variants = re.findall(r'^    (\w+)(\([^\n]*\)| \{)?,?$', m.group(2), re.M)
        bare = [n for n, d in variants if not d]
        refusing = [n for n, d in variants if re.fullmatch(r'\((text::)?(Fault|Word)(, usize)?\)', d or '')]
        holding = [n for n, d in variants if d and n not in refusing]
        if len(holding) == 1 and len(variants) == 1 + len(bare) + len(refusing) and len(variants) <= 3:
            place('1 an enum of the shape of Option or Result', f'{crate}::{m.group(1)}')
    # 1: a flag, a number or an end beside a value
    for m in re.finditer(r'^(?:pub )?struct (\w+)[^\n]* \{\n(.*?)^\}', plain, re.M | re.S):
        fields = dict(re.findall(r'^    (?:pub )?(\w+): ([^\n]*),$', m.group(2), re.M))
        flags = [n for n, t in fields.items() if n in ('there', 'done', 'over', 'spent', 'on', 'failed', 'number', 'stop', 'kind', 'end') and t in ('bool', 'u8', 'rows::End', 'End')]
        if flags and len(fields) > 1:
            place('1 a flag or a number beside a value', f'{crate}::{m.group(1)}', ', '.join(flags))
    for name, head, body, line in items(text):
        where = f'{crate}::{name}'
        clauses = ' '.join(re.findall(r'ensures[^\n]*', head))
        # 1: a fault or a refusal by its number
        if re.search(r'-> u8\b', head) and re.search(r'number', clauses + head) and crate != 'codes':
            place('1 a fault by its number', where)
        # 3: an index counted by hand
        for m in re.finditer(r'\n( *)while ([^\n]*) \{\n(.*?)\n\1\}', body, re.S):
            cond = m.group(2)
            for v in re.findall(r'\b[a-z_]\w*\b', cond):
                if re.search(r'\b%s ((\+|-)= 1|= %s (\+|-) 1);' % (v, v), m.group(3)):
                    place('3 a loop that counts an index by hand', where, cond)
                    break
            else:
                place('3 another while loop', where, cond)
        # 4: by hand what an operator or macro says
        if re.search(r'\n *if ([^\n{]*) \{\n? *(return )?(true|false);?\n? *\}( else \{\n? *(true|false)\n? *\})?', body):
            place('4 a condition turned into true or false by an if', where)
        if re.search(r'if let [^{]*\{[^}]*\} = \w+\s*\{\s*(true|false)', body):
            place('4 an if let that matches! says', where)
        if name in ('both', 'either', 'agree'):
            place('4 an operator of its own', where)
        for arm in re.findall(r'\w+: _', body):
            place('4 a field named only to be left out', where)
        # 5: what stands in many contracts
        params = re.findall(r'(\w+): (&?(?:mut )?[^,()]+|\([^)]*\))', head.split('->')[0].split('requires')[0])
        req = re.search(r'requires \{(.*?)\}\n', head + '\n', re.S)
        if req:
            for c in re.split(r' × ', re.sub(r'[()]', '', req.group(1)).strip()):
                conditions[c.strip()].add(where)
        names = [f'{n}: {t.strip()}' for n, t in params]
        for i, a in enumerate(names):
            for b in names[i + 1:]:
                together[(a, b)].add(where)
        # 6: an array with a count beside it
        if re.search(r'\w+: \[[A-Z]\w*; \d+\],\s*n: u8', head):
            place('6 an array with a count beside it, as parameters', where)
        # 7: a switch on a number
        if re.search(r'match \w+(\.\w+)? \{\s*\d+ =>', body):
            place('7 a switch on a number', where)
    for m in re.finditer(r'^(?:pub )?struct (\w+)[^\n]* \{\n(.*?)^\}', plain, re.M | re.S):
        fields = dict(re.findall(r'^    (?:pub )?(\w+): ([^\n]*),$', m.group(2), re.M))
        if 'len' in fields and len(fields) > 1:
            place('6 a length beside places', f'{crate}::{m.group(1)}')
for c, fns in sorted(conditions.items(), key=lambda x: -len(x[1])):
    if len(fns) >= 3:
        place('5 a fact in the requires of three functions or more', c, f'{len(fns)} functions')
for pair, fns in sorted(together.items(), key=lambda x: -len(x[1])):
    if len(fns) >= 8:
        place('5 two parameters that travel together through eight functions or more', ' and '.join(pair), f'{len(fns)} functions')
goals = sum(len(re.findall(r'^pub [\w-]+ : goal\.', open(p).read(), re.M)) for p in glob.glob('crates/*/proofs/*/Answers.antt') + glob.glob('crates/*/proofs/*/*/Answers.antt'))
laws = sum(len(re.findall(r'^(?:abbrev |unfoldable )?(?:pub )?[\w\']+ : ', open(p).read(), re.M)) for p in glob.glob('crates/*/specs/**/*.antt', recursive=True) + glob.glob('crates/*/proofs/*.antt'))
print(f'{len(glob.glob("crates/*/src/*.rt"))} files, {sum(open(p).read().count(chr(10)) for p in glob.glob("crates/*/src/*.rt"))} lines of src/')
for point in sorted(places):
    print(f'{len(places[point]):5}  {point}')
    if say:
        for where, what in places[point]:
            print(f'         {where}' + (f'  ({what})' if what else ''))
print(f'{goals:5}  8 answers written')
print(f'{laws:5}  8 definitions and lemmas of specs/ and of proofs/')
