#!/usr/bin/env python3
"""Brings the repository's own definitions, lemmas, constructors and fields to snake case, and those that give a type to camel case.

usage: tools/respell.py BASE [--over DIR --ported TREE]

It runs once, on the tree that port.py leaves. BASE is the commit before port.py: from it come the names as they were written, so that two names which
port.py spelled alike are told apart (`noLine`, a definition, and `no-line`, a law of it). Where both would be one name in one file, the law ends in `_lem`.
--over DIR --ported TREE turns another tree, whose own last commit is the tree before port.py, by the names of BASE; TREE is what port.py made of BASE.
"""

import collections
import difflib
import glob
import os
import re
import subprocess
import sys
import tempfile

WORD = re.compile(r'[^\s(){}.;,@"«»]+')
DECLARED = re.compile(
    r'^[ \t]*(?:abbrev |unfoldable |pub )*(?:data |record )?((?:[^\s(){}.;,@"«»:]+[ \t]+)+?)(?:[({][^:\n]*?:[^\n]*?[)}][ \t]*|\{[^}\n]*\}[ \t]*)*:(?=[ \t\n])',
    re.M,
)
RULESET = re.compile(r'^[ \t]*(?:pub )?ruleset ([^\s(){}.;,@"«»:]+) =', re.M)
IMPORT = re.compile(r'^(?:pub )?use\s+([^\s{;]+?)\.\{([^}]*)\}', re.M)
TYPED = re.compile(r'^\s*(?:abbrev |unfoldable |pub )+([^\s(){}.;,@"«»:]+)\s*(?:\{[^}]*\}\s*)*:(.*\S)?\s*Type \d\s*$', re.M)
ALIAS = re.compile(r'\bas ([^\s(){}.;,@"«»:]+)')
COMMENT = re.compile(r'(^|(?<=\s))--(?=\s|$).*')
NOT_NAMES = {'abbrev', 'pub', 'unfoldable', 'data', 'record', 'module', '_', 'in', 'let', 'as', 'use', 'open', 'tie', 'mod', 'where'}
CLAUSE = re.compile(r'\b(?:requires|ensures|ghost)\b')
RAISED = {'sometimes'}  # a name that gives a type, besides those that are told by their capitals


def code(text):
    return '\n'.join(COMMENT.sub('', line) for line in text.split('\n'))


def read(path):
    with open(path, encoding='utf-8') as f:
        return f.read()


def proof(path):
    return re.search(r'/proofs/(?:[^/]+/)+Proof\.antt$', path) is not None


def antts(root):
    return sorted(glob.glob(root + '/crates/*/specs/**/*.antt', recursive=True) + glob.glob(root + '/crates/*/proofs/**/*.antt', recursive=True))


def snake(name):
    name = name.replace('′', "'")
    if name[0].isupper():
        return name
    name = re.sub(r'(?<=[a-z0-9])([A-Z])', lambda m: '_' + m.group(1).lower(), name)
    return re.sub(r"(?<=[\w'])-(?=\w)", '_', name)


def camel(name):
    return ''.join(part[0].upper() + part[1:] for part in re.split(r'[-_]', name))


def ported(name, words):
    """How port.py spelled a name: it turned a name everywhere or nowhere, but for its prime."""
    kept = name.replace('′', "'")
    return kept if kept in words else snake(name)


def tables(base):
    """The final spelling of each name of the tree `base`, as it is written there."""
    files = antts(base)
    declared, types, kit = set(), set(), set()
    for path in files:
        for m in IMPORT.finditer(code(read(path))):
            first = re.split('[.·]', m.group(1).removeprefix('Rattle·').removeprefix('Rattle.'))[0]
            if not (m.group(1).startswith('Rattle') and os.path.isdir(base + '/crates/' + first)):
                kit |= {n.strip().split(' as ')[0] for n in m.group(2).split(',')}
    for path in files:
        text = code(read(path))
        if proof(path):
            # own laws beside a function's proof; its goals keep Rattle's names
            goals = set(re.findall(r'^([^\s:]+) :\s+tie\.', text, re.M))
            names = {n for m in DECLARED.finditer(text) for n in m.group(1).split()} - goals
            declared |= {n for n in names if '-spec' not in n and re.search(r'[a-z0-9][A-Z]', n)}
            continue
        for m in DECLARED.finditer(text):
            declared |= set(m.group(1).split())
        declared |= {m.group(1) for m in RULESET.finditer(text)}
        for m in ALIAS.finditer(text):
            if re.search(r'[a-z0-9][A-Z]', m.group(1)):
                declared.add(m.group(1))
        for m in TYPED.finditer(text):
            if m.group(1)[0].islower():
                types.add(m.group(1))
    declared -= NOT_NAMES
    # a name that is the kit's too keeps the kit's spelling
    declared = {n for n in declared if n not in kit or snake(n) == n}
    types = {n for n in types if re.search(r'[A-Z]', n)} | (RAISED & declared)
    final = {}
    for name in declared:
        final[name] = camel(name) if name in types else snake(name)
    groups = collections.defaultdict(set)
    for name, to in final.items():
        groups[to].add(name)
    for name in kit - declared:
        if snake(name) in groups:
            groups[snake(name)].add(name)
    words = {path: set(WORD.findall(code(read(path)))) for path in files}
    for to, names in groups.items():
        if len(names) > 1 and any(len(names & w) > 1 for w in words.values()):
            for name in names:
                if re.search(r'[-]', name) and name in final:
                    final[name] = to + '_lem'
    return {a: b for a, b in final.items() if a != b}, final


def tokens(text):
    return [(m.group(0), m.start(), m.end()) for m in WORD.finditer(text)]


def mask(text):
    """The text with comments blanked out, at the same places."""
    return '\n'.join(COMMENT.sub(lambda m: m.group(1) + ' ' * (len(m.group(0)) - len(m.group(1))), line) for line in text.split('\n'))


def masked_rust(text):
    """The text of a .rt file with all but its clauses and ghost items blanked out."""
    keep = [False] * len(text)
    for m in re.finditer(r'ghost use [^;]*;', text):
        for i in range(m.start() + 10, m.end()):
            keep[i] = True
    for m in re.finditer(r'\b(?:requires|ensures|ghost)\b[^{};\n]*\{', text):
        depth, i = 1, m.end()
        while i < len(text) and depth:
            depth += {'{': 1, '}': -1}.get(text[i], 0)
            i += 1
        for k in range(m.end(), i):
            keep[k] = True
    return ''.join(ch if k or ch == '\n' else ' ' for ch, k in zip(text, keep))


def turn(old, new, final, many, all_names, masker, goals=()):
    """`new`, port.py's form of `old`, with its names spelled anew."""
    before = [t for t, _, _ in tokens(masker(old))]
    after = tokens(masker(new))
    key = snake
    unsure = [i for i, (t, _, _) in enumerate(after) if t in many]
    at = {}
    if unsure:
        present = set(before)
        for i in unsure:
            here = many[after[i][0]] & present
            if len(here) == 1:
                at[i] = next(iter(here))
        if len(at) < len(unsure):
            match = difflib.SequenceMatcher(None, [key(t) for t in before], [key(t) for t, _, _ in after], autojunk=False)
            for a, b, n in match.get_matching_blocks():
                for k in range(n):
                    if b + k not in at and after[b + k][0] in many:
                        at[b + k] = before[a + k]
    out, end = [], 0
    for i, (t, s, e) in enumerate(after):
        to = t
        if t in goals:
            pass
        elif t in many:
            if i not in at:
                print('unsure:', t, 'one of', sorted(many[t]), file=sys.stderr)
                continue
            to = all_names.get(at[i], t)
        elif t in final:
            to = final[t]
        if to != t:
            out += [new[end:s], to]
            end = e
    return ''.join(out + [new[end:]])


def main():
    args = sys.argv[1:]
    over = None
    if '--over' in args:
        at = args.index('--over')
        over = args[at + 1]
        del args[at : at + 2]
    here = '.'
    if '--ported' in args:
        at = args.index('--ported')
        here = args[at + 1]
        del args[at : at + 2]
    (base,) = args
    with tempfile.TemporaryDirectory() as tmp:
        subprocess.run(f'git archive {base} | tar -x -C {tmp}', shell=True, check=True)
        changed, final = tables(tmp)
        if over:
            before = tmp + '/over'
            os.mkdir(before)
            subprocess.run(f'git -C {over} archive HEAD | tar -x -C {before}', shell=True, check=True)
        else:
            before = tmp
        # spellings in the tree of today that stand for more than one name, or that port.py gave
        root = over or '.'
        now = set()
        for path in antts(here):
            now |= set(WORD.findall(code(read(path))))
        spelled = collections.defaultdict(set)
        for name in final:
            spelled[ported(name, now)].add(name)
        single = {t: final[next(iter(n))] for t, n in spelled.items() if len({final[k] for k in n}) == 1}
        many = {t: n for t, n in spelled.items() if len({final[k] for k in n}) > 1}
        names = dict(single)
        for path in antts(root):
            rest = path[len(root) + 1 :]
            old = before + '/' + rest
            if not os.path.exists(old):
                old = before + '/' + rest.replace('+below_task', '+below+task')
            was, text = read(old), read(path)
            goals = set(re.findall(r'^([^\s:]+) :\s+tie\.', code(text), re.M)) if proof(path) else ()
            new = turn(was, text, names, many, final, mask, goals)
            new = '\n'.join(comment(line, names, many) for line in new.split('\n'))
            if new != text:
                open(path, 'w', encoding='utf-8').write(new)
        for path in sorted(glob.glob(root + '/crates/*/src/**/*.rt', recursive=True)):
            rest = path[len(root) + 1 :]
            was, text = read(before + '/' + rest), read(path)
            new = turn(was, text, names, many, final, masked_rust)
            if new != text:
                open(path, 'w', encoding='utf-8').write(new)
        if not over:
            for path in sorted(glob.glob('*.md') + glob.glob('docs/**/*.md', recursive=True)):
                text = read(path)
                new = re.sub(r'`[^`\n]+`', lambda m: quoted(m.group(0), final), text)
                if new != text:
                    open(path, 'w', encoding='utf-8').write(new)


def quoted(span, final):
    return WORD.sub(lambda m: final.get(m.group(0), m.group(0)), span[1:-1]).join('``')


def comment(line, final, many):
    m = '--' in line and COMMENT.search(line)
    if not m:
        return line
    head, text = line[: m.start()] + m.group(1), line[m.start() + len(m.group(1)) :]

    def one(w):
        t = w.group(0)
        return final[t] if re.search(r'[a-z0-9][A-Z]', t) and t in final and t not in many else t

    text = re.sub(r'`[^`\n]+`', lambda s: WORD.sub(lambda w: final.get(w.group(0), w.group(0)) if w.group(0) not in many else w.group(0), s.group(0)), text)
    return head + WORD.sub(one, text)


main()
