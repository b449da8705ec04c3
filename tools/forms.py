#!/usr/bin/env python3
"""Counts, in src/ of every crate, the places that older language forms leave: python3 tools/forms.py [COMMIT].

Without a commit the working tree is read. For each point the candidates are printed, each with its file; which of them are places,
docs/DESIGN-PASS.md says.
"""
import collections
import itertools
import os
import re
import subprocess
import sys

COMMIT = sys.argv[1] if len(sys.argv) > 1 else None


def run(*words):
    return subprocess.run(words, capture_output=True, text=True, check=True).stdout


def names():
    if COMMIT:
        return run('git', 'ls-tree', '-r', '--name-only', COMMIT, 'crates').split()
    return run('git', 'ls-files', 'crates').split()


def text(name):
    return run('git', 'show', f'{COMMIT}:{name}') if COMMIT else open(name, encoding='utf-8').read()


FILES = [n for n in names() if COMMIT or os.path.exists(n)]
SOURCES = {n: text(n) for n in FILES if n.endswith('.rt')}


def short(name):
    return name.replace('crates/', '').replace('/src/', '/').replace('.rt', '')


def lines(pattern):
    for name, s in SOURCES.items():
        for i, line in enumerate(s.split('\n'), 1):
            if re.search(pattern, line) and not re.match(r'\s*(//|ghost use)', line):
                yield f'{short(name)}:{i}: {line.strip()}'


def show(point, what, found):
    found = list(found)
    print(f'{point} {what}: {len(found)}')
    for f in found:
        print('    ' + f)


FN = re.compile(r'fn (\w+)(?:<[^>{]*>)?\(([^{]*?)\)(?: -> ([^{\n;]*))?\n?((?:\s+(?:requires|ensures)[^\n]*\n)*)')


def functions():
    for name, s in SOURCES.items():
        for m in FN.finditer(s):
            params = [p.strip() for p in m.group(2).replace('\n', ' ').split(',') if ':' in p]
            yield short(name), m.group(1), [re.sub(r'^mut ', '', p.split(':')[0].strip()) for p in params], m.group(4), m.group(2)


def repeated_clauses():
    at = collections.defaultdict(set)
    for name, fn, _, clauses, _ in functions():
        for kind, fact in re.findall(r'(requires|ensures)(?: \w+)? \{ (.*) \}', clauses):
            at[kind, fact].add(f'{name} {fn}')
    for (kind, fact), where in at.items():
        if len(where) >= 3:
            yield f'{kind} {fact}: ' + ', '.join(sorted(where))


def travelling():
    at = collections.defaultdict(set)
    for name, fn, params, _, _ in functions():
        for pair in itertools.combinations(params, 2):
            if 'rt' not in pair:
                at[pair].add(f'{name} {fn}')
    for pair, where in at.items():
        if len(where) >= 3:
            yield ' and '.join(pair) + ': ' + ', '.join(sorted(where))


def same_names():
    at = collections.defaultdict(list)
    for name, fn, _, _, _ in functions():
        if fn not in ('main', 'run', 'fmt', 'new', 'read', 'clone', 'from', 'drop'):
            at[fn].append(name)
    for fn, where in at.items():
        if len(where) >= 2:
            yield f'{fn}: ' + ', '.join(where)


def same_blocks():
    at = collections.defaultdict(set)
    for name, s in SOURCES.items():
        rows = [r.strip() for r in s.split('\n') if r.strip() and not re.match(r'\s*(//|ghost|use |pub use|mod )', r)]
        for i in range(len(rows) - 3):
            block = '\n'.join(rows[i:i + 4])
            if len(block) > 50 and '{' in block:
                at[block].add(f'{short(name)}')
        seen = collections.Counter('\n'.join(rows[i:i + 4]) for i in range(len(rows) - 3))
        for block, n in seen.items():
            if n > 1 and len(block) > 50:
                at[block].add(f'{short(name)} {n} times')
    for block, where in at.items():
        if len(where) >= 2:
            yield ', '.join(sorted(where)) + ': ' + block.replace('\n', ' ')


def structs(pattern):
    for name, s in SOURCES.items():
        for m in re.finditer(r'struct (\w+)[^{;]*\{(.*?)\n\}', s, re.S):
            if re.search(pattern, m.group(2), re.S):
                yield f'{short(name)} {m.group(1)}: ' + ' '.join(re.findall(r'^\s+(?:pub(?:\(crate\))? )?(\w+: [^,\n]*)', m.group(2), re.M))


show(1, 'own enums', lines(r'^(pub(\(crate\))? )?enum '))
show(1, 'functions that change something and answer a flag', (f'{n} {f}' for n, f, _, c, p in functions() if '&mut' in p and re.search(rf'fn {f}[^{{]*-> bool', SOURCES.get(f'crates/{n.split("/")[0]}/src/{"/".join(n.split("/")[1:])}.rt', ''))))
show(1, 'flags as fields and variables', lines(r'^\s*(pub(\(crate\))? )?\w+: bool,|let mut \w+ = (true|false);'))
show(1, 'numbers for cases', lines(r'^\s*(\d+|_) => |(pick|question|progress|phase)\w*: u\d+|-> u8 *$|\b(pick|progress)\b.*[<=>] ?\d'))
show(1, 'nothing handed on by hand', lines(r'else \{$') if False else lines(r'let Some\(.*\) = .* else \{|Err\(\w*\) => |None => (None|return)'))
show(2, 'functions of one name', same_names())
show(2, 'the same four lines', same_blocks())
show(3, 'loops over numbers', lines(r'^\s*(while|loop)\b|^\s*for \w+ in .*\.\.'))
show(4, 'by hand: comparing, converting, printing', lines(r'== .* && .* ==|=> "|fn (side_of|side_word|name|number|values_of|word_of|in_range|digit|comes_from|goes_to|of_side)\b|println!\(rt; "(plan|\{name\}: plan)'))
show(5, 'facts in three or more contracts', repeated_clauses())
show(5, 'parameters of three or more functions', travelling())
show(6, 'arrays with a count, and parallel ones', structs(r'\[[^\]]*; \d+\]'))
show(6, 'arrays as variables', lines(r'let (mut )?\w+(: \[[^=]*\])? = \[.*; ?\w+\]'))
show(7, 'switches', lines(r'match (question|step|kind|op|mode)\b'))
answers = [n for n in FILES if n.endswith('Answers.antt')]
print(f'8 files of answers: {len(answers)}, lines {sum(text(n).count(chr(10)) for n in answers)}')
clauses = sum(len(re.findall(r'^pub \S+ : goal\.', text(n), re.M)) for n in answers)
print(f'8 answers: {clauses}')
lemmas = [n for n in FILES if re.match(r'crates/\w+/proofs/[A-Z]\w*\.antt', n)]
print(f'8 lemma files: {len(lemmas)}, lines {sum(text(n).count(chr(10)) for n in lemmas)}')
