#!/usr/bin/env python3
"""The documents name what is there.

In README.md, docs/ARCHITECTURE.md, docs/COVERAGE.md, docs/ARGUMENT.md and docs/REFERENCE.md every name in backquotes of one of these forms must stand in the tree:
  crate::function             a function, struct or constant of crates/crate/src
  crate/Module.name           a definition or law of crates/crate/specs/Module.antt or crates/crate/proofs/Module.antt
  Module.name                 a definition of crates/meaning/specs/Module.antt
  crate/edit_in_words         crates/crate/must-fail/edit_in_words.edit, or crates/crate/by-hand/edit_in_words.edit
  path/to/file.antt           below crates/, or from the top
and every must-fail edit must be cited in docs/COVERAGE.md, which also says how many public functions have a `requires`;
every public function, methods and exports too, must have an `ensures`. Every edit must still apply: each of its `old:` texts stands
once in its file. (The gate tries those of must-fail/; check/edits those of by-hand/.) Prints what is missing; the exit status is 0
where nothing is.
"""
import glob
import os
import re
import sys

os.chdir(os.path.join(os.path.dirname(os.path.abspath(__file__)), '..'))
DOCUMENTS = ['README.md', 'docs/ARCHITECTURE.md', 'docs/COVERAGE.md', 'docs/ARGUMENT.md', 'docs/REFERENCE.md']
crates = set(os.listdir('crates'))
cache = {}


def text(path):
    if path not in cache:
        cache[path] = open(path, encoding='utf-8').read() if os.path.isfile(path) else None
    return cache[path]


def code(crate):
    return '\n'.join(text(f) for f in sorted(glob.glob(f'crates/{crate}/src/*.rt')))


def modules(crate, module):
    return [t for t in (text(f'crates/{crate}/{part}/{module}.antt') for part in ('specs', 'proofs')) if t is not None]


def defines(source, name):
    word = re.escape(name)
    return re.search(rf'(?m)^\s*(?:(?:abbrev|unfoldable|pub|record|data)\s+)*{word}\s*(?::|\(|$|\s)', source) is not None


def stands(name):
    """True, False, or None where the name has none of the forms."""
    m = re.fullmatch(r'(\w+)::(\w+)', name)
    if m and m.group(1) in crates:
        return re.search(rf'\b(?:fn|struct|enum|const) {m.group(2)}\b', code(m.group(1))) is not None
    m = re.fullmatch(r'(?:(\w+)/)?([A-Z]\w*)\.([\w-]+)', name)
    if m and m.group(3) != 'antt' and (m.group(1) is None or m.group(1) in crates):
        if m.group(1) is None and not modules('meaning', m.group(2)):
            return None
        return any(defines(t, m.group(3)) for t in modules(m.group(1) or 'meaning', m.group(2)))
    m = re.fullmatch(r'(\w+)/([a-z0-9]+(?:_[a-z0-9]+)+)', name)
    if m and m.group(1) in crates:
        return any(os.path.isfile(f'crates/{m.group(1)}/{part}/{m.group(2)}.edit') for part in ('must-fail', 'by-hand'))
    if re.fullmatch(r'[\w./-]+\.(?:antt|rt|edit|md|py|h|c|txt)', name) and '/' in name:
        return any(os.path.exists(p) for p in (name, 'crates/' + name, 'docs/' + name))
    return None


def applies(edit):
    """None, or why the edit no longer fits its crate."""
    crate, name, after, old = '/'.join(edit.split('/')[:2]), None, {}, None
    for line in open(edit, encoding='utf-8').read().split('\n'):
        if line.startswith('file: '):
            name = line[6:]
            if name not in after and text(f'{crate}/{name}') is None:
                return f'{name} is not there'
            after.setdefault(name, text(f'{crate}/{name}'))
        elif line.startswith('old: '):
            old = line[5:]
        elif line.startswith('new:'):
            if after[name].count(old) != 1:
                return f'{name} has {after[name].count(old)} times: {old}'
            after[name] = after[name].replace(old, line[4:].removeprefix(' '))
    return None if old else 'it changes nothing'


missing, seen = [], 0
for document in DOCUMENTS:
    for number, line in enumerate(text(document).split('\n'), 1):
        for name in re.findall(r'`([^`\n]+)`', line):
            there = stands(name)
            seen += there is not None
            if there is False:
                missing.append(f'{document}:{number}: `{name}` is not in the tree')
cited = set(re.findall(r'`(\w+/[a-z0-9_]+)`', text('docs/COVERAGE.md')))
gate, by_hand = glob.glob('crates/*/must-fail/*.edit'), glob.glob('crates/*/by-hand/*.edit')
missing += [f'{f}: {applies(f)}' for f in sorted(gate + by_hand) if applies(f)]
edits = sorted(f'{f.split("/")[1]}/{os.path.basename(f)[:-5]}' for f in gate + by_hand)
missing += [f'docs/COVERAGE.md does not cite the edit {e}' for e in edits if e not in cited]
# by grep, all of them and those with a `requires`:
#   grep -hE '^ *pub (extern "C" )?fn ' crates/*/src/*.rt | wc -l
#   cat crates/*/src/*.rt | grep -Pzo '(?ms)^ *pub (extern "C" )?fn ((?!\{$).)*?^ *requires ' | grep -ac requires
public = [h for c in sorted(crates) for h in re.findall(r'(?ms)^ *pub (?:extern "C" )?fn .*?\{$', code(c))]
count = f'{sum("requires" in h for h in public)} of {len(public)} public functions have a `requires`'
if count not in text('docs/COVERAGE.md'):
    missing.append(f'docs/COVERAGE.md does not say: {count}')
missing += [f'a public function promises nothing: {h.split("(")[0]}' for h in public if 'ensures' not in h]
print('\n'.join(missing) if missing else f'names: {seen} in {len(DOCUMENTS)} documents stand in the tree, {len(edits)} must-fail edits are cited and apply, {len(gate)} in the gate')
sys.exit(1 if missing else 0)
