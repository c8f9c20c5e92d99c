#!/usr/bin/env python3
"""What differs between a commit and the files as they stand: public signatures with their clauses, public types and constants, definitions of
specs/, and statements of proofs/ (lemmas and theorems, without their proofs), old and new side by side as Markdown.

    tools/changed.py COMMIT [--gone]      --gone lists only what has no namesake in its file any more
"""
import re, subprocess, sys

COMMIT = sys.argv[1]
GONE = '--gone' in sys.argv


def old_files():
    names = subprocess.run(['git', 'ls-tree', '-r', '--name-only', COMMIT, 'crates'], stdout=subprocess.PIPE, text=True, check=True).stdout.split()
    keep = [n for n in names if wanted(n)]
    out = subprocess.run(['git', 'cat-file', '--batch'], input=''.join('%s:%s\n' % (COMMIT, n) for n in keep).encode(), stdout=subprocess.PIPE, check=True).stdout
    texts, at = {}, 0
    for n in keep:
        end = out.index(b'\n', at)
        size = int(out[at:end].split()[2])
        texts[n] = out[end + 1:end + 1 + size].decode()
        at = end + 1 + size + 1
    return texts


def new_files():
    names = subprocess.run(['git', 'ls-files', '--cached', '--others', '--exclude-standard', 'crates'], stdout=subprocess.PIPE, text=True, check=True).stdout.split()
    texts = {}
    for n in names:
        if wanted(n):
            try:
                with open(n) as f: texts[n] = f.read()
            except FileNotFoundError:
                pass
    return texts


def wanted(name):
    if name.endswith('.rt'): return '/src/' in name
    return name.endswith('.antt') and ('/specs/' in name or '/proofs/' in name) and not name.endswith(('/Answers.antt', '/Invariants.antt', '/Lib.antt'))


def squeeze(text): return re.sub(r'\s+', ' ', text).strip()


def of_code(name, text):
    crate = name.split('/')[1]
    lines, at, owner = text.split('\n'), 0, ''
    while at < len(lines):
        line = lines[at]
        m = re.match(r'impl\b.*?(\w+)(<.*>)? \{', line)
        if m: owner = m.group(1) + '::'
        elif line == '}': owner = ''
        m = re.match(r'\s*pub(\(crate\))? (?:extern "C" )?fn (\w+)', line)
        if m:
            end = at
            while lines[end].strip() != '{' and not lines[end].endswith(' {'): end += 1
            body = '\n'.join(lines[at:end + (0 if lines[end].strip() == '{' else 1)])
            yield ('function', crate, owner + m.group(2)), squeeze(body.rstrip('{'))
            at = end
        m = re.match(r'pub(\(crate\))? (struct|enum) (\w+)', line)
        if m:
            end = at
            while not (lines[end] == '}' or lines[end].endswith(';')): end += 1
            yield ('type', crate, m.group(3)), squeeze(' '.join(l for l in lines[at:end + 1] if not l.strip().startswith('//')))
            at = end
        m = re.match(r'pub const (\w+)', line)
        if m:
            end = at
            while not lines[end].endswith(';'): end += 1
            yield ('constant', crate, m.group(1)), squeeze(' '.join(lines[at:end + 1]))
        at += 1


def of_logic(name, text):
    crate = name.split('/')[1]
    kind = 'definition' if '/specs/' in name else 'statement'
    for block in re.split(r'\n\s*\n', text):
        lines = [l for l in block.split('\n') if not l.strip().startswith('--')]
        at = 0
        while at < len(lines):
            m = re.match(r'(\s*)(?:abbrev |unfoldable )?(?:pub )?(?:abbrev |unfoldable )?(record |data )?(\S+)( \(.*)? : ', lines[at])
            if not m or m.group(3) in ('use', 'module', 'let', 'infixl', 'infixr', '|') or (m.group(2) is None and kind == 'statement' and ' pub ' not in ' ' + lines[at].strip() and not lines[at].strip().startswith('pub ')):
                at += 1
                continue
            end, word = at + 1, m.group(3)
            indent = len(m.group(1))
            if kind == 'statement' and not m.group(2):
                while end < len(lines) and not re.match(r'\s*(%s\b|unfolding\b|opaque\b)' % re.escape(word), lines[end]): end += 1
            else:
                end = len(lines)
            yield (kind, crate + '/' + name.rsplit('/', 1)[1][:-5], word), squeeze('\n'.join(lines[at:end]))
            at = end
            if kind == 'statement' and not m.group(2):
                while at < len(lines) and not re.match(r'\s*(abbrev |unfoldable )?pub ', lines[at]): at += 1


def items(texts):
    found = {}
    for name, text in sorted(texts.items()):
        for key, what in (of_code if name.endswith('.rt') else of_logic)(name, text):
            while key in found: key = key[:2] + (key[2] + "'",)
            found[key] = what
    return found


def main():
    old, new = items(old_files()), items(new_files())
    moved = {}
    for key, what in new.items():
        if key not in old: moved.setdefault((key[0], key[2]), []).append(key)
    for kind, title in [('function', 'Public functions'), ('type', 'Public types'), ('constant', 'Public constants'), ('definition', 'Definitions'), ('statement', 'Lemmas and theorems of proofs/')]:
        rows = []
        same = 0
        for key in sorted(k for k in old if k[0] == kind):
            if key in new:
                if old[key] == new[key]: same += 1
                elif not GONE: rows.append((key[1], key[2], old[key], new[key]))
            else:
                there = [k for k in moved.get((kind, key[2]), [])]
                if there and new[there[0]] == old[key]:
                    same += 1
                    if not GONE: rows.append((key[1], key[2], old[key], 'the same, in ' + there[0][1]))
                else:
                    rows.append((key[1], key[2], old[key], 'in ' + there[0][1] + ': ' + new[there[0]] if there else '**gone**'))
        added = [(k[1], k[2], '', new[k]) for k in sorted(new) if k[0] == kind and k not in old] if not GONE else []
        print('\n### %s: %d the same, %d changed or gone, %d new\n' % (title, same, len(rows), len(added)))
        if rows or added: print('| Where | Name | Before | Now |\n|---|---|---|---|')
        for where, word, before, now in rows + added:
            tick = lambda s: s if not s or s.startswith(('**', 'the same, in')) else '`%s`' % s.replace('|', '\\|')
            print('| %s | `%s` | %s | %s |' % (where, word, tick(before), tick(now)))


main()
