#!/usr/bin/env python3
"""Respells the repository's own definitions and lemmas in snake case: `obeysRules` becomes `obeys_rules`, `rules-facts` `rules_facts`.

usage: respell.py [--check | --list] [FOLDER]      FOLDER is the top of the repository, '.' without it

It was run once, when the repository came to today's Rattle, right after the toolchain's own scripts, and is kept so that the same
turn of an older state can be made again (docs/PORT.md). A name is turned where it is defined in a file of specs/ or proofs/ (a
definition, a lemma, a field, a constructor) or bound there, and nothing outside the repository has it. Types, modules, facts and
the letters of document 01 (F, C, S, N, V, T, D) keep their capitals; names of src/ are in snake case already; names that a check
makes (those of goals and of the steps of a function) are not ours to turn. Comments are turned inside backticks alone, strings never.
--list writes nothing, and prints each crate with its names, old and new. --check writes nothing. It prints each name whose new spelling stands in the same file already: such a name keeps its old one.
"""

import os
import re
import sys

TOKEN = r"[^\s(){}.;,@\"«»\[\]\\|`]+"
ANTT = re.compile(r"--[^\n]*|\"(?:[^\"\\]|\\.)*\"|«[^»]*»|" + TOKEN)
RUST = re.compile(r"//[^\n]*|b?\"(?:[^\"\\]|\\.)*\"|" + TOKEN)
DEFINED = re.compile(r"(?m)^\s*(?:(?:abbrev|unfoldable|pub|data|record)\s+)*([^\s(){}.;,@\"]+) :(?=\s)(?!\s*(?:tie|goal)\.)")
FOREIGN = re.compile(r"(?m)^\s*(?:pub )?(?:ghost )?use (?!Rattle\.(?:%s)\b)[\w.+*'◌-]+\.\{([^}]*)\}")


# definitions whose snake case is a lemma's or a field's name there already
APART = {
    "allRight": "each_right",
    "goesOn": "goes_further",
    "inWindow": "is_in_window",
    "isFree": "is_free_space",
    "kindFits": "kind_in_range",
    "mayFree": "may_be_freed",
    "noCell": "absent_cell",
    "noSecond": "without_second",
    "openTold": "open_as_told",
    "rawSlots": "raw_slots_trace",
    "readBack": "read_again",
    "secondFits": "second_in_range",
    "wordsLong": "words_length",
}


def snake(name):
    if name in APART:
        return APART[name]
    name = name.replace("getD", "get_or")
    humps = re.sub(r"(?<=[a-z0-9])([A-Z]+)", lambda m: "_" + m[1].lower(), name)
    return humps.replace("-", "_")


def files(root):
    for top, inside in (("crates", True), ("docs", False), ("check", False), ("bench", False), (".", False)):
        for folder, dirs, names in os.walk(os.path.join(root, top)):
            dirs[:] = sorted(d for d in dirs if d not in ("out", "target", ".git"))
            if top == ".":
                dirs[:] = []
            for n in sorted(names):
                if n.endswith((".antt", ".rt", ".edit")) and inside or n.endswith(".md"):
                    yield os.path.join(folder, n)


def read(path):
    with open(path, encoding="utf-8") as f:
        return f.read()


def turned(text, kind, names):
    def one(m):
        t = m[0]
        if t.startswith("--") and kind == "antt" or t.startswith("//") and kind == "rt":
            return re.sub(r"`[^`\n]*`", lambda q: re.sub(TOKEN, lambda w: names.get(w[0], w[0]), q[0]), t)
        if t.startswith(('"', 'b"', "«")):
            return t
        return names.get(t, t)

    if kind == "md":
        return re.sub(r"`[^`\n]*`", lambda q: re.sub(TOKEN, lambda w: names.get(w[0], w[0]), q[0]), text)
    if kind == "edit":
        lines = text.split("\n")
        return "\n".join(l if l.startswith("file:") else turned(l, "line", names) for l in lines)
    return (ANTT if kind == "antt" else RUST if kind == "rt" else re.compile(TOKEN)).sub(one, text)


def main(argv):
    listing = "--list" in argv
    check = "--check" in argv or listing
    rest = [a for a in argv if a not in ("--check", "--list")]
    root = rest[0] if rest else "."
    texts = {p: read(p) for p in files(root)}
    crates = sorted(os.listdir(os.path.join(root, "crates")))
    foreign = re.compile(FOREIGN.pattern % "|".join(crates))
    outside, own = set(), set()
    for p, t in texts.items():
        if p.endswith((".antt", ".rt")):
            for m in foreign.finditer(t):
                for n in m[1].split(","):
                    outside.update(re.split(r"\s+as\s+", n.strip()))
        if p.endswith(".antt"):
            bare = re.sub(r"--[^\n]*", "", t)
            own.update(DEFINED.findall(bare))
            own.update(w for w in re.findall(TOKEN, bare) if re.match(r"[a-z][a-z0-9]*[A-Z]\w*$", w))
    goals = set()
    for p, t in texts.items():
        if p.endswith(".antt"):
            goals.update(re.findall(r"(?m)^(?:abbrev )?([^\s:]+) : tie\.", t))
    names = {n: snake(n) for n in own - outside - goals if n[0].islower() or "-" in n}
    names = {n: s for n, s in names.items() if n != s}
    # a lemma that would have its function's name gets _lem
    functions = {s for n, s in names.items() if "-" not in n} | {"call_at", "cells_in", "cells_of"}
    names = {n: s + "_lem" if "-" in n and s in functions else s for n, s in names.items()}
    if listing:
        for crate in crates:
            defined = set()
            for p, t in texts.items():
                if p.endswith(".antt") and f"/crates/{crate}/" in "/" + p:
                    defined.update(DEFINED.findall(re.sub(r"--[^\n]*", "", t)))
            pairs = sorted(n for n in defined if n in names)
            print(f"{crate}: " + ", ".join(f"{n} -> {names[n]}" for n in pairs) if pairs else f"{crate}: none")
        return
    # a new spelling that stands in the same file already, for something else that a clause or a proof can take for it
    words = {}
    for p, t in texts.items():
        if p.endswith((".antt", ".rt")):
            bare = re.sub(r"--[^\n]*|//[^\n]*|\"(?:[^\"\\]|\\.)*\"", "", t)
            if p.endswith(".rt"):
                words[p] = set(re.findall(r"\blet (?:mut )?(\w+)|\b(?<!:)(\w+): ", bare) and [a or b for a, b in re.findall(r"\blet (?:mut )?(\w+)|\b(?<!:)(\w+): ", bare)])
                words[p] |= names.keys() & set(re.findall(TOKEN, bare))
            else:
                words[p] = set(re.findall(r"(?<![\w.])" + TOKEN, re.sub(r"(?m)^\s*(?:pub )?use [^{\n]*", "", bare)))
    falls = {}
    for p, w in words.items():
        for n in w & names.keys():
            if names[n] in w:
                falls.setdefault(n, []).append(p)
    spelled = {}
    for n, s in names.items():
        spelled.setdefault(s, []).append(n)
    for n, s in sorted(names.items()):
        if n in falls:
            print(f"look: {n} -> {s}: stands already in {', '.join(falls[n][:3])}{' ..' if len(falls[n]) > 3 else ''}")
        if len(spelled[s]) > 1:
            print(f"look: {' and '.join(spelled[s])} -> {s}")
    kept = 0
    for p, t in texts.items():
        kind = p.rsplit(".", 1)[1]
        new = turned(t, kind, names)
        if new != t:
            kept += 1
            if not check:
                with open(p, "w", encoding="utf-8") as f:
                    f.write(new)
    print(f"respell: {len(names)} names, {kept} files")


if __name__ == "__main__":
    main(sys.argv[1:])
