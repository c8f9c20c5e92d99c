#!/usr/bin/env python3
"""Respells two operators of meaning/specs/Plain.antt: `if b then x else y` becomes `when b then x else y`, `x andThen f` `x and_then f`.

usage: operators.py [FOLDER]      FOLDER is the top of the repository, '.' without it

It was run once, after respell.py. The library has an operator if/then/else of its own today, which says the same and takes other
brackets, and rt takes no second one under that name; respell.py turns `andThen` but not the operator's name with its places. Clauses,
files of specs/ and proofs/, and must-fail edits of these are turned; the code's own `if` stays.
"""

import os
import re
import sys

WORD = re.compile(r"--[^\n]*|\"(?:[^\"\\]|\\.)*\"|«[^»]*»|[^\s(){};,@\"«»\[\]\\|]+")
OURS = re.compile(r"Rattle\.meaning\.specs\.Plain\.\{[^}]*if◌then◌else◌")


def turned(text):
    def one(m):
        return "when" if m[0] == "if" else m[0].replace("if◌then◌else◌", "when◌then◌else◌")

    return WORD.sub(one, text)


def clauses(text):
    text = re.sub(r"(Rattle\.meaning\.specs\.Plain\.\{[^}]*)if◌then◌else◌", r"\1when◌then◌else◌", text)
    lines, inside, depth = [], False, 0
    for line in text.split("\n"):
        if not inside and re.match(r"\s*(requires|ensures)\b", line):
            inside, depth = True, 0
        if inside:
            depth += line.count("{") - line.count("}")
            inside = depth > 0
            line = re.sub(r"(?<![\w.-])if(?= )", "when", line)
        lines.append(line)
    return "\n".join(lines)


def main(root):
    done = set()
    for folder, dirs, names in os.walk(os.path.join(root, "crates")):
        dirs[:] = sorted(d for d in dirs if d != "out")
        for name in names:
            path = os.path.join(folder, name)
            if not name.endswith((".antt", ".rt", ".edit")):
                continue
            with open(path, encoding="utf-8") as f:
                text = f.read()
            new = re.sub(r"(?<![\w-])◌?andThen◌?(?![\w-])", lambda m: m[0].replace("andThen", "and_then"), text)
            if name.endswith(".antt") and (OURS.search(text) or path.endswith("meaning/specs/Plain.antt")):
                new = turned(new)
                done.add(os.path.normpath(path))
            elif name.endswith(".rt") and OURS.search(text):
                new = clauses(new)
                done.add(os.path.normpath(path))
            if new != text:
                with open(path, "w", encoding="utf-8") as f:
                    f.write(new)
    for folder, dirs, names in os.walk(os.path.join(root, "crates")):
        dirs[:] = sorted(d for d in dirs if d != "out")
        for name in names:
            if not name.endswith(".edit"):
                continue
            path = os.path.join(folder, name)
            crate = os.path.join(root, "crates", os.path.relpath(path, os.path.join(root, "crates")).split(os.sep)[0])
            with open(path, encoding="utf-8") as f:
                lines, file = f.read().split("\n"), ""
            for k, line in enumerate(lines):
                if line.startswith("file: "):
                    file = line[6:]
                elif line.startswith(("old:", "new:")) and os.path.normpath(os.path.join(crate, file)) in done:
                    if file.endswith(".antt") or re.search(r"\b(requires|ensures)\b", line):
                        lines[k] = line[:4] + turned(line[4:])
            with open(path, "w", encoding="utf-8") as f:
                f.write("\n".join(lines))


if __name__ == "__main__":
    main(sys.argv[1] if len(sys.argv) > 1 else ".")
