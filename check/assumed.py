#!/usr/bin/env python3
"""What is assumed (docs/ASSUMPTIONS.md): no function of C but the toolchain's own, and those behind the programs alone.

    check/assumed.py LOG       LOG: what rt ci printed; needs target/build/*.log of check/build

No source of crates/*/src declares a C function (a block `extern "C" { .. }`; an export has a body). Of the crates that rt proved
in this run, LOG has the verdict lines: none has foreign=, and axioms= a program's alone. The lines above say which C functions
those are ('axioms LIBRARY: FUNCTION, ..'): the libraries are the toolchain's. The archives reach none at all: check/build proves
them each time. (Of a crate that rt ci kept from an earlier run LOG says nothing; that run said it.)
"""
import glob
import os
import re
import sys

os.chdir(os.path.join(os.path.dirname(os.path.abspath(__file__)), '..'))
PROGRAMS = {'spacer', 'salvage', 'scribe', 'unscribe', 'cases'}
ARCHIVES = ['clurimoon', 'bench_narrow']


def text(path):
    with open(path, encoding='utf-8', errors='replace') as file:
        return file.read()


# comments and texts hold no code; "C" is the one text that counts
NO_CODE = re.compile(r'//[^\n]*|/\*.*?\*/|"C"|"(?:\\.|[^"\\])*"', re.S)
DECLARES = re.compile(r'\bextern\s*(?:"C"\s*)?\{|\bextern\s+crate\b|#\s*\[\s*link\b')
AXIOMS = re.compile(r'axioms (\w+): (?!none reached)(.*)')


def reached(lines):
    """The C functions that a verdict rests on, by the library that declares them."""
    return [found.groups() for found in map(AXIOMS.match, lines) if found]


def main(log):
    crates = set(re.findall(r'(?m)^([a-z_0-9]+)[^:#\n]*:', text('crates.txt')))
    wrong = []
    for path in sorted(glob.glob('crates/*/src/**/*.rt', recursive=True)):
        code = NO_CODE.sub(lambda found: found.group() if found.group() == '"C"' else ' ', text(path))
        if DECLARES.search(code):
            wrong.append(f'{path} declares a C function')
    blocks = re.split(r'(?m)^== (.+)\n', text(log))
    proved = {name: block for name, block in zip(blocks[1::2], blocks[2::2]) if name in crates}  # and not 'NAME: its tests'
    for name in ARCHIVES:
        block = proved[f'the archive {name}'] = text(f'target/build/{name}.log')
        if not re.search(r'(?m)^axioms \w+: none reached', block) or reached(block.splitlines()):
            wrong.append(f'the archive {name} rests on functions of C, or nothing says that it does not')
    programs = []
    for name, block in proved.items():
        lines = block.splitlines()
        verdicts = [line for line in lines if line.startswith('logic=')]
        if any(' foreign=' in line for line in verdicts):
            wrong.append(f'{name} declares C functions: {verdicts[-1][:200]}')
        if name not in PROGRAMS and any(' axioms=' in line for line in verdicts):
            wrong.append(f'{name} assumes something, and is no program: {verdicts[-1][:200]}')
        found = reached(lines)
        own = [library for library, _ in found if library in crates]
        if own:
            wrong.append(f'{name} rests on C functions of {", ".join(own)}')
        if found and name not in PROGRAMS:
            wrong.append(f'{name} rests on C functions, and is no program: {found}')
        if found and name in PROGRAMS:
            programs.append(f'{name} ({", ".join(sorted({library for library, _ in found}))})')
    print('\n'.join(wrong) if wrong else
          f'assumed: no C function of this repository, none in the archives; of the programs proved in this run, the toolchain\'s in {", ".join(sorted(programs)) or "none"}')
    return 1 if wrong else 0


if __name__ == '__main__':
    sys.exit(main(sys.argv[1]))
