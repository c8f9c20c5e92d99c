"""Is this code of 32 bits? Two rules: one for a function's MIR with all that it calls, one for its machine code.

narrow.py mir FUNCTION FILE..     the functions looked at, or what is wide in them (FILE: mir.json of a built library)
narrow.py code FUNCTION <LISTING  the instructions and their number, or what is wide in them (LISTING: objdump -dr --no-show-raw-insn)
The status is 0 where all is narrow, 1 where something is wide, 2 where the function is not there.
"""
import json
import re
import sys

# MIR: types, numbers and casts by their width. Anything but numbers of at most 32 bits and yes or no is wide, and so is a call of
# what is no plain function by its name.
NARROW = ('Bool', 'Unit')


def width_of(number):
    """The bits of what stands under Int: a type's width, or a literal with its own."""
    return number['width'] if isinstance(number, dict) else number


def wide_in_mir(body):
    """What is wide in a function, and what it calls."""
    wide, calls = [], []

    def look(part):
        if isinstance(part, dict):
            for word, inside in part.items():
                if word == 'Int' and width_of(inside) > 32:
                    wide.append(f'Int {width_of(inside)}')
                if word == 'Cast' and inside[-1] not in range(33):
                    wide.append(f'a cast to {inside[-1]}')
                if word == 'Call':
                    called = inside[0].get('Fn') if isinstance(inside[0], dict) else None
                    if called and called[1] == {'types': [], 'dicts': []}:
                        calls.append(called[0])
                    else:
                        wide.append(f'a call of {json.dumps(inside[0])[:80]}')
                look(inside)
        elif isinstance(part, list):
            for inside in part:
                look(inside)

    for local in body['locals']:
        if local['ty'] not in NARROW and set(local['ty']) != {'Int'}:
            wide.append(json.dumps(local['ty']))
    look([local['ty'] for local in body['locals']])
    look(body['body'])
    return wide, calls


def mir(function, files):
    bodies = {}
    for file in files:
        with open(file, encoding='utf-8') as text:
            bodies.update(json.load(text))
    todo, seen, wide = [function], [], []
    while todo:
        name = todo.pop()
        if name not in bodies:
            return 2, [f'{name} is not there']
        if name not in seen:
            seen.append(name)
            found, calls = wide_in_mir(bodies[name])
            wide += [f'{name}: {w}' for w in found]
            todo += calls
    return (1, wide) if wide else (0, seen)


# Machine code. 64-bit names of registers, and the stack's two, which also a narrow function may move.
REGISTERS = re.compile(r'%r(?:[abcd]x|[sd]i|[bs]p|ip|\d+)\b')
STACK = {'%rsp', '%rbp'}
FREE = re.compile(r'(push|pop|ret|leave)q?|endbr64')
STACK_MOVES = {'mov', 'movl', 'add', 'sub', 'lea'}
# products and quotients, which widen; shifts over two registers; sign to a second register; wide registers of vectors
WIDENING = re.compile(r'i?mul[bwlqx]?|i?div[bwlq]?|sh[lr]d[wlq]?|c[lq]t[dqo]|cwt[dl]')
VECTORS = re.compile(r'%[xyz]?mm\d')


def wide_in_code(mnemonic, operands):
    if FREE.fullmatch(mnemonic):
        return False
    if WIDENING.fullmatch(mnemonic) or VECTORS.search(operands):
        return True
    registers = set(REGISTERS.findall(operands))
    if registers and registers <= STACK and mnemonic in STACK_MOVES:
        return False
    return bool(registers) or mnemonic.endswith('q')


def code(function, text):
    found = re.search(rf'^[0-9a-f]+ <{re.escape(function)}>:\n(.*?)(?:\n\n|\Z)', text, re.M | re.S)
    if not found:
        return 2, [f'{function} is not there']
    # a call, or a constant in memory: what it leads to would not be looked at
    others = re.findall(r'\bR_X86_64_\S+\s+\S+', found.group(1))
    if others:
        return 1, others
    lines = re.findall(r'^ *[0-9a-f]+:\t(\S+) *(.*)$', found.group(1), re.M)
    # what stands after the last return only fills up
    while lines and not lines[-1][0].startswith('ret'):
        lines.pop()
    shown = [f'{m} {o}'.strip() for m, o in lines]
    wide = [s for s, (m, o) in zip(shown, lines) if wide_in_code(m, o)]
    if wide or not lines:
        return 1, wide or [f'{function} never returns']
    return 0, shown + [f'{len(lines)} instructions, the return among them']


if __name__ == '__main__':
    status, said = mir(sys.argv[2], sys.argv[3:]) if sys.argv[1] == 'mir' else code(sys.argv[2], sys.stdin.read())
    print('\n'.join(said))
    sys.exit(status)
