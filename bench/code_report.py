"""What the archive's slot path is made of, from its disassembly: copies of 53 octets, divisions, calls."""
import re
from measure import output, table, tool

EXPORTS = ('clurimoon_slot', 'clurimoon_burst')
CELL = 53
WIDTHS = {'movups': 16, 'movaps': 16, 'movdqu': 16, 'movdqa': 16, 'movupd': 16, 'movapd': 16, 'vmovups': 16, 'vmovdqu': 16,
          'movq': 8, 'movsd': 8, 'movlps': 8, 'movd': 4, 'movl': 4, 'movzwl': 2, 'movw': 2, 'movzbl': 1, 'movb': 1}
PLACE = re.compile(r'(-?(?:0x[0-9a-f]+)?)\((%\w+)?(?:,(%\w+)(?:,(\d))?)?\)')


def functions(archive):
    """Symbol -> its instructions (mnemonic, operands, symbol that the instruction refers to)."""
    found, name = {}, None
    for line in output(tool('objdump'), '-dr', '--no-show-raw-insn', archive).splitlines():
        head = re.match(r'[0-9a-f]+ <(.+)>:$', line)
        if head:
            name = head.group(1)
            found[name] = []
            continue
        relocation = re.match(r'\s+[0-9a-f]+: (R_\S+)\s+(\S+)', line)
        if relocation and name and found[name]:
            found[name][-1][2] = re.sub(r'^\.text\.|[-+]0x[0-9a-f]+$', '', relocation.group(2))
            continue
        code = re.match(r'\s+[0-9a-f]+:\s+(\S+)\s*(.*)', line)
        if code and name:
            found[name].append([code.group(1), code.group(2).split('#')[0].strip(), None])
    return found


def width_of(mnemonic, operands):
    if mnemonic in WIDTHS:
        return WIDTHS[mnemonic]
    if mnemonic != 'mov':
        return None
    register = re.search(r'%(\w+)(?:$|,)', re.sub(PLACE, '', operands))
    if not register:
        return None
    name = register.group(1)
    if name.startswith('r') and name[-1] not in 'dwb':
        return 8
    if name.startswith('e') or name.endswith('d'):
        return 4
    return 1 if name.endswith(('l', 'b')) else 2


def covers(pieces):
    """Whether the pieces (start, width) make up 53 octets in a row, all of them."""
    start = min(at for at, _ in pieces)
    octets = {at + k - start for at, width in pieces for k in range(width)}
    return octets == set(range(CELL))


def copies(code):
    """For each copy of 53 octets within a straight piece of code: its instructions."""
    found, loads, stores = [], {}, {}

    def close():
        good = [len(p) for p in loads.values() if covers(p)], [len(p) for p in stores.values() if covers(p)]
        found.extend(a + b for a, b in zip(*good))
        loads.clear(), stores.clear()

    for mnemonic, operands, _ in code:
        if mnemonic.startswith('j') or mnemonic in ('call', 'ret'):
            close()
            continue
        width = width_of(mnemonic, operands)
        place = PLACE.search(operands)
        if width is None or place is None or place.group(2) in (None, '%rsp', '%rip'):
            continue
        start = int(place.group(1) or '0', 16)
        side = stores if operands.endswith(')') else loads
        side.setdefault(place.groups()[1:], []).append((start, width))
    close()
    return found


def calls(code):
    """What the code calls or jumps to outside itself, with how often."""
    found = {}
    for mnemonic, _, target in code:
        if mnemonic in ('call', 'jmp') and target:
            found[target] = found.get(target, 0) + 1
    return found


def show(archive):
    """The two exports, and whatever they call within the archive."""
    known, rows, symbols = functions(archive), [], list(EXPORTS)
    for symbol in symbols:
        code = known.get(symbol)
        if code is None:
            rows.append([symbol, 'not in the archive', '', '', ''])
            continue
        symbols += [target for target in calls(code) if target not in symbols]
        divisions = sum(mnemonic.startswith(('div', 'idiv')) for mnemonic, _, _ in code)
        rows.append([symbol, '{:,}'.format(len(code)), ', '.join(map(str, copies(code))) or 'none', str(divisions),
                     ', '.join('%s (%d)' % call for call in sorted(calls(code).items())) or 'none'])
    print('From the disassembly: a copy is a set of loads that reads 53 octets in a row and the stores that write them,')
    print('in one straight piece of code.\n')
    table(['function', 'instructions in all', 'instructions of each 53-octet copy', 'divisions', 'calls'], rows)
