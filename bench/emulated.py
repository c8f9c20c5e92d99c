"""Counting x86-64 instructions on a machine of another kind: by the log of the emulator, which executes one instruction at a
time and writes a line for each. callgrind counts the same on x86-64."""
import bisect, collections, os, re, subprocess, tempfile
from measure import RUN, fail, output, tool

LINE = re.compile(rb'/([0-9a-f]{16})/')  # the instruction's address
CODE = re.compile(r'\s+([0-9a-f]+):\s+(?:bnd |notrack )?(\S+)\s*(.*)')


def emulate(ranges, command, stdin, take):
    """Runs the command; take gets the log of what is executed in the ranges (start, size; none: everywhere), in pieces of
    whole lines. Returns the program's output."""
    reading, writing = os.pipe()
    single = '-one-insn-per-tb' if '-one-insn-per-tb' in output(RUN[0], '-help') else '-singlestep'
    words = [*RUN, single, '-d', 'exec,nochain', '-D', '/dev/fd/%d' % writing]
    if ranges:
        words += ['-dfilter', ','.join('%#x+%#x' % each for each in ranges)]
    with open(stdin) as given, tempfile.TemporaryFile('w+') as said, tempfile.TemporaryFile('w+') as errors:
        running = subprocess.Popen([*words, *command], stdin=given, stdout=said, stderr=errors, pass_fds=[writing])
        os.close(writing)
        rest = b''
        for piece in iter(lambda: os.read(reading, 1 << 20), b''):
            whole, end, rest = (rest + piece).rpartition(b'\n')
            if b'Stopped execution' in whole:
                fail('the emulator stopped within ' + ' '.join(command))
            take(whole + end)
        os.close(reading)
        status = running.wait()
        said.seek(0), errors.seek(0)
        if status != 0:
            fail('%s\n%s%s' % (' '.join(command), said.read()[-2000:], errors.read()[-2000:]))
        return said.read()


class Program:
    """The functions of a program, and which instruction leads from one to another."""

    def __init__(self, path):
        self.spans, self.named, self.leads = [], {}, {}
        for line in output(tool('nm'), '-S', '--defined-only', path).splitlines():
            found = re.match(r'([0-9a-f]+) ([0-9a-f]+) [tTwW] (.+)', line)
            if found:
                start, size = (int(number, 16) for number in found.groups()[:2])
                self.spans.append((start, size))
                self.named[found.group(3)] = start
        self.spans.sort()
        for line in output(tool('objdump'), '-d', '--no-show-raw-insn', path).splitlines():
            found = CODE.match(line)
            if not found:
                continue
            at, how, where = int(found.group(1), 16), found.group(2), found.group(3)
            target = re.match(r'([0-9a-f]+) <', where)
            if target or how == 'call':
                self.leads[at] = (how, int(target.group(1), 16) if target else None)

    def around(self, address):
        """Start and size of the function in which the address lies, or None."""
        at = bisect.bisect(self.spans, (address or 0, float('inf'))) - 1
        return self.spans[at] if at >= 0 and (address or 0) < sum(self.spans[at]) else None

    def reached(self, function):
        """The function and all that it leads to within the program, the function first."""
        if function not in self.named:
            fail('there is no function ' + function)
        found = [self.around(self.named[function])]
        for start, size in found:
            for at in range(start, start + size):
                span = self.around(self.leads.get(at, (None, None))[1])
                if span and span not in found:
                    found.append(span)
        return found

    def judge(self, spans, times):
        """What was counted is the function with all that it calls: nothing of it leads elsewhere, and nobody else calls what
        it calls. (A function that is entered on a condition is passed over there: how often it was isn't known.)"""
        entered, unsaid = collections.Counter(), set()
        for at, (how, target) in self.leads.items():
            if times[at] and self.around(target) not in spans:
                fail('the instruction at %#x leads to what is not counted' % at)
            if how in ('call', 'jmp'):
                entered[target] += times[at]
            else:
                unsaid.add(target)
        for start, _ in spans[1:]:
            if start not in unsaid and entered[start] != times[start]:
                fail('the function at %#x is called from elsewhere, too' % start)


def counted(ranges, command):
    """Address -> how often it was executed, and the program's output."""
    times = collections.Counter()
    said = emulate(ranges, command, os.devnull, lambda log: times.update(LINE.findall(log)))
    if not times:
        fail('nothing was counted for ' + ' '.join(command))
    return collections.Counter({int(address, 16): number for address, number in times.items()}), said


def by_address(function, command):
    """Address -> how often it was executed, in the function and all that it calls; and the program's output. The program
    is the command's first word."""
    program = Program(command[0])
    spans = program.reached(function)
    times, said = counted(spans, command)
    program.judge(spans, times)
    return times, said


def within(function, command):
    """Instructions of the function and of what it calls, and the program's output."""
    times, said = by_address(function, command)
    return sum(times.values()), said


def alone(function, command):
    """Instructions of the function itself."""
    times, _ = counted(Program(command[0]).reached(function)[:1], command)
    return sum(times.values())


def of_all(command, stdin):
    """Instructions of the whole program, and its output."""
    lines = []
    said = emulate([], command, stdin, lambda log: lines.append(log.count(b'\n')))
    return sum(lines), said
