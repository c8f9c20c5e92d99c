"""What the measuring scripts share: the machine, building, counting with callgrind or an emulator, tables."""
import os, re, shutil, subprocess, sys

ROOT = os.path.dirname(os.path.dirname(os.path.abspath(__file__)))
OUT = os.path.join('target', 'bench')
ARCHIVE = os.environ.get('CLURIMOON_ARCHIVE', 'target/staticlib/libclurimoon.a')
LIBS = os.environ.get('CLURIMOON_LIBS', '').split()
STRICT = ['-std=c99', '-Wall', '-Wextra', '-pedantic', '-Iinclude', '-Ibench/slot']


def of_machine(name):
    """The words that check/machine.sh has under a name."""
    script = '. check/machine.sh; for word in "${%s[@]}"; do echo "$word"; done' % name
    return subprocess.run(['bash', '-c', script], cwd=ROOT, stdout=subprocess.PIPE, text=True).stdout.splitlines()


LINK = of_machine('x86_link')
RUN = of_machine('x86_run')  # none on x86-64; else the emulator, which then counts instructions, and nothing is timed
LOAD = of_machine('x86_load')
UNTIMED = 'Times are left out: they would be those of an emulator of x86-64.'
PREFIX = of_machine('x86')[0]


def tool(name):
    """gcc, g++, objdump and the like for x86-64 code."""
    return PREFIX + name


def fail(what):
    sys.stdout.flush()
    sys.exit('bench: FAILED, ' + what)


def begin():
    os.environ.setdefault('LC_ALL', 'C')
    if 'CLURIMOON_ARCHIVE' not in os.environ:
        os.chdir(ROOT)
    else:
        archive = os.path.abspath(ARCHIVE)
        os.chdir(ROOT)
        globals()['ARCHIVE'] = archive
    if not os.path.isfile(ARCHIVE):
        fail(ARCHIVE + ' is missing; build it first')
    for needed in of_machine('x86_needs'):
        if shutil.which(needed) is None:
            fail(needed + ' is missing')
    os.makedirs(OUT, exist_ok=True)


def output(*command, stdin=os.devnull):
    """The command's standard output; the run fails where the command fails."""
    with open(stdin) as given:
        done = subprocess.run(command, stdin=given, stdout=subprocess.PIPE, stderr=subprocess.PIPE, text=True)
    if done.returncode != 0:
        fail('%s\n%s%s' % (' '.join(command), done.stdout[-2000:], done.stderr[-2000:]))
    return done.stdout


def in_out(name):
    return os.path.join(OUT, name)


def build_slots():
    """The two forms by gcc -O3 and nothing else (CLURIMOON_CC: by another compiler); returns their objects."""
    compiler = os.environ.get('CLURIMOON_CC', '').split() or [tool('gcc')]
    for form in ('trusting', 'checking'):
        output(*compiler, *STRICT, '-O3', '-c', 'bench/slot/%s.c' % form, '-o', in_out(form + '.o'))
    return [in_out('trusting.o'), in_out('checking.o')]


def instructions(function, *command, stdin=os.devnull):
    """Instructions within the function and what it calls (None: of the whole program), and the program's output."""
    if RUN:
        import emulated
        return emulated.within(function, command) if function else emulated.of_all(command, stdin)
    data = in_out('callgrind.out')
    only = ['--toggle-collect=' + function] if function else []
    said = output('valgrind', '--tool=callgrind', '--callgrind-out-file=' + data, *only, *command, stdin=stdin)
    with open(data) as lines:
        found = [line.split()[1] for line in lines if re.match(r'(summary|totals):', line)]
    if not found or int(found[-1]) == 0:
        fail('nothing was counted for ' + ' '.join(command))
    return int(found[-1]), said


def own_instructions(function, *command):
    """Instructions of the function alone, without what it calls (callgrind counts each octet of a memset's rep as one)."""
    if RUN:
        import emulated
        return emulated.alone(function, command)
    instructions(function, *command)
    names, own, current, called = {}, 0, None, False
    with open(in_out('callgrind.out')) as lines:
        for line in lines:
            head = re.match(r'(c?)fn=\((\d+)\)(?: (.*))?$', line.rstrip())
            if head:
                if head.group(3):
                    names[head.group(2)] = head.group(3)
                if not head.group(1):
                    current = names.get(head.group(2))
            elif line.startswith('calls='):
                called = True
            elif re.match(r'[0-9+*-]', line):
                if current == function and not called:
                    own += int(line.split()[-1])
                called = False
    if own == 0:
        fail('nothing was counted for ' + function)
    return own


def first_line(*command):
    try:
        return output(*command).splitlines()[0]
    except (SystemExit, FileNotFoundError, IndexError):
        return 'unknown'


def machine():
    cpu = 'unknown processor'
    if os.path.exists('/proc/cpuinfo'):
        with open('/proc/cpuinfo') as lines:
            names = [line.split(':', 1)[1].strip() for line in lines if line.startswith('model name')]
        if names:
            cpu = '%s, %d of them' % (names[0], len(names))
    with open('KIT-ID') as kit:
        pinned = kit.read().strip()
    have = first_line('rt', 'version') if shutil.which('rt') else 'not on the PATH'
    counter = first_line(RUN[0], '--version') if RUN else first_line('valgrind', '--version') + ' callgrind'
    return ['processor: ' + cpu, 'C: %s, -O3' % first_line(tool('gcc'), '--version'),
            'archive: %s, toolchain %s (KIT-ID: %s)' % (os.path.basename(ARCHIVE), have, pinned),
            'counted by: ' + counter] + ([UNTIMED] if RUN else [])


def table(head, rows):
    print('| ' + ' | '.join(head) + ' |')
    print('|' + '---|' * len(head))
    for row in rows:
        print('| ' + ' | '.join(row) + ' |')
    print()
    sys.stdout.flush()


def three(numbers, form='%.0f'):
    return ' / '.join(form % number for number in numbers)
