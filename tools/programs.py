"""The proved programs of crates/, for the commands beside this file: they are built when they are missing or older than their sources,
and run with the loader and the C library of the Rattle kit, and on another processor than x86-64 with qemu."""
import os, platform, re, shutil, subprocess, sys, time

VERSION = '1.0'
INPUT = 3  # a command's standard input, as its script in sh hands it on
ROOT = os.path.dirname(os.path.dirname(os.path.realpath(__file__)))
NOTES = os.path.join(ROOT, 'target', 'programs')
CRATES = {'check': 'check_plan'}  # the crates of programs that are not named as they are: the kit has a crate check of its own


def fail(name, said):
    print(f'{name}: {said}', file=sys.stderr)
    sys.exit(2)


def take_input():
    """Makes a command's standard input that of this process, and closes it where the command's was closed."""
    os.close(0)
    try:
        os.dup2(INPUT, 0)
        os.close(INPUT)
    except OSError:
        pass


def version(name):
    """Which planner this is: its number, and the commit where git knows it."""
    commit = subprocess.run(['git', '-C', ROOT, 'rev-parse', '--short', 'HEAD'], capture_output=True, text=True) if shutil.which('git') else None
    return f'{name}, of Zhevgulor {VERSION}' + (f', commit {commit.stdout.strip()}' if commit and commit.returncode == 0 else '')


def newest_source():
    files = [os.path.join(ROOT, 'crates.txt')]
    for folder, folders, names in os.walk(os.path.join(ROOT, 'crates')):
        folders[:] = [n for n in folders if n != 'out']
        files += [os.path.join(folder, n) for n in names]
    return max(os.stat(f).st_mtime for f in files)


def is_fresh(program):
    return os.access(program, os.X_OK) and os.stat(program).st_mtime >= newest_source()


def listed():
    """The crates in the order of crates.txt, each with its line: NAME: DEP DEP .. or NAME staticlib: DEP DEP .."""
    lines = [line.split('#')[0].strip() for line in open(os.path.join(ROOT, 'crates.txt'), encoding='utf-8')]
    return {re.match(r'\w+', line)[0]: line for line in lines if line}


def needs():
    """The crates in the order of crates.txt, each with those that it names."""
    return {name: line.partition(':')[2].split() for name, line in listed().items()}


def stands_on(name):
    """The crates of the repository that a crate stands on, and itself."""
    direct, found, todo = needs(), set(), [name]
    while todo:
        crate = todo.pop()
        if crate in direct and crate not in found:
            found.add(crate)
            todo += direct[crate]
    return found


def program_of(crate):
    return os.path.join(ROOT, 'crates', crate, 'out', crate)


def build(name, crate):
    """Proves and builds the program, and tells on standard error how far it is. `rt run` then runs it, here on nothing."""
    rt = shutil.which('rt')
    if not rt:
        fail(name, "the program is not built yet, and building it takes rt, the Rattle kit's command, which is not on the path")
    log = os.path.join(NOTES, name + '.log')
    os.makedirs(NOTES, exist_ok=True)
    crates, begun = stands_on(crate), time.monotonic()
    print(f'{name}: proving and building the program: {len(crates)} crates, some minutes the first time; log: {log}', file=sys.stderr)
    with open(log, 'w', encoding='utf-8') as out:
        run = subprocess.Popen([rt, 'run'], cwd=os.path.join(ROOT, 'crates', crate), stdin=subprocess.DEVNULL, stdout=subprocess.DEVNULL,
                               stderr=subprocess.PIPE, text=True, errors='replace')
        ran, errors = False, []
        for line in run.stderr:
            out.write(line)
            begins = re.match(r'rt: chose --jobs \d+ for (\w+)', line)
            ran = ran or line.startswith('rt: running ')
            if begins:
                print(f'{name}: {begins[1]}, {time.monotonic() - begun:.0f} s', file=sys.stderr)
            elif re.search(r': error: |it is not proved that|^fn \S+: no', line):
                errors.append(line.rstrip())
        run.wait()
        if not ran:
            for line in errors[:3]:
                print(f'{name}: {line[:300]}', file=sys.stderr)
            fail(name, f'it is not proved, so there is no program; {log} has all that was said')
    os.utime(program_of(crate))


def kit(name):
    """Where the kit stands. It is noted, so that a program that is built runs where rt is not on the path."""
    rt, note = shutil.which('rt'), os.path.join(NOTES, 'kit')
    if not rt and not os.path.isfile(note):
        fail(name, "running the program takes the Rattle kit's loader, and rt, the kit's command, is not on the path")
    if not rt:
        return open(note, encoding='utf-8').read()
    found = os.path.dirname(os.path.dirname(os.path.realpath(rt)))
    if not os.path.isfile(note) or open(note, encoding='utf-8').read() != found:
        os.makedirs(NOTES, exist_ok=True)
        with open(note, 'w', encoding='utf-8') as out:
            out.write(found)
    return found


def command(name):
    """The words that run the program, which is built first where it has to be."""
    crate = CRATES.get(name, name)
    program = program_of(crate)
    if not os.path.isfile(os.path.join(ROOT, 'crates', crate, 'src', 'main.rt')):
        fail(name, f'there is no program {crate} in crates/')
    if not is_fresh(program):
        build(name, crate)
    library = os.path.join(kit(name), 'toolchain', 'lib')
    words = [] if platform.machine() == 'x86_64' else [shutil.which('qemu-x86_64') or fail(name, 'running the program takes qemu-x86_64')]
    return words + [os.path.join(library, 'ld-linux-x86-64.so.2'), '--library-path', library, program]
