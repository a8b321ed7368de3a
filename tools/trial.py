"""Tries mistakes: rt check of a copy of their crate that has them. The copy begins with what the crate's own checks kept in out/, so only
what a mistake touches is proved again. What was said of a group stays in target/must-fail/, until anything changes that it was made from."""
import hashlib, os, re, shutil, subprocess, tempfile
from concurrent.futures import ThreadPoolExecutor
import programs
from edits import Trouble

PARTS = ('src', 'specs', 'proofs')


def rt(folder, *words):
    """What rt says in that folder, and the status that it ends with."""
    ran = subprocess.run(['rt', *words], cwd=folder, stdin=subprocess.DEVNULL, stdout=subprocess.PIPE, stderr=subprocess.STDOUT,
                         encoding='utf-8', errors='replace')
    return ran.stdout, ran.returncode


def tried(crate, texts, *words):
    """What rt check says of a crate in which files have these texts, and the status that it ends with."""
    below = programs.stands_on(crate)
    with tempfile.TemporaryDirectory(prefix='mistakes-') as room:
        for name in below:
            for part in (*PARTS, 'out/rlib', *(['out/incremental'] if name == crate else [])):
                if os.path.isdir(f'crates/{name}/{part}'):
                    shutil.copytree(f'crates/{name}/{part}', f'{room}/crates/{name}/{part}')
        with open(f'{room}/crates.txt', 'w', encoding='utf-8') as listed:
            listed.writelines(line + '\n' for name, line in programs.listed().items() if name in below)
        for file, text in texts.items():
            with open(f'{room}/crates/{crate}/{file}', 'w', encoding='utf-8') as edited:
                edited.write(text)
        return rt(f'{room}/crates/{crate}', 'check', *words)


def sum_of(crate, texts, version):
    """A sum of all that is said of the crate with these texts: of the kit, and of the files of the crate and of those below it."""
    made = hashlib.sha256(version.encode())
    for name in sorted(programs.stands_on(crate)):
        made.update(programs.listed()[name].encode())
        for part in PARTS:
            for at, folders, files in os.walk(f'crates/{name}/{part}'):
                folders.sort()
                for path in sorted(f'{at}/{file}' for file in files):
                    edited = texts.get(os.path.relpath(path, f'crates/{crate}')) if name == crate else None
                    with open(path, 'rb') as file:
                        made.update(repr((path, edited.encode() if edited else file.read())).encode())
    return made.hexdigest()


def logs(groups):
    """What rt check says of each group, by its name: its log, or a Trouble. Of each is given its crate, and the texts that its mistakes make."""
    if not shutil.which('rt'):
        return {name: Trouble(f"{name}: it is not tried: rt, the Rattle kit's command, is not on the path") for name in groups}
    version, sums, said = rt('.', 'version')[0], {}, {}
    place = lambda name: 'target/must-fail/' + re.sub(r'crates/|must-fail/|\.edit$', '', name) + '.log'
    for name, (crate, texts) in groups.items():
        sums[name] = sum_of(crate, texts, version)
        if os.path.isfile(place(name)):
            with open(place(name), encoding='utf-8') as log:
                if log.readline().strip() == sums[name]:
                    said[name] = log.read()
    todo = [name for name in groups if name not in said]
    unproved = {}
    for crate in [crate for crate in programs.listed() if crate in {groups[name][0] for name in todo}]:
        print(f'trying mistakes: {crate} as it stands', flush=True)
        log, status = rt(f'crates/{crate}', 'check')
        if status:
            unproved[crate] = why(log)

    def work(name):
        crate, texts = groups[name]
        if crate in unproved:
            return Trouble(f'{name}: it is not tried, since {crate} is not proved as it stands: {unproved[crate]}')
        print(f'trying mistakes: {name}, {todo.index(name) + 1} of {len(todo)}', flush=True)
        log, status = tried(crate, texts, '--jobs', '1')
        if not re.search(r'^logic=(not-)?proved', log, re.M):
            return Trouble(f'{name}: its check ended with status {status} and no verdict: {why(log)}')
        os.makedirs(os.path.dirname(place(name)), exist_ok=True)
        with open(place(name), 'w', encoding='utf-8') as kept:
            kept.write(sums[name] + '\n' + log)
        return log

    with ThreadPoolExecutor(lanes()) as pool:
        said.update(zip(todo, pool.map(work, todo)))
    return said


def why(log):
    """The first line of a log that says what is wrong, or its last."""
    lines = log.strip().split('\n')
    return next((line for line in lines if re.search(r'error|^fn \S+: no', line)), lines[-1])[:300]


def lanes():
    """How many checks to run side by side: RT_JOBS, or as many as there are processors, with 4 GB for each."""
    memory = os.sysconf('SC_PHYS_PAGES') * os.sysconf('SC_PAGE_SIZE')
    return int(os.environ.get('RT_JOBS') or max(1, min(len(os.sched_getaffinity(0)), memory // 4_000_000_000)))
