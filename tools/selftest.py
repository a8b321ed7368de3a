"""Tries tools/refusals on a made-up crate and a made-up rt in a temporary folder: that it passes what is right, and finds each thing that
is wrong. Nothing is proved here. `tools/refusals --selftest` runs it."""
import os, shutil, subprocess, sys, tempfile

TOY = """const MOST: u32 = 7;

const LEAST: u32 = 2;

pub fn first(a: u32) -> u32
    ensures { result ≡ a }
{
    a + 1 - 1
}

pub fn second(a: u32) -> u32
    ensures { result ≡ a }
{
    a + 2 - 2
}

pub fn third(a: u32) -> u32
    ensures { result ≡ a }
{
    a + 3 - 3
}

pub fn most() -> u32
    ensures { result ≡ 7 }
{
    MOST
}

pub fn both() -> u32
    ensures { result ≡ 9 }
{
    MOST + LEAST
}

const HIGH: u32 = 4;

const LOW: u32 = 1;

pub fn sizes()
    ensures high { HIGH ≡ 4 }
    ensures low { LOW ≡ 1 }
{}
"""
ONE = '# one: one less\nfile: src/lib.rt\nold:     a + 1 - 1\nnew:     a + 1 - 2\n'
TWO = '# two: two more\nfile: src/lib.rt\nold:     a + 2 - 2\nnew:     a + 2 - 0\n'
SEVEN = '# seven: not seven\n# shows: most\nfile: src/lib.rt\nold: MOST: u32 = 7;\nnew: MOST: u32 = 8;\n'
LEAST = '# three: not two\n# shows: both\nfile: src/lib.rt\nold: LEAST: u32 = 2;\nnew: LEAST: u32 = 3;\n'
HIGH = '# high: not four\n# shows: sizes clause high\nfile: src/lib.rt\nold: HIGH: u32 = 4;\nnew: HIGH: u32 = 5;\n'
LOW = '# low: not one\n# shows: sizes clause low\nfile: src/lib.rt\nold: LOW: u32 = 1;\nnew: LOW: u32 = 2;\n'
CLAUSE = f'note: src/lib.rt:{TOY.split("pub fn sizes")[0].count(chr(10)) + 1}:1: it is not proved that what the function ensures holds (`returns-clause-%s`)\n'
HARMLESS = '# none: nothing less\nfile: src/lib.rt\nold:     a + 3 - 3\nnew:     a + 4 - 4\n'
SAME = '# same: two more\nfile: src/lib.rt\nold:     a + 1\nnew:     a + 3\n'  # as ONE, in first
FORM = ONE.replace('- 2', '- 3 + 1').replace('file:', '# form: one less all the same\nfile:')
CONTRACT = '# nine: not nine\n# shows: both\nfile: src/lib.rt\nold: result ≡ 9\nnew: result ≡ 8\n'
FACT_ONE = './proofs/first/Answers.antt:3:5: error: `returns`: `omega`: the goal does not follow from what it read\n'
FACT_TWO = ('note: src/lib.rt:11:1: it is not proved that what the function ensures holds when it returns (`returns`); the facts known there'
            ' allow values at which this goal is false\n')
AT_ONE = './proofs/first/Answers.antt:3:5: error: '
SHAPES = (
    '`returns`: record `Rattle.toy.proofs.first.Lts.Start` has no field `before`\n',
    '`returns`: `add-a` is not in scope\n',
    '`returns-2`: `goal.returns-2`: module `Rattle.toy.proofs.first.Goals` has no `returns-2` that can be named from here\n',
    '`returns`: expected type `goal.returns-2`\n  but this has type `goal.returns`\n  the two types differ only where one has `0`\n',
    '`returns`: something that was never seen before\n',
    '`returns`: something that was never seen before\n./proofs/first/Answers.antt:2:1: note: the two sides may simply be different\n'
    '  expected type `x`, but this has type `y`\n',
)
OPEN = 'note: src/lib.rt:5:1: it is not proved that what the function ensures holds when it returns (`returns-then-a-gt1`)'
FALSE = '; the facts known there allow values at which this goal is false'
NAMES = ONE.replace('file:', '# names: a-gt0 a-gt1\nfile:')
FOLLOWS = '1 declaration that depends on `same`, which was not admitted, was not checked: returns\n'
OTHER = './proofs/third/Answers.antt:3:5: error: `returns`: `omega`: the goal does not follow from what it read\n'
END = 'logic=not-proved\n'
RT = """#!/bin/sh
# Of the crate as it stands it says that it is proved, and of any other what the file log has, or renamed where the proof has that name.
cd HERE || exit 2
case $1 in
version) cat kit ;;
check) cmp -s "$OLDPWD/src/lib.rt" crates/toy/src/lib.rt && [ ! -e broken ] && echo logic=proved && exit
    grep -q 'then-a-gt1 c.if-a-gt1' "$OLDPWD/proofs/first/Answers.antt" && cat renamed || cat log
    exit 1 ;;
esac
"""


def toy(folder, groups, log):
    """A repository of one crate with these groups, and an rt that says this of each."""
    os.makedirs(f'{folder}/docs')
    shutil.copytree('tools', f'{folder}/tools')
    write(f'{folder}/crates.txt', 'toy:\n')
    os.makedirs(f'{folder}/crates/toy/must-fail')
    os.makedirs(f'{folder}/crates/toy/src')
    for name, group in groups.items():
        write(f'{folder}/crates/toy/must-fail/{name}.edit', group)
    write(f'{folder}/crates/toy/src/lib.rt', TOY)
    for proved in ('first', 'third'):
        os.makedirs(f'{folder}/crates/toy/proofs/{proved}')
        write(f'{folder}/crates/toy/proofs/{proved}/Answers.antt', 'returns-then-a-gt0 c.if-a-gt0.true c.a-gt01')
    write(f'{folder}/rt', RT.replace('HERE', folder))
    os.chmod(f'{folder}/rt', 0o755)
    write(f'{folder}/kit', 'a kit')
    write(f'{folder}/log', log + END)
    write(f'{folder}/renamed', FACT_ONE + END)


def read(path):
    with open(path, encoding='utf-8') as opened:
        return opened.read()


def write(path, what):
    with open(path, 'w', encoding='utf-8') as opened:
        opened.write(what)


def refusals(folder, *how):
    return subprocess.run([sys.executable, 'tools/refusals', *how], cwd=folder, stdout=subprocess.PIPE, stderr=subprocess.STDOUT,
                          encoding='utf-8', env={**os.environ, 'PATH': folder + ':' + os.environ['PATH']})


def run(page):
    """Each case: what is tried, its groups, what rt says of each, what is done once the page is written, and what must be said (None: all
    is well)."""
    both = {'g': ONE + '\n' + TWO}, FACT_ONE + FACT_TWO
    alone = lambda group: {'g': group}
    nothing = lambda folder: None
    paged = lambda old, new: lambda folder: write(f'{folder}/{page}', read(f'{folder}/{page}').replace(old, new))

    def then(*changes):
        """Writes other texts: (file, text)."""
        return lambda folder: [write(f'{folder}/{file}', text) for file, text in changes]

    forgotten = 'log', FACT_ONE + END  # nothing is said of two any more
    other_source = 'crates/toy/src/lib.rt', TOY.replace('a + 3', 'a + 5')
    cases = [
        ('two mistakes, each with its fact', *both, nothing, None),
        ('a harmless edit in a group', alone(f'{ONE}\n{TWO}\n{HARMLESS}'), both[1], nothing,
         'none: third shows no fact: it is still proved'),
        ('a mistake that another function shows', {'g': ONE}, OTHER, nothing, 'one: first shows no fact: it is still proved'),
        *((f'a proof that only does not fit: {shape}', both[0], AT_ONE + shape + FACT_TWO, nothing,
           'one: first shows no fact: only that its proof no longer fits') for shape in SHAPES),
        ('an open goal, where the proof does not fit', {'g': ONE}, AT_ONE + SHAPES[0] + OPEN + '\n', nothing,
         'one: first shows no fact: only that its proof no longer fits'),
        ('a false goal, where the proof does not fit', {'g': ONE}, AT_ONE + SHAPES[0] + OPEN + FALSE + '\n', nothing, None),
        ('an open goal, where the proof fits', {'g': ONE}, OPEN + '\n', nothing, None),
        ('a condition whose name changes', {'g': NAMES}, AT_ONE + SHAPES[0], nothing, None),
        ('names where nothing is written by hand', {'g': TWO.replace('file:', '# names: a-gt0 a-gt1\nfile:')}, '', nothing,
         'no goal or step is named so'),
        ('names that are no goal\'s', {'g': NAMES.replace('a-gt0', 'then-a')}, '', nothing, 'no goal or step is named so'),
        ('names of a value', {'g': NAMES.replace('a-gt0 a-gt1', 'true false')}, '', nothing,
         'no goal or step is named so'),
        ('a proof refused with what it stands on', both[0], AT_ONE + FOLLOWS + FACT_TWO, nothing,
         'one: first shows no fact: it is refused only with something'),
        ('a location falsified on the page', *both, paged('Answers.antt:3:5', 'Answers.antt:4:5'), 'has, and the trials do not: | `one`'),
        ('a sentence falsified on the page', *both, paged('two more', 'two less'), 'has, and the trials do not: | `two`'),
        ('a row gone from the page', *both, paged('| `two`', ''), 'has not, and the trials do: | `two`'),
        ('no page', *both, lambda folder: os.remove(f'{folder}/{page}'), 'has not, and the trials do: | `one`'),
        ('nothing has changed since the trial', *both, then(forgotten), None),
        ('the source has changed since', *both, then(forgotten, other_source), 'two: second shows no fact: it is still proved'),
        ('the group has changed since', *both, then(forgotten, ('crates/toy/must-fail/g.edit', f'{ONE}\n{TWO}'.replace('- 0', '- 1'))),
         'two: second shows no fact: it is still proved'),
        ('the crates have changed since', *both, then(forgotten, ('crates.txt', 'toy: std')), 'two: second shows no fact'),
        ('the kit has changed since', *both, then(forgotten, ('kit', 'another kit')), 'two: second shows no fact'),
        ('the crate is not proved as it stands', *both, then(other_source, ('broken', '')), 'toy is not proved as it stands'),
        ('a check that is cut off', *both, then(other_source, ('log', FACT_ONE)), 'ended with status 1 and no verdict'),
        ('a check that proves all', *both, then(other_source, ('log', 'logic=proved')), 'one: first shows no fact: it is still proved'),
        ('a mistake in what another makes', alone(ONE + '\n' + TWO.replace('a + 2 -', 'a + 1 -')), '', nothing, 'the old text is not in'),
        ('two mistakes in one function', alone(f'{ONE}\n{SAME}'), '', nothing, 'is in first too'),
        ('an old text that is not there', alone(ONE.replace('a + 1 - 1', 'a + 9')), '', nothing, 'the old text is not in src/lib.rt'),
        ('an old text that is there often', alone(ONE.replace('    a + 1 - 1', 'result ≡ a')), '', nothing, '3 times, in lines 6, 12, 18'),
        ('a constant without what shows it', alone(SEVEN.replace('# shows: most\n', '')), '', nothing, 'a line "# shows: NAME" has to'),
        ('a constant shown by another', alone(SEVEN.replace('shows: most', 'shows: first')), '', nothing, 'first does not name MOST'),
        ('two constants in one function', alone(f'{SEVEN}\n{LEAST}'), '', nothing, 'names MOST too, which seven changes'),
        ('two constants, each with its clause', alone(f'{HIGH}\n{LOW}'), CLAUSE % 'high' + CLAUSE % 'low', nothing, None),
        ('a constant whose clause still holds', alone(f'{HIGH}\n{LOW}'), CLAUSE % 'high', nothing, 'low: sizes shows no fact'),
        ('a constant shown by another clause', alone(HIGH.replace('clause high', 'clause low')), CLAUSE % 'high', nothing, 'high: sizes shows no fact'),
        ('a clause that is not there', alone(HIGH.replace('clause high', 'clause middle')), '', nothing, 'sizes has no clause middle'),
        ('two constants in one clause', alone(HIGH + '\n' + LOW.replace('clause low', 'clause high')), '', nothing, 'has to stand alone'),
        ('a harmless step more', alone(ONE.replace('- 2', '- 2 + 1')), '', nothing, 'one: it adds or takes away a step of first'),
        ('a step more, with its reason', alone(FORM), FACT_ONE, nothing, None),
        ('a reason for no step more', alone(FORM.replace('- 3 + 1', '- 2')), '', nothing, 'no "# form:" line'),
        ('a contract beside another mistake', alone(f'{ONE}\n{CONTRACT}'), '', nothing, 'has to stand alone'),
        ('a broken proof', alone(ONE.replace('src/lib.rt', 'proofs/first/Answers.antt')), '', nothing, 'a broken proof is no mistake'),
        ('two functions with one proof', *both, lambda folder: os.rename(f'{folder}/crates/toy/proofs/first', f'{folder}/crates/toy/proofs/+first+second'),
         'shows in the same proof'),
        ('a name twice', {'g': ONE, 'h': TWO.replace('# two', '# one')}, '', nothing, 'toy has two mistakes of this name'),
        ('a mistake without a name', alone(ONE.replace('# one: ', '# ')), '', nothing, 'a mistake begins with'),
    ]
    failed = 0
    for name, groups, log, change, must in cases:
        with tempfile.TemporaryDirectory() as folder:
            toy(folder, groups, log)
            refusals(folder)  # writes the page, where nothing is wrong
            change(folder)
            ended = refusals(folder, '--check')
        told = must is None or must in ended.stdout and 'Traceback' not in ended.stdout
        if ended.returncode != (must is not None) or not told:
            failed += 1
            print(f'FAILED: {name}: status {ended.returncode}\n{ended.stdout}')
    print(f'refusals: {len(cases) - failed} of {len(cases)} cases told as they must be')
    return 1 if failed else 0
