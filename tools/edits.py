"""The mistakes that the prover must refuse, for the tools that read them: the groups of crates/*/must-fail/*.edit, the function that
each mistake changes, and what rt check says of it.

A group has blocks, parted by blank lines. A block is one mistake:

    # NAME: SENTENCE
    # shows: FUNCTION OR THEOREM
    # form: WHY IT IS A MISTAKE
    # names: OLD NEW
    file: src/lib.rt
    old: TEXT
    new: TEXT

A mistake in the body of a function has no `shows:` line: it must show there, and a group has at most one for each function. A mistake
anywhere else, as in a constant, a contract or a definition, shows in whatever cites it: it names one function or theorem that must show
it, and stands alone in its group. Constants that only bodies name may share a group, if what must show each names no other of them. So
each mistake shows by itself: nothing but itself touches what must show it. A constant that a clause of a contract names shows there:
`# shows: FUNCTION clause CLAUSE`. No other line of a contract names it, and the clause names no other that the group changes.

A mistake changes operands and leaves the code's form. Where it adds or takes away a step of a function with a proof written by hand,
that proof could be refused after a harmless change too; such a mistake says in a `form:` line why it is one, for a reader to judge.

The name of a goal has in it the operands and the conditions that lead there, as `then-n-lt10` has `n < 10`. A mistake in one of these says
in a `names:` line how it changes that part of a name, and the proof is tried with it renamed: else it would only miss the old names."""
import glob, os, re
from collections import namedtuple

ROOT = os.path.dirname(os.path.dirname(os.path.abspath(__file__)))
Mistake = namedtuple('Mistake', 'crate group name sentence shows form names pairs line')
# names: (old, new), pairs: (file, old, new), line: of its name
Function = namedtuple('Function', 'name file first body last')  # name as in proofs/; lines from 1; body: the line of its brace


class Trouble(Exception):
    """What is wrong with a group, in a sentence that begins with its place."""


def groups():
    """The files of all groups, by crate and then by name."""
    return sorted(os.path.relpath(path, ROOT) for path in glob.glob(f'{ROOT}/crates/*/must-fail/*.edit'))


def read(path):
    """The mistakes of one group."""
    crate, group = path.split('/')[-3], os.path.basename(path)[:-len('.edit')]
    found, block = [], []
    with open(os.path.join(ROOT, path), encoding='utf-8') as lines:
        for number, line in enumerate([*lines, '\n'], 1):
            line = line.rstrip('\n')
            if line.strip():
                block.append((number, line))
            elif block:
                found.append(mistake(path, crate, group, block))
                block = []
    if not found:
        raise Trouble(f'{path}: no mistake in it')
    return found


def mistake(path, crate, group, block):
    number, first = block[0]
    head = re.fullmatch(r'# (\w+): (\S.*)', first)
    if not head or head[1] in ('shows', 'form', 'names'):
        raise Trouble(f'{path}:{number}: a mistake begins with "# NAME: SENTENCE", not with "{first}"')
    shows = form = file = old = None
    names, pairs = [], []
    for at, line in block[1:]:
        word, said = line.split(' ', 1) if ' ' in line else (line, '')
        if line.startswith('# shows: ') and not shows and not file:
            shows = line[len('# shows: '):].strip()
        elif line.startswith('# form: ') and not form and not file:
            form = line[len('# form: '):].strip()
        elif re.fullmatch(r'# names: \S+ \S+', line) and not file:
            names.append(tuple(line.split()[2:]))
        elif word == 'file:' and old is None:
            file = said
        elif word == 'old:' and file and old is None and said:
            old = said
        elif word == 'new:' and old is not None:
            if old == said:
                raise Trouble(f'{path}:{at}: {head[1]}: the new text is the old one')
            pairs.append((file, old, said))
            old = None
        else:
            raise Trouble(f'{path}:{at}: {head[1]}: "{line}" is not what comes next (see tools/edits.py)')
    if not pairs or old is not None:
        raise Trouble(f'{path}:{number}: {head[1]}: no pair of "old:" and "new:"')
    return Mistake(crate, group, head[1], head[2], shows, form, tuple(names), tuple(pairs), number)


def place(one):
    return f'crates/{one.crate}/must-fail/{one.group}.edit:{one.line}: {one.name}'


def functions(text, file):
    """The functions of one source file. rt fmt lays them out: a function begins with its attributes, and ends at the first brace that
    stands alone in its column, and so does the type whose methods it may be one of."""
    module = os.path.basename(file)[:-len('.rt')]
    prefix = '' if module in ('lib', 'main') else module + '/'
    found, of, start, above = [], '', None, None
    for number, line in enumerate(text.split('\n'), 1):
        begun = re.match(r'( *)(?:pub(?:\([^)]*\))? )?(?:extern "C" )?fn (\w+)', line)
        if re.match(r'impl\b', line):
            of = re.match(r"impl(?:<[^>]*>)? (?:\w+ for )?(\w+)", line)[1] + '/'
        elif begun and start is None:
            start, name, edge, body = above or number, prefix + of + begun[2], begun[1], None
        elif line == '}' and start is None:
            of = ''
        above = (above or number) if line.lstrip().startswith('#[') else None
        if start is not None:
            if body is None and (line == edge + '{' or line.endswith(' {') and not re.match(r' *(requires|ensures)\b', line)):
                body = number
            if line in (edge + '}', edge + '{}') or body == number and line.endswith('}'):
                found.append(Function(name, file, start, body or number, number))
                start = None
    return found


def crate_functions(folder, texts):
    """The functions of a crate, whose files stand in that folder, by name; those files are changed that have a text."""
    found = {}
    for path in sorted(glob.glob(f'{folder}/src/*.rt')):
        file = 'src/' + os.path.basename(path)
        for one in functions(texts.get(file) or open(path, encoding='utf-8').read(), file):
            found[one.name] = one
    return found


def replace(where, texts, folder, pair):
    """Makes one replacement in texts, where each changed file's text is kept, and gives the line where it begins."""
    file, old, new = pair
    if file not in texts:
        if not re.match(r'(src|specs)/', file) or '..' in file or not os.path.isfile(f'{folder}/{file}'):
            raise Trouble(f'{where}: {file} is no file of its crate\'s src/ or specs/: a broken proof is no mistake')
        texts[file] = open(f'{folder}/{file}', encoding='utf-8').read()
    places = [found.start() for found in re.finditer(f'(?={re.escape(old)})', texts[file])]
    if not places:
        raise Trouble(f'{where}: the old text is not in {file}: "{old}"')
    lines = [texts[file].count('\n', 0, place) + 1 for place in places]
    if len(places) > 1:
        raise Trouble(f'{where}: the old text is in {file} {len(places)} times, in lines {", ".join(map(str, lines))}: "{old}"')
    texts[file] = texts[file][:places[0]] + new + texts[file][places[0] + len(old):]
    return lines[0]


def apply(found, folder):
    """The texts of the files that these mistakes change, in a crate's folder, as rt must-fail changes them."""
    texts = {}
    for one in found:
        for pair in one.pairs:
            replace(place(one) + (', after those above it' if one != found[0] else ''), texts, folder, pair)
    return texts


def trial_texts(found, shown, folder):
    """The texts of the files that a trial of these mistakes changes: those of apply, and the proofs in which names change."""
    texts = apply(found, folder)
    for one in found:
        proof = proof_of(shown[one.name][0], folder)
        paths = glob.glob(f'{folder}/{proof}/*.antt') if proof else []
        proofs = {os.path.relpath(path, folder): open(path, encoding='utf-8').read() for path in paths}
        for old, new in one.names:
            part = rf'(?<!\w){re.escape(old)}(?!\w)'
            if '-' not in old or not any(re.search(rf'\b(goal|c|l)\.[\w.+-]*{part}', text) for text in proofs.values()):
                raise Trouble(f'{place(one)}: "# names: {old} {new}": no goal or step is named so in what is written of the proof')
            proofs = {file: re.sub(part, new, text) for file, text in proofs.items()}
        texts.update(proofs if one.names else {})
    return texts


def holder(one, folder):
    """The function whose body holds all that a mistake changes; None where it changes something else."""
    where = place(one)
    texts, held = {}, set()
    for pair in one.pairs:
        line = replace(where, texts, folder, pair)
        inside = [f for f in functions(texts[pair[0]], pair[0]) if f.body < line < f.last] if pair[0].startswith('src/') else []
        held.add(inside[0].name if inside else None)
    if len(held) > 1:
        raise Trouble(f'{where}: it changes more than one function, or one and something else: {", ".join(sorted(map(str, held)))}')
    return held.pop()


def steps(texts):
    """What gives code its form: all but names, numbers, commas, and which comparison or division it is."""
    tokens = re.findall(r"b?'(?:\\.|[^'])'|\w+|[<>=!]=|&&|\|\||=>|->|\S", ' '.join(texts))
    kinds = {'<': '<', '<=': '<', '>': '<', '>=': '<', '==': '<', '!=': '<', '%': '/'}
    return sorted(kinds.get(token, token) for token in tokens if token == 'as' or not re.match(r"b?'|\w|[:,]", token))


def changes_form(one):
    """Whether a mistake adds or takes away a step."""
    return steps(pair[1] for pair in one.pairs) != steps(pair[2] for pair in one.pairs)


def proof_of(name, folder):
    """The folder of what is written by hand of a function's proof, if anything is. Functions that call each other share one, named
    +one+other."""
    above, _, last = f'proofs/{name}'.rpartition('/')
    for found in glob.glob(f'{folder}/{above}/*/*.antt'):
        if last in os.path.basename(os.path.dirname(found)).split('+'):
            return os.path.relpath(os.path.dirname(found), folder)
    return None


def bare(text):
    """A source's text without comments, its lines as they were."""
    return re.sub(r'//.*', '', text)


def clause_of(code, clause):
    """The line of a function that has the clause of that name."""
    found = re.findall(rf'^ *ensures {clause} {{.*', code, re.M)
    return found[0] if len(found) == 1 else ''


def constant(one, folder, clause=''):
    """The constant of the source that a mistake changes, if it changes nothing else, and no signature, contract or other constant
    names it, but that clause: what it changes then shows in those functions alone whose bodies name it, and in the clause."""
    named = set()
    for file, old, _ in one.pairs:
        text = open(f'{folder}/{file}', encoding='utf-8').read()
        begin = text.rfind('\n', 0, text.find(old)) + 1
        found = re.match(r' *(?:pub )?const (\w+):', text[begin:text.find('\n', begin)])
        named.add(found[1] if found and file.startswith('src/') else None)
    name = named.pop()
    if named or not name:
        return None
    outside = 0
    for path in glob.glob(f'{folder}/src/*.rt'):
        lines = bare(open(path, encoding='utf-8').read()).split('\n')
        for f in functions('\n'.join(lines), os.path.basename(path)):
            lines[f.body - 1:f.last] = [''] * (f.last - f.body + 1)
        outside += len(re.findall(rf'\b{name}\b', '\n'.join(lines)))
    return name if outside - len(re.findall(rf'\b{name}\b', clause)) == 1 else None


def theorem(name, folder):
    """The file that states a theorem of that name, outside the proofs of functions."""
    for path in sorted(glob.glob(f'{folder}/proofs/*.antt') + glob.glob(f'{folder}/specs/*.antt')):
        if re.search(rf'^ *(?:pub |unfoldable |abbrev )*{re.escape(name)} :', open(path, encoding='utf-8').read(), re.M):
            return os.path.relpath(path, folder)
    return None


def showers(found, folder):
    """What must show each mistake of a group, by the mistake's name: a function, or a theorem with its file. Trouble where what must
    show one of them is touched by another too, since then neither would show by itself."""
    holders = {one.name: holder(one, folder) for one in found}  # each alone first, since each may be tried alone
    texts = apply(found, folder)
    code = {}
    for f in crate_functions(folder, texts).values():
        text = texts.get(f.file) or open(f'{folder}/{f.file}', encoding='utf-8').read()
        code[f.name] = '\n'.join(bare(text).split('\n')[f.first - 1:f.last])
    shown, changed = {}, {}
    for one in found:
        held = holders[one.name]
        if held and one.shows:
            raise Trouble(f'{place(one)}: it changes the function {held}, which must show it: no "# shows:" line')
        if held and changes_form(one) and proof_of(held, folder) and not one.form:
            raise Trouble(f'{place(one)}: it adds or takes away a step of {held}, and then a harmless change could be refused too:'
                          ' change operands only, or let a line "# form: WHY" say why it is a mistake')
        if one.form and not (held and changes_form(one)):
            raise Trouble(f'{place(one)}: it leaves the form of the code: no "# form:" line')
        if not held and not one.shows:
            raise Trouble(f'{place(one)}: it changes no function\'s body: a line "# shows: NAME" has to say which function or theorem'
                          ' shows it')
        name, _, clause = (held or one.shows).partition(' clause ')
        told = clause_of(code.get(name, ''), clause)
        if clause and not told:
            raise Trouble(f'{place(one)}: {name} has no clause {clause}, which should show it')
        if not held:
            changed[one.name] = constant(one, folder, told)
            if not changed[one.name] and len(found) > 1:
                raise Trouble(f'{place(one)}: what it changes shows wherever it is cited, so it has to stand alone in its group')
        if name in code:
            if not held and changed[one.name] and not re.search(rf'\b{changed[one.name]}\b', told or code[name]):
                raise Trouble(f'{place(one)}: {name} does not name {changed[one.name]}, so it cannot show it')
            show = name, None, clause
        else:
            show = name, theorem(name, folder), ''
            if not show[1]:
                raise Trouble(f'{place(one)}: no function or theorem {name}, which should show it')
        for other, theirs in shown.items():
            if theirs == show:
                raise Trouble(f'{place(one)}: {other} of this group is in {name} too: each function shows one mistake')
            if name == theirs[0] and not (clause and theirs[2]):
                raise Trouble(f'{place(one)}: {other} of this group is in {name} too: each function shows one mistake')
            if name in code and theirs[0] in code and proof_of(name, folder) and proof_of(name, folder) == proof_of(theirs[0], folder):
                raise Trouble(f'{place(one)}: {other} of this group shows in the same proof, and neither would show by itself')
        shown[one.name] = show
    for one in found:
        for other, its in changed.items():
            name, _, clause = shown[one.name]
            named = clause_of(code[name], clause) if clause else code.get(name, '')
            if other != one.name and its and re.search(rf'\b{its}\b', named):
                raise Trouble(f'{place(one)}: {name}, which must show it, names {its} too, which {other} changes')
    return shown


Said = namedtuple('Said', 'file line column name text')  # an error: where, the goal or theorem that it names, what it says


def said(log):
    """The errors that rt check tells of a crate."""
    found, goes_on = [], False
    for line in log.split('\n'):
        told = re.match(r'(note: )?(?:\./)?(\S+?):(\d+):(\d+): (error: )?(.*)', line)
        if told and (told[5] or told[1] and 'it is not proved that' in told[6]):
            name = re.match(r'`([^`]+)`: ', told[6]) or re.search(r'\(`([^`]+)`\)', told[6])
            found.append(Said(told[2], int(told[3]), int(told[4]), name[1] if name else '', told[6]))
            goes_on = True
        elif goes_on and line.startswith('  '):
            found[-1] = found[-1]._replace(text=found[-1].text + '\n' + line.strip())
        else:
            goes_on = False
    return sorted(found)  # the prover's order may change from run to run


def own(show, folder, texts, found):
    """Those errors that are in what must show a mistake. The texts are those of the files as edited, to whose lines the errors refer."""
    name, file, clause = show
    if clause:
        found = [s for s in found if s.name.endswith(f'-clause-{clause}')]
    if file:
        return [s for s in found if s.file == file and s.name == name]
    function = crate_functions(folder, texts)[name]
    proof = proof_of(name, folder)
    return [s for s in found if proof and s.file.startswith(proof + '/')
            or s.file == function.file and function.first <= s.line <= function.last]


FOLLOWS = re.compile(r'declarations? that depends? on .*, (was|were) not checked')
NOT_THERE = re.compile('|'.join((
    r'has no (field|`)', r'not in scope', r'is not a record', r'not determined', r'that can be named from here', r'unexpected',
    r'no proof: expected')))
OTHER_GOAL = re.compile(r'expected type `[^` ]*\b[gG]oals?\.[^`]*`,?\s*but this has type `[^` ]*\b[gG]oals?\.')
REFUSED = re.compile('|'.join((
    r'`omega`: (the goal does not follow|the part)', r'`search`: no proof of', r'`grind`(: the goal does not follow| found no proof)',
    r'`cc`(: the equations do not join| met a bound of its own before the equations had joined)',
    r"`rw`: (no occurrence of the path's|no part of the goal|the first part of the goal that looks like an instance)",
    r'`simp`: no equation of the list',
    r'give a proof of that as the last argument', r'the two (types|sides) (are|differ|first differ)',
    r'expected type `[^`]*`,?\s*but this has type', r'does not hold \(this comparison')))


def kind(one):
    """What an error says: a fact, that is a goal or a theorem, by name, that is refused for what it says; that a proof does not fit the
    code's shape, with names, fields or goals that are not there or in another's place; or only that something before it was refused. What is not known to be
    a fact is counted as shape."""
    first = one.text.split('\n')[0]
    if FOLLOWS.search(first):
        return 'follows'
    if first.startswith('it is not proved that'):
        return 'fact'
    if not one.name or NOT_THERE.search(first) or OTHER_GOAL.search(one.text):
        return 'shape'
    return 'fact' if REFUSED.search(one.text) else 'shape'


def judged(mine):
    """What the errors of a function say: (kind, error). Where its proof does not fit, a goal that is not proved may be one whose answer has
    another name: then it is a fact only if the prover found that it is false."""
    kinds = [kind(one) for one in mine]
    unsure = lambda one: 'shape' in kinds and one.text.startswith('it is not proved that') and 'at which this goal is false' not in one.text
    return [('shape' if unsure(one) else its, one) for its, one in zip(kinds, mine)]


def without_fact(mine):
    """Why these errors of a function show nothing."""
    if any(kind(one) == 'shape' for one in mine):
        return "only that its proof no longer fits the code's shape (a condition's names are mended by a \"# names:\" line)"
    return 'it is refused only with something that it stands on' if mine else 'it is still proved'
