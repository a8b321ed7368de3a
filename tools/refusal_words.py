"""What a refusal of a job's text, or of a plan's, says to a person: the line, made visible, what is wrong with it and what is expected
there; and what a clash says. The programs decide and are proved; this only finds words for what they decided."""

TEXT_MOST, NUMBER_MOST = 65535, 65535
NODES, LINKS, PACKETS, PATH, HOPS = 1024, 4096, 1024, 255, 16384
LATEST_START = 32767

LINES = {b'N': 'N, the number of nodes', b'L': 'L, the node it leaves, the node it enters', b'P': 'P, the source, the links of the path'}


def visible(line):
    marks = {9: r'\t', 13: r'\r', 92: r'\\'}
    text = ''.join(marks.get(b) or (chr(b) if 32 <= b < 127 else f'\\x{b:02x}') for b in line[:100])
    return f'`{text}`' + (f' .. ({len(line)} bytes)' if len(line) > 100 else '')


def numbers(line):
    return [int(field) for field in line.split(b'\t')[1:]]


class Above:
    """What the lines above a line say: they were accepted, so they are as they should be."""
    def __init__(self, lines):
        self.nodes = numbers(lines[0])[0] if lines else 0
        self.links = [numbers(l) for l in lines if l.startswith(b'L')]
        self.packets = [numbers(l) for l in lines if l.startswith(b'P')]
        self.hops = sum(len(p) - 1 for p in self.packets)

# ---- 2: bad form. The first row whose test holds is told.


def bad_number(line):
    for field in line.split(b'\t')[1:]:
        if not field:
            return 'a field is empty'
        if not field.isdigit():
            return f'{visible(field)} is no number: numbers are written with digits alone'
        if len(field) > 1 and field.startswith(b'0'):
            return f'{visible(field)} has a zero in front'
        if len(field) > 5 or int(field) > NUMBER_MOST:  # python does not turn thousands of digits into a number
            return f'{visible(field)} is over 65,535, the greatest number that a field may have'


def wrong_count(line):
    letter, count = line[:1], line.count(b'\t')
    if letter in (b'N', b'L') and count != (1 if letter == b'N' else 2) or letter == b'P' and count == 0:
        return f'such a line has {LINES[letter]}, and nothing else'

BAD_FORM = [
    (lambda n, line, last, above: n == 1 and last and not line, 'the job is empty; its first line is N, a tab and the number of nodes'),
    (lambda n, line, last, above: line[:3] == b'\xef\xbb\xbf', 'a byte order mark; a job is plain ASCII'),
    (lambda n, line, last, above: b'\r' in line, 'a carriage return; a line ends in a line feed alone'),
    (lambda n, line, last, above: last, 'the last line is not ended by a line feed, as every line must be'),
    (lambda n, line, last, above: not line, 'the line is empty, and a job has no empty lines'),
    (lambda n, line, last, above: line[:1] not in LINES, 'a line begins with N, L or P; there are no others, and no comments'),
    (lambda n, line, last, above: b' ' in line, 'a space; fields are parted by one tab, and there are no spaces'),
    (lambda n, line, last, above: line[:2] != line[:1] + b'\t', 'behind its letter a line has a tab and a number'),
    (lambda n, line, last, above: n == 1 and line[:1] != b'N', 'the first line must be N, a tab and the number of nodes'),
    (lambda n, line, last, above: n > 1 and line[:1] == b'N', 'the number of nodes is said once, on line 1'),
    (lambda n, line, last, above: bad_number(line), lambda n, line, above: bad_number(line)),
    (lambda n, line, last, above: wrong_count(line), lambda n, line, above: wrong_count(line)),
    (lambda n, line, last, above: line[:1] == b'L' and above.packets, 'a link below a packet; all L lines stand above the P lines'),
]


def bad_form(n, line, last, above):
    for test, words in BAD_FORM:
        if test(n, line, last, above):
            return words if isinstance(words, str) else words(n, line, above)
    return 'it is not written as a line of a job is'

# ---- 3 to 8, and 15: what a line says


def size(n, line, above):
    if line[:1] == b'N':
        return f'a job has 1 to {NODES:,} nodes'
    if line[:1] == b'L':
        return f'there are {LINKS:,} links above it, and a job has no more'
    hops = len(numbers(line)) - 1
    if len(above.packets) >= PACKETS:
        return f'there are {PACKETS:,} packets above it, and a job has no more'
    if above.hops + hops > HOPS:
        return f'with this path the job has {above.hops + hops:,} hops, and a job has at most {HOPS:,} in all'
    return f'the path has {hops} hops, and a path has at most {PATH}'


def no_node(n, line, above):
    ends = numbers(line)[:2] if line[:1] == b'L' else numbers(line)[:1]
    node = next((v for v in ends if v >= above.nodes), ends[0])
    return f'there is no node {node}: the job has {above.nodes}, numbered from 0'


def path_trouble(n, line, above):
    source, *path = numbers(line)
    reached, visited = source, [source]
    for hop, link in enumerate(path):
        if link >= len(above.links):
            return f'hop {hop}: there is no link {link}: above this line there are {len(above.links)}, numbered from 0'
        begin, end = above.links[link]
        if begin != reached:
            return f'hop {hop}: link {link} leaves node {begin}, but the packet has come to node {reached}'
        if end in visited:
            return f'hop {hop}: link {link} enters node {end}, where the packet has been before'
        reached = end
        visited.append(end)
    return 'the path cannot be gone'

SAYS = {
    3: size, 4: no_node, 5: lambda n, line, above: 'the link enters the node that it leaves', 6: path_trouble, 7: path_trouble, 8: path_trouble,
    15: lambda n, line, above: f'the packet has no hops, so it would go nowhere: behind the source a P line has 1 to {PATH} links',
}


def explained(number, n, job):
    """One sentence for a refusal of this number at line n of the job."""
    if number == 1:
        return f'the job has more than {TEXT_MOST:,} bytes, the most that a job may have (refusal 1)'
    lines = job.split(b'\n')
    line, last, above = lines[n - 1], n == len(lines), Above(lines[:n - 1])
    wrong = bad_form(n, line, last, above) if number == 2 else SAYS[number](n, line, above)
    return f'line {n}: {visible(line)}: {wrong} (refusal {number})'

# ---- A plan and its job, which was accepted

PLAN_LINES = {b'S': 'S, the packet, its start, its end', b'T': 'T, the routing time, C, D'}
LAST = 'the last line of a plan is T, the routing time, C, D'


class Said:
    """What a plan's lines up to the T line say, those that are as they should be, and what follows from them for its job."""
    def __init__(self, lines, job):
        self.job = Above(job.split(b'\n')[:-1])
        self.hops = [len(p) - 1 for p in self.job.packets]
        self.s_lines = next((i for i, line in enumerate(lines) if line[:1] != b'S'), len(lines))

    def counts(self, lines):
        """Routing time, C and D."""
        ends = [numbers(line)[2] for line in lines[:self.s_lines]]
        loads = [0] * len(self.job.links)
        for packet in self.job.packets:
            for link in packet[1:]:
                loads[link] += 1
        return [max(ends, default=0), max(loads, default=0), max(self.hops, default=0)]


def wrong_packet(n, line):
    named = int(line.split(b'\t')[1])
    return f'this is the line of packet {n - 1}, and not of packet {named}: a plan has a line for each packet, in order, from 0'

# The first row whose test holds is told: n the line, last whether it is cut, below whether it stands below the T line.
BAD_PLAN_FORM = [
    (lambda n, line, last, below: below, f'the plan goes on below its T line, and {LAST}'),
    (lambda n, line, last, below: last and not line, f'the plan ends above this line, and {LAST}'),
    (lambda n, line, last, below: line[:3] == b'\xef\xbb\xbf', 'a byte order mark; a plan is plain ASCII'),
    (lambda n, line, last, below: b'\r' in line, 'a carriage return; a line ends in a line feed alone'),
    (lambda n, line, last, below: last, 'the last line is not ended by a line feed, as every line must be'),
    (lambda n, line, last, below: not line, f'the line is empty, and {LAST}'),
    (lambda n, line, last, below: line[:1] not in PLAN_LINES, f'below the S lines there is one line more: {LAST}'),
    (lambda n, line, last, below: b' ' in line, 'a space; fields are parted by one tab, and there are no spaces'),
    (lambda n, line, last, below: line[:2] != line[:1] + b'\t', 'behind its letter a line has a tab and a number'),
    (lambda n, line, last, below: bad_number(line), lambda n, line: bad_number(line)),
    (lambda n, line, last, below: line.count(b'\t') != 3, lambda n, line: f'such a line has {PLAN_LINES[line[:1]]}, and nothing else'),
    (lambda n, line, last, below: line[:1] == b'S', wrong_packet),
]


def bad_plan_form(n, line, last, below):
    for test, words in BAD_PLAN_FORM:
        if test(n, line, last, below):
            return words if isinstance(words, str) else words(n, line)
    return 'it is not written as a line of a plan is'


def does_not_follow(n, line, said, lines):
    """What 14 is told for: an end, or on the T line the first number that is wrong."""
    if line[:1] == b'S':
        _, start, end = numbers(line)
        hops = said.hops[n - 1]
        return f'the end is the start and the hops of the packet together, {start} + {hops} = {start + hops}, and not {end}'
    for name, told, right in zip(('the routing time', 'C, the packets on the busiest link,', 'D, the hops of the longest path,'),
                                 numbers(line), said.counts(lines)):
        if told != right:
            return f'{name} is {right}, and not {told}'
    return 'the line does not follow from the starts'


def plan_explained(number, n, plan, job):
    """One sentence for a refusal of this number at line n of the plan, 0 where no line is to blame."""
    if number == 1:
        return f'the plan has more than {TEXT_MOST:,} bytes, the most that it may have (refusal 1)'
    lines = plan.split(b'\n')
    said = Said(lines, job)
    if number == 11:
        packets, ended = len(said.hops), said.s_lines
        where = f'; line {ended + 1} is none: {visible(lines[ended])}' if ended < packets else ''
        return f'there have to be as many S lines in the plan as packets in the job: {packets}, and not {ended}{where} (refusal 11)'
    line = lines[n - 1]
    if number == 2:
        wrong = bad_plan_form(n, line, n == len(lines), n > said.s_lines + 1)
    elif number == 12:
        wrong = f'the start is {numbers(line)[1]:,}, and a start is at most {LATEST_START:,}'
    else:
        wrong = does_not_follow(n, line, said, lines)
    return f'line {n}: {visible(line)}: {wrong} (refusal {number})'


def clash(later, earlier, link, step):
    return f'packet {later} and packet {earlier}, which is above it in the list, both enter link {link} in step {step}'
