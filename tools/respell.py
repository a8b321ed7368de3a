#!/usr/bin/env python3
"""Brings the repository's own names in specs/, proofs/, clauses, edits and pages to one spelling.

usage: tools/respell.py        rewrites the files in place, run once, after the library's names have theirs
       tools/respell.py --list prints each old name with its new one, and writes nothing

Words are in snake case and a prime is an apostrophe. A dash stays where it joins the names of two functions, as in `length-paths_from`, in
the name of a law. What a library names, what a check makes, and names of Rattle source keep their spelling.
"""

import os
import re
import sys

NAME = re.compile(r"(?<![\w'′◌\-])[A-Za-z][\w'′?]*(?:-[\w'′?]+)*(?![\w'′◌])")
USE = re.compile(r"(?m)^(?:ghost )?use ([^{;\s]+)\.\{([^}]*)\}")
FUNCTION = re.compile(r"^\s*(?:unfoldable |abbrev )+(?:pub )?([A-Za-z][\w'′?-]*)[ {]")
LAW = re.compile(r"^\s*(?:pub )?([A-Za-z][\w'′?-]*)(?: \{[^}]*\})? :")
# words of the library's functions, operators and constructors that its laws are named by
LIBRARY = set("length take drop append map suc get_or set sets replicate add mul sub min max le lt eq mem iff zero one nil cons snoc pow".split())
# names that would fall together with another, and names that tell of one which the library has changed
LEMMAS = "clash-after clash-by fields-text first-free holder-from line-left line-text of-plan packet-of path-of read-in rows-text said-behind three-numbers top-line totals-told wait-at wait-of counts_of job_read last_line"
BY_HAND = {name: name.replace("-", "_") + "_lem" for name in LEMMAS.split()} | {
    "at-getD": "at-get_or",
    "Turned-down": "TurnedDown",
    "greedy-starts": "greedy-Starts",
    "nodes-least": "some_nodes",
    "nodes-most": "few_nodes",
    "links-most": "few_links",
    "packets-most": "few_packets",
    "hops-most": "few_hops",
    "job-text": "job_written",
    "plan-text": "plan_written",
    "path-at": "path_from",
    "jobText": "text_of_job",
    "planText": "text_of_plan",
}

# names in specs/ and proofs/ that were respelled with the library's: edits and pages follow
WITH_LIBRARY = """
    add-times after-first after-line all-append all-cons all-go all-said all-tell among-none and-intro and-left and-right any-append
    any-false any-same any-swap anyOf array-places as-many at-cut at-map at-mem at-none at-snoc at-take before-same below-suc bit-or
    bits-are bits-fit by-first by-number calls-is checked-refused claimsOf copied-all copied-none copied-some counted-start counts-of
    decimal-digit digit-lt digit-or digits-low digits-more distinct-snoc distinct-tail each-start each-turn end-on endOf ended-some
    enteredOf entries-next entries-none entry-here entry-of entryAt entryOf eqb-comm field-open fieldAt fields-free first-byte first-
    of first-on from-first from-place front-length front-of going-end going-on head-at held-first held-start is-b is-row job-read
    jobOf last-line last-then le-total left-end line-refused lineAt lineOf lines-start link-here linkAt linkOf load-lt markOf marked-
    more marked-start marked-turn maxOf more-within moved-at mul-at mul-next mul-wide never-both next-start no-fields no-length no-
    line no-number no-place no-room no-second no-start no-third none-left not-found not-iff nothing-lent number-at number-fits number-
    read numberOf on-none one-link one-more onward-then or-right orElse other-at other-word part-length part-slice partOf pieces-whole
    placeOf placed-at put-rest put-then read-first read-of read-told readingOf reads-more room-of room-within roomFor row-is rowOf
    rows-end rows-none rows-start rows-told rows-written rowsFrom rowsOf said-of same-answer same-bit same-end same-length same-line
    same-place same-start same-test same-true same-word seen-here seen-none so-far soFar some-same split-rest start-first startAt
    starts-first step-fits stops-same sum-same sumOf taken-next takes-one tells-row to-at told-line told-none too-long too-short up-to
    upFrom value-low value-on walk-begins walk-refused walked-start whole-length withNext word-fits written-once writtenOf zero-word
""".split()


def crates(root):
    with open(os.path.join(root, "crates.txt")) as f:
        return [re.split(r"[\s:]", line)[0] for line in f if line.strip() and not line.startswith("#")]


def files(root, endings):
    for folder, dirs, names in os.walk(os.path.join(root, "crates")):
        dirs[:] = sorted(d for d in dirs if d != "out")
        for name in sorted(names):
            if name.endswith(endings):
                yield os.path.join(folder, name)


def of_a_function(path):
    """Whether a file of proofs/ belongs to the proof of one function."""
    below = path.rpartition("/proofs/")[2]
    return "/proofs/" in path and "/" in below


def text_of(path):
    with open(path, encoding="utf-8") as f:
        return f.read()


def without_comments(text):
    return re.sub(r"--.*", "", text)


def foreign(root, own):
    """Names that a library has, or that a check makes of the source."""
    names = set()
    for path in files(root, (".antt", ".rt")):
        for module, items in USE.findall(text_of(path)):
            ours = re.match(r"Rattle\.(\w+)\.(specs|proofs)\.(\w)", module)
            made = re.match(r"Rattle\.\w+\.(specs\.(declared|contracts)|proofs\.[a-z])", module)
            if not ours or ours.group(1) not in own or made:
                names.update(re.split(r" as ", item.strip())[0] for item in items.split(","))
    return names


def defined(root):
    """The names of our functions, and of our laws."""
    functions, laws = set(), set()
    for path in files(root, (".antt",)):
        if of_a_function(path):
            continue
        block = None
        for line in without_comments(text_of(path)).split("\n"):
            indent = len(line) - len(line.lstrip())
            if block is not None and line.strip() and indent <= block:
                block = None
            if re.match(r"^\s*(?:pub )?(?:record|data) ", line):
                block = indent
                continue
            if block is not None:
                continue
            found = FUNCTION.match(line)
            if found:
                functions.add(found.group(1))
                continue
            found = LAW.match(line)
            if found:
                laws.add(found.group(1))
    return functions, laws


def snake(word):
    word = word.replace("′", "'")
    if word[:1].isupper():
        return word
    word = re.sub(r"(?<=[a-z0-9'])([A-Z])", r"_\1", word)
    return word.lower() if re.search(r"[a-z]_[A-Z]", word) else word


def joined(words, known):
    """The words of a law's name: the longest known names first, a dash between two that follow one another."""
    parts, i = [], 0
    while i < len(words):
        for j in range(len(words), i, -1):
            name = "_".join(words[i:j])
            if name in known or j == i + 1:
                parts.append((name, name in known))
                i = j
                break
    out = parts[0][0]
    for (_, left), (name, right) in zip(parts, parts[1:]):
        out += ("-" if left and right else "_") + name
    return out


def respelling(root):
    own = crates(root)
    skip = foreign(root, own)
    functions, laws = defined(root)
    known = ({snake(f).replace("-", "_") for f in functions} | LIBRARY) - {"of"}
    names = set()
    for path in files(root, (".antt",)):
        if not of_a_function(path):
            names.update(NAME.findall(without_comments(text_of(path))))
    for path in files(root, (".rt",)):
        for _, items in USE.findall(text_of(path)):
            names.update(item.split(" as ")[1].strip() for item in items.split(",") if " as " in item)
    turned = {}
    for name in sorted(names - skip):
        if name not in BY_HAND and not ("-" in name or "′" in name or re.match(r"[a-z][\w]*[A-Z]", name)):
            continue
        words = [snake(w) for w in name.split("-")]
        new = joined(words, known) if name in laws and name not in functions else "_".join(words)
        new = BY_HAND.get(name, new)
        if new != name:
            turned[name] = new
    return turned, names | skip


def alike(turned, names):
    """Names that fall together."""
    seen = {}
    for name in names:
        seen.setdefault(turned.get(name, name), []).append(name)
    return {new: olds for new, olds in seen.items() if len(olds) > 1}


def turn(line, turned):
    return NAME.sub(lambda m: turned.get(m.group(0), m.group(0)), line)


def turn_quoted(line, turned):
    """Prose: names in backticks, and words that only a name can be."""
    line = re.sub(r"`[^`]*`", lambda m: turn(m.group(0), turned), line)
    return NAME.sub(lambda m: turned.get(m.group(0), m.group(0)) if re.match(r"[a-z]\w*[A-Z]", m.group(0)) else m.group(0), line)


def turn_antt(text, turned):
    out = []
    for line in text.split("\n"):
        code, dashes, note = line.partition("--")
        out.append(turn(code, turned) + dashes + turn_quoted(note, turned))
    return "\n".join(out)


def turn_rt(text, turned):
    return "\n".join(turn_quoted(line, turned) if line.lstrip().startswith("//") else turn(line, turned) for line in text.split("\n"))


def turn_edit(text, turned):
    out = []
    for line in text.split("\n"):
        if re.match(r"(old|new):|# shows:", line):
            head, colon, rest = line.partition(":")
            out.append(head + colon + turn(rest, turned))
        else:
            out.append(turn_quoted(line, turned))
    return "\n".join(out)


def turn_page(text, turned):
    return "\n".join(turn_quoted(line, turned) for line in text.split("\n"))


def main(argv):
    root = os.path.dirname(os.path.dirname(os.path.abspath(__file__))) if not os.environ.get("RESPELL_ROOT") else os.environ["RESPELL_ROOT"]
    turned, names = respelling(root)
    for new, olds in sorted(alike(turned, names).items()):
        print(f"alike: {' '.join(sorted(olds))} -> {new}")
    if argv == ["--list"]:
        for name in sorted(turned):
            print(f"{name} {turned[name]}")
        return
    told = {name: "_".join(snake(w) for w in name.split("-")) for name in WITH_LIBRARY} | turned
    work = [(p, turn_antt) for p in files(root, (".antt",))] + [(p, turn_rt) for p in files(root, (".rt",))] + [(p, turn_edit) for p in files(root, (".edit",))]
    pages = ["README.md", "CONTRIBUTING.md"] + [os.path.join(d, f) for d, _, fs in os.walk(os.path.join(root, "docs")) for f in sorted(fs) if f.endswith(".md")]
    work += [(os.path.join(root, p), turn_page) for p in pages]
    for path, how in work:
        old = text_of(path)
        new = how(old, told if how in (turn_edit, turn_page) else turned)
        if new != old:
            with open(path, "w", encoding="utf-8") as f:
                f.write(new)
    print(f"{len(turned)} names respelled")


if __name__ == "__main__":
    main(sys.argv[1:])
