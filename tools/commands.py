"""What the commands for people, tools/plan and tools/check, have in common: they read what they are given themselves, so that they can
say what is wrong in it, hand it to the proved program, and pass on what the program prints."""
import os, sys
import programs, refusal_words

OUTPUT = 1


def write(name, text):
    try:
        while text:
            text = text[os.write(OUTPUT, text):]
    except OSError as error:
        programs.fail(name, f'standard output: {error.strerror}')


def read(name, source, said):
    """As much of a text as the program reads: one byte more than a text may have tells that it is too long. The source is a file's name
    or an open file's number; an error is told with what is said of it."""
    try:
        text, opened = b'', os.open(source, os.O_RDONLY) if isinstance(source, str) else source
        while len(text) <= refusal_words.TEXT_MOST:
            more = os.read(opened, refusal_words.TEXT_MOST + 1 - len(text))
            if not more:
                break
            text += more
        os.close(opened)
        return text
    except OSError as error:
        programs.fail(name, f'{said}: {error.strerror}')


def answer_options(name, words, help_text):
    """Answers --help and --version, and tells an option that there is not. Without options all words are files."""
    if words in (['--help'], ['--version']):
        write(name, ((help_text if words == ['--help'] else programs.version(name)) + '\n').encode())
        sys.exit(0)
    for word in words:
        if word.startswith('-'):
            programs.fail(name, f'no such option: {ascii(word)} (tools/{name} --help)')


def pass_on(name, told, sentence):
    """Writes what the program printed. The status is 2 if it printed nothing; else 1 if there is a sentence for it, which standard error
    gets; else 0."""
    write(name, told.stdout)
    if told.returncode or not told.stdout:
        return 2
    letter, *fields = told.stdout.split()
    said = sentence(letter, [int(field) for field in fields]) if letter in (b'R', b'Q', b'C') else None
    if said:
        print(f'{name}: {said}', file=sys.stderr)
    return 1 if said else 0
