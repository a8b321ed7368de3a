"""Checks a plan, whoever made it, against its job: prints whether all packets are kept apart, or where two meet.

  tools/check JOB PLAN    the job in the file JOB, the plan in the file PLAN
  tools/check --help      this text
  tools/check --version   which planner this is

Standard output gets what the proved program prints, byte for byte: the word clear; or one line C (later packet, earlier packet, link,
step) for two packets that enter a link in the same step; or one line R (refusal, line of the job) or Q (refusal, line of the plan),
with 0 where no line is to blame.
After C, R and Q a sentence on standard error says in words what is the matter, and in which file.
Status: 0 clear; 1 a clash or a refusal; 2 the command was used wrongly, or the system failed, which standard error tells.

A plan is text, as tools/plan prints it, with one tab between two fields and one line feed at the end of every line:
  S  packet  start  end       a line for each packet, in order
  T  routing time  C  D       the last line
docs/RULES.md has all the rules, and examples/ has plans to try."""
import fcntl, os, subprocess, sys
import commands, programs, refusal_words


def unnamed(text):
    """A file without a name that holds the text. Its number is none of the lowest: those are the program's input and output."""
    made = os.memfd_create('text')
    number = fcntl.fcntl(made, fcntl.F_DUPFD, 10)
    os.close(made)
    with open(number, 'wb', closefd=False) as file:
        file.write(text)
    return number


def run(texts):
    """The program, which takes the names of two files. A text that came by a pipe is there only once, so it gets what was read."""
    files = [unnamed(text) for text in texts]
    names = [f'/proc/self/fd/{file}' for file in files]
    return subprocess.run(programs.command('check') + names, stdin=subprocess.DEVNULL, stdout=subprocess.PIPE, pass_fds=files)


def main(words):
    commands.answer_options('check', words, __doc__)
    if len(words) != 2:
        programs.fail('check', (f'one job and one plan: {ascii(words[2])} is a third file' if len(words) > 2 else
                                'the job and the plan have to be named: tools/check JOB PLAN') + ' (tools/check --help)')
    programs.take_input()  # for whoever names /dev/stdin
    job, plan = texts = [commands.read('check', word, ascii(word)) for word in words]

    def sentence(letter, fields):
        if letter == b'C':
            return refusal_words.clash(*fields)
        if letter == b'R':
            return f'{ascii(words[0])}: {refusal_words.explained(*fields, job)}'
        return f'{ascii(words[1])}: {refusal_words.plan_explained(*fields, plan, job)}'

    return commands.pass_on('check', run(texts), sentence)


sys.exit(main(sys.argv[1:]))
