"""Plans a job: prints the start of every packet, or why there is no plan.

  tools/plan [FILE]      the job in FILE, or on standard input where no file is named
  tools/plan --help      this text
  tools/plan --version   which planner this is

Standard output gets what the proved program prints, byte for byte: a line S for each packet (packet, start, end) and a line T
(routing time, C, D); or one line R (refusal, line of the job), and then a sentence on standard error says what is wrong there.
Status: 0 a plan; 1 a refusal; 2 the command was used wrongly, or the system failed, which standard error tells.

A job is text, with one tab between two fields and one line feed at the end of every line:
  N  nodes               the first line
  L  from  to            a line for each link
  P  source  links ..    a line for each packet, with one link at least
docs/RULES.md has all the rules, and examples/ has jobs to try."""
import subprocess, sys
import commands, programs, refusal_words


def main(words):
    commands.answer_options('plan', words, __doc__)
    if len(words) > 1:
        programs.fail('plan', f'one job at a time: {ascii(words[1])} is a second file (tools/plan --help)')
    job = commands.read('plan', words[0], ascii(words[0])) if words else commands.read('plan', programs.INPUT, 'standard input')
    told = subprocess.run(programs.command('plan'), input=job, stdout=subprocess.PIPE)
    return commands.pass_on('plan', told, lambda letter, fields: refusal_words.explained(*fields, job))


sys.exit(main(sys.argv[1:]))
