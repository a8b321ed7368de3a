"""Runs a program of crates/ as it is: tools/program NAME [ARGUMENT ..]. Its input, its output and its words on standard error are its
own. It ends with status 0 whatever it prints; 2 tells that it could not be built."""
import os, sys
import programs

if len(sys.argv) < 2:
    programs.fail('program', 'which? tools/program NAME [ARGUMENT ..]')
words = programs.command(sys.argv[1]) + sys.argv[2:]
programs.take_input()
os.execv(words[0], words)
