"""Seconds of processor time, user and system together, of programs that run."""

import os
import resource
import subprocess
import sys

work = sys.argv[1]
OURS, PLAIN = work + "/crates/bench/out/bench", work + "/plain"
TIME = "/usr/bin/time"


def seconds(words, given=None):
    """The processor time of one run, with the file `given` as its input, and what it wrote."""
    with open(given or "/dev/null") as source:
        before = resource.getrusage(resource.RUSAGE_CHILDREN)
        wrote = subprocess.run(words, stdin=source, stdout=subprocess.PIPE, check=True).stdout
        after = resource.getrusage(resource.RUSAGE_CHILDREN)
    return after.ru_utime + after.ru_stime - before.ru_utime - before.ru_stime, wrote


def least_in_turn(all_words, given=None, runs=5):
    """The least processor time of each program, which run in turn, and what each wrote at its last run."""
    took = [[seconds(words, given) for words in all_words] for _ in range(runs)]
    return [(min(run[i][0] for run in took), took[-1][i][1]) for i in range(len(all_words))]


def compared(ours, plain):
    """The two times, and how many times the second the first is."""
    return "%.3f s, plain Rust %.3f s, %.2f times" % (ours, plain, ours / plain)


def peak(words, given):
    """The most memory of one run, by GNU time (Debian's time), whose own is small: a child of this program would be charged its memory."""
    if not os.path.exists(TIME):
        return "memory not measured"
    with open(given) as source:
        told = subprocess.run([TIME, "-f", "%M"] + words, stdin=source, stdout=subprocess.DEVNULL, stderr=subprocess.PIPE, check=True).stderr
    return "at most %.1f MB of memory" % (int(told) / 1024)
