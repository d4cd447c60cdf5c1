"""Reads 80 MB of lines of ten members into columns of longs, strings, booleans and nulls, a thousand lines at a time, and prints MB
of lines for each second, beside a plain Rust program that reads them by hand and one over serde_json's `Value` (Debian's
librust-serde-json-dev). Once from bytes: the input is read, tested for UTF-8 and parted into lines, and each line read. And once
more from the lines in memory. Where `valgrind` is installed, it counts the instructions of that as well, on a twentieth."""

import json
import random
import shutil
import subprocess

from events import event
from timing import OURS, PLAIN, compared, least_in_turn, work

TIMES = 5


def make(name, size):
    """Writes so many bytes of lines."""
    r, written, i = random.Random(7), 0, 0
    with open(name, "wb") as out:
        while written < size:
            written += out.write(json.dumps(event(r, i), ensure_ascii=False, separators=(",", ":")).encode() + b"\n")
            i += 1
    return written


def instructions(words, given):
    """The instructions of one run, by valgrind."""
    with open(given) as source:
        words = ["valgrind", "--tool=cachegrind", "--cache-sim=no", "--cachegrind-out-file=/dev/null"] + words
        told = subprocess.run(words, stdin=source, stdout=subprocess.DEVNULL, stderr=subprocess.PIPE, check=True).stderr.decode()
    counted = [line for line in told.splitlines() if "I" in line and "refs:" in line]
    return int(counted[0].split(":")[1].replace(",", ""))


given, few = work + "/lines", work + "/few"
size, few_size = make(given, 80_000_000), make(few, 4_000_000)
programs = [[OURS], [PLAIN, "hand"], [PLAIN, "value"]]
once, more = (least_in_turn([words + [str(times)] for words in programs], given, 3) for times in [1, 1 + TIMES])
assert len({sum for _, sum in once + more}) == 1
again = [(more[i][0] - once[i][0]) / TIMES for i in range(3)]
for kind, took in [("from bytes", [took for took, _ in once]), ("from lines in memory", again)]:
    print("%d bytes, %s: %.0f MB/s, %s" % (size, kind, size / 1e6 / took[0], compared(took[0], took[1])))
    print("  over serde_json's Value %.3f s, %.0f MB/s" % (took[2], size / 1e6 / took[2]))
if shutil.which("valgrind"):
    counted = [[instructions(words + [str(times)], few) for times in [1, 2]] for words in programs[:2]]
    ours, plain = (two - one for one, two in counted)
    print("from lines in memory: %.1f instructions a byte, plain Rust %.1f, %.2f times" % (ours / few_size, plain / few_size, ours / plain))
