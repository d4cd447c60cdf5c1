#!/usr/bin/env python3
"""Gives `infer` lines of 100 MB, which are too long for a test of the gate, and looks at what it answers.

A string of 100 MB alone in its line is Utf8; an object with such a member is a Struct of a Utf8, of which a second
line repeats the type; and a line of 100 MB of white space is no row.

Use: tools/long_lines.py, from anywhere, after `./avrocat --prove`. Its status is 0 where all answers were right.
"""
import os
import subprocess
import sys

TOP = os.path.dirname(os.path.dirname(os.path.abspath(__file__)))
PROGRAM = os.environ.get("AVROCAT", os.path.join(TOP, "crates", "avrocat", "out", "avrocat"))
LONG = 100_000_000

CASES = [
    (b'"' + b"a" * LONG + b'"\n', b"Utf8\n"),
    (b'{"a":"' + b"b" * LONG + b'"}\n{"a":"c"}', b'Struct{"a":Utf8}\n'),
    (b"1\n" + b" " * LONG + b"\n2", b"Int64\n"),
]

for lines, wanted in CASES:
    ended = subprocess.run([PROGRAM, "infer"], input=lines, stdout=subprocess.PIPE)
    if ended.returncode != 0 or ended.stdout != wanted:
        sys.exit("%d bytes: status %d, %r" % (len(lines), ended.returncode, ended.stdout[:100]))
print("%d lines" % len(CASES))
