#!/usr/bin/env python3
"""Gives `block` blocks that state many rows where there is little memory, and looks at what it answers.

The address space is the size of the block and 64 MB more. What is reserved for the rows that a block states must
then be backed by its bytes, whatever the columns are: flat ones, or records or lists with many nodes beneath. A
block that isn't its rows is refused as it is where there is memory (status 4), and one that is gives its line.

Use: tools/little_memory.py, from anywhere, after `./avrocat --prove`. Its status is 0 where all answers were right.
"""
import os
import resource
import subprocess
import sys

TOP = os.path.dirname(os.path.dirname(os.path.abspath(__file__)))
PROGRAM = os.environ.get("AVROCAT", os.path.join(TOP, "crates", "avrocat", "out", "avrocat"))
MORE = 64 << 20

NAMES = ["f%d" % i for i in range(400)]
LONGS = [name + "=long" for name in NAMES]
RECORD = "{%s}" % ";".join(LONGS)
ZEROS = bytes(1_000_000)

# One list of 2500 records of 400 zeros, and 999999 empty ones. An array's block begins with the number of its items, as
# a zigzag number of 7 bits a byte (5000 is 0x88 0x27), and a block of no items ends the array (Avro, "Arrays").
LISTS = b"\x88\x27" + bytes(2500 * 400) + b"\x00" + bytes(999_999)
ITEM = "{%s}" % ",".join(["0"] * len(NAMES))
LINE = "a:[[%s],%s]\n" % (",".join([ITEM] * 2500), ",".join(["[]"] * 999_999))

CASES = [
    ("a record of 400 longs, 2500 rows at most", 1_000_000, ["r=" + RECORD], ZEROS, 4, ""),
    ("the same, one row more than there are", 2501, ["r=" + RECORD], ZEROS, 4, ""),
    ("400 longs", 1_000_000, LONGS, ZEROS, 4, ""),
    ("lists of records, of which one alone has items", 1_000_000, ["a=[%s]" % RECORD], LISTS, 0, LINE),
]


def limit(size):
    resource.setrlimit(resource.RLIMIT_AS, (size, size))


for told, rows, fields, block, status, shown in CASES:
    ended = subprocess.run(
        [PROGRAM, "block", str(rows), *fields],
        input=block,
        stdout=subprocess.PIPE,
        stderr=subprocess.DEVNULL,
        preexec_fn=lambda: limit(len(block) + MORE),
    )
    if ended.returncode != status or ended.stdout != shown.encode():
        sys.exit("%s: status %d, %d bytes" % (told, ended.returncode, len(ended.stdout)))
print("%d blocks" % len(CASES))
