"""Counts the rows and blocks of an Avro file of some 850 MB, in blocks of 64 KiB of which each states 4096 rows, from a file in the
system's cache. Beside the program runs a plain Rust program that reads the same bytes and walks the blocks in the same way."""

import os
import time

from timing import PLAIN, compared, least_in_turn, peak, work

COUNT = [work + "/crates/avrocat/out/avrocat", "count"]
SCHEMA = b'{"type":"record","name":"row","fields":[{"name":"key","type":{"type":"fixed","name":"key","size":16}}]}'
MARKER = b"\x01" * 16
BLOCKS, ROWS = 13_000, 4096


def number(value):
    """A number of 0 or more in Avro's binary encoding (Avro 1.11, "Binary Encoding")."""
    value, out = value * 2, b""
    while value > 127:
        out, value = out + bytes([value % 128 + 128]), value // 128
    return out + bytes([value])


def seconds_by_clock(words, given):
    """How long one run takes by the clock."""
    start = time.monotonic()
    least_in_turn([words], given, 1)
    return time.monotonic() - start


given = work + "/given"
block = number(ROWS) + number(16 * ROWS) + bytes(range(256)) * 256 + MARKER
with open(given, "wb") as out:
    out.write(b"Obj\x01\x02\x16avro.schema" + number(len(SCHEMA)) + SCHEMA + b"\0" + MARKER)
    for _ in range(BLOCKS):
        out.write(block)
size = os.path.getsize(given)
ours, plain = least_in_turn([COUNT, [PLAIN]], given)
assert ours[1] == plain[1] == b"rows %d\nblocks %d\n" % (BLOCKS * ROWS, BLOCKS)
print("%d blocks of %d rows, %d bytes" % (BLOCKS, ROWS, size))
print("  " + compared(ours[0], plain[0]) + ", %.0f MB/s, %s" % (size / ours[0] / 1e6, peak(COUNT, given)))
print("  by the clock %.0f MB/s" % (size / min(seconds_by_clock(COUNT, given) for _ in range(5)) / 1e6))
