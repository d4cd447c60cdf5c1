"""Turns the three Avro files of `bench/ndjson`, of some 25 MB, into their canonical form. Beside the program run a plain Rust program
for just these schemas that writes the same bytes, and, where it is installed, avro-c's reader and writer together (Debian's
libavro-dev), which make other blocks."""

import os
import subprocess

from timing import PLAIN, compared, least_in_turn, peak, seconds, work

OURS = work + "/crates/avrocat/out/avrocat"
BENCH = os.path.dirname(os.path.dirname(os.path.abspath(__file__)))
MAKER, AVRO_C = work + "/maker", work + "/by_avro_c"
REWRITE = [OURS, "rewrite", "row", "01" * 16]


def built_by_c():
    """Whether the program of avro-c could be built."""
    source = os.path.join(BENCH, "rewrite", "by_avro_c.c")
    return subprocess.run(["gcc", "-O2", "-o", AVRO_C, source, "-lavro"], stderr=subprocess.DEVNULL).returncode == 0


subprocess.run(["rustc", "--edition", "2021", "-O", "-o", MAKER, os.path.join(BENCH, "ndjson", "plain.rs")], check=True)
has_c = built_by_c()
for kind, rows in [("flat", 400_000), ("forty", 200_000), ("nested", 400_000)]:
    given = work + "/" + kind
    with open(given, "wb") as out:
        subprocess.run([MAKER, "make", kind, str(rows)], stdout=out, check=True)
    size = os.path.getsize(given)
    ours, plain = least_in_turn([REWRITE, [PLAIN, kind]], given)
    assert ours[1] == plain[1]
    print("%s, %d rows, %d bytes" % (kind, rows, size))
    print("  " + compared(ours[0], plain[0]) + ", %.0f MB/s, %s" % (size / ours[0] / 1e6, peak(REWRITE, given)))
    if has_c:
        took = seconds([AVRO_C, given, work + "/written"])[0]
        print("  avro-c %.2f s, %.1f times" % (took, took / ours[0]))
