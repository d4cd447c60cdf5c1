"""Turns three Avro files of some 25 MB, in blocks of 64 KiB, into JSON lines: flat events of ten fields, rows of forty fields (all
of them, and one), and orders with lists of records. Beside the program run the same built without proof, a plain Rust program for
just these schemas, avro-c's avrocat (Debian's avro-bin) and Java's avro (Debian's libavro-java) where they are installed, and
Python's avro (Debian's python3-avro), where it is, on a twentieth of the rows."""

import os
import subprocess

from timing import PLAIN, compared, least_in_turn, peak, seconds, work

OURS, UNPROVED = work + "/crates/avrocat/out/avrocat", work + "/unproved"
AVRO_C = "/usr/bin/avrocat"
JARS = ["avro", "avro-guava-dependencies", "jackson-core-asl", "jackson-mapper-asl", "slf4j-api", "slf4j-nop"]
CLASSES = ":".join([work] + ["/usr/share/java/%s.jar" % jar for jar in JARS])
PYTHON = """
import json, sys
from avro.datafile import DataFileReader
from avro.io import DatumReader
for row in DataFileReader(open(sys.argv[1], "rb"), DatumReader()):
    print(json.dumps(row, default=str))
"""


def built_by_java():
    """Whether the program over Java's avro could be built."""
    source = os.path.join(os.path.dirname(os.path.abspath(__file__)), "AvroToLines.java")
    try:
        return subprocess.run(["javac", "-cp", CLASSES, "-d", work, source], stderr=subprocess.DEVNULL).returncode == 0
    except OSError:
        return False


def has_pythons_avro():
    """Whether Debian's Python has an avro."""
    try:
        return subprocess.run(["/usr/bin/python3", "-c", "import avro"], stderr=subprocess.DEVNULL).returncode == 0
    except OSError:
        return False


has_java, has_python = built_by_java(), has_pythons_avro()
for kind, rows in [("flat", 400_000), ("forty", 200_000), ("nested", 400_000)]:
    given, few = work + "/" + kind, work + "/few"
    for name, count in [(given, rows), (few, rows // 20)]:
        with open(name, "wb") as out:
            subprocess.run([PLAIN, "make", kind, str(count)], stdout=out, check=True)
    size = os.path.getsize(given)
    runs = [("all fields", [OURS, "ndjson"], [PLAIN, kind])]
    if kind == "forty":
        runs.append(("one field", [OURS, "ndjson", "20"], [PLAIN, kind, "one"]))
    for what, ours, plain in runs:
        unproved = [[UNPROVED] + ours[1:]] * os.path.exists(UNPROVED)
        first, second, *third = least_in_turn([ours, plain] + unproved, given)
        assert all(first[1] == other[1] for other in [second] + third)
        print("%s, %s, %d rows, %d bytes, %d bytes of lines" % (kind, what, rows, size, len(first[1])))
        print("  " + compared(first[0], second[0]) + ", %.0f MB/s, %s" % (size / first[0] / 1e6, peak(ours, given)))
        for took, _ in third:
            print("  without proof %.3f s, %.2f times the proved program" % (took, took / first[0]))
    if os.path.exists(AVRO_C):
        print("  avro-c's avrocat %.2f s, of all fields" % seconds([AVRO_C, given])[0])
    if has_java:
        print("  Java's avro %.2f s, of all fields" % seconds(["java", "-cp", CLASSES, "AvroToLines"], given)[0])
    if has_python:
        took = seconds(["/usr/bin/python3", "-c", PYTHON, few])[0]
        print("  Python's avro %.2f s for a twentieth of the rows" % took)
