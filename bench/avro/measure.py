"""Turns JSON lines into Avro files, in blocks of 1000 rows: 80 MB of events of ten fields, 40 MB of rows of forty, 40 MB of orders
with lists of records. Beside the program run a plain Rust program over serde_json's `Value` (Debian's librust-serde-json-dev) that
writes the same bytes, and, where they are installed, Java's writer with its jackson (Debian's libavro-java,
default-jdk-headless), and, on a twentieth of the lines, Python's (Debian's python3-avro)."""

import json
import os
import random
import subprocess

from events import event
from timing import PLAIN, compared, least_in_turn, peak, seconds, work

OURS = work + "/crates/avrocat/out/avrocat"
HERE = os.path.dirname(os.path.abspath(__file__))
MARKER = "30313233343536373839616263646566"
PER_BLOCK = "1000"
JARS = ["avro", "avro-guava-dependencies", "jackson-core-asl", "jackson-mapper-asl", "slf4j-api", "slf4j-nop"]
CLASSES = ":".join([work] + ["/usr/share/java/%s.jar" % jar for jar in JARS])
PYTHON = """
import json, sys
from avro.datafile import DataFileWriter
from avro.io import DatumWriter
from avro.schema import parse
with DataFileWriter(open("/dev/null", "wb"), DatumWriter(), parse(sys.argv[1])) as writer:
    for line in sys.stdin:
        writer.append(json.loads(line))
"""
EVENT = ["id=long", "time=timestamp-micros", "user=string", "country=string", "path=string", "status=int", "duration=int?"]
EVENT += ["referrer=string?", "is_bot=boolean", "amount=long?"]
FORTY = ["c%d=%s" % (i, ["long", "string", "boolean", "long?"][i % 4]) for i in range(40)]
ORDER = ["id=long", "tags=[string]", "items=[{sku=string;count=int;prices=[long]}]", "address={city=string;geo={lat=long;lon=long}}?"]


def forty(r, i):
    def value(k):
        return [r.randrange(1 << 23), r.choice(["a", "some", "strings"]), r.random() < 0.5, r.choice([None, r.randrange(100_000)])][k % 4]

    return {"c%d" % k: value(k) for k in range(40)}


def order(r, i):
    def item():
        prices = [r.randrange(100_000) for _ in range(r.randrange(4))]
        return {"sku": "sku-%d" % r.randrange(1_000_000), "count": r.randrange(1, 10), "prices": prices}

    geo = {"lat": r.randrange(-90_000_000, 90_000_000), "lon": r.randrange(-180_000_000, 180_000_000)}
    return {
        "id": i, "tags": [r.choice(["new", "sale", "gift wrapped", "ü"]) for _ in range(r.randrange(4))],
        "items": [item() for _ in range(r.randrange(5))],
        "address": r.choice([None, {"city": r.choice(["Berlin", "São Paulo", "Kyoto"]), "geo": geo}]),
    }


def make(name, row, size):
    """Writes so many bytes of lines, and answers how many lines there are."""
    r, written, i = random.Random(7), 0, 0
    with open(name, "wb") as out:
        while written < size:
            written += out.write(json.dumps(row(r, i), ensure_ascii=False, separators=(",", ":")).encode() + b"\n")
            i += 1
    return i


def schema_of(data):
    """The text of the schema of a file with a header of one entry, whose length has two bytes."""
    at = data.index(b"avro.schema") + len(b"avro.schema")
    length = (data[at] % 128 + (data[at + 1] << 7)) // 2
    return data[at + 2 : at + 2 + length].decode()


def others(given, few, schema):
    """What Java and Python take, where they are there."""
    source = os.path.join(HERE, "LinesToAvro.java")
    try:
        subprocess.run(["javac", "-cp", CLASSES, "-d", work, source], check=True, stderr=subprocess.PIPE)
        print("  Java's avro %.2f s" % seconds(["java", "-cp", CLASSES, "LinesToAvro", schema], given)[0])
    except (OSError, subprocess.CalledProcessError) as error:
        print("  Java's avro not measured: %s" % error)
    # Python takes no number for a timestamp.
    plain_schema = schema.replace('{"type":"long","logicalType":"timestamp-micros"}', '"long"')
    try:
        print("  Python's avro %.2f s for a twentieth of the lines" % seconds(["/usr/bin/python3", "-c", PYTHON, plain_schema], few)[0])
    except subprocess.CalledProcessError as error:
        print("  Python's avro not measured: %s" % error)


for kind, row, words, size in [("events", event, EVENT, 80_000_000), ("forty", forty, FORTY, 40_000_000), ("orders", order, ORDER, 40_000_000)]:
    given, few = work + "/lines", work + "/few"
    rows = make(given, row, size)
    make(few, row, size // 20)
    all_words = [kind, PER_BLOCK, MARKER] + words
    ours, plain = least_in_turn([[OURS, "avro"] + all_words, [PLAIN] + all_words], given)
    assert ours[1] == plain[1]
    print("%s, %d rows, %d bytes of lines, %d bytes of a file" % (kind, rows, os.path.getsize(given), len(ours[1])))
    rate = os.path.getsize(given) / ours[0] / 1e6
    print("  " + compared(ours[0], plain[0]) + ", %.0f MB/s, %s" % (rate, peak([OURS, "avro"] + all_words, given)))
    others(given, few, schema_of(ours[1]))
