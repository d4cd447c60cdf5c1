#!/usr/bin/env python3
"""Writes files that Debian's python3-avro, avro-c and Java's avro wrote. Those that the program `sample_reader` is
run on are files of its folder `data/`, beside the lines that it must write, which are those that other programs make
of their rows. Those of which tests want the bytes are byte strings: of `base_tests`, with the bytes of the blocks of
cards as python3-avro encodes them, and of `convert_tests`, with the lines of its rows.

The lines are those of python3-avro's reader, `json` and `datetime`. Of the same files avro-c's `avrocat` and
Java's `toString` show the same rows, in another form, which is looked at here: `avrocat` names the member
of a union, as in {"string": "first"}, and shows a fixed type as a string; Java shows it as an array of numbers, and a
timestamp as a number; both leave spaces. A fixed type has no line in the conversion, so it is left out of the rows.

A block of no rows is put into Java's file by hand, and copied from there by Java's `appendAllFrom`, since no writer
makes one of its own accord. python3-avro reads on behind it; Java's reader stops there, and avro-c's takes a row
from it, so these two aren't asked.

Use: apt-get install python3-avro libavro-dev avro-bin libavro-java gcc default-jdk-headless, then
/usr/bin/python3 tools/avro_samples.py, from anywhere; or with --check, which writes nothing, and fails where a file
differs. Each file has the sync marker `0123456789abcdef`, so that the same bytes come each time.
"""
import datetime
import io
import json
import os
import subprocess
import sys
import tempfile

import avro.datafile
import avro.io
import avro.schema

TOOLS = os.path.dirname(os.path.abspath(__file__))
TOP = os.path.dirname(os.path.dirname(os.path.abspath(__file__)))
MARKER = b"0123456789abcdef"
SCHEMA = {
    "type": "record",
    "name": "r",
    "fields": [
        {"name": "a", "type": "long"},
        {"name": "b", "type": ["null", "string"]},
        {"name": "c", "type": {"type": "array", "items": "int"}},
    ],
}

ROW = {
    "type": "record",
    "name": "r",
    "fields": [
        {"name": "n", "type": ["null", "long"]},
        {"name": "s", "type": "string"},
        {"name": "e", "type": {"type": "enum", "name": "k", "symbols": ["no", "yes"]}},
        {
            "name": "p",
            "type": {
                "type": "record",
                "name": "q",
                "fields": [
                    {"name": "b", "type": "boolean"},
                    {"name": "l", "type": {"type": "array", "items": "int"}},
                ],
            },
        },
    ],
}

ROWS = [
    [{"n": None, "s": 'a"\\\n\t\x01/é☃', "e": "yes", "p": {"b": True, "l": [1, -2]}}],
    [
        {"n": -(2**63), "s": "", "e": "no", "p": {"b": False, "l": []}},
        {"n": 2**63 - 1, "s": "z", "e": "no", "p": {"b": True, "l": [2**31 - 1]}},
    ],
]

CARD = {
    "type": "record",
    "name": "Card",
    "fields": [
        {"name": "suit", "type": {"type": "enum", "name": "Suit", "symbols": ["SPADES", "HEARTS"]}},
        {"name": "id", "type": {"type": "fixed", "name": "Id", "size": 2}},
        {"name": "note", "type": ["null", "string"]},
        {"name": "played", "type": "long"},
    ],
}

CARDS = [
    {"suit": "HEARTS", "id": b"ab", "note": "first", "played": 64},
    {"suit": "SPADES", "id": b"cd", "note": None, "played": -1},
    {"suit": "HEARTS", "id": b"ef", "note": "third", "played": 1700000000000},
]

JARS = ["avro", "avro-guava-dependencies", "jackson-core-asl", "jackson-mapper-asl", "slf4j-api"]


def rows(start, count):
    for number in range(start, start + count):
        yield {"a": number, "b": None if number % 2 else "x" * number, "c": [number] * 3}


class Kept(io.BytesIO):
    """A file in memory whose bytes outlive it."""

    def close(self):
        self.kept = self.getvalue()


def written(schema, blocks, codec="null"):
    avro.datafile.randbytes = lambda n: MARKER[:n]
    target = Kept()
    schema = avro.schema.parse(json.dumps(schema))
    writer = avro.datafile.DataFileWriter(target, avro.io.DatumWriter(), schema, codec=codec)
    for block in blocks:
        for row in block:
            writer.append(row)
        writer.sync()
    writer.close()
    return target.kept


def run(command):
    return subprocess.run(command, check=True, stdout=subprocess.PIPE, stderr=subprocess.DEVNULL, text=True).stdout


def java(*words):
    path = ":".join(f"/usr/share/java/{jar}.jar" for jar in JARS)
    return run(["java", "-cp", path, os.path.join(TOOLS, "AvroSamples.java"), *words])


def bytes_of(name):
    with open(name, "rb") as source:
        return source.read()


def shown(value):
    """A timestamp's text."""
    return value.isoformat(timespec="milliseconds" if value.microsecond else "seconds")


def lines(rows):
    """The rows as lines, by Python's `json`."""
    return "".join(json.dumps(row, default=shown, ensure_ascii=False, separators=(",", ":")) + "\n" for row in rows)


def cards(data):
    """The cards of a file, by python3-avro."""
    with avro.datafile.DataFileReader(io.BytesIO(data), avro.io.DatumReader()) as reader:
        read = list(reader)
    for card, wanted in zip(read, CARDS, strict=True):
        assert dict(card, played=number(card["played"])) == wanted, card
    return read


def number(played):
    return round(played.timestamp() * 1000) if isinstance(played, datetime.datetime) else played


def without_id(card):
    return {name: value for name, value in card.items() if name != "id"}


def from_c(folder):
    """The file of avro-c, once `avrocat` has shown its cards."""
    program = os.path.join(folder, "samples")
    name = os.path.join(folder, "c.avro")
    run(["gcc", "-o", program, os.path.join(TOOLS, "avro_samples.c"), "-lavro"])
    run([program, name])
    for line, card in zip(run(["avrocat", name]).splitlines(), CARDS, strict=True):
        row = json.loads(line)
        row["note"] = row["note"] and row["note"]["string"]
        assert row == dict(card, id=card["id"].decode()), line
    return bytes_of(name)


def from_java(folder):
    """The file of Java's avro, once its reader has shown its cards."""
    name = os.path.join(folder, "java.avro")
    java("write", name)
    for line, card in zip(java("show", name).splitlines(), CARDS, strict=True):
        assert json.loads(line) == dict(card, id=list(card["id"])), line
    return bytes_of(name)


def copied_by_java(data, folder):
    """Java's copy of the file, with a block of no rows between its two."""
    name = os.path.join(folder, "gap.avro")
    copy = os.path.join(folder, "copy.avro")
    header, first, second, end = data.split(MARKER)
    with open(name, "wb") as target:
        target.write(MARKER.join([header, first, bytes(2), second, end]))
    java("copy", name, copy)
    return bytes_of(copy)


def encoded(some):
    """The bytes of cards, one after another."""
    target = io.BytesIO()
    writer = avro.io.DatumWriter(avro.schema.parse(json.dumps(CARD)))
    for card in some:
        writer.write(card, avro.io.BinaryEncoder(target))
    return target.getvalue()


def literal(data):
    """The bytes as lines of a Rust byte string."""
    text = ""
    for byte in data:
        if byte in (0x22, 0x5C):
            text += "\\" + chr(byte)
        elif 0x20 <= byte < 0x7F:
            text += chr(byte)
        else:
            text += f"\\x{byte:02x}"
    return f'b"{text}"'


def beside(program, files):
    """The paths and the bytes of files of a program."""
    return [(os.path.join(TOP, "crates", program, name), data) for name, data in files]


def module(name, title, statics):
    """The path and the bytes of a module of byte strings."""
    text = f"//! {title}, by `tools/avro_samples.py`.\n"
    for static, comment, data in statics:
        line = f"pub static {static}: &[u8] = {literal(data)};"
        if len(line) > 100:
            line = line.replace(" = ", " =\n    ", 1)
        text += f"\n/// {comment}\n{line}\n"
    return os.path.join(TOP, "crates", name), text.encode()


def main():
    with tempfile.TemporaryDirectory() as folder:
        of_c = from_c(folder)
        of_java = from_java(folder)
        gap = copied_by_java(of_java, folder)
    written_rows = written(ROW, ROWS)
    samples = [
        ("cards_of_python.avro", written(CARD, [CARDS[:1], CARDS[1:]])),
        ("cards_of_c.avro", of_c),
        ("cards_of_java.avro", of_java),
        ("cards_and_none.avro", gap),
    ]
    files = [
        module("base_tests/src/samples.rt", "Files that other programs wrote", [
            ("NO_BLOCKS", "A file without blocks, of python3-avro.", written(SCHEMA, [])),
            ("TWO_BLOCKS", "Blocks of two rows and of three, of python3-avro.", written(SCHEMA, [rows(0, 2), rows(2, 3)])),
            ("DEFLATED", "A block of one row, compressed, of python3-avro.", written(SCHEMA, [rows(0, 1)], "deflate")),
            ("CARDS_OF_C", "Blocks of one card and of two, of avro-c.", of_c),
            ("CARDS_OF_JAVA", "Blocks of one card and of two, of Java's avro.", of_java),
            ("CARDS_AND_NONE", "Blocks of one card, of none and of two, as Java's avro copied them.", gap),
            ("ONE_CARD", "The bytes of the first block of cards.", encoded(CARDS[:1])),
            ("TWO_CARDS", "The bytes of the last one.", encoded(CARDS[1:])),
        ]),
        module("convert_tests/src/written.rt", "A file that python3-avro wrote, and what Python's `json` makes of its rows", [
            ("WRITTEN", "Rows in two blocks: a union, a string, an enum, and a record with an array.", written_rows),
            ("WRITTEN_LINES", "The lines of the rows.", lines(sum(ROWS, [])).encode()),
        ]),
        *beside("sample_reader", [(f"data/{name}", data) for name, data in samples]),
        *beside("sample_reader", [
            ("args", "".join(name + "\n" for name, _ in samples).encode()),
            ("stdout", "".join(lines(map(without_id, cards(data))) for _, data in samples).encode()),
        ]),
    ]
    assert cards(gap) == cards(of_java)
    for path, data in files:
        if "--check" not in sys.argv[1:]:
            os.makedirs(os.path.dirname(path), exist_ok=True)
            with open(path, "wb") as target:
                target.write(data)
        elif bytes_of(path) != data:
            sys.exit(f"{path} differs: run tools/avro_samples.py")


if __name__ == "__main__":
    main()
