#!/usr/bin/env python3
"""Refuses each growth of the program's memory, each read and each write in turn, on many inputs, and looks at what it answers.

A library that is loaded before the C library's counts the calls of `malloc` and `realloc`, of `read` and of `write`, and
answers one of them with an error (`again.c`). Then the program ends as it does anyway; or with status 10, 8 or 9 and its note,
of a read of lines with the number of the line, and with what may stand at standard output then: of a growth or a read the
output of whole blocks before, after a header where there is one, or nothing; of a write the bytes taken before.

Use: tools/refuse_calls.py, from anywhere, after `./avrocat --prove`; AVROCAT names another program. It needs a C compiler, and
prints how many calls it refused. Its status is 0 where all answers were right.
"""
import os
import sys
import tempfile

from program import PROGRAM, TOP, Request, Server, library_of, run_alone

MARKER = b"\x01" * 16
WRITTEN_MARKER = "01" * 16
SCHEMA = '{"type":"record","name":"t","fields":[{"name":"a","type":"int"}]}'
# What a usual producer writes: a namespace, an entry for the codec, a union, a timestamp, blocks of two rows and of one.
EVENT = (
    '{"type":"record","name":"Event","namespace":"com.example","fields":['
    '{"name":"id","type":"long"},{"name":"user","type":"string"},'
    '{"name":"tags","type":{"type":"array","items":["null","string"]}},'
    '{"name":"when","type":{"type":"long","logicalType":"timestamp-millis"}}]}'
)
EVENT_BLOCKS = [
    (2, bytes.fromhex("0E06616E6E040202610000 90E286829963 1006626F620000")),
    (1, bytes.fromhex("1204C3A90202027800 01")),
]
NESTED_FIELDS = ["id=long", "when=timestamp-millis!", "user=string?", "tags=[string]", "where={x=int;y=[long?]}?"]
NESTED_LINES = b"".join(
    b'{"id":%d,"when":%d,"user":"u%d","tags":["a","bc"],"where":{"x":1,"y":[1,null,2]}}\n{"id":-1,"tags":[]}\n' % (i, i, i)
    for i in range(3)
)
# The encoding of 2^63 - 1, as a false size or count.
MOST = "FEFFFFFFFFFFFFFFFF01"
# Blocks, by the words after `block` and by their bytes.
BLOCKS = [
    # Of numbers, strings and nulls, which are kept or not, and with bytes too many or too few.
    ("2 a=int b=string?", "02020468690300"),
    ("2 ~a=int b=string?", "02020468690300"),
    ("0 a=int", ""),
    ("2 a=int b=string?", "0202046869030000"),
    ("2 a=int b=string?", "020204686903"),
    ("1 a=int", "02"),
    ("1 a=long", "8001"),
    ("1 a=long", "808100"),
    ("1 a=int", "8080808010"),
    ("1 ~a=int b=int", "808080801002"),
    ("1000000 a=int", "0202"),
    ("1 a=long", "FFFFFFFFFFFFFFFFFF01"),
    ("1 a=long", "FFFFFFFFFFFFFFFFFF02"),
    ("1 a=boolean", "02"),
    ("1 ~a=boolean b=int", "0202"),
    ("1 ~a=int? b=int", "0402"),
    ("1 a=string", "02FF"),
    ("1 ~a=string b=int", "02FF02"),
    # Of arrays, whose blocks state their size or don't, and records.
    ("1 a=[long]", "04020400"),
    ("1 a=[long]", "0304020400"),
    ("1 a=[long]", "0306020400"),
    ("1 ~a=[long] b=int", "0304FFFF0002"),
    ("1 ~a=[long] b=int", "030102"),
    ("1 a=[long] b=int", "030102"),
    ("1 a=[long]", "FFFFFFFFFFFFFFFFFF01"),
    # With sizes and counts that the bytes don't back or that are below 0, and decimals of 17 bytes.
    ("1 a=[long]", MOST),
    ("1 ~a=[long] b=int", MOST),
    ("1 ~a=[long] b=int", "03" + MOST + "0002"),
    ("1 a=string", MOST),
    ("1 ~a=string b=int", "0102"),
    ("2 ~a=[long] b=int", "0301"),
    ("3 ~a=[long] b=int", "0301"),
    ("1 ~a=[[long]] b=int", "020301"),
    ("1 ~a=[[long]] b=int", "04000301"),
    ("1 ~a=[long]? b=int", "020301"),
    ("1 a=[{x=int}?]", MOST + "00"),
    ("1 d=decimal(10,2)", "22" + "00" * 17),
    ("1 ~d=decimal(10,2) b=int", "22" + "00" * 17 + "02"),
    # Of lists that are empty, and that nest as deep as words may and deeper, and of records.
    ("2 a=[int]", "00020A00"),
    ("0 a=" + "[" * 63 + "int" + "]" * 63, ""),
    ("0 a=" + "[" * 64 + "int" + "]" * 64, ""),
    ("2 r={x=int;y=[string]}?", "000202040261026200"),
    # Of other types, and of types that aren't kept or carried.
    ("1 e=<A,B>?", "0202"),
    ("1 e=<A,B>?", "0204"),
    ("1 d=decimal(10,2)", "00"),
    ("1 d=decimal(10,2)", "0800008000"),
    ("1 f=fixed(2) i=duration b=bytes!", "ABCD0100000002000000FFFFFFFF00027F"),
    ("1 ~a=float b=int", "0000803F02"),
    ("1 a=float", "0000803F"),
    ("1 w=timestamp-nanos", "02"),
    ("1 a=null", ""),
    ("0", ""),
]


def number(value):
    """A number of 0 or more in Avro's binary encoding."""
    value, out = value * 2, b""
    while value > 127:
        out, value = out + bytes([value % 128 + 128]), value // 128
    return out + bytes([value])


def file_of(schema, blocks):
    head = b"Obj\x01\x02\x16avro.schema" + number(len(schema)) + schema.encode() + b"\0" + MARKER
    return head + b"".join(number(rows) + number(len(it)) + it + MARKER for rows, it in blocks)


def inputs():
    """What is run: its words and its standard input."""
    one, longer = file_of(SCHEMA, [(2, b"\x02\x03")]), file_of(SCHEMA, [(2, b"\x82\x00\x03")])
    small = file_of(SCHEMA, [(2, b"\x02\x03"), (0, b""), (1, b"\x04")])
    event = file_of(EVENT, EVENT_BLOCKS)
    avro, rewrite = ["avro", "t", "10", WRITTEN_MARKER, "a=int"], ["rewrite", "t", WRITTEN_MARKER]
    with open(os.path.join(TOP, "examples", "events.avro"), "rb") as events:
        events = events.read()
    blocks = [(["block"] + words.split(), bytes.fromhex(block)) for words, block in BLOCKS]
    return blocks + [
        ([], b""),
        (["blok", "1"], b""),
        (["block", "x", "a=int"], b""),
        (["block-large", "1", "a=[string]"], b"\x02\x02a\x00"),
        (["block-large", "2", "a=int", "b=string?"], bytes.fromhex("02020468690300")),
        (["ndjson"], one),
        (["ndjson"], small),
        (["ndjson", "0"], small),
        (["ndjson"], small[:-1]),
        (["ndjson"], event),
        (["ndjson"], events),
        (avro, b'{"a":1}\n{"a":-2}\n'),
        (avro, b'{"a":1e400}\n'),
        (avro, b'{"a":1.5e1}\n'),
        (avro, b'{"b":1}\n'),
        (avro, b"3\n"),
        (["avro", "t", "1", WRITTEN_MARKER, "a=int"], b'{"a":1}\n{"a":-2}\n{"a":3}\n[\n'),
        (["avro", "t", "2", WRITTEN_MARKER] + NESTED_FIELDS, NESTED_LINES),
        (rewrite, longer),
        (rewrite, one),
        (rewrite, small),
        (rewrite, small[:-1]),
        (rewrite, event),
        (rewrite, events),
        (["infer"], b"1\ntrue\n2.5\n"),
        (["infer"], b'{"a":1,"b":null,"c":[1,2.5]}\n{"d":[{"e":"f"}],"a":true}\n'),
        (["infer"], b""),
        (["count"], one),
        (["count"], small),
        (["count"], small[:-1]),
        (["count"], events),
        (["count", "1"], one),
        (["schema"], event),
        (["fields"], event),
        (["fields"], events),
        (["schema"], events),
        (["schema"], small[:60]),
        (["help"], b""),
        (["--version"], b""),
        (["make", "1", "2"], b""),
        (["make", "1", "0"], b""),
    ]


def number_at(data, at):
    """The number of 0 or more at an offset, and the offset after it."""
    value, shift = 0, 0
    while True:
        byte = data[at]
        value, shift, at = value + (byte % 128 << shift), shift + 7, at + 1
        if byte < 128:
            return value // 2, at


def blocks_of(data, marker):
    """The blocks of a file, each by its number of rows and the offset at which it ends; first its header."""
    at = data.index(marker) + 16
    blocks = [(0, at)]
    while at < len(data):
        rows, at = number_at(data, at)
        size, at = number_at(data, at)
        at += size + 16
        blocks.append((rows, at))
    return blocks


def allowed(words, given, plain):
    """What may stand at standard output after out of memory or a failed read, by what stands there without."""
    command, out = "".join(words[:1]), plain[1]
    if command in ("rewrite", "avro") and out:
        return [b""] + [out[:end] for _, end in blocks_of(out, MARKER)]
    if command != "ndjson" or not out:
        return [b""]
    # The last bytes of a file are its marker; the files that are refused have the one of here.
    marker = MARKER if plain[0] else given[-16:]
    lines, taken, outputs = out.splitlines(keepends=True), 0, []
    for rows, _ in blocks_of(given, marker):
        taken += rows
        outputs.append(b"".join(lines[:taken]))
    return outputs


def check(words, what, answer, is_right):
    if not is_right:
        sys.exit(f"{words}: {what} was refused, and the answer is {answer}")


def refuse_growths(server, words, given, plain, growths):
    """Refuses each growth, and answers how many of them the status told."""
    outputs, told = allowed(words, given, plain), 0
    answers = server.run_all([Request(words, given, growth=nth) for nth in range(1, growths + 1)])
    for nth, answer in enumerate(answers, 1):
        status, out, note = answer.given
        is_memory = status == 10 and note == b"avrocat: OutOfMemory\n" and out in outputs
        check(words, f"growth {nth}", answer, is_memory or answer.given == plain)
        told += status == 10
    return told


def refuse_reads(server, words, given, plain, reads):
    """Refuses each read of one byte."""
    outputs = allowed(words, given, plain)
    answers = server.run_all([Request(words, given, read=nth, piece=1) for nth in range(1, reads + 1)])
    for nth, answer in enumerate(answers, 1):
        status, out, note = answer.given
        line = f": line {given[: nth - 1].count(10) + 1}" if words[:1] in (["avro"], ["infer"]) else ""
        is_right = status == 8 and note == f"avrocat: ReadFault{line}\n".encode() and out in outputs
        check(words, f"read {nth}", answer, is_right)


def refuse_writes(server, words, given, plain, writes):
    """Refuses each write of one byte."""
    answers = server.run_all([Request(words, given, write=nth, piece=1) for nth in range(1, writes + 1)])
    for nth, answer in enumerate(answers, 1):
        check(words, f"write {nth}", answer, answer.given == (9, plain[1][: nth - 1], b"avrocat: WriteFault\n"))


def refuse_all(server, words, given):
    """Refuses each call of a run, and answers how many growths, reads and writes there were."""
    plain = run_alone(words, given)
    whole, bytewise = server.run_all([Request(words, given), Request(words, given, piece=1)])
    assert whole.given == plain and bytewise.given == plain, (words, whole, bytewise, plain)
    told = refuse_growths(server, words, given, plain, whole.growths)
    refuse_reads(server, words, given, plain, bytewise.reads)
    refuse_writes(server, words, given, plain, bytewise.writes)
    counts = f"{whole.growths} growths refused, {told} of them told; {bytewise.reads} reads, {bytewise.writes} writes"
    print(f"{' '.join(words) or 'no words'}, {len(given)} bytes, status {plain[0]}: {counts}")
    return whole.growths, bytewise.reads, bytewise.writes


def main():
    if not os.access(PROGRAM, os.X_OK):
        sys.exit("build the program first: ./avrocat --prove")
    with tempfile.TemporaryDirectory() as folder:
        server = Server(library_of(folder))
        counts = [refuse_all(server, words, given) for words, given in inputs()]
        server.close()
    growths, reads, writes = (sum(count) for count in zip(*counts))
    print(f"{growths} growths, {reads} reads and {writes} writes were refused, and each answer was right")


if __name__ == "__main__":
    main()
