#!/usr/bin/env python3
"""Has files that `avrocat avro` and `avrocat rewrite` write read by Debian's python3-avro, avro-c's `avrocat` and Java's avro.

Each set below is some fields and rows. Its JSON lines become a file by `avrocat avro`; each reader has to give the rows that
the lines state; `avrocat ndjson` gives the lines again, byte for byte, where their fields are neither dates nor timestamps,
and else the texts that Python's `datetime` makes; and `avrocat rewrite` gives the file again, byte for byte. The lines are in
the form that `ndjson` writes: all members, in the fields' order, without spaces. Fields that have no JSON text (bytes, times of
day) are read by the others alone.

Then files that some reader refuses, with what it says: docs/TRIED.md has what they say of these; here it is printed.

Use: apt-get install python3-avro avro-bin libavro-java default-jdk-headless, then /usr/bin/python3 tools/read_by_others.py, from
anywhere, after `./avrocat --prove`; AVROCAT names another program. Its status is 0 where all was read as it has to be.
"""
import datetime
import io
import json
import os
import subprocess
import tempfile
import warnings

import avro.datafile
import avro.io

from avro_samples import java
from formats_model import field_of
from program import run_alone

MARKER = "30313233343536373839616263646566"
EPOCH = datetime.datetime(1970, 1, 1, tzinfo=datetime.timezone.utc)
MOST_32, MOST_64 = 2**31 - 1, 2**63 - 1

PLAIN = ["b=boolean", "i=int", "l=long", "s=string", "u=uuid", "n=long?", "m=string!"]
PLAIN_ROWS = [
    {"b": True, "i": MOST_32, "l": MOST_64, "s": "", "u": "123e4567-e89b-12d3-a456-426614174000", "n": None, "m": None},
    {"b": False, "i": -MOST_32 - 1, "l": -MOST_64 - 1, "s": 'é"\\\n\t\x01/☃😀', "u": "", "n": 64, "m": "x" * 200},
    {"b": False, "i": 0, "l": -1, "s": "null", "u": "u", "n": -65, "m": ""},
]
NESTED = ["a=[long]", "q=[[string?]]", "r={x=int;y=[boolean]}", "o={x=int;z={w=string}}?", "e=[{k=string;v=long!}?]!"]
NESTED_ROWS = [
    {"a": [], "q": [], "r": {"x": 1, "y": []}, "o": None, "e": None},
    {"a": [1, -64, 64], "q": [[], ["a", None]], "r": {"x": -1, "y": [True, False]}, "o": {"x": 5, "z": {"w": "é"}}, "e": []},
    {"a": [0] * 70, "q": [[None]], "r": {"x": 0, "y": [True]}, "o": {"x": 0, "z": {"w": ""}}, "e": [None, {"k": "k", "v": None}]},
]
SHOWN_TIMES = ["d=date", "a=timestamp-millis", "b=timestamp-micros", "c=local-timestamp-millis", "e=local-timestamp-micros?"]
TIMES_ROWS = [
    {"d": 0, "a": 0, "b": 0, "c": 0, "e": None},
    {"d": 19724, "a": 1704164645000, "b": 1704164645000001, "c": -1, "e": -1},
    {"d": -719162, "a": -62135596800000, "b": 253402300799999999, "c": 253402300799999, "e": 0},
]
NANOSECONDS = ["a=timestamp-nanos", "b=local-timestamp-nanos"]
NANOSECONDS_ROWS = [{"a": 0, "b": -1}, {"a": MOST_64, "b": 1500000001}]
OTHERS = ["b=bytes", "n=bytes?", "t=time-millis", "m=time-micros"]
OTHERS_ROWS = [
    {"b": "", "n": None, "t": 0, "m": 0},
    {"b": "é☃", "n": "\x01\x7f", "t": 86399999, "m": 86399999999},
]
# Each set: what it is, its fields, its rows, and whether `ndjson` gives its lines again, other lines, or none.
SAME, TEXTS, NONE = "the same lines", "lines with texts of dates", "no lines"
SETS = [
    ("booleans, integers, strings", PLAIN, PLAIN_ROWS, SAME),
    ("lists and records", NESTED, NESTED_ROWS, SAME),
    ("no rows", PLAIN, [], SAME),
    ("dates and timestamps", SHOWN_TIMES, TIMES_ROWS, TEXTS),
    ("nanoseconds", NANOSECONDS, NANOSECONDS_ROWS, TEXTS),
    ("bytes and times of day", OTHERS, OTHERS_ROWS, NONE),
]


def line(row):
    return json.dumps(row, ensure_ascii=False, separators=(",", ":")) + "\n"


def answered(words, data):
    status, out, note = run_alone(words, data)
    assert status == 0, (words, note)
    return out


def file_of(fields, rows, per_block=2, name="row"):
    return answered(["avro", name, str(per_block), MARKER, *fields], "".join(map(line, rows)).encode())


# ---- rows of the other readers, in the form of the lines

UNITS = {"millis": 1000, "micros": 1000000, "nanos": 1000000000}


def unit_of(schema):
    return UNITS[schema[1].rsplit("-", 1)[1]]


def other_of(schema):
    """The schema beside null of a union."""
    return next(member for member in schema[1] if member != ("null",))


def by_python(schema, value):
    """A value of python3-avro: dates and timestamps are `datetime`'s."""
    kind = schema[0]
    if kind == "union":
        return None if value is None else by_python(other_of(schema), value)
    if kind == "array":
        return [by_python(schema[1], it) for it in value]
    if kind == "record":
        return {name: by_python(it, value[name]) for name, it in schema[1]}
    if isinstance(value, bytes):
        return value.decode()
    if isinstance(value, datetime.datetime):
        return (value - EPOCH) // datetime.timedelta(seconds=1) * unit_of(schema) + value.microsecond * unit_of(schema) // 1000000
    if isinstance(value, datetime.date):
        return (value - EPOCH.date()).days
    if isinstance(value, datetime.time):
        seconds = value.hour * 3600 + value.minute * 60 + value.second
        return seconds * unit_of(schema) + value.microsecond * unit_of(schema) // 1000000
    return value


def by_c(schema, value):
    """A value of avro-c's `avrocat`: a member of a union is named, and a binary value is a string of its bytes."""
    kind = schema[0]
    if kind == "union":
        return None if value is None else by_c(other_of(schema), *value.values())
    if kind == "array":
        return [by_c(schema[1], it) for it in value]
    if kind == "record":
        return {name: by_c(it, value[name]) for name, it in schema[1]}
    return value.encode("latin-1").decode() if kind == "bytes" else value


def by_java(schema, value):
    """A value of Java's `toString`: a binary value is an object with a string of its bytes."""
    kind = schema[0]
    if kind == "union":
        return None if value is None else by_java(other_of(schema), value)
    if kind == "array":
        return [by_java(schema[1], it) for it in value]
    if kind == "record":
        return {name: by_java(it, value[name]) for name, it in schema[1]}
    return value["bytes"].encode("latin-1").decode() if kind == "bytes" else value


def rows_by_python(name):
    with avro.datafile.DataFileReader(open(name, "rb"), avro.io.DatumReader()) as reader:
        return list(reader)


def rows_by_c(name):
    shown = subprocess.run(["/usr/bin/avrocat", name], check=True, capture_output=True).stdout
    return [json.loads(it) for it in shown.decode().splitlines()]


def rows_by_java(names):
    """What Java says of each file: its rows, or why it is refused. One process reads them all."""
    answers, rows = [], []
    for it in java("try", *names).split("\n"):
        word = it.split(" ")[0]
        if word in ("end", "refused"):
            answers.append(rows if word == "end" else Refused(it[len("refused ") :]))
            rows = []
        elif it:
            rows.append(json.loads(it, strict=False))
    return answers


class Refused(Exception):
    """What a reader says of a file that it doesn't read."""


def rows_of_each(read, names):
    answers = []
    for name in names:
        try:
            answers.append(read(name))
        except Exception as error:
            answers.append(error)
    return answers


READERS = [
    ("python3-avro", lambda names: rows_of_each(rows_by_python, names), by_python),
    ("avro-c", lambda names: rows_of_each(rows_by_c, names), by_c),
    ("Java", rows_by_java, by_java),
]


def shown(schema, value):
    """A date or a timestamp as its text, by Python's `datetime`."""
    if schema[0] == "union":
        return None if value is None else shown(other_of(schema), value)
    if schema[1] == "date":
        return (EPOCH + datetime.timedelta(days=value)).date().isoformat()
    unit, is_local = unit_of(schema), schema[1].startswith("local")
    moment = EPOCH + datetime.timedelta(seconds=value // unit)
    text = moment.replace(tzinfo=None if is_local else EPOCH.tzinfo).isoformat(sep=" " if is_local else "T")
    fraction = f"{value % unit * (1000000000 // unit):09}"
    while fraction.endswith("000"):
        fraction = fraction[:-3]
    at = 19
    return text[:at] + ("." + fraction if fraction else "") + text[at:]


def check_lines(what, words, rows, back, data):
    """What `ndjson` and `rewrite` make of a set's file."""
    fields = [field_of(word)[:2] for word in words]
    assert answered(["rewrite", "row", MARKER], data) == data, what
    if back == SAME:
        lines = "".join(map(line, rows))
    elif back == TEXTS:
        lines = "".join(line({name: shown(it, row[name]) for name, it in fields}) for row in rows)
    if back != NONE:
        assert answered(["ndjson"], data) == lines.encode(), what


def check_rows(what, words, rows, reader, normal, answer):
    """That a reader gives a set's rows."""
    if isinstance(answer, Exception):
        raise answer
    record = ("record", [field_of(word)[:2] for word in words])
    found = [normal(record, row) for row in answer]
    assert found == rows, (reader, what, found, rows)


# ---- what is refused


def decimals():
    """Files of decimals that python3-avro wrote, in their canonical form."""
    import decimal

    import avro.schema

    fields = [{"name": "a", "type": {"type": "bytes", "logicalType": "decimal", "precision": 9, "scale": 2}}]
    schema = avro.schema.parse(json.dumps({"type": "record", "name": "row", "fields": fields}))
    for value in ["0.00", "327.68", "-0.01"]:
        target = io.BytesIO()
        writer = avro.datafile.DataFileWriter(target, avro.io.DatumWriter(), schema)
        writer.append({"a": decimal.Decimal(value)})
        writer.flush()
        yield f"a decimal of {value}", answered(["rewrite", "row", MARKER], target.getvalue())


def refusals():
    """Files of which a reader may refuse some."""
    yield from decimals()
    yield "a date of the year 0", file_of(["d=date"], [{"d": -719529}])
    yield "a timestamp of the year 10000", file_of(["t=timestamp-millis"], [{"t": 253402300800000}])
    yield "a time of day past its day", file_of(["t=time-millis"], [{"t": 86400000}])
    yield "a field's name with a hyphen", file_of(["a-b=int"], [{"a-b": 1}])
    yield "a field's name that begins with a digit", file_of(["9=int"], [{"9": 1}])
    yield "a root's name with a hyphen", file_of(["a=int"], [{"a": 1}], name="a-b")
    yield "a root named as a record within it", file_of(["a={b=int}"], [{"a": {"b": 1}}], name="r1")
    yield "a string that is no UUID under uuid", file_of(["u=uuid"], [{"u": "none"}])
    yield "a string with a character 0", file_of(["s=string"], [{"s": "a\0b"}])
    yield "a binary value with a byte 0", file_of(["b=bytes"], [{"b": "a\0b"}])


def told(answer):
    """What a reader says, in one line."""
    if not isinstance(answer, Exception):
        return f"gives {answer}"
    if isinstance(answer, subprocess.CalledProcessError):
        text = answer.stderr.decode().strip() or "it ends without a word"
    else:
        text = str(answer) if isinstance(answer, Refused) else f"{type(answer).__name__}: {answer}"
    return "refuses: " + text.splitlines()[0][:160]


def written(folder, files):
    """The names of files of these bytes."""
    names = []
    for data in files:
        names.append(os.path.join(folder, f"{len(names)}.avro"))
        with open(names[-1], "wb") as target:
            target.write(data)
    return names


def main():
    # python3-avro warns of logical types that it doesn't know.
    warnings.simplefilter("ignore")
    os.environ["JAVA_TOOL_OPTIONS"] = "-Dfile.encoding=UTF-8 -Dstdout.encoding=UTF-8"
    files = [file_of(words, rows) for _, words, rows, _ in SETS]
    others = list(refusals())
    with tempfile.TemporaryDirectory() as folder:
        names = written(folder, files + [data for _, data in others])
        answers = [(reader, normal, read(names)) for reader, read, normal in READERS]
    for number, (what, words, rows, back) in enumerate(SETS):
        check_lines(what, words, rows, back, files[number])
        for reader, normal, of_reader in answers:
            check_rows(what, words, rows, reader, normal, of_reader[number])
        readers = ", ".join(reader for reader, _, _ in answers)
        print(f"{what}: {len(rows)} rows, {len(files[number])} bytes, read by {readers}; `ndjson` gives {back}")
    for number, (what, _) in enumerate(others, len(SETS)):
        for reader, _, of_reader in answers:
            print(f"{what}: {reader} {told(of_reader[number])}")


if __name__ == "__main__":
    main()
