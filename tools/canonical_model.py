"""A slow model of canonical files, written from docs/FORMATS.md: what `rewrite` and `make` answer."""

from formats_model import (
    MOST_32,
    Refused,
    Usage,
    Word,
    block_of,
    check_fields,
    header_of,
    json_string,
    plain_number_of,
    table_of,
)
from json_model import DIGITS

NANOSECONDS = 1000000
MOST_DRAWN = 1000000


# ---- slots in their canonical encoding


def number(value):
    """A number in its shortest encoding."""
    value = value * 2 if value >= 0 else -value * 2 - 1
    out = []
    while value > 127:
        out.append(value % 128 + 128)
        value //= 128
    return bytes(out + [value])


def decimal(value):
    """A decimal's bytes: none for 0, for a positive one the least even number of them, 16 for a negative one."""
    size = 0 if value == 0 else 16
    if value > 0:
        size = next(n for n in range(2, 17, 2) if value < 1 << (8 * n - 1))
    return number(size) + value.to_bytes(size, "big", signed=True)


def encoding(schema, slot):
    kind = schema[0]
    if kind == "union":
        null = schema[1].index(("null",))
        if slot is None:
            return number(null)
        return number(1 - null) + encoding(schema[1][1 - null], slot)
    if kind == "boolean":
        return bytes([slot])
    if kind in ("int", "long"):
        return number(slot)
    if kind == "string":
        return number(len(slot.encode())) + slot.encode()
    if kind == "bytes":
        return decimal(slot) if schema[1] else number(len(slot)) + slot
    if kind == "fixed" and schema[2] is None:
        return slot
    if kind == "fixed":
        months, days, nanoseconds = slot
        parts = (months, days, nanoseconds // NANOSECONDS)
        return b"".join(part.to_bytes(4, "little", signed=True) for part in parts)
    if kind == "array":
        items = b"".join(encoding(schema[1], item) for item in slot)
        return number(len(slot)) + items + number(0) if slot else number(0)
    return b"".join(encoding(field[1], item) for field, item in zip(schema[1], slot))


# ---- the record of columns


def column_schema(schema):
    """The schema by `to_record` of the column of a carried schema."""
    kind = schema[0]
    if kind in ("null", "enum"):
        raise Refused("NotYetImplemented", "NoAvroType")
    if kind == "union":
        other = next(member for member in schema[1] if member != ("null",))
        return ("union", [("null",), column_schema(other)])
    if kind == "array":
        return ("array", column_schema(schema[1]))
    if kind == "record":
        return ("record", [(name, column_schema(it)) for name, it in schema[1]])
    if kind == "string":
        return ("string", None)
    if kind == "fixed" and schema[2] and schema[2] != "duration":
        return ("bytes", schema[2])
    return schema


class Writer:
    """The text of a record. Records and fixed types within it get names by their numbers."""

    def __init__(self):
        self.records = self.fixed = 0

    def logical(self, logical):
        if logical is None:
            return ""
        if isinstance(logical, str):
            return f',"logicalType":"{logical}"'
        return f',"logicalType":"decimal","precision":{logical[1]},"scale":{logical[2]}'

    def schema(self, schema):
        kind = schema[0]
        if kind == "union":
            return "[" + ",".join(self.schema(member) for member in schema[1]) + "]"
        if kind == "array":
            return '{"type":"array","items":' + self.schema(schema[1]) + "}"
        if kind == "record":
            self.records += 1
            return self.record(f"r{self.records}", schema[1])
        if kind == "fixed":
            self.fixed += 1
            logical = self.logical(schema[2])
            return f'{{"type":"fixed","name":"f{self.fixed}","size":{schema[1]}{logical}}}'
        if len(schema) > 1 and schema[1]:
            return f'{{"type":"{kind}"{self.logical(schema[1])}}}'
        return f'"{kind}"'

    def record(self, name, fields):
        shown = [f'{{"name":{json_string(field)},"type":{self.schema(it)}}}' for field, it in fields]
        return f'{{"type":"record","name":{json_string(name)},"fields":[' + ",".join(shown) + "]}"


def header(name, fields, marker):
    text = Writer().record(name, fields).encode()
    entry = number(len(b"avro.schema")) + b"avro.schema" + number(len(text)) + text
    return b"Obj\x01" + number(1) + entry + number(0) + marker


def block(fields, table, marker):
    rows = b"".join(encoding(it, slot) for row in table for (_, it), slot in zip(fields, row))
    return number(len(table)) + number(len(rows)) + rows + marker


# ---- rewrite


def name_of(word):
    reader = Word(word)
    name = reader.name()
    if reader.peek():
        raise Usage()
    return name


def marker_of(word):
    if len(word) != 32 or any(c not in DIGITS + "abcdefABCDEF" for c in word):
        raise Usage()
    return bytes.fromhex(word)


def run_rewrite(words, data, out):
    if len(words) != 3:
        raise Usage()
    name, marker = name_of(words[1]), marker_of(words[2])
    fields, source_marker, bytes_ = header_of(data)
    keeps = [True] * len(fields)
    check_fields(fields, keeps)
    columns = [(field, column_schema(it)) for field, it in fields]
    out.append(header(name, columns, marker))
    while bytes_.left():
        rows, found = block_of(bytes_, source_marker)
        table = table_of(rows, fields, keeps, found)
        if table:
            out.append(block(columns, table, marker))


# ---- make

DRAWN = [
    ("id", ("long", None)),
    ("user", ("union", [("null",), ("string", None)])),
    ("tags", ("array", ("string", None))),
    ("ok", ("boolean",)),
]


def drawn_rows(state, count):
    def draw():
        nonlocal state
        state = (state * 1103515245 + 12345) % 2147483648
        return state // 65536

    for index in range(count):
        number_ = draw()
        user = None if number_ % 4 == 0 else f"u{number_ % 1000}"
        tags = [f"t{draw() % 10}" for _ in range(draw() % 3)]
        yield (index, user, tags, draw() % 2 == 1)


def run_make(words):
    if len(words) != 3:
        raise Usage()
    start = plain_number_of(words[1], MOST_32)
    rows = list(drawn_rows(start, plain_number_of(words[2], MOST_DRAWN)))
    encoded = b"".join(encoding(it, slot) for row in rows for (_, it), slot in zip(DRAWN, row))
    ids, true = sum(row[0] for row in rows), sum(row[3] for row in rows)
    lines = [
        f"rows {len(rows)}",
        f"bytes {len(encoded)}",
        f"sum {sum(encoded)}",
        f"id {ids}",
        f"user {sum(row[1] is not None for row in rows)}",
        f"tags {sum(len(row[2]) for row in rows)}",
        f"ok {true}",
        f"kept id {ids} ok {true}",
    ]
    return "".join(line + "\n" for line in lines).encode()
