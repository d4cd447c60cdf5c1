#!/usr/bin/env python3
"""Runs the program on random words and bytes, and compares each answer with a slow model's.

Schemas, rows, encodings, JSON lines, words, files and damages are random; tools/commands_model.py and what it stands on,
written from docs/FORMATS.md, say what the program has to answer: exit status, standard output and the note. A trial calls
the program's `main` in a process that goes on (`program.py`), and one in a hundred of them starts the program besides.

Use: tools/fuzz.py SEED TRIALS [WORKERS], from anywhere, after `./avrocat --prove`; AVROCAT names another program. It needs a
C compiler, and prints the first difference, with what shows it again, and then its status is 1.
"""
import collections
import multiprocessing
import os
import random
import sys
import tempfile

from commands_model import answer_of
from formats_model import INT_LOGICAL, LONG_LOGICAL, json_string
from program import PROGRAM, Request, Server, library_of, run_alone

FLAT = (
    [("boolean",), ("float",), ("double",), ("int", None), ("long", None), ("bytes", None)]
    + [("string", None), ("string", "uuid"), ("bytes", ("decimal", 10, 2)), ("fixed", 12, "duration")]
    + [("int", logical) for logical in INT_LOGICAL]
    + [("long", logical) for logical in LONG_LOGICAL]
)
NAMES = ["a", "b", "id", "user_name", "x-1", "9.9", "Tags", "_"]
ANY_NAMES = NAMES + ["", "é", 'q"', "\\", "\n", "\x01", "名", "a b"]
# Of lengths about those of buffers.
LENGTHS = [63, 64, 127, 128, 1000, 8191, 8192, 8193, 65535, 65536, 70000]
TEXTS = ["", "a", "hello", "é", "名前", "\U0001f600", 'q"\\/', "\b\f\n\r\t\x01\x1f\x7f", "x" * 15, "y" * 16, "z" * 17]


def deep(r, least, most):
    """Arrays in arrays."""
    schema = r.choice([("int", None), ("union", [("null",), ("string", None)])])
    for _ in range(r.randint(least, most)):
        schema = ("array", schema)
    return schema


def schema_of(r, depth):
    """A random schema, mostly one that is carried."""
    dice = r.random()
    if depth > 0 and dice < 0.15:
        return ("array", schema_of(r, depth - 1))
    if depth > 0 and dice < 0.3:
        count = r.choice([0, 1, 1, 2, 3]) if r.random() < 0.2 else r.randint(1, 3)
        return ("record", [(r.choice(NAMES), schema_of(r, depth - 1)) for _ in range(count)])
    if depth > 0 and dice < 0.5:
        other = schema_of(r, depth - 1)
        if other[0] == "union" and r.random() < 0.95:
            other = other[1][0] if other[1][1] == ("null",) else other[1][1]
        members = [("null",), other]
        if r.random() < 0.4:
            members.reverse()
        return ("union", members)
    if dice < 0.56:
        return ("enum", r.sample(["A", "B", "C", "Long-Name"], r.randint(1, 3)))
    if dice < 0.62:
        size = r.choice([0, 1, 2, 12, 16, 17]) if r.random() < 0.3 else r.randint(1, 5)
        return ("fixed", size, r.choice([None, None, decimal_of(r)]))
    if dice < 0.63:
        return ("null",)
    while True:
        schema = r.choice(FLAT)
        if schema[0] == "bytes" and schema[1]:
            return ("bytes", decimal_of(r))
        if schema[0] not in ("float", "double") or r.random() < 0.2:
            return schema


def decimal_of(r):
    return ("decimal", *r.choice([(1, 0), (2, 0), (9, 2), (10, 10), (38, 2), (2147483647, 0)]))


def type_word(r, schema):
    """The word of a type. A union is a mark."""
    kind = schema[0]
    if kind == "union":
        null_first = schema[1][0] == ("null",)
        return type_word(r, schema[1][1 if null_first else 0]) + ("?" if null_first else "!")
    if kind == "array":
        return f"[{type_word(r, schema[1])}]"
    if kind == "record":
        return "{" + ";".join(f"{name}={type_word(r, it)}" for name, it in schema[1]) + "}"
    if kind == "enum":
        return "<" + ",".join(schema[1]) + ">"
    if kind == "fixed":
        if schema[2] == "duration":
            return "duration"
        return f"decimal({digits(r, schema[2])},{schema[1]})" if schema[2] else f"fixed({schema[1]})"
    if kind == "bytes" and schema[1]:
        return f"decimal({digits(r, schema[1])})"
    if kind in ("int", "long", "string") and schema[1]:
        return schema[1]
    return kind


def digits(r, decimal):
    """Precision and scale of a decimal, sometimes with digits more than need be."""
    zeros = r.choice(["", "", "", "0"])
    return ",".join((zeros + str(part))[-10:] for part in decimal[1:])


# ---- encodings


def number(r, value):
    """A number, sometimes longer than need be."""
    value = value * 2 if value >= 0 else -value * 2 - 1
    out = []
    while value > 127:
        out.append(value % 128 + 128)
        value //= 128
    out.append(value)
    while len(out) < 9 and r.random() < 0.03:
        out[-1] += 128
        out.append(0)
    return bytes(out)


def integer(r, bits):
    dice = r.random()
    most = (1 << (bits - 1)) - 1
    if dice < 0.5:
        return r.randint(-70, 70)
    if dice < 0.6:
        return r.choice([most, -most - 1, most - 1, 0])
    if dice < 0.8:
        return r.randint(-(1 << 16), 1 << 16)
    return r.randint(-most - 1, most)


def moment(r, unit):
    """Mostly in the years 0 to 9999."""
    if r.random() < 0.1:
        return integer(r, 64)
    seconds = r.choice([0, -1, 253402300799, -62167219200, r.randint(-62167219200, 253402300799)])
    return seconds * unit + r.choice([0, 0, r.randint(0, unit - 1)])


def long_of(r, logical):
    for end, unit in (("millis", 1000), ("micros", 1000000), ("nanos", 1000000000)):
        if logical and logical.endswith(end) and "timestamp" in logical:
            value = moment(r, unit)
            if -(1 << 63) <= value < 1 << 63:
                return value
    return integer(r, 64)


def encoded(r, schema):
    """A random value's bytes."""
    kind = schema[0]
    if kind == "boolean":
        return bytes([r.randint(0, 1)])
    if kind == "int":
        wanted = r.randint(-719528, 2932896) if schema[1] == "date" and r.random() < 0.9 else integer(r, 32)
        return number(r, wanted)
    if kind == "long":
        return number(r, long_of(r, schema[1]))
    if kind == "float":
        return r.randbytes(4)
    if kind == "double":
        return r.randbytes(8)
    if kind == "bytes":
        data = r.randbytes(r.choice([0, 1, 2, 4, 16, 17 if r.random() < 0.1 else 8]))
        return number(r, len(data)) + data
    if kind == "string":
        data = text_of(r).encode()
        return number(r, len(data)) + data
    if kind == "fixed":
        return r.randbytes(schema[1])
    if kind == "enum":
        return number(r, r.randrange(len(schema[1])) if schema[1] else 0)
    if kind == "record":
        return b"".join(encoded(r, field[1]) for field in schema[1])
    if kind == "union":
        index = r.randrange(len(schema[1]))
        member = schema[1][index]
        return number(r, index) + (b"" if member == ("null",) else encoded(r, member))
    if kind == "array":
        return encoded_array(r, schema[1])
    return b""


def text_of(r):
    if r.random() < 0.001:
        return "x" * r.choice(LENGTHS)
    return "".join(r.choice(TEXTS) for _ in range(r.choice([0, 1, 1, 1, 2])))


def encoded_array(r, item):
    if item[0] == "array" and depth_of(item) > 10:
        return number(r, 0)
    out = b""
    for _ in range(r.choice([0, 1, 1, 2, 3])):
        count = r.choice([1, 1, 2, 3])
        items = b"".join(encoded(r, item) for _ in range(count))
        if r.random() < 0.3:
            size = len(items) if r.random() < 0.95 else r.randint(-3, len(items) + 2)
            out += number(r, -count) + number(r, size) + items
        else:
            out += number(r, count) + items
    return out + number(r, 0)


def depth_of(schema):
    depth = 0
    while schema[0] == "array":
        depth, schema = depth + 1, schema[1]
    return depth


def damaged(r, data):
    """The bytes with some changed, left out, put in or cut off."""
    data = bytearray(data)
    for _ in range(r.choice([1, 1, 1, 2, 3])):
        at = r.randint(0, len(data))
        dice = r.random()
        if dice < 0.4 and at < len(data):
            data[at] = r.choice([0, 1, 2, 3, 127, 128, 255, r.randrange(256), data[at] ^ 1])
        elif dice < 0.6:
            del data[at : at + r.choice([1, 1, 2, 5])]
        elif dice < 0.8:
            data[at:at] = r.randbytes(r.choice([1, 1, 2, 5]))
        else:
            del data[at:]
    return bytes(data)


# ---- trials


def block_trial(r):
    if r.random() < 0.005:
        rows = r.choice([0, 1, 2])
        return ["block", str(rows), f"a={type_word(r, deep(r, 61, 65))}"], bytes(rows)
    fields, words = [], []
    for _ in range(r.choice([0, 1, 1, 1, 2, 2, 3, 4]) if r.random() < 0.3 else r.randint(1, 4)):
        schema = schema_of(r, r.randint(0, 3))
        keep = r.random() < 0.75
        fields.append(schema)
        words.append(("" if keep else "~") + r.choice(NAMES) + "=" + type_word(r, schema))
    rows = r.choice([0, 1, 1, 2, 3, 5, 9, 70 if r.random() < 0.1 else 4])
    data = b"".join(encoded(r, schema) for _ in range(rows) for schema in fields)
    if r.random() < 0.05:
        rows = r.choice([rows + 1, max(rows - 1, 0), 1 << 63, (1 << 64) - 1, 1 << 64])
    words = [r.choice(["block", "block", "block-large"]), str(rows)] + words
    return words, damaged(r, data) if r.random() < 0.5 else data


def damaged_words(r, words):
    """The words with a character changed, left out or put in, or a word too few or too many."""
    words = list(words)
    dice = r.random()
    at = r.randrange(len(words))
    if dice < 0.1:
        del words[at]
    elif dice < 0.2:
        words.insert(at, r.choice(["", "0", "a=int", "~", "block", "é=int", b"\xff"]))
    else:
        word = words[at]
        place = r.randint(0, len(word))
        put = r.choice(["", "?", "!", "[", "]", "{", "}", "<", ">", ";", ",", "=", "~", "0", "a", "é", " "])
        words[at] = word[:place] + put + word[place + r.randint(0, 1) :]
    return words


def schema_value(r, schema):
    """A schema as a JSON text, in one of its forms."""
    kind = schema[0]
    if kind == "union":
        text = "[" + ",".join(schema_value(r, member) for member in schema[1]) + "]"
    elif kind == "array":
        text = members(r, [("type", '"array"'), ("items", schema_value(r, schema[1]))])
    elif kind == "map":
        text = members(r, [("type", '"map"'), ("values", schema_value(r, schema[1]))])
    elif kind == "record":
        text = record_value(r, schema)
    elif kind == "enum":
        symbols = "[" + ",".join(json_string(symbol) for symbol in schema[1]) + "]"
        text = members(r, [("type", '"enum"'), ("name", '"E"'), ("symbols", symbols)])
    elif kind == "fixed":
        given = [("type", '"fixed"'), ("name", '"F"'), ("size", str(schema[1]))]
        text = members(r, given + logical_members(r, schema[2]))
    elif len(schema) > 1 and schema[1]:
        text = members(r, [("type", f'"{kind}"')] + logical_members(r, schema[1]))
    else:
        text = f'"{kind}"'
        if r.random() < 0.2:
            text = members(r, [("type", text)])
    if kind != "union" and r.random() < 0.03:
        text = members(r, [("type", text)])
    return text


def logical_members(r, logical):
    if logical is None:
        return [("logicalType", '"other"')] if r.random() < 0.05 else []
    if isinstance(logical, str):
        return [("logicalType", json_string(logical))]
    _, precision, scale = logical
    given = [("scale", str(scale))] if scale or r.random() < 0.5 else []
    return [("logicalType", '"decimal"'), ("precision", str(precision))] + given


def record_value(r, schema):
    fields = []
    for name, it in schema[1]:
        given = [("name", json_string(name)), ("type", schema_value(r, it))]
        fields.append(members(r, given))
    given = [("type", '"record"'), ("name", '"r"'), ("fields", "[" + ",".join(fields) + "]")]
    if r.random() < 0.2:
        given.append(("namespace", r.choice(['"com.example"', "null", "1"])))
    if r.random() < 0.2:
        given.append(("doc", r.choice(['"what it is"', "[]"])))
    return members(r, given)


def members(r, given):
    """An object of these members, in any order, with others and with white space."""
    given = list(given)
    if r.random() < 0.05:
        given.append((r.choice(["default", "order", "aliases", "other"]), r.choice(["1e5", "[]", '"x"', "null"])))
    if r.random() < 0.1:
        r.shuffle(given)
    if r.random() < 0.01:
        del given[r.randrange(len(given))]
    space = r.choice(["", "", "", "", " ", "\n\t"])
    return "{" + ",".join(f"{space}{json_string(key)}{space}:{value}" for key, value in given) + space + "}"


def metadata(r, text):
    """A header's map of metadata."""
    entries = [(b"avro.schema", text.encode())]
    if r.random() < 0.3:
        codec = b"null" if r.random() < 0.9 else b"deflate"
        entries.insert(r.randint(0, 1), (b"avro.codec", codec))
    if r.random() < 0.1:
        entries.insert(r.randint(0, 1), (r.choice([b"", b"user.key", "é".encode()]), r.randbytes(3)))
    if r.random() < 0.03:
        entries.insert(0, (b"avro.schema", b"no schema"))
    out = b""
    while entries:
        count = r.randint(1, len(entries))
        taken, entries = entries[:count], entries[count:]
        data = b"".join(number(r, len(k)) + k + number(r, len(v)) + v for k, v in taken)
        if r.random() < 0.2:
            out += number(r, -count) + number(r, len(data)) + data
        else:
            out += number(r, count) + data
    return out + number(r, 0)


def file_of(r, fields):
    """A file of these fields, sometimes damaged."""
    text = record_value(r, ("record", fields))
    if r.random() < 0.05:
        text = damaged_text(r, text)
    marker = r.randbytes(16)
    data = b"Obj\x01" + metadata(r, text) + marker
    for _ in range(r.choice([0, 1, 1, 2, 3])):
        rows = r.choice([0, 1, 1, 2, 3, 5])
        block = b"".join(encoded(r, it) for _ in range(rows) for _, it in fields)
        if r.random() < 0.05:
            block = damaged(r, block)
        data += number(r, rows) + number(r, len(block)) + block
        data += marker if r.random() < 0.98 else r.randbytes(16)
    return damaged(r, data) if r.random() < 0.25 else data


def fields_of(r):
    if r.random() < 0.005:
        # Of their texts' brackets about 128 are open at once.
        return [("a", deep(r, 123, 126))]
    count = r.choice([0, 1]) if r.random() < 0.05 else r.randint(1, 4)
    return [(r.choice(ANY_NAMES), schema_of(r, r.randint(0, 3))) for _ in range(count)]


def ndjson_trial(r):
    fields = fields_of(r)
    if r.random() < 0.7:
        fields = [(name, with_text(it)) for name, it in fields]
    data, count = file_of(r, fields), len(fields)
    words = ["ndjson"]
    if r.random() < 0.4 and count:
        kept = r.sample(range(count), r.randint(1, count))
        words += [str(i) for i in kept]
        if r.random() < 0.05:
            words.append(str(r.randint(0, count)))
    return words, data


def rewrite_trial(r):
    fields = fields_of(r)
    if r.random() < 0.9:
        fields = [(name, replaced(it, has_no_column)) for name, it in fields]
    return ["rewrite", r.choice(NAMES), marker_word(r)], file_of(r, fields)


def marker_word(r):
    return "".join(r.choice("0123456789abcdefABCDEF") for _ in range(32 if r.random() < 0.99 else 31))


def inspect_trial(r):
    """Of a file of any fields, or of what the program says of itself."""
    if r.random() < 0.1:
        return [r.choice(["help", "--help", "-h", "version", "--version"])], r.choice([b"", b"\xff"])
    fields = [(name, ("map", it) if r.random() < 0.1 else it) for name, it in fields_of(r)]
    return [r.choice(["count", "schema", "fields"])], file_of(r, fields)


def make_trial(r):
    start = r.choice([0, 1, 2147483647, 2147483648, r.randrange(1 << 31), r.randrange(1 << 31)])
    rows = r.choice([0, 1, 2, 3, 5, 9, 40, 300 if r.random() < 0.1 else 4, 1000001])
    zeros = r.choice(["", "", "", "", "0"])
    return ["make", zeros + str(start), str(rows)], r.choice([b"", b"\xff"])


# ---- lines


def avro_trial(r):
    fields, words, names = [], [], NAMES[:]
    r.shuffle(names)
    for _ in range(r.choice([0, 1, 5]) if r.random() < 0.1 else r.randint(1, 4)):
        schema = schema_of(r, r.randint(0, 3))
        if r.random() < 0.96:
            schema = replaced(schema, has_no_reading)
        if r.random() < 0.002:
            schema = deep(r, 61, 65)
        fields.append((names.pop() if r.random() < 0.98 else r.choice(NAMES), schema))
        words.append(f"{fields[-1][0]}={type_word(r, schema)}")
    per_block = r.choice(["1", "1", "2", "2", "3", "10", "0", "00000000000000000001", "18446744073709551615"])
    data, record = b"", ("record", fields)
    odd = r.choice([0, 0, 0, 0.002, 0.02])
    for _ in range(r.choice([0, 1, 1, 2, 3, 5, 7, 25 if r.random() < 0.2 else 4])):
        row = row_text(r, record, odd) if r.random() > odd else any_value(r, 2)
        data += row.encode() + line_end(r)
    return ["avro", r.choice(NAMES), per_block, marker_word(r)] + words, ended(r, data)


def infer_trial(r):
    kind = r.choice(["any", "one", "records"])
    schema = replaced(schema_of(r, 3), has_no_reading)
    fields = ("record", [(r.choice(NAMES), replaced(schema_of(r, 2), has_no_reading)) for _ in range(3)])
    data = b""
    for _ in range(r.choice([0, 1, 1, 2, 2, 3, 4, 7])):
        if kind == "any":
            row = any_value(r, r.randint(0, 3))
        else:
            row = fitting_text(r, schema if kind == "one" else fields, 0.05)
        data += row.encode() + line_end(r)
    return ["infer"], ended(r, data)


def line_end(r):
    """A line feed, sometimes with white space before it, and with lines after it that are blank."""
    dice = r.random()
    if dice < 0.85:
        return b"\n"
    if dice < 0.95:
        return r.choice([b"\r\n", b" \n", b"\n\n", b"\n \t\n", b"\n\r\n"])
    return "\n".encode() + r.choice(["\u00a0", "\u2003\u3000", "\x0b", "\x0c", "\x1c", "\u200b", "\x85"]).encode() + b"\n"


def ended(r, data):
    if r.random() < 0.2 and data.endswith(b"\n"):
        data = data[:-1]
    return damaged(r, data) if r.random() < 0.1 else data


WHOLE = ["0", "-0", "1", "-1", "127", "2147483647", "2147483648", "-2147483648", "-2147483649"]
WHOLE += ["9223372036854775807", "9223372036854775808", "-9223372036854775808", "-9223372036854775809"]
OTHER = ["0.0", "-0.9", "1.5e1", "1E2", "1e+2", "25e-1", "1e400", "1e-400", "0e999999999999", "1.000", "-1.5", "2147483647.99"]
OTHER += ["9223372036854775807.5", "12e17", "12e18", "0.000000000000000000001e21", "1e-99999999999999999999"]
OTHER += ["340282366920938463463374607431768211456", "123456789012345678901234567890e-20"]


def number_text(r, bits):
    """A number's text, mostly one that fits."""
    if r.random() < 0.85:
        text = str(integer(r, bits))
        return text + r.choice(["", "", "", ".0", ".5", "e0"]) if r.random() < 0.2 else text
    return r.choice(WHOLE if r.random() < 0.7 else OTHER)


def string_text(r, text):
    """A JSON string of a text, sometimes with escapes that need not be."""
    if r.random() < 0.8:
        return json_string(text)
    out = ""
    for character in text:
        code = ord(character)
        if code > 0xFFFF:
            high, low = 0xD7C0 + (code >> 10), 0xDC00 + (code & 1023)
            out += f"\\u{high:04x}\\u{low:04X}" if r.random() < 0.5 else character
        else:
            out += f"\\u{code:04x}" if r.random() < 0.5 else json_string(character)[1:-1]
    return f'"{out}"'


def any_value(r, depth):
    """A JSON value of any kind."""
    dice = r.random()
    if depth > 0 and dice < 0.3:
        return "[" + ",".join(any_value(r, depth - 1) for _ in range(r.choice([0, 1, 2, 2, 3]))) + "]"
    if depth > 0 and dice < 0.6:
        given = [(r.choice(ANY_NAMES), any_value(r, depth - 1)) for _ in range(r.choice([0, 1, 2, 3]))]
        return object_text(r, given)
    dice = r.random()
    if dice < 0.003:
        return "[" * r.choice([127, 128, 129]) + "]" * r.choice([127, 128, 129])
    if dice < 0.02:
        return r.choice(['"', "{", "[1,", '{"a"', "nul", "01", "1.", '"\\ud800"', "\ufeff1", "1 2", "-", '"\t"'])
    if dice < 0.5:
        return number_text(r, 32)
    return r.choice(["null", "true", "false", string_text(r, r.choice(TEXTS))])


def object_text(r, given):
    space = r.choice(["", "", "", "", " ", "\t"])
    shown = [f"{space}{string_text(r, name)}{space}:{space}{value}" for name, value in given]
    return "{" + ",".join(shown) + space + "}"


def row_text(r, record, odd):
    """An object of a record's members: mostly all, in order, of values that fit."""
    given = [(name, fitting_text(r, it, odd)) for name, it in record[1]]
    if r.random() < 0.2:
        given = [(name, value) for name, value in given if value != "null" or r.random() < 0.5]
    if given and r.random() < odd:
        del given[r.randrange(len(given))]
    if r.random() < 0.1:
        given.insert(r.randint(0, len(given)), (r.choice(ANY_NAMES + ["extra"]), any_value(r, 2)))
    if given and r.random() < 0.03:
        given.append((r.choice(given)[0], r.choice(given)[1]))
    if r.random() < 0.1:
        r.shuffle(given)
    return object_text(r, given)


def fitting_text(r, schema, odd):
    """A JSON value that mostly fits a schema."""
    kind = schema[0]
    if odd and r.random() < odd:
        return any_value(r, 1)
    if kind == "union":
        other = next((it for it in schema[1] if it != ("null",)), ("null",))
        return "null" if r.random() < 0.4 else fitting_text(r, other, odd)
    if kind == "array":
        count = 0 if depth_of(schema) > 10 else r.choice([0, 1, 2, 3])
        return "[" + ",".join(fitting_text(r, schema[1], odd) for _ in range(count)) + "]"
    if kind == "record":
        return row_text(r, schema, odd)
    if kind == "boolean":
        return r.choice(["true", "false"])
    if kind in ("int", "long", "float", "double"):
        return number_text(r, 32 if kind == "int" else 64) if r.random() < 0.97 else r.choice(["true", "false"])
    if kind == "string" and r.random() < 0.1:
        return r.choice(["true", "false", number_text(r, 64)])
    return string_text(r, text_of(r))


def has_no_text(schema):
    return schema[0] in ("bytes", "fixed", "float", "double") or schema[1:] in (("time-millis",), ("time-micros",))


def has_no_column(schema):
    return schema[0] in ("enum", "float", "double", "null")


def has_no_reading(schema):
    kind = schema[0]
    return kind in ("enum", "float", "double", "null", "fixed") or kind == "bytes" and schema[1] is not None


def with_text(schema):
    """The schema with what has no JSON text replaced."""
    return replaced(schema, has_no_text)


def replaced(schema, is_refused):
    """The schema with each flat one that is refused replaced."""
    kind = schema[0]
    if kind == "array":
        return ("array", replaced(schema[1], is_refused))
    if kind == "record":
        return ("record", [(name, replaced(it, is_refused)) for name, it in schema[1]])
    if kind == "union":
        return ("union", [it if it == ("null",) else replaced(it, is_refused) for it in schema[1]])
    return ("long", "timestamp-micros") if is_refused(schema) else schema


def damaged_text(r, text):
    at = r.randint(0, len(text))
    dice = r.random()
    if dice < 0.05:
        return "[" * r.choice([128, 129]) + "]" * r.choice([128, 129])
    if dice < 0.1:
        return r.choice(['"int"', "[]", "{}", "null", "3", '"record"', "", "\ufeff" + text])
    return text[:at] + r.choice(["", '"', "\\", "[", "]", "{", "}", ",", ":", "1", "\\u12", "é"]) + text[at + r.randint(0, 2) :]


TRIALS = [block_trial] * 7 + [ndjson_trial] * 4 + [rewrite_trial] * 4 + [avro_trial] * 6 + [infer_trial] * 3 + [inspect_trial] * 3 + [make_trial]
# One in so many trials starts the program; so many are sent at once; and after so many batches a line is printed.
ALONE, BATCH, TOLD = 100, 100, 500


def trial_of(seed, trial):
    """Words and bytes of a trial."""
    r = random.Random(f"{seed} {trial}")
    words, data = r.choice(TRIALS)(r)
    return damaged_words(r, words) if r.random() < 0.05 else words, data


def difference_text(seed, trial, expected, found):
    words, data = trial_of(seed, trial)
    return f"seed {seed}, trial {trial}: {words}\ninput    {data.hex()}\nexpected {expected}\nfound    {found}"


def status_of(words, status):
    """A status and, where there was a command, its name."""
    return f"{words[0]} {status}" if words and status != 1 else str(status)


def try_trials(seed, trials, server):
    """How often there was which status, and the text of a difference, if there is one."""
    statuses, given = collections.Counter(), [trial_of(seed, trial) for trial in trials]
    answers = server.run_all([Request(words, data) for words, data in given])
    for trial, (words, data), answer in zip(trials, given, answers):
        expected, found = answer_of(words, data), answer.given
        if found == expected and trial % ALONE == 0:
            found = run_alone(words, data)
        if found != expected:
            return statuses, difference_text(seed, trial, expected, found)
        statuses[status_of(words, found[0])] += 1
    return statuses, None


def work(seed, batches, library, results):
    """Takes batches of trials, one after another, and tells of each what it found."""
    server = Server(library)
    for trials in batches:
        try:
            results.put(try_trials(seed, trials, server))
        except EOFError as error:
            results.put(({}, f"seed {seed}, one of trials {trials.start} to {trials.stop - 1}: {error}"))
    server.close()


def main():
    if not 3 <= len(sys.argv) <= 4:
        sys.exit("use: tools/fuzz.py SEED TRIALS [WORKERS]")
    seed, trials = int(sys.argv[1]), int(sys.argv[2])
    workers = int(sys.argv[3]) if len(sys.argv) == 4 else 1
    if not os.access(PROGRAM, os.X_OK):
        sys.exit("build the program first: ./avrocat --prove")
    results, statuses = multiprocessing.Queue(), collections.Counter()
    batches = [range(first, min(first + BATCH, trials)) for first in range(0, trials, BATCH)]
    with tempfile.TemporaryDirectory() as folder:
        library = library_of(folder)
        for worker in range(workers):
            given = (seed, batches[worker::workers], library, results)
            multiprocessing.Process(target=work, args=given, daemon=True).start()
        for done in range(1, len(batches) + 1):
            found, difference = results.get()
            if difference:
                sys.exit(difference)
            statuses.update(found)
            if done % TOLD == 0:
                print(f"{sum(statuses.values())} trials without a difference", flush=True)
    print(f"seed {seed}: {trials} trials without a difference; commands, statuses and how many:")
    print(", ".join(f"{status}: {count}" for status, count in sorted(statuses.items())))


if __name__ == "__main__":
    main()
