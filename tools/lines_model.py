"""A slow model of JSON lines and of what they mean, written from docs/FORMATS.md: what `infer` and `avro` answer."""

from canonical_model import block, column_schema, header, marker_of, name_of
from formats_model import (
    MOST_32,
    Refused,
    Usage,
    digits_of,
    field_of,
    has_float,
    json_string,
    parts,
)
from json_model import Fault, JsonNumber, JsonReader, TooDeep

MOST_64 = (1 << 63) - 1
# Unicode's white space (property White_Space), as `str::trim` has it.
WHITE_SPACE = (
    "\t\n\x0b\x0c\r \x85\xa0\u1680\u2000\u2001\u2002\u2003\u2004\u2005\u2006\u2007\u2008\u2009\u200a"
    "\u2028\u2029\u202f\u205f\u3000"
)


def rows_of(data):
    """The rows of lines, one by one."""
    at = 0
    while at < len(data):
        end = data.find(b"\n", at) + 1 or len(data)
        try:
            line = data[at:end].decode("utf-8")
        except UnicodeDecodeError:
            raise Refused("ExternalFormat", "Utf8Line") from None
        at = end
        if line.strip(WHITE_SPACE):
            yield line


def value_of(row):
    try:
        return JsonReader(row).whole()
    except Fault:
        raise Refused("ExternalFormat", "Json") from None
    except TooDeep:
        raise Refused("LimitExceeded") from None


# ---- types of values


def type_of(value):
    if value is None:
        return ("Null",)
    if isinstance(value, bool):
        return ("Boolean",)
    if isinstance(value, JsonNumber):
        return ("Float64",) if "." in value else ("Int64",)
    if isinstance(value, str):
        return ("Utf8",)
    if isinstance(value, list):
        item = coerced(distinct(type_of(it) for it in value))
        return item if item == ("Null",) else ("List", item)
    typed = ((name, type_of(it)) for name, it in value.items())
    return ("Struct", tuple((name, it) for name, it in typed if it != ("Null",)))


def distinct(types):
    """The types that aren't Null, each once, in order of first appearance."""
    return list(dict.fromkeys(it for it in types if it != ("Null",)))


def coerced(types):
    if not types:
        return ("Null",)
    if all(it == types[0] for it in types):
        return types[0]
    if all(it[0] == "Struct" for it in types):
        return coerced_structs(types)
    if len(types) > 2:
        return ("Utf8",)
    one, other = types
    if one[0] == "List" and other[0] == "List":
        return ("List", coerced([one[1], other[1]]))
    if one[0] == "List":
        return ("List", coerced([other, one[1]]))
    if other[0] == "List":
        return ("List", coerced([one, other[1]]))
    names = {one[0], other[0]}
    if names == {"Int64", "Float64"}:
        return ("Float64",)
    return ("Int64",) if names == {"Int64", "Boolean"} else ("Utf8",)


def coerced_structs(types):
    members = {}
    for _, fields in types:
        for name, it in fields:
            members.setdefault(name, []).append(it)
    return ("Struct", tuple((name, coerced(list(dict.fromkeys(it)))) for name, it in members.items()))


def type_text(it):
    if it[0] == "List":
        return f"List({type_text(it[1])})"
    if it[0] == "Struct":
        return "Struct{" + ",".join(f"{json_string(name)}:{type_text(of)}" for name, of in it[1]) + "}"
    return it[0]


def run_infer(words, data):
    if len(words) != 1:
        raise Usage()
    if not data:
        raise Refused("ExternalFormat", "EmptyInput")
    types = [type_of(value_of(row)) for row in rows_of(data)]
    return (type_text(coerced(distinct(types))) + "\n").encode()


# ---- values read under a type


def halves(text):
    """A number's mantissa, and its exponent or nothing."""
    mantissa, _, exponent = text.replace("E", "e").partition("e")
    return mantissa, exponent


def whole_value(text):
    """A number's exact value cut towards zero. Of one past 128 bits any number past them."""
    mantissa, exponent = halves(text)
    whole, _, fraction = mantissa.lstrip("-").partition(".")
    digits = int(whole + fraction)
    if digits == 0:
        return 0
    power = int(exponent or "0") - len(fraction)
    if power < -len(whole + fraction):
        return 0
    value = digits * 10 ** min(power, 40) if power >= 0 else digits // 10**-power
    return -value if mantissa.startswith("-") else value


def is_timestamp(schema):
    return schema[0] == "long" and schema[1] is not None and "timestamp" in schema[1]


def base_of(schema):
    """A schema without its union with null."""
    if schema[0] != "union":
        return schema
    return next(member for member in schema[1] if member != ("null",))


def has_text_timestamp(schema, value):
    """Whether a text is read under a timestamp."""
    schema = base_of(schema)
    if schema[0] == "array":
        return isinstance(value, list) and any(has_text_timestamp(schema[1], it) for it in value)
    if schema[0] == "record":
        return isinstance(value, dict) and any(
            has_text_timestamp(it, value.get(name)) for name, it in schema[1]
        )
    return is_timestamp(schema) and isinstance(value, str) and not isinstance(value, JsonNumber)


def meaning(schema, value):
    """The slot that a value means in a column."""
    schema = base_of(schema)
    kind = schema[0]
    is_number = isinstance(value, JsonNumber)
    is_text = isinstance(value, str) and not is_number
    if kind == "boolean":
        return value if isinstance(value, bool) else None
    if kind in ("int", "long"):
        if isinstance(value, bool):
            return None if is_timestamp(schema) else int(value)
        return fitting(whole_value(value), MOST_32 if kind == "int" else MOST_64) if is_number else None
    if kind == "string":
        return value if is_text else text_of(value)
    if kind == "bytes":
        return value.encode() if is_text else None
    if kind == "array":
        return [meaning(schema[1], it) for it in value] if isinstance(value, list) else None
    if not isinstance(value, dict):
        return None
    return tuple(meaning(it, value.get(name)) for name, it in schema[1])


def fitting(value, most):
    if not -most - 1 <= value <= most:
        raise Refused("Overflow")
    return value


def text_of(value):
    """The text of a number or a boolean; none of another value."""
    if isinstance(value, bool):
        return "true" if value else "false"
    if not isinstance(value, JsonNumber):
        return None
    mantissa, exponent = halves(value)
    return mantissa + ("e" + exponent if exponent else "")


def shows_null(schema, slot):
    """Whether a null stands where the schema has no union with null."""
    if slot is None:
        return schema[0] != "union"
    schema = base_of(schema)
    if schema[0] == "array":
        return any(shows_null(schema[1], it) for it in slot)
    if schema[0] == "record":
        return any(shows_null(it, part) for (_, it), part in zip(schema[1], slot))
    return False


# ---- avro


def names_twice(schema):
    for part in parts(schema):
        if part[0] == "record":
            names = [name for name, _ in part[1]]
            if len(set(names)) < len(names):
                return True
    return False


def has_no_reading(schema):
    def is_one(part):
        kind = part[0]
        return kind == "fixed" or (kind == "bytes" and part[1]) or (kind == "record" and not part[1])

    return has_float(schema) or any(is_one(part) for part in parts(schema))


def check_columns(fields):
    record = ("record", fields)
    for part in parts(record):
        if part[0] == "union" and part[1] == [("null",), ("null",)]:
            raise Refused("NotYetImplemented", "MapOrUnion")
    if names_twice(record):
        raise Refused("InvalidArgumentError", "DuplicateName")
    if not fields:
        raise Refused("NotYetImplemented", "NoField")
    columns = column_schema(record)[1]
    if has_no_reading(record):
        raise Refused("NotYetImplemented", "NoJsonReading")
    return columns


def table_of_rows(fields, batch):
    """The slots of a batch of rows."""
    record = ("record", fields)
    values = [value_of(row) for row in batch]
    if not all(isinstance(value, dict) for value in values):
        raise Refused("ExternalFormat", "NotAnObject")
    if any(has_text_timestamp(record, value) for value in values):
        raise Refused("NotYetImplemented", "TextTimestamp")
    table = [meaning(record, value) for value in values]
    if any(shows_null(record, row) for row in table):
        raise Refused("InvalidArgumentError", "NullUnderRequired")
    return table


def batches_of(rows, count):
    batch = []
    for row in rows:
        batch.append(row)
        if len(batch) == count:
            yield batch
            batch = []
    if batch:
        yield batch


def run_avro(words, data, out):
    if len(words) < 4:
        raise Usage()
    name, marker = name_of(words[1]), marker_of(words[3])
    per_block = digits_of(words[2], 20, (1 << 64) - 1)
    read = [field_of(word) for word in words[4:]]
    if per_block == 0 or not all(keep for _, _, keep in read):
        raise Usage()
    fields = check_columns([(field, schema) for field, schema, _ in read])
    out.append(header(name, fields, marker))
    for batch in batches_of(rows_of(data), per_block):
        out.append(block(fields, table_of_rows(fields, batch), marker))
