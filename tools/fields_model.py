"""What `fields` answers of a file, by docs/FORMATS.md."""

from formats_model import MOST_32, NAME_CHARACTERS, Refused, Usage, check_fields, has_text, header_of, json_string


def run_fields(words, data):
    if len(words) != 1:
        raise Usage()
    fields, _, _ = header_of(data)
    return "".join(line_of(number, *field) for number, field in enumerate(fields)).encode()


def line_of(number, name, schema):
    word = type_word(schema)
    return f"{number}\t{json_string(name)}\t{'-' if word is None else word}\t{verdict_of(schema)}\n"


def verdict_of(schema):
    """`ndjson`, or the reason why a record of such a field alone can't be shown."""
    try:
        check_fields([("", schema)], [True])
    except Refused as refused:
        return refused.reason
    return "ndjson" if has_text(schema) else "NoJsonText"


def type_word(schema, depth=1):
    """The word of a type, or None where it has none."""
    if schema[0] != "union":
        return base_word(schema, depth)
    members = schema[1]
    if len(members) != 2 or ("null",) not in members:
        return None
    first = members[0] == ("null",)
    base = base_word(members[1] if first else members[0], depth)
    return None if base is None else base + ("?" if first else "!")


def base_word(schema, depth):
    kind = schema[0]
    if depth > 64 or kind in ("map", "union"):
        return None
    if kind == "array":
        return bracketed("[", "", [type_word(schema[1], depth + 1)], "]")
    if kind == "record":
        return bracketed("{", ";", [field_word(name, it, depth + 1) for name, it in schema[1]], "}")
    if kind == "enum":
        return bracketed("<", ",", [name_word(symbol) for symbol in schema[1]], ">") if schema[1] else None
    if kind == "fixed":
        return fixed_word(schema[1], schema[2])
    if kind == "bytes" and schema[1]:
        return bracketed("decimal(", ",", numbers_of(schema[1]), ")")
    return schema[1] if len(schema) > 1 and schema[1] else kind


def bracketed(opening, between, parts, closing):
    return None if None in parts else opening + between.join(parts) + closing


def name_word(name):
    return name if name and set(name) <= NAME_CHARACTERS else None


def field_word(name, schema, depth):
    return bracketed("", "=", [name_word(name), type_word(schema, depth)], "")


def number_word(number):
    return str(number) if number <= MOST_32 else None


def numbers_of(decimal):
    """The words of a decimal's precision and scale."""
    _, precision, scale = decimal
    fits = 1 <= precision and scale <= precision
    return [number_word(precision) if fits else None, number_word(scale)]


def fixed_word(size, logical):
    if logical == "duration":
        return "duration" if size == 12 else None
    if logical:
        return bracketed("decimal(", ",", [*numbers_of(logical), number_word(size)], ")")
    return bracketed("fixed(", "", [number_word(size)], ")")
