"""What `count` and `schema` answer of a file, and what the program says of itself, by docs/FORMATS.md."""

import os
import re

from formats_model import Bytes, SchemaReader, Usage, block_of, entries_of, header_of, json_string
from json_model import JsonNumber, JsonReader

TOP = os.path.dirname(os.path.dirname(os.path.abspath(__file__)))


def alone(words):
    """The word of such a command stands alone."""
    if len(words) != 1:
        raise Usage()


def run_count(words, data):
    alone(words)
    _, marker, bytes_ = header_of(data)
    rows, blocks = 0, 0
    while bytes_.left():
        more, _ = block_of(bytes_, marker)
        rows, blocks = rows + more, blocks + 1
    return f"rows {rows}\nblocks {blocks}\n".encode()


def run_schema(words, data):
    alone(words)
    header_of(data)
    text = entries_of(Bytes(data, 4))["avro.schema"].decode()
    return (written(JsonReader(text).whole()) + "\n").encode()


def written(value):
    """The text that is written of the schema for which a JSON value stands."""
    if isinstance(value, str):
        return f'"{value}"'
    if isinstance(value, list):
        return "[" + ",".join(written(member) for member in value) + "]"
    kind = value["type"]
    if isinstance(kind, (dict, list)):
        return written(kind)
    if kind == "array":
        return '{"type":"array","items":' + written(value["items"]) + "}"
    if kind == "map":
        return '{"type":"map","values":' + written(value["values"]) + "}"
    if kind == "record":
        return named(value) + ',"fields":[' + ",".join(written_field(it) for it in value["fields"]) + "]}"
    if kind == "enum":
        return named(value) + ',"symbols":[' + ",".join(json_string(it) for it in value["symbols"]) + "]}"
    schema = SchemaReader().typed(value, kind)
    if kind == "fixed":
        return named(value) + f',"size":{schema[1]}' + logical(schema[2]) + "}"
    if len(schema) > 1 and schema[1]:
        return f'{{"type":"{kind}"' + logical(schema[1]) + "}"
    return f'"{kind}"'


def named(value):
    """The attributes of a type that has a name: its own, and those that are given as strings."""
    return f'{{"type":"{value["type"]}","name":' + json_string(value["name"]) + given(value, "namespace") + given(value, "doc")


def given(value, key):
    text = value.get(key)
    if not isinstance(text, str) or isinstance(text, JsonNumber):
        return ""
    return f',"{key}":' + json_string(text)


def written_field(value):
    return '{"name":' + json_string(value["name"]) + given(value, "doc") + ',"type":' + written(value["type"]) + "}"


def logical(it):
    if not it:
        return ""
    if isinstance(it, str):
        return f',"logicalType":"{it}"'
    return f',"logicalType":"decimal","precision":{it[1]},"scale":{it[2]}'


def constant(name):
    """A text of the program's source."""
    with open(os.path.join(TOP, "crates", "avrocat_commands", "src", "help.rt"), encoding="utf-8") as source:
        return re.search(rf'pub const {name}: &str = "([^"]*)";', source.read()).group(1)


def run_help(words):
    alone(words)
    return constant("HELP").encode()


def run_version(words):
    alone(words)
    return f'avrocat {constant("VERSION")}\n'.encode()
