"""A slow model of the formats, written from docs/FORMATS.md: schemas, blocks and files read, words, the JSON of rows, and
what `block`, `block-large` and `ndjson` answer. `json_model.py` beside it reads JSON texts; `canonical_model.py` and
`lines_model.py` have the other commands.

Schemas are tuples: a kind, and what belongs to it. A logical type is its name, of a decimal a tuple of `decimal`,
precision and scale. A slot is None, a bool, an int, a str, bytes, a list, or a tuple for a struct.
"""

from json_model import DIGITS, Fault, JsonNumber, JsonReader, TooDeep

NAME_CHARACTERS = set(
    "ABCDEFGHIJKLMNOPQRSTUVWXYZabcdefghijklmnopqrstuvwxyz" + DIGITS + "_-."
)
INT_LOGICAL = ("date", "time-millis")
LONG_LOGICAL = (
    "time-micros",
    "timestamp-millis",
    "timestamp-micros",
    "timestamp-nanos",
    "local-timestamp-millis",
    "local-timestamp-micros",
    "local-timestamp-nanos",
)
MOST_32 = 2147483647
STATUS = {
    "InvalidArgumentError": 2,
    "NotYetImplemented": 3,
    "ExternalFormat": 4,
    "OutOfSpec": 5,
    "Overflow": 6,
    "LimitExceeded": 7,
}


class Refused(Exception):
    """An error by its name and, where it has one, its reason."""

    def __init__(self, name, reason=None):
        super().__init__(name, reason)
        self.name, self.reason = name, reason

    def answer(self):
        """Exit status and note."""
        note = f"avrocat: {self.name}" + (f": {self.reason}" if self.reason else "") + "\n"
        return STATUS[self.name], note.encode()


class Usage(Exception):
    """Words that are no command."""


class Bad(Exception):
    """Bytes that are no encoding."""


class Negative(Exception):
    """A skipped block that states a size below 0."""


# ---- numbers and values in Avro bytes


class Bytes:
    """Bytes that are taken from the left."""

    def __init__(self, data, at=0):
        self.data, self.at = data, at

    def left(self):
        return len(self.data) - self.at

    def take(self, count):
        if count > self.left():
            raise Bad()
        self.at += count
        return self.data[self.at - count : self.at]

    def number(self):
        value = 0
        for index in range(10):
            byte = self.take(1)[0]
            value |= (byte & 127) << (7 * index)
            if byte < 128:
                if value >= 1 << 64:
                    raise Bad()
                return value // 2 if value % 2 == 0 else -((value + 1) // 2)
        raise Bad()

    def count(self):
        value = self.number()
        if value < 0:
            raise Bad()
        return value


def signed(data, order):
    return int.from_bytes(data, order, signed=True)


def text_of(data):
    try:
        return data.decode("utf-8")
    except UnicodeDecodeError:
        raise Bad() from None


def decimal_of(data):
    if len(data) > 16:
        raise Bad()
    return signed(data, "big")


def duration_of(data):
    months, days, milliseconds = (signed(data[i : i + 4], "little") for i in (0, 4, 8))
    return (months, days, milliseconds * 1000000)


def kept(schema, bytes_):
    """The slot that the bytes ahead encode."""
    kind = schema[0]
    if kind == "boolean":
        byte = bytes_.take(1)[0]
        if byte > 1:
            raise Bad()
        return byte == 1
    if kind == "int":
        value = bytes_.number()
        if not -MOST_32 - 1 <= value <= MOST_32:
            raise Bad()
        return value
    if kind == "long":
        return bytes_.number()
    if kind == "bytes":
        data = bytes_.take(bytes_.count())
        return decimal_of(data) if schema[1] else data
    if kind == "string":
        return text_of(bytes_.take(bytes_.count()))
    if kind == "fixed":
        data = bytes_.take(schema[1])
        if schema[2] == "duration":
            return duration_of(data)
        return decimal_of(data) if schema[2] else data
    if kind == "enum":
        index = bytes_.number()
        if not 0 <= index < len(schema[1]):
            raise Bad()
        return schema[1][index]
    if kind == "record":
        return tuple(kept(field[1], bytes_) for field in schema[1])
    if kind == "union":
        member = schema[1][member_index(schema, bytes_)]
        return None if member == ("null",) else kept(member, bytes_)
    if kind == "array":
        return kept_items(schema[1], bytes_)
    raise Bad()


def member_index(schema, bytes_):
    index = bytes_.number()
    if not 0 <= index < len(schema[1]):
        raise Bad()
    return index


def kept_items(item, bytes_):
    items = []
    while count := bytes_.number():
        if count == -(1 << 63):
            raise Bad()
        size = bytes_.number() if count < 0 else None
        start = bytes_.at
        for _ in range(abs(count)):
            items.append(kept(item, bytes_))
        if size is not None and bytes_.at - start != size:
            raise Bad()
    return items


def skip(schema, bytes_):
    """Passes a value that isn't kept."""
    kind = schema[0]
    if kind == "boolean":
        bytes_.take(1)
    elif kind in ("int", "long", "enum"):
        bytes_.number()
    elif kind in ("bytes", "string"):
        bytes_.take(bytes_.count())
    elif kind == "fixed":
        bytes_.take(schema[1])
    elif kind == "float":
        bytes_.take(4)
    elif kind == "double":
        bytes_.take(8)
    elif kind == "record":
        for field in schema[1]:
            skip(field[1], bytes_)
    elif kind == "union":
        member = schema[1][member_index(schema, bytes_)]
        if member != ("null",):
            skip(member, bytes_)
    elif kind == "array":
        skip_items(schema[1], bytes_)
    else:
        raise Bad()


def skip_items(item, bytes_):
    while count := bytes_.number():
        if count == -(1 << 63):
            raise Bad()
        if count < 0:
            size = bytes_.number()
            if size < 0:
                raise Negative()
            bytes_.take(size)
        else:
            for _ in range(count):
                skip(item, bytes_)


def table_of(rows, fields, keeps, data):
    """The kept slots of a block's rows; or the error that its bytes are."""
    if rows > len(data):
        raise Refused("ExternalFormat", "Rows")
    bytes_, table = Bytes(data), []
    try:
        for _ in range(rows):
            row = []
            for (_, schema), keep in zip(fields, keeps):
                if keep:
                    row.append(kept(schema, bytes_))
                else:
                    skip(schema, bytes_)
            table.append(row)
    except Bad:
        raise Refused("ExternalFormat", "BlockBytes") from None
    except Negative:
        raise Refused("OutOfSpec", "NegativeSize") from None
    if bytes_.left():
        raise Refused("ExternalFormat", "BlockBytes")
    return table


# ---- which schemas are carried


def is_carried(schema):
    kind = schema[0]
    if kind == "null" or kind == "map":
        return False
    if kind == "fixed":
        return schema[1] == 12 if schema[2] == "duration" else schema[1] >= 1
    if kind == "array":
        return is_carried(schema[1])
    if kind == "record":
        return bool(schema[1]) and all(is_carried(field[1]) for field in schema[1])
    if kind == "union":
        others = [member for member in schema[1] if member != ("null",)]
        return (
            len(schema[1]) == 2
            and len(others) == 1
            and others[0][0] != "union"
            and is_carried(others[0])
        )
    return True


def parts(schema):
    """The schemas within a schema, itself among them."""
    yield schema
    if schema[0] == "array":
        yield from parts(schema[1])
    elif schema[0] == "record":
        for field in schema[1]:
            yield from parts(field[1])
    elif schema[0] == "union":
        for member in schema[1]:
            yield from parts(member)


def has_float(schema):
    return any(part[0] in ("float", "double") for part in parts(schema))


def check_fields(fields, keeps):
    if not fields:
        raise Refused("NotYetImplemented", "NoField")
    if not all(is_carried(schema) for _, schema in fields):
        raise Refused("NotYetImplemented", "NotCarried")
    if any(keep and has_float(schema) for (_, schema), keep in zip(fields, keeps)):
        raise Refused("NotYetImplemented", "Float")


# ---- words


def digits_of(word, most, limit):
    if not 1 <= len(word) <= most or any(c not in DIGITS for c in word) or int(word) > limit:
        raise Usage()
    return int(word)


def plain_number_of(word, limit):
    """The number of digits that have no zero before them."""
    number = digits_of(word, len(word), limit)
    if str(number) != word:
        raise Usage()
    return number


class Word:
    """A word that is read from the left."""

    def __init__(self, text):
        self.text, self.at = text, 0

    def peek(self):
        return self.text[self.at : self.at + 1]

    def takes(self, mark):
        if not self.text.startswith(mark, self.at):
            return False
        self.at += len(mark)
        return True

    def expect(self, mark):
        if not self.takes(mark):
            raise Usage()

    def name(self):
        start = self.at
        while self.peek() in NAME_CHARACTERS and self.peek():
            self.at += 1
        if start == self.at:
            raise Usage()
        return self.text[start : self.at]

    def digits(self):
        start = self.at
        while self.peek() and self.peek() in DIGITS:
            self.at += 1
        return digits_of(self.text[start : self.at], 10, MOST_32)

    def type(self, depth=1):
        if depth > 64:
            raise Usage()
        base = self.base(depth)
        if self.takes("?"):
            return ("union", [("null",), base])
        if self.takes("!"):
            return ("union", [base, ("null",)])
        return base

    def base(self, depth):
        if self.takes("["):
            item = self.type(depth + 1)
            self.expect("]")
            return ("array", item)
        if self.takes("{"):
            return ("record", self.fields(depth + 1))
        if self.takes("<"):
            symbols = [self.name()]
            while self.takes(","):
                symbols.append(self.name())
            self.expect(">")
            return ("enum", symbols)
        return self.plain(self.name())

    def fields(self, depth):
        fields = []
        if self.takes("}"):
            return fields
        while True:
            name = self.name()
            self.expect("=")
            fields.append((name, self.type(depth)))
            if self.takes("}"):
                return fields
            self.expect(";")

    def plain(self, name):
        if name in ("null", "boolean", "float", "double"):
            return (name,)
        if name in ("int", "long", "bytes", "string"):
            return (name, None)
        if name in INT_LOGICAL:
            return ("int", name)
        if name in LONG_LOGICAL:
            return ("long", name)
        if name == "uuid":
            return ("string", name)
        if name == "duration":
            return ("fixed", 12, name)
        if name == "fixed":
            self.expect("(")
            size = self.digits()
            self.expect(")")
            return ("fixed", size, None)
        if name == "decimal":
            return self.decimal()
        raise Usage()

    def decimal(self):
        self.expect("(")
        precision = self.digits()
        self.expect(",")
        scale = self.scale(precision)
        size = self.digits() if self.takes(",") else None
        self.expect(")")
        if precision < 1 or scale > precision:
            raise Usage()
        logical = ("decimal", precision, scale)
        return ("bytes", logical) if size is None else ("fixed", size, logical)

    def scale(self, precision):
        start = self.at
        while self.peek() and self.peek() in DIGITS:
            self.at += 1
        return digits_of(self.text[start : self.at], 10, precision)


def field_of(word):
    skipped = word.startswith("~")
    reader = Word(word[1:] if skipped else word)
    name = reader.name()
    reader.expect("=")
    schema = reader.type()
    if reader.peek():
        raise Usage()
    return name, schema, not skipped


# ---- what is written


ESCAPES = {8: "\\b", 9: "\\t", 10: "\\n", 12: "\\f", 13: "\\r", 34: '\\"', 92: "\\\\"}


def json_string(text):
    out = '"'
    for character in text:
        code = ord(character)
        if code in ESCAPES:
            out += ESCAPES[code]
        elif code < 32:
            out += f"\\u00{code:02x}"
        else:
            out += character
    return out + '"'


def shown(slot):
    """The text of a slot on the line of a column."""
    if slot is None:
        return "null"
    if isinstance(slot, bool):
        return "true" if slot else "false"
    if isinstance(slot, int):
        return str(slot)
    if isinstance(slot, str):
        return json_string(slot)
    if isinstance(slot, bytes):
        return "0x" + slot.hex()
    inner = ",".join(shown(item) for item in slot)
    return f"[{inner}]" if isinstance(slot, list) else "{" + inner + "}"


def run_block(words, data):
    rows = digits_of(words[1] if len(words) > 1 else "", 20, (1 << 64) - 1)
    read = [field_of(word) for word in words[2:]]
    fields = [(name, schema) for name, schema, _ in read]
    keeps = [keep for _, _, keep in read]
    check_fields(fields, keeps)
    table = table_of(rows, fields, keeps, data)
    names = [name for name, _, keep in read if keep]
    lines = ""
    for column, name in enumerate(names):
        lines += f"{name}:[" + ",".join(shown(row[column]) for row in table) + "]\n"
    return lines.encode()


# ---- JSON texts of slots


def date_text(days):
    """Day 0 is 1970-01-01, by the proleptic Gregorian calendar."""
    era, day = divmod(days + 719468, 146097)
    year = (day - day // 1460 + day // 36524 - day // 146096) // 365
    day -= 365 * year + year // 4 - year // 100
    month = (5 * day + 2) // 153
    day -= (153 * month + 2) // 5
    month = month + 3 if month < 10 else month - 9
    year += era * 400 + (month <= 2)
    if not 0 <= year <= 9999:
        raise Refused("InvalidArgumentError", "DateRange")
    return f"{year:04}-{month:02}-{day + 1:02}"


def moment_text(value, unit, between, end):
    seconds, part = divmod(value, unit)
    days, second = divmod(seconds, 86400)
    text = date_text(days) + between
    text += f"{second // 3600:02}:{second // 60 % 60:02}:{second % 60:02}"
    if part:
        digits = f"{part * (1000000000 // unit):09}"
        while digits.endswith("000"):
            digits = digits[:-3]
        text += "." + digits
    return f'"{text}{end}"'


UNITS = {"millis": 1000, "micros": 1000000, "nanos": 1000000000}


def has_text(schema):
    kind = schema[0]
    if kind == "array":
        return has_text(schema[1])
    if kind == "record":
        return all(has_text(field[1]) for field in schema[1])
    if kind == "union":
        return all(has_text(member) for member in schema[1])
    if kind in ("bytes", "fixed"):
        return False
    return kind not in ("int", "long") or schema[1] not in ("time-millis", "time-micros")


def json_text(schema, slot):
    if slot is None:
        return "null"
    kind = schema[0]
    if kind == "union":
        return json_text(next(it for it in schema[1] if it != ("null",)), slot)
    if kind == "boolean":
        return "true" if slot else "false"
    if kind in ("string", "enum"):
        return json_string(slot)
    if kind == "array":
        return "[" + ",".join(json_text(schema[1], item) for item in slot) + "]"
    if kind == "record":
        members = zip(schema[1], slot)
        return "{" + ",".join(f"{json_string(f[0])}:{json_text(f[1], it)}" for f, it in members) + "}"
    if schema[1] == "date":
        return f'"{date_text(slot)}"'
    if schema[1] is None:
        return str(slot)
    unit = UNITS[schema[1].rsplit("-", 1)[1]]
    if schema[1].startswith("local"):
        return moment_text(slot, unit, " ", "")
    return moment_text(slot, unit, "T", "+00:00")


# ---- texts of schemas

PRIMITIVES = ("null", "boolean", "int", "long", "float", "double", "bytes", "string")


class Form(Exception):
    """A JSON text that is no schema's."""


class SchemaReader:
    """The schema for which a JSON value stands. References are noted."""

    def __init__(self):
        self.has_reference = False

    def primitive(self, name):
        if name in ("null", "boolean", "float", "double"):
            return (name,)
        return (name, None)

    def reference(self):
        self.has_reference = True
        return ("null",)

    def schema(self, value):
        if isinstance(value, JsonNumber):
            raise Form()
        if isinstance(value, str):
            return self.primitive(value) if value in PRIMITIVES else self.reference()
        if isinstance(value, list):
            return ("union", [self.schema(member) for member in value])
        if not isinstance(value, dict) or "type" not in value:
            raise Form()
        return self.typed(value, value["type"])

    def typed(self, value, kind):
        if isinstance(kind, (dict, list)):
            return self.schema(kind)
        if not isinstance(kind, str) or isinstance(kind, JsonNumber):
            raise Form()
        if kind in PRIMITIVES:
            return self.logical(value, self.primitive(kind))
        if kind == "record":
            name_of(value)
            return ("record", [self.field(it) for it in list_of(value, "fields")])
        if kind == "enum":
            name_of(value)
            return ("enum", [string_of(it) for it in list_of(value, "symbols")])
        if kind == "array":
            return ("array", self.schema(present(value, "items")))
        if kind == "map":
            return ("map", self.schema(present(value, "values")))
        if kind == "fixed":
            name_of(value)
            size = number_of(present(value, "size"))
            if size is None or size > MOST_32:
                raise Form()
            return self.logical(value, ("fixed", size, None))
        return self.reference()

    def field(self, value):
        if not isinstance(value, dict):
            raise Form()
        return name_of(value), self.schema(present(value, "type"))

    def logical(self, value, schema):
        logical = value.get("logicalType")
        kind = schema[0]
        if not isinstance(logical, str) or isinstance(logical, JsonNumber):
            return schema
        if kind == "int" and logical in INT_LOGICAL:
            return ("int", logical)
        if kind == "long" and logical in LONG_LOGICAL:
            return ("long", logical)
        if kind == "string" and logical == "uuid":
            return ("string", logical)
        if kind in ("bytes", "fixed") and logical == "decimal" and (decimal := decimal_type(value)):
            return ("bytes", decimal) if kind == "bytes" else ("fixed", schema[1], decimal)
        if kind == "fixed" and logical == "duration" and schema[1] == 12:
            return ("fixed", 12, logical)
        return schema


def present(value, key):
    if key not in value:
        raise Form()
    return value[key]


def string_of(value):
    if not isinstance(value, str) or isinstance(value, JsonNumber):
        raise Form()
    return value


def name_of(value):
    return string_of(present(value, "name"))


def list_of(value, key):
    if not isinstance(present(value, key), list):
        raise Form()
    return value[key]


def number_of(value):
    """A number of digits alone; None for all else."""
    if not isinstance(value, JsonNumber) or any(c not in DIGITS for c in value):
        return None
    return int(value)


def decimal_type(value):
    """The decimal of a schema's attributes; None where they make none."""
    precision = number_of(value.get("precision"))
    scale = number_of(value.get("scale", JsonNumber("0")))
    if precision is None or not 1 <= precision <= MOST_32 or scale is None or scale > precision:
        return None
    return ("decimal", precision, scale)


def text_before_fault(data):
    """The text of bytes up to the first that is no UTF-8: what is too deep before it is too deep."""
    try:
        return data.decode("utf-8")
    except UnicodeDecodeError as error:
        return data[: error.start].decode("utf-8")


def root_of(text):
    """The fields of the record for which the text of a schema stands."""
    try:
        value = JsonReader(text_before_fault(text)).whole()
        text.decode("utf-8")
    except (UnicodeDecodeError, Fault):
        raise Refused("ExternalFormat", "SchemaText") from None
    except TooDeep:
        raise Refused("LimitExceeded") from None
    reader = SchemaReader()
    try:
        schema = reader.schema(value)
    except Form:
        raise Refused("ExternalFormat", "SchemaText") from None
    if reader.has_reference:
        raise Refused("NotYetImplemented", "TypeReference")
    if schema[0] != "record":
        raise Refused("NotYetImplemented", "RootNotRecord")
    return schema[1]


# ---- files


def entries_of(bytes_):
    """The metadata of a header."""
    entries = {}
    while count := bytes_.number():
        if count == -(1 << 63):
            raise Bad()
        size = bytes_.count() if count < 0 else None
        start = bytes_.at
        for _ in range(abs(count)):
            key = text_of(bytes_.take(bytes_.count()))
            entries[key] = bytes_.take(bytes_.count())
        if size is not None and bytes_.at - start != size:
            raise Bad()
    return entries


def header_of(data):
    """The fields of the record, the sync marker, and the bytes after the header."""
    if data[:4] != b"Obj\x01":
        raise Refused("ExternalFormat", "Magic")
    bytes_ = Bytes(data, 4)
    try:
        entries = entries_of(bytes_)
        marker = bytes_.take(16)
        text = entries["avro.schema"]
    except (Bad, KeyError):
        raise Refused("ExternalFormat", "Header") from None
    if entries.get("avro.codec", b"null") != b"null":
        raise Refused("NotYetImplemented", "Codec")
    return root_of(text), marker, bytes_


def block_of(bytes_, marker):
    try:
        rows = bytes_.count()
        data = bytes_.take(bytes_.count())
        found = bytes_.take(16)
    except Bad:
        raise Refused("ExternalFormat", "Container") from None
    if found != marker:
        raise Refused("ExternalFormat", "Marker")
    return rows, data


def keeps_of(numbers, count):
    if len(set(numbers)) < len(numbers) or any(number >= count for number in numbers):
        raise Refused("InvalidArgumentError", "KeepNumber")
    return [not numbers or i in numbers for i in range(count)]


def run_ndjson(words, data, out):
    numbers = [digits_of(word, 20, (1 << 64) - 1) for word in words[1:]]
    fields, marker, bytes_ = header_of(data)
    check_fields(fields, [False] * len(fields))
    keeps = keeps_of(numbers, len(fields))
    check_fields(fields, keeps)
    shown_fields = [field for field, keep in zip(fields, keeps) if keep]
    if not all(has_text(schema) for _, schema in shown_fields):
        raise Refused("NotYetImplemented", "NoJsonText")
    record = ("record", shown_fields)
    while bytes_.left():
        rows, block = block_of(bytes_, marker)
        table = table_of(rows, fields, keeps, block)
        out.append("".join(json_text(record, tuple(row)) + "\n" for row in table).encode())
