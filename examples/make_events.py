#!/usr/bin/python3
"""Writes events.avro beside this script with Debian's python3-avro, and prints its rows as JSON lines.

Use: apt-get install python3-avro, then /usr/bin/python3 examples/make_events.py. The sync marker is
`0123456789abcdef`, so that the same bytes come each time. The lines are those of Python's `json` and
`datetime`, which know nothing of the program.
"""
import datetime
import json
import os

import avro.datafile
import avro.io
import avro.schema

SCHEMA = {
    "type": "record",
    "name": "Event",
    "namespace": "com.example",
    "doc": "What a visitor did.",
    "fields": [
        {"name": "id", "type": "long"},
        {"name": "time", "type": {"type": "long", "logicalType": "timestamp-millis"}},
        {"name": "user", "type": ["null", "string"]},
        {"name": "kind", "type": {"type": "enum", "name": "Kind", "symbols": ["VIEW", "BUY"]}},
        {"name": "tags", "type": {"type": "array", "items": "string"}},
        {
            "name": "order",
            "type": [
                "null",
                {
                    "type": "record",
                    "name": "Order",
                    "fields": [
                        {"name": "paid", "type": "boolean"},
                        {"name": "day", "type": {"type": "int", "logicalType": "date"}},
                    ],
                },
            ],
        },
    ],
}
UTC = datetime.timezone.utc
BLOCKS = [
    [
        (1, (2024, 1, 2, 3, 4, 5, 0), "ann", "VIEW", [], None),
        (2, (2024, 1, 2, 3, 4, 6, 250_000), None, "VIEW", ["new", "café"], None),
        (3, (2024, 2, 29, 23, 59, 59, 999_000), "ann", "BUY", ["sale"], (True, (2024, 3, 1))),
    ],
    [
        (4, (1969, 12, 31, 23, 59, 59, 500_000), 'Bob "B" Brown', "BUY", [], (False, (1970, 1, 1))),
    ],
]
NAMES = [field["name"] for field in SCHEMA["fields"]]


def row_of(id, time, user, kind, tags, order):
    time = datetime.datetime(*time, tzinfo=UTC)
    if order is not None:
        order = {"paid": order[0], "day": datetime.date(*order[1])}
    return dict(zip(NAMES, [id, time, user, kind, tags, order]))


def shown(value):
    if isinstance(value, datetime.datetime):
        return value.isoformat(timespec="milliseconds" if value.microsecond else "seconds")
    return value.isoformat()


def main():
    avro.datafile.randbytes = lambda n: b"0123456789abcdef"[:n]
    path = os.path.join(os.path.dirname(os.path.abspath(__file__)), "events.avro")
    schema = avro.schema.parse(json.dumps(SCHEMA))
    with avro.datafile.DataFileWriter(open(path, "wb"), avro.io.DatumWriter(), schema) as writer:
        for block in BLOCKS:
            for given in block:
                row = row_of(*given)
                writer.append(row)
                print(json.dumps(row, default=shown, ensure_ascii=False, separators=(",", ":")))
            writer.sync()


main()
