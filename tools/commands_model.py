"""A slow model of the program, written from docs/FORMATS.md: what it answers of words and bytes."""

from canonical_model import run_make, run_rewrite
from fields_model import run_fields
from formats_model import Refused, Usage, run_block, run_ndjson
from inspect_model import run_count, run_help, run_schema, run_version
from lines_model import run_avro, run_infer


def carry_out(words, data, out):
    """Appends to `out` what the command writes, piece by piece."""
    command = words[0] if words else ""
    if command in ("block", "block-large"):
        out.append(run_block(words, data))
    elif command == "ndjson":
        run_ndjson(words, data, out)
    elif command == "rewrite":
        run_rewrite(words, data, out)
    elif command == "avro":
        run_avro(words, data, out)
    elif command == "infer":
        out.append(run_infer(words, data))
    elif command == "count":
        out.append(run_count(words, data))
    elif command == "schema":
        out.append(run_schema(words, data))
    elif command == "fields":
        out.append(run_fields(words, data))
    elif command in ("help", "--help", "-h"):
        out.append(run_help(words))
    elif command in ("version", "--version"):
        out.append(run_version(words))
    elif command == "make":
        out.append(run_make(words))
    else:
        raise Usage()


def answer_of(words, data):
    """Exit status, standard output and standard error of the program. A word of bytes is one that is no text."""
    out = []
    try:
        if any(isinstance(word, bytes) for word in words):
            raise Usage()
        carry_out(words, data, out)
    except Usage:
        return 1, b"", b"avrocat: usage\n"
    except Refused as refused:
        status, note = refused.answer()
        return status, b"".join(out), note
    return 0, b"".join(out), b""
