#!/usr/bin/env python3
"""Tells which files have to be read to believe what a public call promises.

    tools/reading_lists.py CRATE NAME      the files that the contract of a function (or Type::method) stands on
    tools/reading_lists.py --write         writes docs/READING.md, and the numbers of the table of docs/GUARANTEES.md
                                           on what has to be read to believe the headline
    tools/reading_lists.py --check         tells where these documents aren't as --write makes them, and which files that
                                           table lacks; status 1 then

It begins with the clauses of the function, and follows each name that a clause or a definition uses to the definition
that it was imported from, `use Rattle.CRATE.specs.FILE.{NAME, ..}`. What a contract sees of a struct of the code is
followed too: the `ghost view` of its `Model`, and those of its fields. Definitions of Rattle's own library are left out.
What nobody has to read all the same is named in OPAQUE.
"""
import collections
import functools
import glob
import os
import re
import sys

ROOT = os.path.dirname(os.path.dirname(os.path.abspath(__file__)))
DOCUMENT = os.path.join(ROOT, "docs", "READING.md")
GUARANTEES = os.path.join(ROOT, "docs", "GUARANTEES.md")

# The lists of the document, in its order: a title, the calls and laws that it is of, and the lists of which a reader has
# read what they name.
LISTS = [
    ("`deserialize`", "avro_decode", ["deserialize"], []),
    ("`deserialize_into`, `make_builders` and `Decoder`", "avro_decode",
     ["deserialize_into", "make_builders", "Decoder::new", "Decoder::decode", "check_carried", "valid_blocks_are_read",
      "reserved_capacity_stays"], [0]),
    ("`Reader`", "avro_read", ["Reader::new", "Reader::next", "narrower_reads"], [0]),
    ("`avro_to_ndjson`", "avro_ndjson", ["avro_to_ndjson", "conversion_answers"], [0]),
    ("`avro_rewrite`", "avro_canonical", ["avro_rewrite", "rewriting_answers"], [0, 3]),
    ("`ndjson_to_avro`", "ndjson_avro", ["ndjson_to_avro", "lines_answers"], [0, 3, 4]),
    ("The laws of two calls", "arrow_convert",
     ["canonical_forms", "lines_and_back", "rewritten_file", "rewritten_twice", "rewriting_error"], [0, 3, 4, 5]),
    ("The program's `run`", "avrocat_commands", ["run", "one_error_is_due", "no_error_is_due_to_what_can_be_done"], [0, 3, 4, 5]),
    ("The law of two commands", "command_laws", ["avro_then_ndjson"], [0, 3, 4, 5, 6, 7]),
    ("`new_serializer` and `serialize`", "avro_write",
     ["new_serializer", "BoxSerializer::left", "serialize", "serializable_pairs", "canonical_tables", "serialized_tables"],
     [0]),
    ("`are_canonical_rows` and `are_alike`", "avro_verbatim", ["are_canonical_rows", "are_alike"], [0]),
    ("`push_rows`", "avro_line", ["push_rows"], [0]),
    ("`LinePlan`", "line_encode", ["LinePlan::new", "LinePlan::encode_lines"], []),
    ("`parse`", "json_tree", ["parse", "one_value", "within_the_limit", "written_string_reads_back"], []),
    ("`infer`, `coerce_data_type` and `RowTypes`", "json_infer",
     ["infer", "infer_records_schema", "coerce_data_type", "RowTypes::add", "RowTypes::result", "coercion_rules",
      "any_order", "rows_in_any_order", "one_at_a_time"], []),
    ("`deserialize`, `read_values` and `deserialize_records`", "json_columns",
     ["deserialize", "read_values", "deserialize_records"], []),
    ("`LineBuilders`", "json_line", ["LineBuilders::new", "LineBuilders::read_lines"], []),
    ("`LineEncoder` and `RecordSerializer`", "json_write",
     ["LineEncoder::new", "LineEncoder::push", "RecordSerializer::new", "write"], []),
    ("Laws of what is written and read again", "ndjson",
     ["slot_texts", "slots_read_back", "row_texts", "rows_read_back", "lines_are_rows"], []),
    ("`FileReader`", "ndjson_read", ["FileReader::new", "FileReader::advance", "FileReader::next"], []),
    ("`infer` and `infer_iter`", "ndjson_read",
     ["infer", "infer_iter", "one_answer", "lines_in_any_order"], []),
    ("`deserialize` and `deserialize_iter`", "ndjson", ["deserialize", "deserialize_iter"], []),
    ("`LineColumns`", "ndjson", ["LineColumns::new", "LineColumns::read_lines", "LineColumns::read_rows"], []),
    ("`count_rows` and `schema_of`", "avro_inspect", ["count_rows", "schema_of", "counting_answers"], [0, 3]),
    ("`push_type`", "cli_words", ["push_type", "printed_is_right", "printed_is_word", "word_is_printed"], []),
]

# Definitions that one call gives and another takes, whatever they say, and types of private state whose view nobody has to
# read, since the call that makes them says what is seen of them.
OPAQUE = {
    ("line_encode", "IsLinePlanOf"),
    ("json_infer", "StandsFor"),
    ("avro_encode", "ColumnEncoder"),
}

DECLARES = re.compile(r"^\s*(?:(?:abbrev|unfoldable|pub|record|data|mutual|opaque)\s+)*([^\s:({]+)\s*(?:[:({]|$)")
HEAD = re.compile(r"^(?:(?:abbrev|unfoldable|pub|record|data|opaque|infix\w*)\b|\s+(?:pub )?(?:abbrev|unfoldable|record|data)\b)")
MODULE = re.compile(r"^module\b")
SEVERAL = re.compile(r"^\s*(?:abbrev |unfoldable |pub )*mutual\b")
IMPORT = re.compile(r"^\s*(?:pub )?(?:ghost )?use Rattle\.(\w+)\.specs\.(.+?);?\s*$")
CLAUSE = re.compile(r"^\s*(?:requires|ensures)\b", re.M)
TYPE = re.compile(r"^(?:pub(?:\(crate\))? )?(struct|enum|trait)\s+(\w+)", re.M)


def without_comments(text, mark):
    return "\n".join(re.sub(rf"(^|\s){mark}.*$", r"\1", line) for line in text.split("\n"))


@functools.lru_cache(maxsize=None)
def tokens(text):
    """The names in a text that stand by themselves: no fields, and nothing of which a field is asked."""
    return frozenset(re.findall(r"(?<![^\s(){}\[\],;λ&<>|:])[^\s(){}\[\],;.λ&<>|:]+(?!\.\S)(?![^\s(){}\[\],;.λ&<>|:])", text))


@functools.lru_cache(maxsize=None)
def members(text):
    """(module, name) of what a text takes of a module under a name of its own."""
    return frozenset(re.findall(r"(?<![^\s(){}\[\],;λ&<>|:])([a-z_]\w*)\.([^\s(){}\[\],;.λ&<>|:]+)", text))


def imports(lines):
    """Name used here -> (crate, path of modules, the name there), of lines of imports."""
    names = {}
    for line in lines:
        found = IMPORT.match(line)
        if not found or found[1] == "std":
            continue
        crate, path = found[1], found[2]
        if ".{" in path:
            module, listed = path[:-1].split(".{", 1)
            for name in listed.split(","):
                there, _, here = name.strip().partition(" as ")
                names[here or there] = (crate, module, there)
        else:
            module, _, alias = path.partition(" as ")
            names[alias or module.rsplit(".", 1)[-1]] = (crate, module, None)
    return names


class Specs:
    """A file of definitions: what it imports, and its definitions by name."""

    def __init__(self, crate, module):
        self.crate, self.module = crate, module
        self.path = f"crates/{crate}/specs/{module}.antt"
        with open(os.path.join(ROOT, self.path)) as file:
            lines = without_comments(file.read(), "--").split("\n")
        self.imports = imports(lines)
        # definitions, each its lines; which module of parameters each stands in; which one tells a name
        self.chunks, self.around, self.owner = [], {}, {}
        self.cut(line for line in lines if not re.match(r"(?:pub )?use ", line))
        for index, chunk in enumerate(self.chunks):
            for name in declared_by(chunk):
                self.owner.setdefault(name, index)

    def cut(self, lines):
        """Cuts the lines into definitions: those that are mutual are one."""
        module, several = None, False
        for line in lines:
            indented = line.startswith(" ")
            if MODULE.match(line):
                module, several = len(self.chunks), False
                self.chunks.append([line])
            elif HEAD.match(line) and not (several and indented):
                module = module if indented else None
                several = bool(SEVERAL.match(line))
                self.around[len(self.chunks)] = module
                self.chunks.append([line])
            elif self.chunks:
                self.chunks[-1].append(line)

    def text(self, index):
        """A definition's text, with the parameters of the module that it stands in."""
        module = self.around.get(index)
        return "\n".join(self.chunks[index] + ([] if module is None else self.chunks[module]))

    def is_whole(self, indices):
        """Whether these are all definitions of the file."""
        return set(self.owner.values()) <= indices


def declared_by(chunk):
    """The names that a definition tells: its own, or those of mutual ones, and those of its variants."""
    if MODULE.match(chunk[0]):
        return []
    is_several = bool(SEVERAL.match(chunk[0]))
    heads = [] if is_several else chunk[:1]
    if is_several or re.match(r"\s*(?:pub )?data\b", chunk[0]):
        heads = heads + [line for line in chunk[1:] if re.match(r"\s+[^:]* : ", line)]
    return [found[1] for found in map(DECLARES.match, heads) if found]


@functools.lru_cache(maxsize=None)
def specs(crate, module):
    """The file of definitions of this name; a crate may hand on one of a crate beneath."""
    handed = imported_whole(crate).get(module)
    return specs(*handed) if handed else Specs(crate, module)


@functools.lru_cache(maxsize=None)
def imported_whole(crate):
    path = os.path.join(ROOT, f"crates/{crate}/specs/Lib.antt")
    with open(path) as file:
        found = re.findall(r"^pub use Rattle\.(\w+)\.specs\.(\w+)$", file.read(), re.M)
    return {module: (crate, module) for crate, module in found}


class Code:
    """The types of the code, and what contracts see of each."""

    def __init__(self):
        self.types = collections.defaultdict(list)
        for path in sorted(glob.glob(os.path.join(ROOT, "crates/*/src/**/*.rt"), recursive=True)):
            with open(path) as file:
                text = without_comments(file.read(), "//")
            short = os.path.relpath(path, ROOT)
            names = imports(text.split("\n"))
            for found in TYPE.finditer(text):
                kind, name = found.groups()
                view = view_of(name, text)
                body = body_of(text[found.start():])
                if kind == "struct" and "{" in body and view is None:
                    # no contract sees private fields, but by definitions that tell what is seen of them
                    body = "\n".join(line for line in body.split("\n") if re.match(r"\s*pub ", line))
                self.types[name].append((short.split("/")[1], short, kind, body, view, names))

    def find(self, name, crate):
        """The type of this name, that of the given crate before that of another; none where it isn't told."""
        known = [one for one in self.types.get(name, []) if one[0] in beneath(crate)]
        own = [one for one in known if one[0] == crate]
        return own[0] if own else known[0] if len(known) == 1 else None


def body_of(text):
    """The declaration with which a text begins."""
    head = text.split("\n", 1)[0]
    return text[: text.find("\n}")] if "{" in head or "where" in head else text.split(";", 1)[0]


def view_of(name, text):
    """What contracts see of a struct, where its file says so."""
    model = re.search(rf"^impl(?:<[^>]*>)? Model for {name}\b.*?^}}", text, re.M | re.S)
    return "\n".join(re.findall(r"ghost (?:Value|view) = \{.*?\};", model[0], re.S)) if model else None


@functools.lru_cache(maxsize=None)
def code():
    return Code()


def contract(crate, name):
    """A function's signature, after that of the impl around it, and its clauses; and the imports of its file."""
    owner, _, short = name.rpartition("::")
    for path in sorted(glob.glob(os.path.join(ROOT, f"crates/{crate}/src/**/*.rt"), recursive=True)):
        with open(path) as file:
            text = without_comments(file.read(), "//")
        blocks = [text]
        if owner:
            blocks = re.findall(rf"^impl(?:<.*?>)? (?:\w+(?:<.*?>)? for )?{owner}\b.*?^}}", text, re.M | re.S)
        for block in blocks:
            found = re.search(rf"^ *(?:pub )?fn {short}\b.*?(?=^ *\{{)", block, re.M | re.S)
            if found and (owner or f"pub fn {short}" in found[0]):
                around = block.split("{", 1)[0] if owner else ""
                return around + found[0], imports(text.split("\n"))
    sys.exit(f"no public function {name} in {crate}")


class Walk:
    """What a contract stands on: definitions by file, and types of the code."""

    def __init__(self):
        self.chunks = collections.defaultdict(set)
        self.code = set()

    def follow(self, text, names):
        """Follows the names that a text uses of these imports."""
        for module, name in members(text):
            if module in names and names[module][2] is None:
                self.name(names[module][0], names[module][1], name)
        used = tokens(text)
        for here, (crate, module, name) in names.items():
            if name is not None and here.replace("◌", "") in used:
                self.name(crate, module, name)

    def name(self, crate, module, name):
        first, *path = module.split(".")
        if first == "contracts" or (crate, name) in OPAQUE:
            return
        if first == "declared":
            types = [part for part in path if part[:1].isupper() and part != "TheVariants"]
            if types:
                self.type(types[0], crate)
            return
        file = specs(crate, first)
        if name not in file.owner:
            sys.exit(f"{name} isn't found in {file.path}")
        self.definition(file, name)

    def definition(self, file, name):
        index = file.owner[name]
        if index in self.chunks[file.crate, file.module]:
            return
        self.chunks[file.crate, file.module].add(index)
        text = file.text(index)
        self.follow(text, file.imports)
        for own in tokens(text):
            if own in file.owner:
                self.definition(file, own)

    def type(self, name, crate):
        found = code().find(name, crate)
        if not found or (found[0], name) in OPAQUE or found[:2] + (name,) in self.code:
            return
        crate, path, kind, body, view, names = found
        self.code.add((crate, path, name))
        if kind == "trait":
            # what its methods promise
            self.follow("\n".join(CLAUSE.split(body)[1:]), names)
            return
        if view:
            self.follow(view, names)
        for inner in tokens(body):
            if inner[:1].isupper() and inner != name:
                self.type(inner, crate)


@functools.lru_cache(maxsize=None)
def walk(crate, name):
    text, names = contract(crate, name)
    found = Walk()
    signature, *clauses = CLAUSE.split(text)
    found.follow("\n".join(clauses), names)
    for token in tokens(signature):
        if token[:1].isupper():
            found.type(token, crate)
    return found


@functools.lru_cache(maxsize=None)
def uses():
    """The libraries that each crate uses, lowest crate first."""
    with open(os.path.join(ROOT, "crates.txt")) as file:
        lines = [line.split("#")[0] for line in file]
    return {line.split(":")[0].strip(): line.split(":")[1].split() for line in lines if ":" in line}


@functools.lru_cache(maxsize=None)
def beneath(crate):
    """The crate, and all that it uses."""
    return frozenset([crate]).union(*(beneath(one) for one in uses().get(crate, [])))


@functools.lru_cache(maxsize=None)
def order():
    return {crate: index for index, crate in enumerate(uses())}


def needed_of(crate, names):
    """(crate, file) -> the definitions needed of it, and (crate, path of code) -> types, for all of these calls."""
    files, types = collections.defaultdict(set), collections.defaultdict(set)
    for name in names:
        found = walk(crate, name)
        for place, chunks in found.chunks.items():
            files[place] |= chunks
        for owner, path, kind in found.code:
            types[owner, path].add(kind)
    return files, types


def place_order(place):
    return order().get(place[0], 999), place


def names_of(file, chunks):
    return [own for own, index in file.owner.items() if index in chunks]


def lines_of(file, chunks):
    """How many lines these definitions have, comments and imports left out."""
    return sum(1 for index in chunks for line in file.chunks[index] if line.strip())


def row_of(crate, files):
    """The files of a crate, each with its lines, and with the names where only a few are needed."""
    parts = []
    for (owner, module), chunks in sorted(files.items()):
        if owner != crate:
            continue
        file = specs(owner, module)
        part = f"`{module}` {lines_of(file, chunks)}"
        names = names_of(file, chunks)
        if not file.is_whole(chunks):
            part += f" ({', '.join(f'`{name}`' for name in names)})" if len(names) <= 3 else " (part)"
        parts.append(part)
    return ", ".join(parts)


def read(kept, bases, which, place):
    """What these lists need of a file together."""
    return set().union(*(kept[base][which].get(place, set()) for base in bases))


HEADING = [
    "# What to read to believe a call",
    "",
    "This file is written by `tools/reading_lists.py --write`: don't edit it. [GUARANTEES.md](GUARANTEES.md) says what each call promises; "
    "here stands, for each, which definitions its clauses stand on. They are found by following each name that a clause or a definition "
    "uses to the file that it is imported from. Everything else is checked against them by the prover.",
    "",
    "`Encodes` of `avro_schema` is the file `crates/avro_schema/specs/Encodes.antt`. Behind a file's name stands how many lines of its "
    "definitions are needed, without comments and imports, and in brackets which ones, where they are three or fewer of several, or "
    "`part`. Of the code, `schema.rt` of `avro_schema` is `crates/avro_schema/src/schema.rt`: of an enum and of a struct with public "
    "fields the declaration is to be read; of a struct that has a `ghost view` that view, which says what contracts see of it; and of a "
    "trait its clauses.",
    "",
    "Nobody has to believe definitions whose names end in `_code`: they number the values of a type, as the compiler asks, and say "
    "nothing else. Definitions of Rattle's own library (`Rattle.std`: lists, numbers, UTF-8) aren't listed.",
    "",
]


def table(files, types):
    """The rows of a list, one for each crate."""
    rows = ["| crate | definitions | types of the code |", "|---|---|---|"]
    crates = {place[0] for place in list(files) + list(types)}
    for owner in sorted(crates, key=lambda one: (order().get(one, 999), one)):
        paths = sorted(path.split("/src/")[1] for crate, path in types if crate == owner)
        rows.append(f"| `{owner}` | {row_of(owner, files)} | {', '.join(f'`{path}`' for path in paths)} |")
    return rows


def document():
    """docs/READING.md."""
    out, kept = list(HEADING), []
    for title, crate, names, bases in LISTS:
        files, types = needed_of(crate, names)
        kept.append((files, types))
        total = sum(lines_of(specs(*place), chunks) for place, chunks in files.items())
        of = ", ".join(LISTS[base][0] for base in bases)
        besides = f" Besides those in the list of {of}:" if bases else ""
        out += [f"## {title} (`{crate}`)", "", f"In all {len(files)} files of definitions, {total} lines.{besides}", ""]
        shown = {place: chunks for place, chunks in files.items() if not chunks <= read(kept, bases, 0, place)}
        shown_types = {place: kinds for place, kinds in types.items() if not kinds <= read(kept, bases, 1, place)}
        out += [*table(shown, shown_types), ""]
    return "\n".join(out)


def headline():
    """The files that the clauses of `deserialize` stand on, each with how many of its lines are needed."""
    files, _ = needed_of("avro_decode", ["deserialize"])
    return {specs(*place).path: lines_of(specs(*place), chunks) for place, chunks in files.items()}


def guarantees():
    """docs/GUARANTEES.md with the numbers of the headline's table as they are, and what is wrong with its files."""
    with open(GUARANTEES) as file:
        text = file.read()
    begin = text.index("## What has to be read to believe the headline")
    end = text.index("\n## ", begin)
    section, needed = text[begin:end], headline()
    named = re.findall(r"^\| `(\S+\.antt)` \|", section, re.M)
    wrong = [f"the table of docs/GUARANTEES.md lacks {path}" for path in needed if path not in named]
    wrong += [f"the table of docs/GUARANTEES.md names {path}, which isn't needed" for path in named if path not in needed]
    row = re.compile(r"^\| `(\S+\.antt)` \| \d+ \|", re.M)
    section = row.sub(lambda found: f"| `{found[1]}` | {needed.get(found[1], 0)} |", section)
    section = re.sub(r"^They are \d+ lines", f"They are {sum(needed.values())} lines", section, flags=re.M)
    return text[:begin] + section + text[end:], wrong


def check():
    """What is wrong with the documents, one complaint a line."""
    text, wrong = guarantees()
    for path, expected in ((DOCUMENT, document()), (GUARANTEES, text)):
        with open(path) as file:
            if file.read() != expected:
                wrong.append(f"{os.path.relpath(path, ROOT)} isn't what --write makes")
    return wrong


def print_list(crate, name):
    files, types = needed_of(crate, [name])
    for place in sorted(files, key=place_order):
        file, chunks = specs(*place), files[place]
        names = "" if file.is_whole(chunks) else "  " + ", ".join(names_of(file, chunks))
        print(f"{lines_of(file, chunks):5}  {file.path}{names}")
    print(f"{sum(lines_of(specs(*place), chunks) for place, chunks in files.items()):5}  lines of {len(files)} files")
    for place in sorted(types, key=place_order):
        print(f"       {place[1]}  {', '.join(sorted(types[place]))}")


def main():
    words = sys.argv[1:]
    if words == ["--write"]:
        text, wrong = guarantees()
        for path, made in ((DOCUMENT, document()), (GUARANTEES, text)):
            with open(path, "w") as file:
                file.write(made)
        sys.exit("\n".join(wrong) or None)
    elif words == ["--check"]:
        wrong = check()
        print("\n".join(wrong), end="\n" if wrong else "")
        sys.exit(1 if wrong else 0)
    elif len(words) == 2:
        print_list(*words)
    else:
        sys.exit(__doc__)


if __name__ == "__main__":
    main()
