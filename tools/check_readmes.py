#!/usr/bin/env python3
"""Tells what the READMEs of crates name that isn't there; status 1 then.

    tools/check_readmes.py

A link has to lead to a file, and to a heading in it where it names one; README.md has to link to each of them. What stands in
backticks is looked at as tools/check_citations.py does in docs/GUARANTEES.md. tools/guide.py --check compares their code.
"""
import glob
import os
import re
import sys

from check_citations import ROOT, contracts, is_cited_well, text_of

# Names of the Rust crates that are ported, and of nothing here.
NO_NAMES = {"External", "json_deserializer"}
CODE = re.compile(r"^```.*?^```$", re.M | re.S)


def anchors(document):
    """What the headings of a document are linked by."""
    return {re.sub(r"[^\w\- ]", "", heading.lower()).replace(" ", "-") for heading in re.findall(r"^#+ (.*)$", document, re.M)}


def text(path):
    with open(path, encoding="utf-8") as file:
        return file.read()


def dead_links(path, document):
    for link in re.findall(r"\]\(([^)]*)\)", document):
        target, _, anchor = link.partition("#")
        target = os.path.normpath(os.path.join(os.path.dirname(path), target))
        if not os.path.exists(target) or anchor and anchor not in anchors(text(target)):
            yield f"no such link: {link}"


def dead_names(document, known, names):
    for citation in re.findall(r"`([\w:]+: \w+)`", document):
        call, clause = citation.rsplit(": ", 1)
        if not is_cited_well(call.rsplit("::", 1)[-1], clause, known):
            yield f"no clause: {citation}"
    yield from (f"no such name: {name}" for name in re.findall(r"`(\w+)`", document) if name not in names)
    for crate, call in re.findall(r"`tools/reading_lists.py (\w+) ([\w:]+)`", document):
        if call.rsplit("::", 1)[-1] not in contracts(text_of(f"crates/{crate}/src/**/*.rt")):
            yield f"no such call: {crate} {call}"
    paths = re.findall(r"`((?:crates|docs|tools)/[\w/.]+)`", document)
    yield from (f"no such file: {path}" for path in paths if not os.path.exists(os.path.join(ROOT, path)))


def main():
    code, definitions = text_of("crates/*/src/**/*.rt"), text_of("crates/*/specs/*.antt")
    known = contracts(code)
    names = {*re.findall(r"\w+", code + definitions), *os.listdir(os.path.join(ROOT, "crates")), *NO_NAMES}
    front = text(os.path.join(ROOT, "README.md"))
    wrong = []
    for path in sorted(glob.glob(os.path.join(ROOT, "crates", "*", "README.md"))):
        name = os.path.relpath(path, ROOT)
        document = CODE.sub("", text(path))
        if f"]({name})" not in front:
            wrong.append(f"README.md doesn't link to {name}")
        faults = {*dead_links(path, document), *dead_names(document, known, names)}
        wrong += [f"{name}: {fault}" for fault in sorted(faults)]
    wrong += [f"README.md: {fault}" for fault in dead_links(os.path.join(ROOT, "README.md"), CODE.sub("", front))]
    print("\n".join(wrong), end="\n" if wrong else "")
    sys.exit(1 if wrong else 0)


main()
