#!/usr/bin/env python3
"""Tells what docs/GUARANTEES.md names that isn't there; status 1 then.

    tools/check_citations.py

Of `call: clause` there has to be a function, or a method of a trait, of that name with a clause of that name, or with one
that cites a definition of that name. Any other name in backticks has to stand somewhere in the code or in a definition,
and a path has to lead to a file. It doesn't look whether a clause says what the sentence says.
"""
import collections
import glob
import os
import re
import sys

ROOT = os.path.dirname(os.path.dirname(os.path.abspath(__file__)))
# What stands in backticks, but names nothing in the code: endings of names, and the form of a citation itself.
NO_NAMES = {"_tests", "_code"}
NO_CITATIONS = {"call: clause", "avrocat: usage"}
FUNCTION = re.compile(r"^ *(?:pub(?:\(crate\))? )?fn (\w+)\b.*?(?=^ *\{|;\s*$)", re.M | re.S)
CLAUSE = re.compile(r"\b(?:ensures|requires)\*? (\w+)\b")


def text_of(pattern):
    texts = []
    for path in sorted(glob.glob(os.path.join(ROOT, pattern), recursive=True)):
        with open(path) as file:
            texts.append(file.read())
    return "\n".join(texts)


def contracts(code):
    """The contracts of each function's name, as texts."""
    found = collections.defaultdict(list)
    for function in FUNCTION.finditer(code):
        found[function[1]].append(function[0])
    return found


def is_cited_well(function, clause, known):
    """Whether a function of that name has that clause, or cites that definition."""
    texts = known.get(function, [])
    return any(clause in CLAUSE.findall(text) or clause[0].isupper() and re.search(rf"\b{clause}\b", text) for text in texts)


def quotations(document):
    """(path, text) of each block of text after a line that names a file of code."""
    return re.findall(r"`(crates/[\w/]+\.rt)`[^\n]*\n\n```text\n(.*?)```", document, re.S)


def is_quoted_well(path, text):
    """Whether the text stands in the file, but for white space."""
    with open(os.path.join(ROOT, path)) as file:
        return " ".join(text.split()) in " ".join(file.read().split())


def main():
    with open(os.path.join(ROOT, "docs", "GUARANTEES.md")) as file:
        document = file.read()
    code, definitions = text_of("crates/*/src/**/*.rt"), text_of("crates/*/specs/*.antt")
    known = contracts(code)
    names = frozenset(re.findall(r"\w+", code + definitions)) | frozenset(os.listdir(os.path.join(ROOT, "crates")))
    wrong = []
    for citation in sorted(set(re.findall(r"`([\w:]+: \w+)`", document)) - NO_CITATIONS):
        call, clause = citation.rsplit(": ", 1)
        if not is_cited_well(call.rsplit("::", 1)[-1], clause, known):
            wrong.append(f"no clause: {citation}")
    wrong += [f"no such name: {name}" for name in sorted(set(re.findall(r"`(\w+)`", document)) - names - NO_NAMES)]
    for path in sorted(set(re.findall(r"`(crates/[\w/.]+)`", document))):
        if not os.path.exists(os.path.join(ROOT, path)):
            wrong.append(f"no such file: {path}")
    wrong += [f"not as quoted: {path}: {text.splitlines()[0]}" for path, text in quotations(document) if not is_quoted_well(path, text)]
    print("\n".join(wrong), end="\n" if wrong else "")
    sys.exit(1 if wrong else 0)


if __name__ == "__main__":
    main()
