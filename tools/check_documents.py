#!/usr/bin/env python3
"""Runs the commands that the documents show, and compares what is printed with the output that they show.

Use: tools/check_documents.py [PROGRAM], by default with `./avrocat` of this checkout. The status is 0 where all is as shown,
1 where something differs, with a diff for each.

In Markdown a block ```sh holds commands, and a block ```text right after it what they print, errors too. A block ```sh without
one isn't run, and a block ```text without commands differs. In the manual page an example stands between .EX and .EE: lines that
begin with `$ ` are commands, all others what they print. A line `...` of the output stands for any lines.

Code in Markdown under a comment `<!-- FILE, without its contract -->` has to be lines of that file, in its order.

The words of the commands that `avrocat help` prints have to be those that FORMATS, the manual page and the completions have
(command_words.py). An indented line of the help that begins with `avrocat`, or with capitals and `=`, is an example: each is run,
in order, after the variables that were set before it, and has to end with status 0 and without a note.

A document's commands run one after another in a folder of its own, as they stand: the folder has the files of examples/, once by
their names and once in examples/, and the program as `./avrocat` and as `avrocat` on the path.
"""

import difflib
import os
import re
import shutil
import subprocess
import sys
import tempfile
import typing

import command_words

TOP = os.path.dirname(os.path.dirname(os.path.abspath(__file__)))
DOCUMENTS = ["README.md", "docs/FORMATS.md", "docs/GUIDE.md", "docs/avrocat.1"]
BLOCK = re.compile(r"^```(\w*)\n(.*?)^```$", re.MULTILINE | re.DOTALL)
EXAMPLE = re.compile(r"^\.EX\n(.*?)^\.EE$", re.MULTILINE | re.DOTALL)
CODE = re.compile(r"^<!-- (\S+), without its contract -->\n```rust\n(.*?)^```$", re.MULTILINE | re.DOTALL)
HELP_EXAMPLE = re.compile(r"^ +((?:avrocat |[A-Z]+=).*)$", re.MULTILINE)
BOLD = re.compile(r"\\fB(.*?)\\fR", re.DOTALL)
ESCAPES = [("\\&", ""), ("\\-", "-"), ("\\(aq", "'"), ("\\(dq", '"'), ("\\(ti", "~"), ("\\(ha", "^"), ("\\e", "\\")]
SECONDS = 120


class Shown(typing.NamedTuple):
    """Commands of a document, what they print, and the line of the document where they stand."""

    commands: str
    output: str
    line: int


def line_at(text, place):
    return text.count("\n", 0, place) + 1


def shown_in_markdown(text):
    commands, end = "", 0
    for block in BLOCK.finditer(text):
        if text[end : block.start()].strip():
            commands = ""
        if block[1] == "text":
            yield Shown(commands, block[2], line_at(text, block.start()))
        commands, end = block[2] if block[1] == "sh" else "", block.end()


def plain(text):
    """Lines of the manual page as `man` shows them, with what is bold in one line."""
    text = BOLD.sub(lambda bold: bold[1].replace("\n", " "), text)
    for escape, character in ESCAPES:
        text = text.replace(escape, character)
    return text


def shown_in_manual(text):
    for example in EXAMPLE.finditer(text):
        lines = plain(example[1]).splitlines(keepends=True)
        commands = "".join(line.removeprefix("$ ") for line in lines if line.startswith("$ "))
        output = "".join(line for line in lines if not line.startswith("$ "))
        yield Shown(commands, output, line_at(text, example.start()))


def first_strange_line(code, path):
    """The first line of the code that the file doesn't have after those before it, or None."""
    with open(os.path.join(TOP, path), encoding="utf-8") as file:
        lines = iter(file.read().splitlines())
    # Where there is a contract, the brace of a function stands alone after it.
    return next((line for line in code.splitlines() if line.removesuffix(" {") not in lines), None)


def make_room(folder, program):
    """Fills the folder that commands run in."""
    shutil.copytree(os.path.join(TOP, "examples"), folder, dirs_exist_ok=True)
    os.symlink(".", os.path.join(folder, "examples"))
    os.symlink(program, os.path.join(folder, "avrocat"))


def printed_by(commands, folder):
    """What the commands print, errors too."""
    environment = dict(os.environ, PATH=folder + os.pathsep + os.environ["PATH"], LC_ALL="C.UTF-8")
    streams = {"stdin": subprocess.DEVNULL, "stdout": subprocess.PIPE, "stderr": subprocess.STDOUT}
    try:
        done = subprocess.run(["sh", "-c", commands], cwd=folder, env=environment, timeout=SECONDS, **streams)
    except subprocess.TimeoutExpired:
        return f"(not done after {SECONDS} seconds)\n"
    return done.stdout.decode("utf-8", "backslashreplace")


def check_help(text, program):
    """How many examples the help has, and how many of them end with another status than 0, or with a note."""
    examples, settings, wrong = HELP_EXAMPLE.findall(text), "", 0
    with tempfile.TemporaryDirectory() as folder:
        make_room(folder, program)
        for example in examples:
            if not example.startswith("avrocat "):
                settings += example + "\n"
            # Of what is printed only notes and the status are looked at.
            said = printed_by(f"{settings}({example}) 2>&1 >/dev/null || echo status $?", folder)
            if said:
                wrong += 1
                print(f"avrocat help: {example}\n{said}", end="")
    return len(examples), wrong


def is_as_shown(output, printed):
    pieces = [re.escape(piece) for piece in re.split(r"^\.\.\.\n", output, flags=re.MULTILINE)]
    return re.fullmatch(r"(?:.*\n)*".join(pieces), printed) is not None


def differences(document, shown, printed):
    name = f"{document}:{shown.line}"
    lines = [shown.output.splitlines(), printed.splitlines()]
    diff = difflib.unified_diff(*lines, f"{name}, as shown", f"{name}, as printed", lineterm="")
    return "\n".join([shown.commands.rstrip(), *diff])


def check_code(document, text):
    """How many pieces of code of a document aren't in their files."""
    wrong = 0
    for code in CODE.finditer(text):
        line = first_strange_line(code[2], code[1])
        if line is not None:
            wrong += 1
            print(f"{document}: {code[1]} doesn't have this line there: {line}")
    return wrong


def check(document, program):
    """How many examples of a document there are, and how many of them print something else, or aren't in their files."""
    with open(os.path.join(TOP, document), encoding="utf-8") as file:
        text = file.read()
    examples = list(shown_in_markdown(text) if document.endswith(".md") else shown_in_manual(text))
    wrong = check_code(document, text)
    with tempfile.TemporaryDirectory() as folder:
        make_room(folder, program)
        for shown in examples:
            printed = printed_by(shown.commands, folder)
            if not is_as_shown(shown.output, printed):
                wrong += 1
                print(differences(document, shown, printed))
    return len(examples), wrong


def main():
    if len(sys.argv) > 2:
        sys.exit(__doc__)
    program = os.path.abspath(sys.argv[1] if len(sys.argv) == 2 else os.path.join(TOP, "avrocat"))
    missing = [path for path in [program, *DOCUMENTS] if not os.path.exists(os.path.join(TOP, path))]
    if missing:
        sys.exit("there is no " + ", ".join(missing))
    # What `./avrocat` says when it builds the program isn't shown in the documents.
    first = subprocess.run([program, "help"], stdin=subprocess.DEVNULL, capture_output=True)
    if first.returncode != 0:
        sys.exit(f"{program} doesn't run: {first.stderr.decode(errors='replace').strip()}")
    help_text = first.stdout.decode()
    wrong_words = command_words.differences(help_text)
    for complaint in wrong_words:
        print(complaint)
    total, wrong = check_help(help_text, program)
    print(f"avrocat help: {total} examples, {wrong} differ")
    total_wrong = len(wrong_words) + wrong
    for document in DOCUMENTS:
        examples, wrong = check(document, program)
        print(f"{document}: {examples} examples, {wrong} differ")
        total, total_wrong = total + examples, total_wrong + wrong
    sys.exit(1 if total_wrong or not total else 0)


main()
