"""The words of the program's commands, as `avrocat help` prints them and as documents and completions have them."""

import os
import re
import shlex

TOP = os.path.dirname(os.path.dirname(os.path.abspath(__file__)))
# A line of the help that isn't indented: the words of a command, two spaces or more, and what it does.
HELP_LINE = re.compile(r"^(\S+(?: \S+)*) {2,}\S", re.MULTILINE)
FORMATS_TABLE = re.compile(r"^\| words \| input \| output \|\n\|[-|]+\n((?:\|.*\n)+)", re.MULTILINE)
MANUAL_SECTION = re.compile(r"^\.SH COMMANDS\n(.*?)^\.SH ", re.MULTILINE | re.DOTALL)
MANUAL_LINE = re.compile(r"^\.TP\n\.([BRI]+) (.*)$", re.MULTILINE)
MANUAL_ESCAPES = [("\\fI", ""), ("\\fR", ""), ("\\|", ""), ("\\&", ""), ("\\-", "-")]


def text_of(path):
    with open(os.path.join(TOP, path), encoding="utf-8") as file:
        return file.read()


def in_help(text):
    return {words for line in HELP_LINE.findall(text) for words in line.split(", ")}


def in_formats():
    rows = FORMATS_TABLE.search(text_of("docs/FORMATS.md"))[1].splitlines()
    return {words for row in rows for words in re.findall(r"`([^`]+)`", row.split("|")[1])}


def in_manual():
    """Of `ndjson [KEEP ...]` what the help has, `ndjson KEEP..`."""
    found = set()
    for macro, line in MANUAL_LINE.findall(MANUAL_SECTION.search(text_of("docs/avrocat.1"))[1]):
        for escape, character in MANUAL_ESCAPES:
            line = line.replace(escape, character)
        # Macros of two letters change the font from each part to the next, and put no space between them.
        parts = shlex.split(line)
        shown = (" " if len(macro) == 1 else "").join(parts)
        found |= set(re.sub(r" ?\.\.\.", "..", re.sub(r"[\[\]]", "", shown)).split(", "))
    return found


def in_bash():
    return set(re.search(r'commands="([^"]*)"', text_of("completions/avrocat.bash"))[1].split())


def in_zsh():
    return set(re.findall(r"^ +'([^':]+):", text_of("completions/_avrocat"), re.MULTILINE))


def in_fish():
    text = text_of("completions/avrocat.fish")
    marks = {" -a ": "", " -s ": "-", " -l ": "--"}
    return {before + word for mark, before in marks.items() for word in re.findall(rf"{mark}(\S+)", text)}


def differences(help_text):
    """What documents and completions lack of the words that the help prints, or have besides, one complaint a line."""
    words = in_help(help_text)
    names = {it.split()[0] for it in words}
    lists = {
        "docs/FORMATS.md": (in_formats(), words),
        "docs/avrocat.1": (in_manual(), words),
        "completions/avrocat.bash": (in_bash(), names),
        "completions/_avrocat": (in_zsh(), names),
        "completions/avrocat.fish": (in_fish(), names),
    }
    wrong = []
    for path, (found, expected) in lists.items():
        wrong += [f"{path} lacks a command that help prints: {it}" for it in sorted(expected - found)]
        wrong += [f"{path} has a command that help doesn't print: {it}" for it in sorted(found - expected)]
    return wrong
