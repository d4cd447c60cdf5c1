#!/usr/bin/env python3
"""Writes the code blocks of docs/GUIDE.md and of crates/*/README.md anew, each from the file that the comment above it
names.

A comment `<!-- FILE -->` stands above the whole file, `<!-- FILE without contracts -->` above the file without
the lines that are for the prover alone, and `<!-- FILE contracts -->` above its functions with clauses, whose
bodies are left out. `<!-- FILE fn NAME, NAME -->` stands above these functions of the file, in this order, after what
they need of its imports; it, too, may end in `without contracts`. In the README of a crate no other Rust code may stand.

Use: tools/guide.py; or tools/guide.py --check, which writes nothing, and fails where a block differs.
"""
import pathlib
import re
import sys

ROOT = pathlib.Path(__file__).resolve().parent.parent
GUIDE = ROOT / "docs" / "GUIDE.md"
READMES = sorted(ROOT.glob("crates/*/README.md"))
BLOCK = re.compile(
    r"(<!-- (\S+)(?: fn (\w+(?:, \w+)*)(?: with (\w+) for (\w+))?)?( without contracts| contracts|) -->\n```rust\n)"
    r"(.*?)(```\n)",
    re.DOTALL,
)
GHOST_USE = re.compile(r"^ghost use [^;]*;\n", re.MULTILINE)
IMPORT = re.compile(r"^use ([^;{]*)(?:\{([^}]*)\})?;\n", re.MULTILINE)
# Traits that code needs for their functions, and doesn't name itself.
TRAITS = {
    "Container": {"with_capacity"},
    "Cursor": {"left", "byte", "take", "jump"},
    "FallibleStreamingIterator": {"advance", "get", "next", "size_hint"},
    "StreamingIterator": {"advance", "get", "next", "size_hint"},
    "Source": {"read", "read_through"},
    "Sink": {"write"},
}
# A function from the comments and attributes above it on: its one line, or the lines up to the brace that closes it.
FUNCTION = r"^(?:(?:///|#\[)[^\n]*\n)*(?:pub(?:\(crate\))? )?fn {}\b(?:[^\n]*\}}\n|.*?^\}}\n)"
# A function with clauses: its signature, its clauses, and the brace that opens its body, alone in a line.
CONTRACT = re.compile(
    r"^(?P<signature>(?:pub(?:\(crate\))? )?fn [^{}]*?)\n(?P<clauses>    (?:requires|ensures)\b.*?)\n\{\n",
    re.DOTALL | re.MULTILINE,
)


def without_contracts(text):
    text = CONTRACT.sub(lambda match: match["signature"] + " {\n", GHOST_USE.sub("", text))
    return re.sub(r"\n{3,}", "\n\n", text)


def contracts(text):
    imports = "".join(GHOST_USE.findall(text))
    functions = (f"{it['signature']}\n{it['clauses']}\n{{ .. }}\n" for it in CONTRACT.finditer(text))
    return imports + "\n" + "\n".join(functions)


PARTS = {"": lambda text: text, " without contracts": without_contracts, " contracts": contracts}


def is_used(name, code):
    """Whether code needs a name that is imported: a function or a module where it is called or goes on, a trait where one
    of its functions is called."""
    if re.search(rf"(?<![.\w]){name}\b" if name[:1].isupper() else rf"(?<![.\w]){name}(?:\(|!|::)", code):
        return True
    return any(re.search(rf"(?:\.|::){function}\(", code) for function in TRAITS.get(name, ()))


def imports_for(code, text):
    """What code needs of a file's imports: of those in braces the names that it uses."""
    for path, names in IMPORT.findall(text):
        module = path.rstrip(":").rsplit("::", 1)[-1]
        listed = [name for name in re.split(r",\s*", names.strip(" \n,")) if name]
        used = [name for name in listed if is_used(module if name == "self" else name.split(" as ")[-1], code)]
        if used == ["self"] or not listed and is_used(module, code):
            yield f"use {path.removesuffix('::')};\n"
        elif used:
            yield f"use {path}{{{', '.join(used)}}};\n" if len(used) > 1 else f"use {path}{used[0]};\n"


def of_other_crate(imports, shown, named):
    """The imports with one crate's name in place of another's, sorted as they are elsewhere: `crate` and `super` first."""
    lines = [line.replace(f"use {named}::", f"use {shown}::") for line in imports]
    return sorted(lines, key=lambda line: (not line.startswith(("use crate::", "use super::")), line))


def functions(text, names, shown, named):
    """The functions of these names, after what they need of the file's imports."""
    code = []
    for name in names.split(", "):
        function = re.search(FUNCTION.format(name), text, re.DOTALL | re.MULTILINE)
        if function is None:
            raise LookupError(f"no function {name}")
        code.append(function[0])
    imports = list(imports_for("".join(code), text))
    if shown:
        imports = of_other_crate(imports, shown, named)
    return "\n".join(filter(None, ["".join(imports), *code]))


def block_of_file(match):
    opening, name, names, shown, named, part, _, closing = match.groups()
    try:
        text = PARTS[part]((ROOT / name).read_text(encoding="utf-8"))
        return opening + (functions(text, names, shown, named) if names else text) + closing
    except (FileNotFoundError, LookupError) as fault:
        sys.exit(f"there is no file {name}" if isinstance(fault, FileNotFoundError) else f"{name} has {fault}")


def main():
    is_check = "--check" in sys.argv[1:]
    wrong = []
    for path in [GUIDE, *READMES]:
        name = path.relative_to(ROOT)
        page = path.read_text(encoding="utf-8")
        if path != GUIDE and page.count("```rust\n") != len(BLOCK.findall(page)):
            wrong.append(f"{name} has Rust code under no comment that names its file")
        page_of_files = BLOCK.sub(block_of_file, page)
        if page == page_of_files:
            continue
        if is_check:
            wrong.append(f"{name} differs from the files that it shows: run tools/guide.py")
        else:
            path.write_text(page_of_files, encoding="utf-8")
    if wrong:
        sys.exit("\n".join(wrong))


main()
