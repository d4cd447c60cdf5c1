#!/usr/bin/env python3
"""Tries the edits that would take the gate too long: those in crates/NAME/edits.

Use: tools/try_edits.py [NAME ..], from anywhere; with no name it tries those of all crates. An edit
changes a line of its crate, and rt has to refuse what becomes of it. The crates are built first.
It prints what rt says of each edit. Its status is 0 where all are refused. With --check alone it
tries none, and says which edits, of those in must-fail/ too, name a line that doesn't stand once in
its file; the status is 0 where there is none.
"""
import concurrent.futures
import glob
import os
import shutil
import subprocess
import sys

import build


def edits_of(name):
    return os.path.join(build.folder_of(name), "edits")


def try_edits(name):
    """Whether all edits of the crate are refused. They are tried in a repository of its own."""
    uses, lines = build.read_crates()
    workspace = build.make_workspace(lines, build.beneath(uses, name), name)
    shutil.copytree(edits_of(name), os.path.join(build.folder_of(name, workspace), "must-fail"))
    run = subprocess.run(
        ["rt", "must-fail", name],
        cwd=workspace,
        stdin=subprocess.DEVNULL,
        stdout=subprocess.PIPE,
        stderr=subprocess.STDOUT,
        pass_fds=build.LOCKS,
        text=True,
        errors="replace",
    )
    shutil.rmtree(workspace)
    print(run.stdout, end="", flush=True)
    return run.returncode == 0


def lines_lost(path):
    """The lines that an edit wants to change and that don't stand once in their files."""
    texts, lost = {}, []
    with open(path, encoding="utf-8") as edit:
        for line in edit:
            kind, _, text = line.rstrip("\n").partition(": ")
            if kind == "file":
                file = text
                if file not in texts:
                    with open(os.path.join(os.path.dirname(path), "..", file), encoding="utf-8") as code:
                        texts[file] = code.read()
            elif kind == "old":
                old = text
                lost += [old] if texts[file].count(old) != 1 else []
            elif kind == "new":
                texts[file] = texts[file].replace(old, text, 1)
    return lost


def check(names):
    status = 0
    for name in names:
        for path in sorted(it for folder in build.EDITS for it in glob.glob(os.path.join(build.folder_of(name), folder, "*.edit"))):
            for line in lines_lost(path):
                print(f"{os.path.relpath(path, build.TOP)}: this doesn't stand once in its file: {line.strip()}")
                status = 1
    return status


def main():
    uses, _ = build.read_crates()
    named = sys.argv[1:]
    if named == ["--check"]:
        sys.exit(check(uses))
    if not set(named) <= set(uses):
        sys.exit("use: tools/try_edits.py [NAME ..], with names of crates.txt")
    lacking = [it for it in named if not os.path.isdir(edits_of(it))]
    if lacking:
        sys.exit(f"without a folder edits: {', '.join(lacking)}")
    names = [it for it in dict.fromkeys(named or uses) if os.path.isdir(edits_of(it))]
    if subprocess.run([os.path.join(build.TOP, "tools", "build.py"), *names]).returncode:
        sys.exit(1)
    with build.alone(), concurrent.futures.ThreadPoolExecutor(build.PROCESSORS) as pool:
        are_refused = list(pool.map(try_edits, names))
    sys.exit(0 if all(are_refused) else 1)


if __name__ == "__main__":
    main()
