#!/usr/bin/env python3
"""Builds a program crate without proof, with optimization and with the checks that a run makes.

Use: tools/build_unproved.py CRATE PROGRAM [REPOSITORY], from anywhere, to write the file PROGRAM;
without REPOSITORY the crate is one of this checkout. It prints a line a step to standard error. Its
status is 0 where the program was built.

`rt try` compiles a program without proof, with checks and a memory sanitizer, runs it and throws it
away. Here it runs in a kit that is made of links, whose clang is a script that keeps the program's
module and ends the try. The kit's own clang then compiles that module, without the sanitizer, and
its rattle-link links it. No compiler of the system takes part.
"""
import os
import shlex
import shutil
import signal
import subprocess
import sys
import tempfile

TOP = os.path.dirname(os.path.dirname(os.path.abspath(__file__)))
# The folders of a kit that hold a file which the kit of links has in another form.
OPENED = ("", "bin", "toolchain", "toolchain/bin")
CLANG = "toolchain/bin/clang"
# The module of the whole program is the one that is compiled with a sanitizer.
KEEPER = """#!/bin/sh
case " $* " in
*" module.bc "*" -fsanitize=address "*)
    cp module.bc {room}/module.bc && printf '%s\\n' "$@" > {room}/words
    exit 1
    ;;
esac
exec {clang} "$@"
"""


class NotKept(Exception):
    """The try ran the program, but not by a clang that could keep its module."""


class NotBuilt(Exception):
    """What the tool said that failed."""


def kit_folder():
    """The folder of the kit whose rt is on the path, or None."""
    rt = shutil.which("rt")
    return rt and os.path.dirname(os.path.dirname(os.path.realpath(rt)))


def make_kit_of_links(kit, room):
    """A kit in the room, of links to this one's files, whose clang keeps the program's module."""
    links = os.path.join(room, "kit")
    for folder in OPENED:
        os.mkdir(os.path.join(links, folder))
        for name in os.listdir(os.path.join(kit, folder)):
            path = os.path.join(folder, name)
            file, link = os.path.join(kit, path), os.path.join(links, path)
            if path == "bin/rt" or path.endswith(".py"):
                # These find the kit by where they lie themselves.
                shutil.copy(file, link)
            elif path not in (*OPENED, CLANG):
                os.symlink(file, link)
    with open(os.path.join(links, CLANG), "w") as file:
        clang = os.path.join(kit, CLANG)
        file.write(KEEPER.format(room=shlex.quote(room), clang=shlex.quote(clang)))
        os.chmod(file.fileno(), 0o755)
    return links


def end_on_signals():
    """Has a signal end what was begun, and remove what it had made so far."""
    for it in (signal.SIGHUP, signal.SIGINT, signal.SIGTERM):
        signal.signal(it, lambda number, _: sys.exit(128 + number))


def run(command, folder, to=subprocess.PIPE):
    """Runs the command, which reads nothing, and gives its status and all that it printed."""
    how = {"stdin": subprocess.DEVNULL, "stdout": to, "stderr": subprocess.STDOUT}
    with subprocess.Popen(command, cwd=folder, text=True, errors="replace", **how) as process:
        try:
            said = process.communicate()[0]
        except BaseException:
            process.terminate()
            raise
    return process.returncode, said


def must_run(command, folder):
    status, said = run(command, folder)
    if status:
        raise NotBuilt(said)


def translate(crate, top, kit, room):
    """Has the module of the crate's program in the room, and gives the words to compile it with."""
    rt = os.path.join(make_kit_of_links(kit, room), "bin", "rt")
    _, said = run([rt, "try", "--steps", "1"], os.path.join(top, "crates", crate))
    try:
        with open(os.path.join(room, "words")) as file:
            words = file.read().splitlines()
    except FileNotFoundError:
        raise NotKept if "\nrun=ended " in "\n" + said else NotBuilt(said) from None
    return ["-O2" if it == "-O0" else it for it in words if not it.startswith("-fsanitize=")]


def build(crate, program, top, say):
    """Builds the program of the crate of a repository, and says each step."""
    kit = kit_folder()
    if kit is None:
        raise NotBuilt("there is no rt on the path\n")
    with tempfile.TemporaryDirectory(prefix="unproved-") as room:
        say("1 of 3: rt try translates the sources")
        try:
            words = translate(crate, top, kit, room)
        except OSError:
            # The kit has other folders than a kit of links can be made of.
            raise NotKept from None
        say("2 of 3: the kit's clang compiles them")
        must_run([os.path.join(kit, CLANG), *words], room)
        say("3 of 3: the kit's rattle-link links the program")
        link = [os.path.join(kit, "bin", "rattle-link"), "--target", "x86_64-unknown-linux-gnu"]
        link += ["--toolchain", os.path.join(kit, "toolchain"), "-o", "program", "module.o"]
        must_run([*link, *(os.path.join(kit, "c", it) for it in ("libos_c.a", "liblibc_c.a"))], room)
        shutil.copy(os.path.join(room, "program"), program)


def main():
    end_on_signals()
    if len(sys.argv) not in (3, 4):
        sys.exit("use: tools/build_unproved.py CRATE PROGRAM [REPOSITORY]")
    crate, program = sys.argv[1], os.path.abspath(sys.argv[2])
    top = os.path.abspath(sys.argv[3]) if sys.argv[3:] else TOP
    if not os.path.exists(os.path.join(top, "crates", crate, "src", "main.rt")):
        sys.exit(f"{crate} is no program of {top}")
    try:
        build(crate, program, top, lambda step: print(f"{crate}: {step}", file=sys.stderr))
    except NotKept:
        sys.exit("rt try ran the program, but the kit calls its clang in another way than this script knows")
    except NotBuilt as failure:
        sys.exit(f"{failure}{crate}: not built")


if __name__ == "__main__":
    main()
