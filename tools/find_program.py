#!/usr/bin/env python3
"""Finds the program that was built of just these sources, or builds it without proof.

Use: tools/find_program.py prints its path, after lines on standard error where it had to be built.
Where only `rt try` can run the sources it prints nothing. --status says which program there is;
--prove proves it and the crates beneath it; --proved prints the path of the proved one, if there is
one. --sources prints a checksum of the sources, and --keep CHECKSUM, once `rt ci` passed in this
checkout, keeps the program that it left as the proved one of these sources, where they are the
same still. The status is 0, or 125 where there is no program.

A program lies in a folder that is named by whether it was proved and by a checksum of its sources,
beside a file that names the kit: in out/ of this checkout, or, where that can't be written, in a
cache folder of the user's. A folder gets its name once it is whole.
"""
import contextlib
import fcntl
import glob
import hashlib
import os
import shutil
import subprocess
import sys
import tempfile
import time

import build
import build_unproved

CRATE = "avrocat"
KIT = "rattle-kit-13f"
# What is proved and built: a checksum is of these parts of each crate.
PARTS = ("src", "specs", "proofs")
# How many programs of other sources stay.
OTHERS = 3


def say(text):
    print(f"{CRATE}: {text}", file=sys.stderr, flush=True)


def fail(text):
    say(text)
    sys.exit(125)


def crates():
    """The crate and all beneath it, each with its line of crates.txt."""
    uses, lines = build.read_crates()
    return {name: lines[name] for name in sorted(build.beneath(uses, CRATE))}


def checksum(top):
    """A checksum of all that the program is proved and built of, in this checkout or a copy."""
    found = hashlib.sha256()
    with open(os.path.join(top, "HANDLES"), "rb") as file:
        found.update(file.read())
    for name, line in crates().items():
        found.update(line.encode())
        for part in PARTS:
            for at, folders, files in os.walk(os.path.join(build.folder_of(name, top), part)):
                folders.sort()
                for path in sorted(os.path.join(at, it) for it in files):
                    # An editor's lock file is a link to nothing.
                    if not os.path.isfile(path):
                        continue
                    with open(path, "rb") as file:
                        text = file.read()
                    found.update(f"{os.path.relpath(path, top)}\0{len(text)}\0".encode() + text)
    return found.hexdigest()[:32]


def kit_of():
    """What `rt version` prints, or None where there is no rt."""
    folder = build_unproved.kit_folder()
    if folder is None:
        return None
    try:
        # The file that it prints, which takes less time to read.
        with open(os.path.join(folder, "KIT-ID")) as file:
            return file.read().strip()
    except OSError:
        return subprocess.run(["rt", "version"], stdout=subprocess.PIPE, text=True).stdout.strip()


def places():
    """The folders that programs may lie in."""
    cache = os.environ.get("XDG_CACHE_HOME") or os.path.expanduser("~/.cache")
    return os.path.join(build.TOP, "out"), os.path.join(cache, "valzhorn")


def kit_beside(program):
    try:
        with open(os.path.join(os.path.dirname(program), "kit")) as file:
            return file.read()
    except OSError:
        return ""


def find(kind, sources):
    """The path of the proved or the unproved program of these sources, or None."""
    for place in places():
        program = os.path.join(place, f"{kind}-{sources}", CRATE)
        # Without an rt there is no other kit that could build it anew.
        if os.access(program, os.X_OK) and kit_of() in (None, kit_beside(program)):
            return program
    return None


def writable_place():
    """The first folder that something can be written into."""
    for place in places():
        try:
            os.makedirs(place, exist_ok=True)
            with tempfile.TemporaryFile(dir=place):
                return place
        except OSError as error:
            why = error
    fail(f"there is no folder for the program: {why}")


def keep(program, kind, sources, kit, place):
    """Keeps a program that was just built, and gives its path."""
    # What an interrupted call left.
    for it in glob.glob(os.path.join(place, "new-*")):
        shutil.rmtree(it, ignore_errors=True)
    room = tempfile.mkdtemp(prefix="new-", dir=place)
    shutil.copy(program, os.path.join(room, CRATE))
    with open(os.path.join(room, "kit"), "w") as file:
        file.write(kit)
    folder = os.path.join(place, f"{kind}-{sources}")
    shutil.rmtree(folder, ignore_errors=True)
    os.rename(room, folder)
    others = sorted(glob.glob(os.path.join(place, f"{kind}-*")), key=os.path.getmtime)[: -OTHERS - 1]
    for it in others:
        shutil.rmtree(it, ignore_errors=True)
    return os.path.join(folder, CRATE)


@contextlib.contextmanager
def alone(place):
    """One at a time; a second one waits, and then finds what the first one built."""
    try:
        lock = open(os.path.join(place, "lock"), "w")
    except OSError:
        # The file is another user's: two may build at once then, and the later one's program stays.
        yield
        return
    with lock:
        try:
            fcntl.flock(lock, fcntl.LOCK_EX | fcntl.LOCK_NB)
        except BlockingIOError:
            say("waiting for another call, which builds it")
            fcntl.flock(lock, fcntl.LOCK_EX)
        yield


def needed_kit():
    kit = kit_of()
    if kit is None:
        fail(f'there is no rt on the path to build it with: it comes with {KIT} (README.md, "Run it")')
    return kit


def build_without_proof(sources):
    """Builds the program without proof, and gives its path, or an empty one for `rt try`."""
    kit, place = needed_kit(), writable_place()
    with alone(place):
        # Another call may have built it meanwhile.
        program = find("unproved", sources)
        if program:
            return program
        begun = time.monotonic()
        say("first use of these sources, so it is built without proof now, in some two minutes")
        with tempfile.TemporaryDirectory(prefix="unproved-") as room:
            made = os.path.join(room, CRATE)
            try:
                build_unproved.build(CRATE, made, build.TOP, say)
            except build_unproved.NotKept:
                say("with this kit only rt try can run it, a minute or more each time: it reads 64 MiB and writes 1 MiB at most")
                return ""
            except (build_unproved.NotBuilt, OSError) as failure:
                fail(f"it wasn't built:\n{failure}")
            if checksum(build.TOP) != sources:
                fail("its sources changed while it was built: call it again")
            program = keep(made, "unproved", sources, kit, place)
        took = build.span(time.monotonic() - begun)
        say(f"built in {took} WITHOUT PROOF, with a run's checks (overflow, bounds, unreachable code); rt ci proves it")
    return program


def copy_sources(room):
    """A repository of the program and the crates beneath it, with no edits for the gate to try."""
    leave = shutil.ignore_patterns("out", *build.EDITS)
    for name in crates():
        shutil.copytree(build.folder_of(name), build.folder_of(name, room), ignore=leave)
    shutil.copy(os.path.join(build.TOP, "HANDLES"), room)
    with open(os.path.join(room, "crates.txt"), "w") as file:
        file.writelines(crates().values())


def leave_for_tools(made):
    """Puts the proved program where rt leaves it too, for the scripts that try it."""
    left = build.program_of(CRATE)
    with contextlib.suppress(OSError):
        os.makedirs(os.path.dirname(left), exist_ok=True)
        os.replace(shutil.copy(made, left + ".new"), left)


def prove():
    """Proves the program on a copy of its sources. What `rt ci` has passed before it keeps."""
    program = find("proved", checksum(build.TOP))
    if program:
        leave_for_tools(program)
        say("these sources were proved before")
        return
    kit, place, begun = needed_kit(), writable_place(), time.monotonic()
    say("rt ci proves it and the crates beneath it on a copy: in an hour or more, or minutes where it passed here before")
    with tempfile.TemporaryDirectory(prefix="proved-") as room:
        copy_sources(room)
        sources = checksum(room)
        status, _ = build_unproved.run(["rt", "ci"], room, to=sys.stderr)
        if status:
            fail("it wasn't proved")
        made = build.program_of(CRATE, room)
        with alone(place):
            keep(made, "proved", sources, kit, place)
            leave_for_tools(made)
    say(f"proved and built in {build.span(time.monotonic() - begun)}")


def keep_left(sources):
    """Keeps the program that `rt ci` left here, which began when the sources had this checksum."""
    kit, place, left = needed_kit(), writable_place(), build.program_of(CRATE)
    if checksum(build.TOP) != sources:
        fail("the sources changed while rt ci ran, so its program isn't kept")
    if not os.access(left, os.X_OK):
        fail(f"rt ci left no program at {left}")
    with alone(place):
        if not find("proved", sources):
            keep(left, "proved", sources, kit, place)


def tell_proved():
    program = find("proved", checksum(build.TOP))
    if program is None:
        sys.exit(125)
    print(program)


def tell_status():
    sources = checksum(build.TOP)
    proved = find("proved", sources)
    program = proved or find("unproved", sources)
    told = [f"program: {program or 'none yet of these sources; the first use builds one without proof'}"]
    if program:
        how = "yes" if proved else "no, but with the checks of a run; ./avrocat --prove proves it"
        told.append(f"proved:  {how}")
    told.append(f"sources: {sources}, {CRATE} and the {len(crates()) - 1} crates beneath it")
    told.append(f"kit:     {kit_beside(program) if program else kit_of() or 'no rt on the path'}")
    left = build.program_of(CRATE)
    if not proved and os.path.exists(left):
        told.append(f"note:    nothing tells of which sources {left} is, so it isn't run;")
        told.append("         .ci/run keeps what it proved, and where rt ci passed these sources, ./avrocat --prove takes minutes")
    sys.stdout.write("\n".join([*told, ""]))


def main():
    build_unproved.end_on_signals()
    words = sys.argv[1:]
    if words == ["--status"]:
        tell_status()
    elif words == ["--prove"]:
        prove()
    elif words == ["--proved"]:
        tell_proved()
    elif words == ["--sources"]:
        print(checksum(build.TOP))
    elif words[:1] == ["--keep"] and len(words) == 2:
        keep_left(words[1])
    elif not words:
        sources = checksum(build.TOP)
        print(find("proved", sources) or find("unproved", sources) or build_without_proof(sources))
    else:
        fail("use: tools/find_program.py [--status | --prove | --proved | --sources | --keep CHECKSUM]")


if __name__ == "__main__":
    main()
