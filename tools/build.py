#!/usr/bin/env python3
"""Proves and builds crates and those beneath them, side by side where they don't need each other.

Use: tools/build.py NAME .., from anywhere. It prints a line as each crate begins and ends, and what
failed. Its status is 0 where all were built.

While rt works on a crate it keeps other runs out of the folders of all crates beneath, so that two
crates over one library would wait for each other. Each crate is built in a repository of its own,
in .built/, over links to what was built beneath it, and what was made is then moved back. So run no
rt in the checkout meanwhile: the folder out of a crate is away while it is built.
"""
import contextlib
import fcntl
import os
import shutil
import signal
import subprocess
import sys
import tempfile
import time

TOP = os.path.dirname(os.path.dirname(os.path.abspath(__file__)))
WORKSPACES = os.path.join(TOP, ".built")
PROCESSORS = os.cpu_count() or 1
# The folders of a crate that nothing is built of.
EDITS = ("must-fail", "edits")
# The descriptor of this run's lock.
LOCKS = []


def read_crates():
    """The libraries that each crate of crates.txt uses, and its line there."""
    uses, lines = {}, {}
    with open(os.path.join(TOP, "crates.txt")) as file:
        for line in file:
            name, colon, libraries = line.split("#")[0].partition(":")
            if colon:
                uses[name.split()[0]] = libraries.split()
                lines[name.split()[0]] = line.rstrip("\n") + "\n"
    return {name: [it for it in libraries if it in uses] for name, libraries in uses.items()}, lines


def beneath(uses, name):
    """The crate and all beneath it."""
    found = {name}
    for library in uses[name]:
        found |= beneath(uses, library)
    return found


def folder_of(name, top=TOP):
    return os.path.join(top, "crates", name)


def program_of(name, top=TOP):
    return os.path.join(folder_of(name, top), "out", name)


def count_lines(name):
    """About how much there is to prove."""
    total = 0
    for at, folders, files in os.walk(folder_of(name)):
        folders[:] = [it for it in folders if it not in ("out", *EDITS)]
        for file in files:
            with open(os.path.join(at, file), "rb") as text:
                total += text.read().count(b"\n")
    return total


def longest_chains(uses, names):
    """Of each crate, how much there is to prove along the longest chain of crates above it."""
    lines = {it: count_lines(it) for it in names}
    longest = {}

    def measure(name):
        if name not in longest:
            above = [measure(it) for it in names if name in uses[it]]
            longest[name] = lines[name] + max(above, default=0)
        return longest[name]

    for it in names:
        measure(it)
    return longest


def span(seconds):
    return f"{int(seconds) // 60} min {int(seconds) % 60:02} s"


def is_program(name):
    return os.path.exists(os.path.join(folder_of(name), "src", "main.rt"))


def make_workspace(lines, names, name):
    """A repository of this crate and of those beneath it."""
    workspace = os.path.join(WORKSPACES, name)
    os.makedirs(workspace)
    with open(os.path.join(workspace, "crates.txt"), "w") as file:
        file.writelines(lines[it] for it in sorted(names))
    shutil.copy(os.path.join(TOP, "HANDLES"), workspace)
    leave = shutil.ignore_patterns("incremental", *EDITS)
    for it in names - {name}:
        shutil.copytree(folder_of(it), folder_of(it, workspace), ignore=leave, copy_function=os.link)
    leave = shutil.ignore_patterns("out", *EDITS)
    shutil.copytree(folder_of(name), folder_of(name, workspace), ignore=leave, copy_function=os.link)
    return workspace


def take_out(name, workspace):
    """Moves what an earlier run made of the crate into its repository."""
    move_out(name, TOP, workspace)
    # A program of an earlier run is no sign that this one built it.
    if is_program(name) and os.path.exists(program_of(name, workspace)):
        os.remove(program_of(name, workspace))


def move_out(name, top, to):
    """Moves what was made of the crate from one repository into the other."""
    made, target = os.path.join(folder_of(name, top), "out"), os.path.join(folder_of(name, to), "out")
    if os.path.isdir(made) and not os.path.exists(target):
        os.rename(made, target)


def start(name, workspace, jobs):
    """Begins to build a crate; what it prints goes to a file."""
    # A program is built by running it once; its own words are no command.
    command = ["rt", "run", "--jobs", str(jobs), "--", "usage"] if is_program(name) else ["rt", "lib", "--jobs", str(jobs)]
    log = tempfile.TemporaryFile("w+", errors="replace")
    process = subprocess.Popen(
        command,
        cwd=folder_of(name, workspace),
        stdin=subprocess.DEVNULL,
        stdout=log,
        stderr=subprocess.STDOUT,
        start_new_session=True,
        pass_fds=LOCKS,
    )
    return process, log


def is_built(name, process):
    if is_program(name):
        return os.access(program_of(name), os.X_OK)
    return process.returncode == 0


def main():
    names = sys.argv[1:]
    uses, lines = read_crates()
    if not names or not set(names) <= set(uses):
        sys.exit("use: tools/build.py NAME .., with names of crates.txt")
    waiting, running, built = set().union(*(beneath(uses, it) for it in names)), {}, set()
    try:
        build(uses, lines, waiting, running, built)
    finally:
        # What is under way is ended; what was kept of it so far stays.
        for process, *_ in running.values():
            with contextlib.suppress(ProcessLookupError):
                os.killpg(process.pid, signal.SIGTERM)
            process.wait()
        clear_workspaces()


def build(uses, lines, waiting, running, built):
    """Builds the waiting crates, each once those are built that it uses."""
    total, begun, chains = len(waiting), time.monotonic(), longest_chains(uses, waiting)

    def say(text):
        print(f"{span(time.monotonic() - begun)}  {text}", file=sys.stderr, flush=True)

    while waiting or running:
        ready = [it for it in waiting if all(library in built for library in uses[it])]
        for at, name in enumerate(sorted(ready, key=lambda it: -chains[it])):
            idle = PROCESSORS - sum(jobs for _, _, _, jobs, _ in running.values())
            if idle > 0:
                waiting.remove(name)
                jobs = max(1, min(4, idle // (len(ready) - at)))
                workspace = make_workspace(lines, beneath(uses, name), name)
                take_out(name, workspace)
                running[name] = (*start(name, workspace, jobs), workspace, jobs, time.monotonic())
                say(f"{name}: proving")
        time.sleep(0.2)
        for name, (process, log, workspace, _, since) in list(running.items()):
            if process.poll() is None:
                continue
            del running[name]
            # A folder that something made meanwhile gives way to what was proved.
            shutil.rmtree(os.path.join(folder_of(name), "out"), ignore_errors=True)
            move_out(name, workspace, TOP)
            shutil.rmtree(workspace)
            if not is_built(name, process):
                log.seek(0)
                sys.stderr.write(log.read().replace(workspace, TOP))
                say(f"{name}: FAILED, as said above")
                sys.exit(1)
            built.add(name)
            took = span(time.monotonic() - since)
            say(f"{name}: proved and built in {took}, {total - len(built)} of {total} crates left")


def clear_workspaces():
    """Gives back what a run that was stopped or killed had kept."""
    for name in os.listdir(WORKSPACES) if os.path.isdir(WORKSPACES) else []:
        move_out(name, os.path.join(WORKSPACES, name), TOP)
    shutil.rmtree(WORKSPACES, ignore_errors=True)


@contextlib.contextmanager
def alone():
    """One run at a time: a second one waits, and then finds built what the first one built. What a
    run starts holds its lock too, so that nothing is cleared under it where the run is killed."""
    signal.signal(signal.SIGTERM, lambda *_: sys.exit(143))
    lock = os.open(os.path.join(TOP, "tools"), os.O_RDONLY)
    LOCKS.append(lock)
    try:
        fcntl.flock(lock, fcntl.LOCK_EX)
        clear_workspaces()
        yield
    finally:
        LOCKS.remove(lock)
        os.close(lock)


if __name__ == "__main__":
    with alone():
        main()
