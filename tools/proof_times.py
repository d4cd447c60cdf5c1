#!/usr/bin/env python3
"""Tells what a gate takes: each crate's proof, tests and edits, its longest function and its longest test.

    tools/proof_times.py watch FILE    beside `rt ci`, until it is interrupted: adds what it sees to FILE, as lines of JSON
    tools/proof_times.py table FILE    prints that as rows of a table, and the sums
    tools/proof_times.py write FILE    writes the table of docs/BENCHMARKS.md anew, and prints the sums and which crates
                                       FILE doesn't have; what FILE doesn't have stays
    tools/proof_times.py kinds FILE    prints where the minutes go: sums by the kind of module, and the functions whose
                                       lifetimes (`Lts`, where a derived `Drop` stands inline at each end of a scope)
                                       took three seconds or more, the longest first

`watch` looks every two seconds at each prover, and at the processor time of it and of those that it started. Where a
prover keeps each checked file in a folder under /tmp, which it names after its process, the processor time between two
files is charged to the function of the later one, or to the cycle of functions, as the file's name tells it; that holds
for a prover with one job. What comes before the first file, which is reading the libraries beneath, is charged to none.

The table's columns are minutes of the proof, its longest function in seconds, minutes of the tests, the longest test,
and minutes of the edits. Of a crate that was proved more than once the longest proof counts, and so of its tests; of
edits it is the sum. In BENCHMARKS the rows stand in the order of crates.txt, names are without their modules, functions
and tests that took less than 10 seconds aren't named, and in place of the minutes of edits stands how many there are.
"""
import bisect
import collections
import glob
import json
import os
import re
import sys
import time

TICKS = os.sysconf("SC_CLK_TCK")
ROOT = os.path.dirname(os.path.dirname(os.path.abspath(__file__)))
DOCUMENT = os.path.join(ROOT, "docs", "BENCHMARKS.md")
TABLE = re.compile(r"^(\| crate \| proof \|.*\n\|[-|]+\n)((?:\|.*\n)+)", re.M)
# How names of files begin that drop values of another crate's types, or of one type: their crate.
TYPES = re.compile(r"\+(\w+)$|(\w+)\+\+")
LEAST_SECONDS = 10


def fields_of(pid):
    """The numbers of /proc/PID/stat, from the process's state on."""
    with open(f"/proc/{pid}/stat") as stat:
        return stat.read().rsplit(")", 1)[1].split()


def cpu_seconds(pid):
    """User and system time of a process, of those that it started, and of those of them that ended."""
    seconds = sum(map(int, fields_of(pid)[11:15])) / TICKS
    for path in glob.glob(f"/proc/{pid}/task/*/children"):
        try:
            with open(path) as children:
                seconds += sum(map(cpu_seconds, children.read().split()))
        except OSError:
            pass
    return seconds


def argv_of(pid):
    with open(f"/proc/{pid}/cmdline") as cmdline:
        return cmdline.read().split("\0")


def watch(path):
    files_seen = {}
    with open(path, "a", buffering=1) as out:
        while True:
            for pid in filter(str.isdigit, os.listdir("/proc")):
                try:
                    sample(pid, files_seen, out)
                except OSError:
                    pass
            time.sleep(2)


def sample(pid, files_seen, out):
    argv = argv_of(pid)
    if not argv[0].endswith("/rattle") or "--crate-name" not in argv:
        return
    stat = fields_of(pid)
    # A prover that another one started counts with that one.
    if argv_of(stat[1])[0] == argv[0]:
        return
    prover = f"{pid} {stat[19]}"
    seconds, now = cpu_seconds(pid), time.time()
    if prover not in files_seen:
        directory = os.readlink(f"/proc/{pid}/cwd")
        kind = "edits" if "/rt-edit" in directory else "tests" if "--test" in argv else "proof"
        crate = argv[argv.index("--crate-name") + 1]
        print(json.dumps({"prover": prover, "crate": crate, "kind": kind, "directory": directory}), file=out)
        files_seen[prover] = set()
    print(json.dumps({"prover": prover, "at": now, "cpu": seconds}), file=out)
    for file in glob.glob(f"/tmp/rattle-logic-built-locked-{pid}-*/*"):
        if ".tmp." not in file and file not in files_seen[prover]:
            line = {"prover": prover, "file": os.path.basename(file), "at": os.stat(file).st_mtime}
            print(json.dumps(line), file=out)
            files_seen[prover].add(file)


def function_of(file):
    """The function, or the cycle, that a file is about."""
    name = re.sub(r"^Rattle-\w+(-proofs|-specs)?\.|\.oantt$", "", file)
    cycle = re.match(r".*?\+\w+", name)
    if cycle:
        return cycle.group(0)
    parts = [part for part in name.split(".") if not re.match(r"(Kinds|Lts)(-|$)", part)]
    while len(parts) > 1 and parts[-1] in ("Given", "Goals", "Answers", "Invariants", "Proof", "Steps"):
        parts.pop()
    return ".".join(parts)


def kind_of(file):
    """The kind of module that a file is: `Lts`, `Proof`, `Tie`, .., or what drops values of a type."""
    if "Destruct" in file or "-types-drop" in file:
        return "drops of types"
    parts = re.sub(r"\.oantt$", "", file).split(".")
    return parts[-2 if parts[-1] == "decls" and parts[1:] else -1].split("-")[0]


def cpu_at(samples, moment):
    """The processor time at a moment, between two samples in proportion."""
    after = bisect.bisect_left(samples, (moment, 0))
    if after == 0 or after == len(samples):
        return samples[min(after, len(samples) - 1)][1]
    (start, low), (end, high) = samples[after - 1], samples[after]
    return low + (high - low) * (moment - start) / (end - start)


def read(path):
    """Each prover that was seen: its line, the processor time that it took, and its files with the seconds of each."""
    provers, samples, files = {}, collections.defaultdict(list), collections.defaultdict(dict)
    with open(path) as lines:
        for line in map(json.loads, lines):
            if "crate" in line:
                provers[line["prover"]] = line
            elif "file" in line:
                files[line["prover"]][line["file"]] = line["at"]
            else:
                samples[line["prover"]].append((line["at"], line["cpu"]))
    for prover, line in provers.items():
        if not samples[prover]:
            continue
        charged, before = [], None
        for file, at in sorted(files[prover].items(), key=lambda pair: pair[1]):
            now = cpu_at(samples[prover], at)
            charged.append((file, 0 if before is None else now - before))
            before = now
        yield line, max(cpu for _, cpu in samples[prover]), charged


def kinds(path):
    sums, lifetimes = collections.Counter(), collections.Counter()
    for line, _, charged in read(path):
        for file, seconds in charged:
            sums[kind_of(file)] += seconds / 60
            if kind_of(file) == "Lts":
                lifetimes[line["crate"], line["kind"], function_of(file)] += seconds
    for kind, minutes in sums.most_common(20):
        print(f"{minutes:6.1f} minutes {kind}")
    for (crate, of, function), seconds in lifetimes.most_common():
        if seconds >= 3:
            print(f"{seconds:6.0f} s {crate} ({of}) {function}")


def measured(path):
    """Crate -> seconds of its proof, its tests and its edits, each with the longest function and its seconds."""
    crates = collections.defaultdict(lambda: {"proof": (0, None), "tests": (0, None), "edits": (0, None)})
    for line, total, charged in read(path):
        seconds = collections.Counter()
        for file, of_file in charged:
            seconds[function_of(file)] += of_file
        parts, kind = crates[line["crate"]], line["kind"]
        if kind == "edits":
            parts[kind] = (parts[kind][0] + total, None)
        elif total > parts[kind][0]:
            parts[kind] = (total, max(seconds.items(), key=lambda pair: pair[1], default=None))
    return crates


def print_sums(crates):
    sums = collections.Counter()
    for parts in crates.values():
        for kind, (total, _) in parts.items():
            sums[kind] += total / 60
    print(", ".join(f"{kind} {minutes:.0f}" for kind, minutes in sums.items()), f"in all {sums.total():.0f} minutes")


def table(path):
    crates = measured(path)
    for crate, parts in sorted(crates.items()):
        cells = []
        for kind, (total, longest) in parts.items():
            cells.append(f"{total / 60:.1f}" if total else "")
            if kind != "edits":
                cells.append(f"`{longest[0]}`, {longest[1]:.0f} s" if longest else "")
        print(f"| `{crate}` | {' | '.join(cells)} |")
    print_sums(crates)


def longest_shown(longest, crates):
    if not longest or longest[1] < LEAST_SECONDS:
        return ""
    name, seconds = longest
    types = TYPES.match(name)
    if types and (types[2] or types[1] in crates):
        shown = f"the types of `{types[2] or types[1]}`"
    elif "+" in name:
        shown = f"the cycle `{name.rsplit('+', 1)[1]}`"
    else:
        shown = f"`{name.rsplit('.', 1)[-1]}`"
    return f"{shown}, {seconds:.0f} s"


def times_shown(parts, old, crates):
    """The four cells of a row on a crate's proof and its tests; what wasn't measured stays."""
    cells = []
    for place, kind in ((0, "proof"), (2, "tests")):
        total, longest = parts[kind]
        cells += [f"{total / 60:.1f}", longest_shown(longest, crates)] if total else old[place : place + 2]
    return cells


def count_of_edits(crate, folder):
    return str(len(glob.glob(os.path.join(ROOT, "crates", crate, folder, "*.edit"))) or "")


def write(path):
    crates = measured(path)
    with open(os.path.join(ROOT, "crates.txt")) as lines:
        names = [line.split(":")[0] for line in lines if ":" in line and not line.startswith("#")]
    with open(DOCUMENT, encoding="utf-8") as file:
        text = file.read()
    old = {}
    for row in TABLE.search(text)[2].splitlines():
        cells = [cell.strip() for cell in row[1:-1].split("|")]
        old[cells[0].strip("`")] = cells[1:5]
    rows = []
    for name in names:
        cells = old.get(name, [""] * 4)
        if name in crates:
            cells = times_shown(crates[name], cells, names)
        cells = [f"`{name}`", *cells, count_of_edits(name, "must-fail"), count_of_edits(name, "edits")]
        rows.append("|" + "".join(f" {cell} |" if cell else " |" for cell in cells) + "\n")
    with open(DOCUMENT, "w", encoding="utf-8") as file:
        file.write(TABLE.sub(lambda found: found[1] + "".join(rows), text))
    print_sums(crates)
    print("not measured:", ", ".join(name for name in names if name not in crates) or "none")


if __name__ == "__main__":
    calls = {"watch": watch, "table": table, "write": write, "kinds": kinds}
    if len(sys.argv) != 3 or sys.argv[1] not in calls:
        sys.exit(__doc__)
    try:
        calls[sys.argv[1]](sys.argv[2])
    except KeyboardInterrupt:
        pass
