"""Parses 50 MB of JSON lines, and prints MB of input for each second, beside Python's json on the same lines. On neither side
does it count to read the input and to part it at line feeds."""

import json
import time

from timing import OURS, seconds, work

TIMES = 5

lines, size = [], 0
while size < 50_000_000:
    row = len(lines)
    line = json.dumps(
        {"id": row, "name": f"name {row % 977} \u00e9", "tags": ["t%d" % (row % 10)] * (row % 3), "score": row / 7,
         "ok": row % 2 == 0, "none": None, "text": "a line\nof \"text\" " * (row % 4), "nested": {"x": -row, "y": [1, 2.5, 3e10]}},
        ensure_ascii=row % 2 == 0,
    )
    lines.append(line)
    size += len(line.encode()) + 1
given = work + "/lines"
with open(given, "w") as out:
    out.write("\n".join(lines) + "\n")


def parsed(times):
    """The least processor time of five runs that parse the lines so often."""
    runs = [seconds([OURS, str(times)], given) for _ in range(5)]
    assert all(int(texts) == times * len(lines) for _, texts in runs)
    return min(took for took, _ in runs)


def python():
    """The processor time of one pass of Python, the least of three, with the lines in memory."""
    parts, least = [line.encode() for line in lines], 1e9
    for _ in range(3):
        before = time.process_time()
        for part in parts:
            json.loads(part)
        least = min(least, time.process_time() - before)
    return least


print("json_tree: %.0f MB/s" % (size / 1e6 / ((parsed(1 + TIMES) - parsed(1)) / TIMES)))
print("Python's json: %.0f MB/s" % (size / 1e6 / python()))
