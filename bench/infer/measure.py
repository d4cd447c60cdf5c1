"""The type of 50 MB of JSON lines of ten members each, and of 40 MB of rows of which each lacks other members of forty."""

import json
import os
import random

from timing import PLAIN, compared, least_in_turn, work

OURS = work + "/crates/avrocat/out/avrocat"


def ten(r, i):
    return {
        "id": i, "user": "u%d" % r.randrange(100_000), "ok": r.random() < 0.5, "score": r.random(), "count": r.randrange(1000),
        "tags": ["t%d" % r.randrange(10) for _ in range(r.randrange(4))], "where": {"x": r.randrange(100), "y": r.random()},
        "note": None if r.random() < 0.3 else "a note of some words", "when": "2024-01-02T03:04:05Z", "size": r.randrange(1 << 40),
    }


def lacking(r, i):
    kept = r.getrandbits(40)
    return {"member%d" % k: (i if k % 3 else "s%d" % i) for k in range(40) if kept >> k & 1}


for kind, row, size in [("ten members", ten, 50_000_000), ("some of forty members", lacking, 40_000_000)]:
    r, given, written = random.Random(7), work + "/lines", 0
    with open(given, "w") as out:
        i = 0
        while written < size:
            written += out.write(json.dumps(row(r, i)) + "\n")
            i += 1
    ours, plain = least_in_turn([[OURS, "infer"], [PLAIN]], given, 3)
    assert ours[1] == plain[1]
    print("%s, %d rows, %d bytes: %s, %.0f MB/s" % (kind, i, os.path.getsize(given), compared(ours[0], plain[0]), written / ours[0] / 1e6))
