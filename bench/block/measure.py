"""Decodes blocks of flat rows, with strings of ASCII and of other characters, of nested rows, of
arrays, and of rows of which one field in forty is kept; and reads, decodes and shows the same blocks
with the program."""

import subprocess

from timing import OURS, PLAIN, compared, least_in_turn, work

AVROCAT, TIMES = work + "/crates/avrocat/out/avrocat", 5

THREE = ["a=long", "b=string?", "c=boolean"]
FORTY = ["%sf%d=%s" % ("" if i == 20 else "~", i, ["long", "string", "boolean", "long?"][i % 4]) for i in range(40)]
BLOCKS = [
    ("long", 10_000_000, ["a=long"], "a=long"),
    ("three", 1_000_000, THREE, "a=long b=string? c=boolean"),
    ("letters", 1_000_000, THREE, "a=long b=string? c=boolean, half of the characters no ASCII"),
    ("nested", 1_000_000, ["id=long", "tags=[string]", "r={x=int;y=[long]}?"], "id=long tags=[string] r={x=int;y=[long]}?"),
    ("lists", 1_000_000, ["a=[long]"], "a=[long], ten items each"),
    ("forty", 200_000, FORTY, "forty fields, of which one long is kept"),
]

subprocess.run(["rt", "run", "--", "block", "0", "a=int"], cwd=work + "/crates/avrocat", stdin=subprocess.DEVNULL, check=True)
for kind, rows, fields, shown in BLOCKS:
    block = work + "/" + kind
    with open(block, "wb") as out:
        subprocess.run([PLAIN, kind, str(rows), "make"], stdout=out, check=True)
    # The time of one decoding: of some more than one, so that starting and reading don't count.
    once, more = (least_in_turn([[OURS, str(times), str(rows)] + fields, [PLAIN, kind, str(rows), str(times)]], block) for times in [1, 1 + TIMES])
    assert once[0][1] == once[1][1] and more[0][1] == more[1][1]
    decoding = [(more[i][0] - once[i][0]) / TIMES for i in range(2)]
    ours, plain = least_in_turn([[AVROCAT, "block", str(rows)] + fields, [PLAIN, kind, str(rows), "show"]], block)
    assert ours[1] == plain[1]
    print("%d rows of %s" % (rows, shown))
    print("  decoding: " + compared(decoding[0], decoding[1]))
    print("  reading, decoding and showing: " + compared(ours[0], plain[0]), flush=True)
