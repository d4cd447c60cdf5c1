"""Reads 200 MB in blocks of 64 KiB and 20 MB in blocks of 200 bytes, from memory and from a file."""

import subprocess

from timing import OURS, PLAIN, compared, least_in_turn, work

TIMES = 10

for blocks, size in [(3_000, 65_536), (100_000, 200)]:
    given = work + "/blocks"
    with open(given, "wb") as out:
        subprocess.run([PLAIN, "make", str(blocks), str(size)], stdout=out, check=True)
    # The time of one reading: of some more than one, so that starting and reading the file don't count.
    once, more = (least_in_turn([[program, str(times)] for program in [OURS, PLAIN]], given) for times in [1, 1 + TIMES])
    assert once[0][1] == once[1][1] and more[0][1] == more[1][1]
    memory = [(more[i][0] - once[i][0]) / TIMES for i in range(2)]
    ours, plain = least_in_turn([[OURS, "0"], [PLAIN, "0"]], given)
    assert ours[1] == plain[1]
    print("%d blocks of %d bytes" % (blocks, size))
    print("  from memory: %s; %.2f GB/s" % (compared(memory[0], memory[1]), blocks * size / memory[0] / 1e9))
    print("  from a file: %s; %.2f GB/s" % (compared(ours[0], plain[0]), blocks * size / ours[0] / 1e9))
