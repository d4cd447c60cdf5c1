"""Builds arrays of 10 million longs and of 10 million texts, a quarter of them null, and scans them."""

from timing import OURS, PLAIN, compared, least_in_turn

COUNT, TIMES = 10_000_000, 10

for kind in ["long", "text"]:
    once, more = (least_in_turn([[program, kind, str(COUNT), str(times)] for program in [OURS, PLAIN]]) for times in [1, 1 + TIMES])
    assert len({found for _, found in once + more}) == 1
    scan = [(more[i][0] - once[i][0]) / TIMES for i in range(2)]
    print("%d slots of %s" % (COUNT, kind))
    print("  building, and one scan: " + compared(once[0][0], once[1][0]))
    print("  one scan: " + compared(scan[0], scan[1]))
