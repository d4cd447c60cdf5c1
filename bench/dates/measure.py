"""Appends 20 million dates, and timestamps of microseconds with and without an offset, to a buffer that is kept."""

from timing import OURS, PLAIN, compared, least_in_turn

COUNT = 20_000_000

for kind in ["date", "timestamp", "offset"]:
    ours, plain = least_in_turn([[program, kind, str(COUNT)] for program in [OURS, PLAIN]])
    assert ours[1] == plain[1]
    print("%d of %s: %s" % (COUNT, kind, compared(ours[0], plain[0])))
