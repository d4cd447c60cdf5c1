"""Encodes a million rows in Avro: a long, a string or null and a boolean each, and a list of longs and a record each."""

from timing import OURS, PLAIN, compared, least_in_turn

COUNT, TIMES = 1_000_000, 4

for kind in ["flat", "nested"]:
    once, more = (least_in_turn([[program, kind, str(COUNT), str(times)] for program in [OURS, PLAIN]]) for times in [1, 1 + TIMES])
    assert len({found for _, found in once + more}) == 1
    size = int(once[0][1].split()[0])
    ours, plain = ((more[i][0] - once[i][0]) / TIMES for i in range(2))
    print("%d rows, %s, %d bytes" % (COUNT, kind, size))
    print("  " + compared(ours, plain) + ", %.0f MB/s" % (size / ours / 1e6))
