"""Pushes 10 million longs, strings and booleans, every fourth null: a first filling, during which the buffers grow, and one
more into the capacity that `clear` keeps."""

from timing import OURS, PLAIN, compared, least_in_turn

COUNT, TIMES = 10_000_000, 10

for kind in ["long", "string", "boolean"]:
    once, more = (least_in_turn([[program, kind, str(COUNT), str(times)] for program in [OURS, PLAIN]]) for times in [1, 1 + TIMES])
    assert len({found for _, found in once + more}) == 1
    again = [(more[i][0] - once[i][0]) / TIMES for i in range(2)]
    print("%d slots of %s" % (COUNT, kind))
    print("  a first filling: " + compared(once[0][0], once[1][0]))
    print("  one more, into the capacity kept: " + compared(again[0], again[1]))
