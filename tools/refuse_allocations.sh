#!/bin/sh
# Refuses each allocation of three tests in turn, with the answers looked at.
#
# Of a builder of lists `a_list_where_memory_may_be_refused` takes out of memory for an answer, and
# looks at the builder afterwards; `a_list_where_memory_is_wanted` makes the same calls and doesn't,
# so it stops where an allocation of theirs is refused.
#
# `reserved_builders_take_rows_twice` ends with out of memory where it makes and reserves builders,
# and where it makes arrays, but never where it reads rows.
#
# A library that is loaded before the C library's refuses an allocation of the tests as they are
# proved and built (`refuse.c`). Tests that aren't built yet are proved first, which takes long.
#
# Use: tools/refuse_allocations.sh, from anywhere; it needs a C compiler. Its status is 0 where the
# answers were right.
set -eu
tools=$(cd "$(dirname "$0")" && pwd)
crates=$(cd "$tools/../crates" && pwd)
work=$(mktemp -d)
trap 'rm -rf "$work"' EXIT
cc -O2 -shared -fPIC -o "$work/refuse.so" "$tools/refuse.c" -ldl

# The tests of a crate as a program.
program_of() {
    [ -x "$crates/$1/out/$1_tests" ] || (cd "$crates/$1" && rt test) >&2
    echo "$crates/$1/out/$1_tests"
}

# Runs a test while the nth allocation is refused. Its report stands in `report` then, and the number
# of its allocations in `count`: 0 where it was stopped.
try() {
    rm -f "$work/count"
    report=$(COUNT="$work/count" REFUSED=$n LD_PRELOAD="$work/refuse.so" "$program" "$1" 2>&1) || true
    count=0
    [ ! -f "$work/count" ] || count=$(cat "$work/count")
}

# Whether the test that was run last has passed.
is_ok() {
    case $report in *"test result: ok"*) true ;; *) false ;; esac
}

wrong() {
    printf '%s\n' "$report"
    echo "allocation $n was refused, and an answer is wrong"
    exit 1
}

right() {
    if [ "$n" -eq 1 ]; then
        echo "$1: no allocation was refused"
        exit 1
    fi
    echo "$1: each of $((n - 1)) allocations was refused, and each answer was right"
}

program=$(program_of array_tests)
n=1
while :; do
    try memory::a_list_where_memory_is_wanted
    if is_ok; then wanted=ok; else wanted=stopped; fi
    try memory::a_list_where_memory_may_be_refused
    is_ok || wrong
    [ "$count" -ge "$n" ] || break
    [ "$wanted" = stopped ] || wrong
    n=$((n + 1))
done
right "a builder of lists"

program=$(program_of decode_tests)
n=1
while :; do
    try builders::reserved_builders_take_rows_twice
    if is_ok; then
        [ "$count" -ge "$n" ] || break
    else
        # std's error of an allocation, or this library's; where rows are read the text is "rows".
        case $report in *"memory: AllocFailed"* | *"memory: OutOfMemory"*) ;; *) wrong ;; esac
    fi
    n=$((n + 1))
done
right "builders that are reserved"
