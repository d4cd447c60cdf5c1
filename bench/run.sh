#!/bin/sh
# Measures one of the folders beside this script: arrays, avro, avro_write, block, builders, columns, container, count, dates, infer,
# json_tree, json_write, ndjson or rewrite.
#     bench/run.sh [--unproved] NAME
# `main.rattle` of the folder is a Rattle program over the crates that `crates` names (without it, avrocat itself is measured),
# `plain.rs`, where there is one, the same in plain Rust, and `measure.py` runs both on the same input and prints what it found.
# All is built in a folder of its own outside of the repository; avrocat is taken from this checkout where `./avrocat --prove` made
# it. With --unproved the program is built without proof. ndjson measures such a program beside the proved one in any case.
# Measure with nothing else running.
set -eu
unproved=
if [ "${1-}" = --unproved ]; then
    unproved=yes
    shift
fi
name=$1
bench=$(cd "$(dirname "$0")" && pwd)
work=$(mktemp -d)
trap 'rm -rf "$work"' EXIT
mkdir "$work/crates"
cp "$bench/../HANDLES" "$bench/../crates.txt" "$work"
for crate in "$bench"/../crates/*; do
    mkdir "$work/crates/$(basename "$crate")"
    (cd "$crate" && tar cf - --exclude=out --exclude=must-fail --exclude=edits .) | (cd "$work/crates/$(basename "$crate")" && tar xf -)
done
program=avrocat
if test -e "$bench/$name/main.rattle"; then
    program=bench
    mkdir -p "$work/crates/bench/src"
    cp "$bench/$name/main.rattle" "$work/crates/bench/src/main.rt"
    echo "bench: $(cat "$bench/$name/crates")" >> "$work/crates.txt"
fi
made=$work/crates/$program/out/$program
mkdir -p "$work/crates/$program/out"
if [ -n "$unproved" ]; then
    echo "$program is built without proof"
    "$bench/../tools/build_unproved.py" "$program" "$made" "$work"
elif [ "$program" = avrocat ] && proved=$("$bench/../tools/find_program.py" --proved); then
    cp "$proved" "$made"
else
    # The program does nothing on no words; what counts here is that it is built.
    (cd "$work/crates/$program" && rt run < /dev/null > /dev/null) || test -x "$made"
fi
if [ "$name$unproved" = ndjson ]; then
    "$bench/../tools/build_unproved.py" avrocat "$work/unproved" "$work"
fi
if test -e "$bench/$name/Cargo.toml"; then
    # Crates of Debian's packages, without a network.
    mkdir "$work/cargo"
    cp "$bench/$name/Cargo.toml" "$bench/$name/plain.rs" "$work/cargo"
    (cd "$work/cargo" && cargo build --quiet --release --offline --config 'source.crates-io.replace-with="debian"' --config 'source.debian.directory="/usr/share/cargo/registry"')
    cp "$work/cargo/target/release/plain" "$work/plain"
elif test -e "$bench/$name/plain.rs"; then
    rustc --edition 2021 -O -o "$work/plain" "$bench/$name/plain.rs"
fi
PYTHONPATH=$bench python3 -B "$bench/$name/measure.py" "$work"
