#!/bin/sh
# Runs the first command of README.md in a fresh copy of this checkout, as a newcomer does, and compares what it prints
# with the rows that Python has (examples/make_events.py wrote them beside the file). The next call has to find the
# program built, and all other commands that the documents show have to print what they show. The status is 0 where all
# of that is so.
set -eu
top=$(dirname "$(dirname "$(readlink -f "$0")")")
fresh=$(mktemp -d)
trap 'rm -rf "$fresh"' EXIT
(cd "$top" && tar cf - --exclude=.git --exclude=.built --exclude=out .) | tar xf - -C "$fresh"
cd "$fresh"
rows=examples/events.ndjson
export XDG_CACHE_HOME="$fresh/cache"
command=$(sed -n '/^```sh$/{n;p;q;}' README.md)
echo "README.md's first command, in a fresh copy: $command"
sh -c "$command" > first
cmp first "$rows"
sh -c "$command" > second 2> said
cmp second "$rows"
cmp said /dev/null
head -n 1 "$rows" | grep -qxFf - README.md || { echo "README.md shows another row"; exit 1; }
# What else the documents show is as the same program prints it.
tools/check_version.sh
tools/check_documents.py
tools/guide.py --check
tools/check_readmes.py
tools/check_citations.py
tools/reading_lists.py --check
tools/try_edits.py --check
