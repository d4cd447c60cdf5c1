#!/bin/sh
# Compares the version that the program prints with those that CHANGELOG.md and the manual page name.
set -eu
cd "$(dirname "$(readlink -f "$0")")/.."
version=$(sed -n 's/.*const VERSION: .*"\(.*\)";.*/\1/p' crates/avrocat_commands/src/help.rt)
changes=$(sed -n 's/^## \([0-9.]*\)$/\1/p' CHANGELOG.md | head -n 1)
manual=$(sed -n 's/^\.TH AVROCAT 1 .* "avrocat \(.*\)" .*/\1/p' docs/avrocat.1)
[ -n "$version" ] && [ "$version" = "$changes" ] && [ "$version" = "$manual" ] && exit
echo "versions differ: program '$version', CHANGELOG.md '$changes', docs/avrocat.1 '$manual'" >&2
exit 1
