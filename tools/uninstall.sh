#!/bin/sh
# Takes away what tools/install.sh put there, and nothing else.
#     tools/uninstall.sh [PREFIX]
# PREFIX and the variable DESTDIR are those that it was installed with.
set -eu
[ $# -le 1 ] || { echo "use: tools/uninstall.sh [PREFIX]" >&2; exit 2; }
to=${DESTDIR-}${1:-/usr/local}
for file in bin/avrocat share/man/man1/avrocat.1 share/bash-completion/completions/avrocat \
    share/zsh/site-functions/_avrocat share/fish/vendor_completions.d/avrocat.fish; do
    rm -f "$to/$file"
done
