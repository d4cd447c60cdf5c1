#!/bin/sh
# Installs the program, its manual page and what completes its commands in bash, zsh and fish.
#     tools/install.sh [PREFIX]
# PREFIX is /usr/local where it isn't given; with the variable DESTDIR all is written beneath that
# folder. The program is the proved one of these sources, where `./avrocat --prove` made it, else one
# without proof, which is built where there is none. tools/uninstall.sh takes all away again.
set -eu
[ $# -le 1 ] || { echo "use: tools/install.sh [PREFIX]" >&2; exit 2; }
top=$(dirname "$(dirname "$(readlink -f "$0")")")
to=${DESTDIR-}${1:-/usr/local}
program=$("$top/tools/find_program.py")
[ -n "$program" ] || { echo "there is no program to install" >&2; exit 1; }
case $program in */proved-*) ;; *) echo "avrocat: what is installed is built without proof; ./avrocat --prove proves it" >&2 ;; esac
put() { install -D -m "$1" "$2" "$to/$3" && echo "$to/$3"; }
put 755 "$program" bin/avrocat
put 644 "$top/docs/avrocat.1" share/man/man1/avrocat.1
put 644 "$top/completions/avrocat.bash" share/bash-completion/completions/avrocat
put 644 "$top/completions/_avrocat" share/zsh/site-functions/_avrocat
put 644 "$top/completions/avrocat.fish" share/fish/vendor_completions.d/avrocat.fish
