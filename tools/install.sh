#!/usr/bin/env bash
# tools/install.sh PREFIX: puts the program, its manual page and its completion for bash below PREFIX. Where DESTDIR is set, PREFIX stands
# below that, as packagers want it. The program is the one that `./mesh` and the gate build, or the one that MESH names. The status is 0,
# 1 where something could not be put there, or 2 where the words are no PREFIX.
set -u
case ${1-} in
-h | --help) sed -n '2,/^set/{/^# /s///p}' "${BASH_SOURCE[0]}"; exit 0 ;;
'' | -*) echo "install: usage: tools/install.sh PREFIX" >&2; exit 2 ;;
esac
[ $# = 1 ] || { echo "install: one PREFIX is wanted" >&2; exit 2; }
top=$(dirname "$(dirname "$(readlink -f "${BASH_SOURCE[0]}")")")
program=${MESH-$top/crates/mesh_cmd/out/mesh_cmd}
[ -x "$program" ] || { echo "install: no program $program; ./mesh builds it" >&2; exit 1; }
at=${DESTDIR-}$1
install -D -m 755 -- "$program" "$at/bin/mesh" &&
    install -D -m 644 -- "$top/docs/mesh.1" "$at/share/man/man1/mesh.1" &&
    install -D -m 644 -- "$top/tools/mesh.bash" "$at/share/bash-completion/completions/mesh" || exit 1
