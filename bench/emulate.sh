#!/usr/bin/env bash
# bench/emulate.sh [KIND ROUTERS [SEED]], bench/emulate.sh full ROUTERS [INTERFACES [LOSS]]: what a minute of `mesh emulate` costs, on a
# grid of 64 routers, or on the made network that is given, or on so many routers that all hear each other (full_mesh.py).
#
# It tells the machine; the end of the text; the least processor time and the least time on the clock of three runs; the greatest memory; and, by
# callgrind, the instructions.
#
# It needs the program (`./mesh dump </dev/null` builds it) and python3. Without valgrind the last line is left out.
set -euo pipefail
bench=$(dirname "$(readlink -f "${BASH_SOURCE[0]}")")
program=$bench/../crates/mesh_cmd/out/mesh_cmd
kind=${1:-grid}
count=${2:-64}
[ -x "$program" ] || { echo "bench: no $program; ./mesh dump </dev/null builds it" >&2; exit 1; }
folder=$(mktemp -d)
trap 'rm -rf "$folder"' EXIT
input=$folder/input
if [ "$kind" = full ]; then
    words=(emulate)
    python3 "$bench/full_mesh.py" "$count" "${@:3}" > "$input"
else
    words=(emulate --make "$kind" --routers "$count" --seed "${3:-1}")
    : > "$input"
fi

echo "machine $(uname -sm), $(sed -n 's/^model name[^:]*: //p' /proc/cpuinfo | head -n 1), $(nproc) processors, load $(cut -d ' ' -f 1 /proc/loadavg)"
"$program" "${words[@]}" < "$input" | tail -n 4
python3 - "$input" "$program" "${words[@]}" <<'PY'
import os, subprocess, sys, time

runs = []
for _ in range(3):
    begun = time.monotonic()
    with open(sys.argv[1], "rb") as given:
        child = subprocess.Popen(sys.argv[2:], stdin=given, stdout=subprocess.DEVNULL)
    _, status, used = os.wait4(child.pid, 0)
    assert status == 0, "mesh failed"
    runs.append((used.ru_utime + used.ru_stime, time.monotonic() - begun, used.ru_maxrss))
print(f"processor {min(r[0] for r in runs):.3f} s, clock {min(r[1] for r in runs):.3f} s, memory {max(r[2] for r in runs)} KiB")
PY
if command -v valgrind >/dev/null; then
    valgrind --tool=callgrind --callgrind-out-file="$folder/profile" "$program" "${words[@]}" < "$input" > /dev/null 2> "$folder/log"
    echo "instructions $(awk '/Collected/ { print $NF }' "$folder/log")"
fi
