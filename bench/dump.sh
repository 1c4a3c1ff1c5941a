#!/usr/bin/env bash
# bench/dump.sh [PACKETS [WORD..]]: what `mesh dump` costs, on HELLOs and TCs of 35 to 441 octets (239 in the mean), 20,000
# of them or the number given; then on 67,108,864 octets of such lines, and on four inputs that a hostile sender might choose.
# packets.py makes them and says what they are. Further words go to `dump`, as in `bench/dump.sh 20000 --recode`.
#
# It tells the machine; of each input its octets and those of its text, of `dump`, of `wc` and of `xxd -r -p` the least
# processor time and the least time on the clock of three runs, and the greatest memory of `dump`; and, by callgrind, the
# instructions that `dump` takes for the first input, for each packet, its start with them.
#
# It needs the program (`./mesh dump </dev/null` builds it) and python3. Without xxd or valgrind their lines are left out.
# Times vary with what else the machine does, by a tenth or more; instructions don't.
set -euo pipefail
bench=$(dirname "$(readlink -f "${BASH_SOURCE[0]}")")
program=$bench/../crates/mesh_cmd/out/mesh_cmd
count=${1:-20000}
shift || true
[ -x "$program" ] || { echo "bench: no $program; ./mesh dump </dev/null builds it" >&2; exit 1; }
folder=$(mktemp -d)
trap 'rm -rf "$folder"' EXIT

# measure NAME COMMAND..: runs a command on the input three times.
measure() {
    python3 - "$folder/input" "$@" <<'PY'
import os, subprocess, sys, time

path, name, *command = sys.argv[1:]
runs = []
for _ in range(3):
    begun = time.monotonic()
    with open(path, "rb") as given:
        child = subprocess.Popen(command, stdin=given, stdout=subprocess.DEVNULL)
        _, status, used = os.wait4(child.pid, 0)
    assert os.waitstatus_to_exitcode(status) in (0, 5), f"{name} failed"
    runs.append((used.ru_utime + used.ru_stime, time.monotonic() - begun, used.ru_maxrss))
processor, clock, memory = min(r[0] for r in runs), min(r[1] for r in runs), max(r[2] for r in runs)
print(f"  {name}: processor {processor:.3f} s, clock {clock:.3f} s" + (f", memory {memory} KiB" if name.startswith("mesh") else ""))
PY
}

# each WORD NAME WORD..: the costs of the input that packets.py makes of a word.
each() {
    python3 "$bench/packets.py" "$1" > "$folder/input"
    local name=$2
    shift 2
    text=$({ "$program" dump "$@" || [ $? = 5 ]; } < "$folder/input" | wc -c)
    echo "$name: octets of input $(stat -c %s "$folder/input"), of text $text"
    measure "mesh dump${*:+ $*}" "$program" dump "$@"
    measure wc wc
    if command -v xxd >/dev/null; then measure 'xxd -r -p' xxd -r -p; fi
}

echo "machine $(uname -sm), $(sed -n 's/^model name[^:]*: //p' /proc/cpuinfo | head -n 1), $(nproc) processors, load $(cut -d ' ' -f 1 /proc/loadavg)"
each "$count" "$count packets" "$@"
if command -v valgrind >/dev/null; then
    "$program" dump "$@" < "$folder/input" > "$folder/text"
    valgrind --tool=callgrind --callgrind-out-file="$folder/profile" "$program" dump "$@" \
        < "$folder/input" > "$folder/again" 2> "$folder/log"
    cmp -s "$folder/text" "$folder/again" || { echo "bench: another text under callgrind" >&2; exit 1; }
    echo "  instructions a packet $(($(awk '/Collected/ { print $NF }' "$folder/log") / count))"
fi
each full 'packets to the limit of the input' "$@"
each parts 'a line of one address and 32,000 TLVs' "$@"
each equal 'a line of 3,339,735 equal addresses' "$@"
each shuffled 'a line of 16,000 rows in no order' "$@"
each feeds '67,108,864 line feeds' "$@"
