#!/usr/bin/env bash
# bench/replay.sh [ROUTERS]: what `mesh replay` costs for the trace of a minute of a square grid of 64 routers, or of so many, beside
# `mesh emulate --trace`, which writes it.
#
# It tells the machine; the size of the trace; then of both commands the least processor time of three runs and the greatest memory, and what
# `replay` answers.
#
# It needs the program (`./mesh dump </dev/null` builds it) and python3.
set -euo pipefail
bench=$(dirname "$(readlink -f "${BASH_SOURCE[0]}")")
program=$bench/../crates/mesh_cmd/out/mesh_cmd
[ -x "$program" ] || { echo "bench: no $program; ./mesh dump </dev/null builds it" >&2; exit 1; }
echo "machine $(uname -sm), $(sed -n 's/^model name[^:]*: //p' /proc/cpuinfo | head -n 1), $(nproc) processors, load $(cut -d ' ' -f 1 /proc/loadavg)"
python3 - "$bench/../tools/links.py" "$program" "${1:-64}" <<'PY'
import math, os, shutil, subprocess, sys, tempfile

links, program, count = sys.argv[1], sys.argv[2], int(sys.argv[3])
side = math.isqrt(count)
scenario = subprocess.run([sys.executable, links], input=f"end 60\ngrid {side}x{count // side}\n".encode(), stdout=subprocess.PIPE, check=True).stdout


def cost(words, given, out):
    """The least processor time of three runs in seconds, and the greatest memory in KiB."""
    runs = []
    for _ in range(3):
        out.seek(0)
        out.truncate()
        given.seek(0)
        child = subprocess.Popen([program, *words], stdin=given, stdout=out)
        _, status, used = os.wait4(child.pid, 0)
        assert status == 0, "mesh failed"
        runs.append((used.ru_utime + used.ru_stime, used.ru_maxrss))
    return min(run[0] for run in runs), max(run[1] for run in runs)


# The trace is never held here: the memory of this process would count for that of the programs that it starts.
with tempfile.TemporaryFile() as settings, tempfile.TemporaryFile() as trace, tempfile.TemporaryFile() as given, tempfile.TemporaryFile() as out:
    settings.write(scenario)
    settings.flush()
    seconds, memory = cost(["emulate", "--trace"], settings, trace)
    size, lines = trace.seek(0, os.SEEK_END), 0
    trace.seek(0)
    for line in trace:
        lines += 1
    print(f"trace {size} octets, {lines} lines")
    print(f"emulate --trace  processor {seconds:.3f} s, memory {memory} KiB")
    given.write(scenario + b"---\n")
    trace.seek(0)
    shutil.copyfileobj(trace, given)
    given.flush()
    seconds, memory = cost(["replay"], given, out)
    out.seek(0)
    print(f"replay           processor {seconds:.3f} s, memory {memory} KiB, {size / seconds / 1e6:.0f} MB/s: {out.read().decode().strip()}")
PY
