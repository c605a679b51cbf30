#!/bin/bash
# Measures vbrun outside the gate: turns a second and peak memory of an endless loop that runs to its limit, lines a second
# of a program of 100,000 WriteLine, and the growth of time with the turns; beside python3 on the same work, where it is
# installed. Usage: bench/turns.sh
set -u
here=$(cd "$(dirname "${BASH_SOURCE[0]}")/.." && pwd)
"$here/vbrun" run "$here/examples/squares.vb" >/dev/null || exit 1
program=$here/crates/vbrun/out/vbrun
work=$(mktemp -d)
trap 'rm -rf "$work"' EXIT
cd "$work" || exit 1

body() { printf 'Imports System\nModule M\nSub Main()\n'; cat; printf 'End Sub\nEnd Module\n'; }

# Prints the peak memory in KB of a command, read from the system while it runs.
peak() {
    local most=0 now pid
    "$@" >/dev/null 2>&1 &
    pid=$!
    while now=$(sed -n 's/^VmHWM:[[:space:]]*\([0-9]*\).*/\1/p' "/proc/$pid/status" 2>/dev/null) && [ -n "$now" ]; do
        most=$now
    done
    wait "$pid"
    echo "$most"
}

# Prints the best seconds of three runs of a command whose output goes to a pipe, and the bytes that it wrote.
measure() {
    python3 - "$@" <<'PY'
import subprocess, sys, time
best = None
for _ in range(3):
    start = time.monotonic()
    process = subprocess.Popen(sys.argv[1:], stdout=subprocess.PIPE, stderr=subprocess.DEVNULL)
    size = 0
    while True:
        piece = process.stdout.read(1 << 16)
        if not piece:
            break
        size += len(piece)
    process.wait()
    took = time.monotonic() - start
    best = took if best is None else min(best, took)
print(f"{best:.3f} {size}")
PY
}

if ! command -v python3 >/dev/null; then
    echo "python3 isn't installed: nothing to measure with" >&2
    exit 1
fi

{ echo 'Dim i As Integer'; echo 'While i < 1'; echo 'End While'; } | body >endless.vb
read -r seconds _ < <(measure "$program" run endless.vb)
echo "endless loop to its limit of 10,000,000 turns: $seconds s, $(python3 -c "print(round(10/$seconds,1))") million turns a second, peak $(peak "$program" run endless.vb) KB"

{ echo 'Dim i As Integer'; echo 'While i < 100000'; echo 'i = i + 1'; echo 'Console.WriteLine(i)'; echo 'End While'; } | body >lines.vb
read -r seconds size < <(measure "$program" run lines.vb)
echo "100,000 WriteLine into a pipe ($size bytes), each taken by the device: $seconds s, $(python3 -c "print(round(100/$seconds))") thousand lines a second, peak $(peak "$program" run lines.vb) KB"

printf 'i = 0\nwhile i < 100000:\n    i = i + 1\n    print(i, flush=True)\n' >lines.py
read -r seconds _ < <(measure python3 lines.py)
echo "python3, the same with a flush for each line: $seconds s, $(python3 -c "print(round(100/$seconds))") thousand lines a second, peak $(peak python3 lines.py) KB"

printf 'i = 0\nwhile i < 100000:\n    i = i + 1\n    print(i)\n' >buffered.py
read -r seconds _ < <(measure python3 buffered.py)
echo "python3, the same through its buffer: $seconds s"

{ echo 'Dim i As Integer'; echo 'While i < 1000000'; echo 'i = i + 1'; echo 'End While'; } | body >count.vb
read -r seconds _ < <(measure "$program" run count.vb)
printf 'i = 0\nwhile i < 1000000:\n    i = i + 1\n' >count.py
read -r other _ < <(measure python3 count.py)
echo "a loop that counts to 1,000,000: $seconds s; python3: $other s"

for n in 100000 200000 400000 800000; do
    { echo 'Dim i As Integer'; echo "While i < $n"; echo 'i = i + 1'; echo 'End While'; } | body >count.vb
    read -r seconds _ < <(measure "$program" run count.vb)
    echo "a loop that counts to $n, $((8 * n)) turns: $seconds s"
done
