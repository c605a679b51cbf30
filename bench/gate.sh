#!/bin/bash
# Measures the gate: runs `rt ci --anew` here, which proves everything from nothing, and prints for each crate the processor
# minutes of its proof, of its tests' proof, and of its must-fail edits with the check that these begin with; then the sums, the
# most memory of one check, and the minutes by the clock. The times stand at the end of the log too, from which the table is
# printed again. Usage: bench/gate.sh [LOG]
set -u
cd "$(dirname "${BASH_SOURCE[0]}")/.."
if ! command -v python3 >/dev/null; then
    echo "python3 isn't installed: nothing to measure with" >&2
    exit 1
fi
exec python3 bench/gate.py "$@"
