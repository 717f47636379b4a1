#!/bin/bash
# Prints how long the coder takes for a body of 1 MiB from memory to memory: by length, and in chunks of 8,192 and of 16 bytes. Each is the best of several runs.
. "$(dirname "$0")/common.sh"
times=200
program=$here/crates/bench_coder/out/bench_coder
build bench_coder 0 1

# The least time of the runs, without that of a run that passes nothing, in microseconds.
spent() {
    local all idle
    all=$(best_of "$program" "$1" "$times")
    idle=$(best_of "$program" "$1" 0)
    echo $((all - idle))
}

echo "1 MiB, $times times, best of $runs runs"
for size in 0 8192 16; do
    awk -v s="$size" -v n="$times" -v took="$(spent "$size")" 'BEGIN {
        printf "%-15s %.0f us\n", s ? "chunks of " s : "by length", took / n
    }'
done
