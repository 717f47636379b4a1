#!/bin/bash
# Prints how many MiB a second an exchange hands on from one port of the loopback to another, by `forward` and by `answer`, beside a
# plain C loop of read and write with a buffer of the same 64 KiB. The three take turns, in one run; source, sink and clock are
# one program, which starts each relay as a process of its own.
. "$(dirname "$0")/common.sh"
mib=64
program=$here/crates/bench_relay/out/bench_relay
build bench_relay answer
cc -O2 -o "$folder/relay" "$here/bench/relay.c"

for _ in $(seq "$runs"); do
    "$folder/relay" time 0 "$mib" "$program" forward >>"$folder/forward"
    "$folder/relay" time 1 "$mib" "$program" answer >>"$folder/answer"
    "$folder/relay" time 0 "$mib" "$folder/relay" plain >>"$folder/plain"
done

# The least and the median time of the runs, and the processor's time in all.
figures() {
    sort -n "$folder/$1" | awk '{ took[NR] = $1; processor += $2 } END { print took[1], took[int((NR + 1) / 2)], processor }'
}

read -r least median processor < <(figures plain)
echo "$mib MiB, $runs runs"
for what in plain forward answer; do
    figures "$what" | awk -v w="$what" -v m="$mib" -v l="$least" -v d="$median" -v p="$processor" '{
        printf "%-8s best %.0f MiB/s, median %.0f MiB/s, processor %.0f ms; ratios %.2f %.2f %.2f\n",
            w, m * 1e6 / $1, m * 1e6 / $2, $3 / 1e3, l / $1, d / $2, $3 / p
    }'
done
