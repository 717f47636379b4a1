#!/bin/bash
# Prints how many requests a second go through one desk, by one thread and by four, with 64 and with 4,096 places: each arrives, is taken and posted, and a turn
# follows, so that there are as many arrivals, takes, posts and turns. Beside it a plain program in Rust that does the same behind one mutex. The two
# take turns, in one run; the figures are the best of several. Both look at each place that is out in each turn, by the bits of a set. The plain one
# keeps no log, no greatest lateness and no set of who is to be woken, has one server and one queue, and looks at no pin, weight, check, retry or
# timeout: a desk does that too, so the ratio is of more work to less.
. "$(dirname "$0")/common.sh"
requests=200000
program=$here/crates/bench_desk/out/bench_desk
build bench_desk 4 8 100
rustc -O -o "$folder/plain" "$here/bench/desk.rs"

# The time of one run in microseconds.
timed() {
    local start end
    start=${EPOCHREALTIME/[.,]/}
    "$@" >"$folder/out"
    end=${EPOCHREALTIME/[.,]/}
    if [ "$(cat "$folder/out")" != "$requests" ]; then
        echo "not all requests were served" >&2
        exit 1
    fi
    echo $((end - start))
}

echo "$requests requests, best of $runs runs, $(nproc) processors"
for places in 64 4096; do
    for threads in 1 4; do
        for _ in $(seq "$runs"); do
            echo "$(timed "$program" "$threads" "$places" "$requests") $(timed "$folder/plain" "$threads" "$places" "$requests")"
        done | awk -v n="$requests" -v p="$places" -v t="$threads" '
            NR == 1 || $1 < desk { desk = $1 }
            NR == 1 || $2 < plain { plain = $2 }
            END { printf "%4d places, %d threads: desk %.0f a second, plain %.0f a second, ratio of the times %.2f\n", p, t, n * 1e6 / desk, n * 1e6 / plain, desk / plain }'
    done
done
