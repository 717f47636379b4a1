#!/bin/bash
# Prints how many decisions a second `decide` makes of 256 rules and a head of 64 fields, beside how many views of that
# head `view` makes, each the best of several runs, and the ratio of the two times. Each rule asks for a field of its
# own, and no `use-server` rule applies, so that all are asked.
. "$(dirname "$0")/common.sh"
times=20000
program=$here/crates/bench_decide/out/bench_decide

awk 'BEGIN {
    print "listen front\n    bind :8080\n    server a 127.0.0.1:9001"
    for (i = 0; i < 96; i++) print "    http-request set-priority-class int(" i ") if { hdr(x-" i % 63 + 1 ") slow v" i " }"
    for (i = 0; i < 64; i++) print "    http-request set-priority-offset req.hdr_val(x-" i % 63 + 1 ") unless { path_beg /img }"
    for (i = 0; i < 96; i++) print "    use-server a if { hdr(x-" i % 63 + 1 ") -i none }"
}' >"$folder/configuration"
awk 'BEGIN {
    printf "GET /shop/basket?item=7 HTTP/1.1\r\nHost: shop.example\r\n"
    for (i = 1; i < 64; i++) printf "X-%d: fast , v%d, %d\r\n", i, i, i * 10
    printf "\r\n"
}' >"$folder/head"

# The least time of the runs of so many decisions or views, in microseconds.
best_of_times() {
    best_of "$program" "$1" "$2" "$folder/configuration" "$folder/head"
}

build bench_decide decide 0 "$folder/configuration" "$folder/head"
idle=$(best_of_times decide 0)
decided=$(($(best_of_times decide "$times") - idle))
viewed=$(($(best_of_times view "$times") - idle))
echo "rules $(grep -c 'http-request\|use-server' "$folder/configuration"), fields $(grep -c : "$folder/head"), bytes of the head $(wc -c <"$folder/head"), best of $runs runs of $times"
awk -v n="$times" -v a="$decided" -v b="$viewed" 'BEGIN {
    printf "decide %.0f a second, %.1f us each\n", n * 1000000 / a, a / n
    printf "view %.0f a second, %.1f us each\n", n * 1000000 / b, b / n
    printf "ratio %.2f\n", a / b
}'
