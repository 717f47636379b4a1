#!/bin/bash
# Prints how long `dueproxy draw` takes for scripts of 60,000 events, beside `dueproxy replay` on the same bytes, each the best of
# several runs, and the ratio of the two. The scripts are those of bench/replay.sh.
. "$(dirname "$0")/common.sh"
. "$(dirname "$0")/scripts.sh"
input=$folder/script
proved=$(proved_program)

compare_drawing() {
    local drawn replayed
    replayed=$(best_of_replay)
    drawn=$(best_of "$proved" draw)
    echo "$1: lines $(wc -l <"$input"), bytes of the picture $(wc -c <"$folder/out"), best of $runs runs"
    echo "dueproxy draw $drawn us"
    echo "dueproxy replay $replayed us"
    awk -v a="$drawn" -v b="$replayed" 'BEGIN { printf "ratio %.2f\n", a / b }'
}

write_one_server >"$input"
compare_drawing "1 server, 64 places"
write_many_servers >"$input"
compare_drawing "16 servers, 4096 places"
