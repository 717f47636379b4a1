#!/bin/bash
# Prints how long `dueproxy replay` takes for scripts of 60,000 events, beside `gzip -1` on the same bytes, each the
# best of several runs, and the ratio of the two: one server and 64 places, of which 63 stay taken nearly all the time,
# and 16 servers and 4,096 places, nearly all taken, with requests in the servers' queues and in the backend's.
. "$(dirname "$0")/common.sh"
. "$(dirname "$0")/scripts.sh"
input=$folder/script
proved=$(proved_program)

compare() {
    local replayed zipped
    replayed=$(best_of_replay)
    zipped=$(best_of gzip -1)
    echo "$1: lines $(wc -l <"$input"), bytes $(wc -c <"$input"), best of $runs runs"
    echo "dueproxy replay $replayed us"
    echo "gzip -1 $zipped us"
    awk -v a="$replayed" -v b="$zipped" 'BEGIN { printf "ratio %.2f\n", a / b }'
}

write_one_server >"$input"
compare "1 server, 64 places"
write_many_servers >"$input"
compare "16 servers, 4096 places"
