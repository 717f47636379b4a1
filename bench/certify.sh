#!/bin/bash
# Prints how long the reports of a log take whose 262,144 entries are nearly all used, beside the replay of the script that
# leaves it, each the best of several runs, and the share: for one server and one class, and for 64 servers, each with a queue
# of its own, and 63 classes.
. "$(dirname "$0")/common.sh"
times=20
input=$folder/script
program=$here/crates/bench_certify/out/bench_certify
proved=$(proved_program)

# Requests that arrive with offsets by a fixed sequence of numbers, of as many classes. Each server takes one request at a
# time and has a queue of its own; after the first ones a request is over and another one bound to its server arrives.
# The tickets that wait for a server are known by keeping their keys here.
write_script() {
    awk -v servers="$1" -v classes="$2" -v own="$3" -v rounds="$4" '
    function next_number() { seed = (seed * 1103 + 12345) % 65536; return seed }
    function before(a, b) {
        if (class[a] != class[b]) return class[a] < class[b]
        return due[a] < due[b] || (due[a] == due[b] && a < b)
    }
    function arrive(server,   offset) {
        offset = next_number() % 2001 - 1000
        tickets += 1; class[tickets] = int(next_number() / 7) % classes; due[tickets] = moment + offset
        print moment " arrive " class[tickets] " " offset " a" server
        if (!serving[server]) serving[server] = tickets
        else waiting[server, ++long[server]] = tickets
    }
    function finish(server,   at, best) {
        print moment " done " serving[server]
        best = 1
        for (at = 2; at <= long[server]; at++) if (before(waiting[server, at], waiting[server, best])) best = at
        serving[server] = waiting[server, best]
        waiting[server, best] = waiting[server, long[server]--]
    }
    BEGIN {
        seed = 1; tickets = 0; moment = 0
        print "places " servers * (own + 1)
        for (server = 1; server <= servers; server++) print "server a" server " 1 0 1"
        for (turn = 0; turn <= own; turn++) for (server = 1; server <= servers; server++) { moment += 1; arrive(server) }
        for (turn = 0; turn < rounds; turn++) {
            moment += 1
            server = turn % servers + 1
            finish(server); arrive(server)
        }
    }' >"$input"
}

compare() {
    local idle reported replayed
    replayed=$(best_of_replay)
    idle=$(best_of "$program" 0 "$input")
    reported=$(best_of "$program" "$times" "$input")
    echo "$1: $(cat "$folder/out"), best of $runs runs"
    awk -v replayed="$replayed" -v reported="$(((reported - idle) / times))" 'BEGIN {
        printf "dueproxy replay %d us\nreports of its log %d us\nshare %.3f\n", replayed, reported, reported / replayed
    }'
}

write_script 1 1 62 43600
build bench_certify 0 "$input"
compare "1 server, 1 class"
write_script 64 63 7 43340
compare "64 servers, 63 classes"
