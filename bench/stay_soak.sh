#!/bin/bash
# A million requests (REQUESTS) over 1000 connections of clients at a time (CLIENTS) that stay, through `dueproxy run --keep-alive --reuse`, and four servers
# that keep their connections: mixed methods, classes and due dates, a tenth with bodies both ways, a quarter of the clients with up to four requests at once,
# two servers that close all their connections every two seconds, and one request in fifty whose client leaves, at any stage. Then `dueproxy ctl` stops it.
# Prints what both ends counted, and the proxy's memory, threads and files after a tenth, when all was sent and when all is answered. Fails where these aren't
# flat (memory grows by a quarter at most; it is judged from 500,000 requests on, since a window of the log fills first), the counts don't agree, an answer isn't its
# request's, comes twice or not at all but where bench/stay_soak.c allows it, a server has more requests than slots, or the stop isn't in order. It needs a C
# compiler.
. "$(dirname "$0")/common.sh"
program=$(proved_program)
requests=${REQUESTS:-1000000}
clients=${CLIENTS:-1000}
trap 'kill $(jobs -p) 2>/dev/null || :; wait 2>/dev/null; rm -rf "$folder"' EXIT
cat >"$folder/proxy.cfg" <<'CONF'
listen soak
    bind 127.0.0.1:18380
    timeout client 10s
    timeout server 10s
    timeout connect 100ms
    timeout queue 30s
    option abortonclose
    option redispatch
    http-request set-priority-class req.hdr_val(x-class)
    http-request set-priority-offset req.hdr_val(x-due)
    server a 127.0.0.1:18381 maxconn 8 check inter 100ms
    server b 127.0.0.1:18382 maxconn 8 check inter 100ms
    server c 127.0.0.1:18383 maxconn 8 check inter 100ms
    server d 127.0.0.1:18384 maxconn 8 check inter 100ms
CONF
cc -O2 -o "$folder/stay_soak" "$here/bench/stay_soak.c"
mkfifo "$folder/go"
"$folder/stay_soak" "$requests" "$clients" <"$folder/go" >"$folder/ends" 2>"$folder/faults" &
ends=$!
exec 3>"$folder/go"
sleep 0.2
"$program" run "$folder/proxy.cfg" --keep-alive --reuse --control "$folder/control" >"$folder/out" 2>"$folder/err" 3>&- &
proxy=$!
sleep 1
echo >&3

# Waits for a line of the ends, while both live.
reached() {
    until grep -q "^$1\$" "$folder/ends"; do
        kill -0 "$ends" 2>/dev/null && kill -0 "$proxy" 2>/dev/null || return 0
        sleep 0.02
    done
}

# KiB in memory, threads and open files of the proxy.
measure() {
    [ -r "/proc/$proxy/status" ] || { echo 0 0 0; return; }
    echo "$(awk '/^VmRSS/ { print $2 } /^Threads/ { print $2 }' "/proc/$proxy/status" | tr '\n' ' ')$(ls "/proc/$proxy/fd" | wc -l)"
}

start=$SECONDS
failed=0
for moment in tenth sent answered; do
    reached $moment
    measure >"$folder/$moment"
    awk -v what="$moment, after $((SECONDS - start)) seconds" '{ printf "%s: %d KiB in memory, %d threads, %d files\n", what, $1, $2, $3 }' "$folder/$moment"
done
awk -v requests="$requests" '
    { memory[NR] = $1; threads[NR] = $2; files[NR] = $3 }
    END {
        if (memory[1] == 0 || memory[2] == 0 || memory[3] == 0) { print "the proxy ended too early"; exit 1 }
        if (threads[1] != threads[2]) { print "threads aren'\''t flat"; exit 1 }
        if (files[2] > files[1] + 200) { print "files aren'\''t flat"; exit 1 }
        if (files[3] > 200) { print "files stay open"; exit 1 }
        if (requests >= 500000 && memory[2] > 1.25 * memory[1]) { print "memory isn'\''t flat"; exit 1 }
    }' "$folder/tenth" "$folder/sent" "$folder/answered" || failed=1
timeout 20 "$program" ctl "$folder/control" stop >"$folder/stop" || { echo "ctl stop: status $?"; kill "$proxy" 2>/dev/null || :; failed=1; }
status=0
wait "$proxy" || status=$?
echo "the proxy ended with status $status"
[ "$status" = 0 ] || failed=1
exec 3>&-
wait "$ends" || failed=1
grep -v '^up$\|^tenth$\|^sent$\|^answered$' "$folder/ends" || failed=1
awk '
    FNR == NR && $1 == "sent" { sent = $2; all = $4 + $6 + $8; for (i = 10; i <= NF; i += 2) all += $i }
    FNR == NR && $1 == "asked" { for (i = 2; i <= NF; i++) asked += $i }
    FNR == NR && match($0, /asked again [0-9]+/) { again = substr($0, RSTART + 12, RLENGTH - 12) }
    FNR == NR { next }
    $1 == "window" { windows++ }
    $1 == "server" { servers++; direct += $5; granted += $7 }
    $1 == "queue" { reported += $6 }
    END {
        printf "windows %d, slots taken directly %d and granted %d, granted by the reports %d\n", windows, direct, granted, reported
        wrong = 0
        if (sent == 0 || sent != all) { print "sent isn'\''t left, cut and answered"; wrong = 1 }
        if (servers != 4 || granted != reported) { print "the servers'\'' lines and the reports differ"; wrong = 1 }
        if (direct + granted < asked - again) { print "the servers were asked more often than slots were taken"; wrong = 1 }
        exit wrong
    }' "$folder/ends" "$folder/out" || failed=1
if [ "$failed" = 0 ]; then
    echo "ok      nothing was lost"
else
    echo "FAILED"
    head -n 30 "$folder/faults"
    head -c 300 "$folder/err"
fi
exit $failed
