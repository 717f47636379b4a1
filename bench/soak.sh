#!/bin/bash
# A million requests (REQUESTS) of 200 clients through `dueproxy run` and four servers: mixed classes and due dates, a tenth with bodies both ways of which
# some come piece by piece, two servers that fall every two seconds, and one client in fifty that leaves, at any stage.
# Prints what both ends counted, and the proxy's memory, files and threads after a tenth and at the end; fails where the counts don't agree, an answer isn't
# its request's, or a server has more requests than slots. It needs a C compiler.
. "$(dirname "$0")/common.sh"
program=$(proved_program)
requests=${REQUESTS:-1000000}
clients=${CLIENTS:-200}
trap 'kill $(jobs -p) 2>/dev/null || :; wait 2>/dev/null; rm -rf "$folder"' EXIT
cat >"$folder/proxy.cfg" <<'CONF'
listen soak
    bind 127.0.0.1:18180
    timeout client 10s
    timeout server 10s
    timeout connect 100ms
    timeout queue 30s
    option abortonclose
    option redispatch
    http-request set-priority-class req.hdr_val(x-class)
    http-request set-priority-offset req.hdr_val(x-due)
    server a 127.0.0.1:18181 maxconn 8 check inter 100ms
    server b 127.0.0.1:18182 maxconn 8 check inter 100ms
    server c 127.0.0.1:18183 maxconn 8 check inter 100ms
    server d 127.0.0.1:18184 maxconn 8 check inter 100ms
CONF
cc -O2 -o "$folder/soak" "$here/bench/soak.c"
mkfifo "$folder/go"
"$folder/soak" "$requests" "$clients" <"$folder/go" >"$folder/ends" &
ends=$!
exec 3>"$folder/go"
sleep 0.2
"$program" run "$folder/proxy.cfg" --requests "$requests" --workers 256 --places 1024 >"$folder/out" 2>"$folder/err" &
proxy=$!
sleep 1
echo >&3

# KiB in memory, threads and open files of the proxy.
tell() {
    [ -r "/proc/$proxy/status" ] || return 0
    echo "$1: $(awk '/^VmRSS/ { printf "%d KiB in memory, ", $2 } /^Threads/ { printf "%d threads", $2 }' "/proc/$proxy/status"), $(ls "/proc/$proxy/fd" | wc -l) files"
}

start=$SECONDS
sleep "$((requests / 100000 + 1))"
tell "after $((SECONDS - start)) seconds"
while kill -0 "$ends" 2>/dev/null; do
    last=$(tell "at the end, after $((SECONDS - start)) seconds")
    sleep 1
done
echo "$last"
failed=0
wait "$ends" || failed=1
wait "$proxy" || failed=1
cat "$folder/ends"
awk '
    FNR == NR && $1 == "sent" { sent = $2; left = $4; cut = $6; for (i = 11; i < NF; i += 2) answers += $(i + 1) }
    FNR == NR && $1 == "asked" { for (i = 2; i <= NF; i++) asked += $i }
    FNR == NR { next }
    $1 == "window" { windows++ }
    $1 == "server" { direct += $5; granted += $7 }
    $1 == "queue" { reported += $6 }
    END {
        printf "windows %d, slots taken directly %d and granted %d, granted by the reports %d\n", windows, direct, granted, reported
        wrong = 0
        if (sent != left + cut + answers) { print "sent isn'\''t left, cut and answered"; wrong = 1 }
        if (granted != reported) { print "the servers'\'' lines and the reports differ"; wrong = 1 }
        if (direct + granted < asked) { print "the servers were asked more often than slots were taken"; wrong = 1 }
        exit wrong
    }' "$folder/ends" "$folder/out" || failed=1
[ "$failed" = 0 ] && echo "ok      nothing was lost" || { echo "FAILED"; head -c 300 "$folder/err"; }
exit $failed
