#!/bin/bash
# logs.sh [RUNS]: what logs cost. Prints requests a second of 64 clients without a queue, by `dueproxy run` without logs, with the access log and the event log, and
# with numbers beside them, taking turns in one run: medians, and each as a part of the first. At the end there must be as many lines as answers. It needs nginx and
# wrk.
. "$(dirname "$0")/common.sh"
program=$(proved_program)
seconds=${SECONDS_EACH:-2}
web=18481
trap 'kill $(jobs -p) 2>/dev/null || :; wait 2>/dev/null; rm -rf "$folder"' EXIT
echo "nproc $(nproc), $runs runs, $seconds s each, load $(cut -d ' ' -f 1 /proc/loadavg)"

mkdir "$folder/tmp"
cat >"$folder/nginx.conf" <<CONF
worker_processes 2; daemon off; pid $folder/nginx.pid; error_log /dev/null;
events { worker_connections 4096; }
http {
    access_log off;
    client_body_temp_path $folder/tmp; proxy_temp_path $folder/tmp; fastcgi_temp_path $folder/tmp; uwsgi_temp_path $folder/tmp; scgi_temp_path $folder/tmp;
    server { listen 127.0.0.1:$web backlog=4096; location = / { return 200 "hello\n"; } }
}
CONF
chmod -R a+rX "$folder"
nginx -c "$folder/nginx.conf" &

# Starts the proxy of a kind at a port.
start() {
    local words=()
    printf 'listen it\n    bind 127.0.0.1:%s\n    timeout connect 5s\n    timeout client 30s\n    timeout server 30s\n    server it 127.0.0.1:%s maxconn 1000\n' "$2" "$web" >"$folder/$1.cfg"
    [ "$1" = none ] || words=(--access-log "$folder/$1.log" --event-log "$folder/$1.events")
    [ "$1" != all ] || words+=(--admin 127.0.0.1:18484)
    "$program" run "$folder/$1.cfg" "${words[@]:+${words[@]}}" >/dev/null 2>&1 &
}

kinds="none logs all"
port=18401
for kind in $kinds; do
    start "$kind" $port
    eval "port_$kind=$port"
    port=$((port + 1))
done
sleep 1

# Requests a second of one slice, and how many were answered.
slice() {
    local port
    eval "port=\$port_$1"
    wrk -t 2 -c 64 -d "${seconds}s" "http://127.0.0.1:$port/" >"$folder/wrk"
    awk '/requests in/ { count = $1 } /Requests\/sec/ { rate = $2 } END { print rate, count }' "$folder/wrk" >>"$folder/$1.rates"
}

for kind in $kinds; do slice "$kind"; done
for kind in $kinds; do : >"$folder/$kind.rates"; done
first=$(cat "$folder/logs.log" "$folder/all.log" | wc -l)
for _ in $(seq "$runs"); do
    for kind in $kinds; do slice "$kind"; done
done
sleep 1

median() { sort -n "$folder/$1.rates" | awk '{ rates[NR] = $1 } END { print rates[int((NR + 1) / 2)] }'; }
for kind in $kinds; do echo "$kind $(median "$kind") $(median none)"; done |
    awk '{ printf "%-5s %8d requests/s  %.3f\n", $1, $2, $2 / $3 }'
answered=$(cat "$folder/logs.rates" "$folder/all.rates" | awk '{ count += $2 } END { print count }')
lines=$(($(cat "$folder/logs.log" "$folder/all.log" | wc -l) - first))
echo "answered $answered, lines $lines, left out $(grep -c lost "$folder/logs.log" "$folder/all.log" | awk -F: '{ s += $2 } END { print s }')"
[ "$lines" -ge "$answered" ]
