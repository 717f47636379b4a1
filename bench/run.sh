#!/bin/bash
# Prints `dueproxy run` beside HAProxy 2.6 on the same servers, in one run, taking turns: the ratios of the medians of what each did, with one thread of HAProxy's and with
# as many as it takes by itself. Measured are requests a second and processor time a request without queueing (64 clients), the time of one client's request, requests a
# second and processor time of 200 clients before a limit of 4 and 5 ms of service, requests a second over one slot that is handed on, and 64 MiB bodies. It needs
# haproxy, nginx, wrk, curl and python3. OTHER names one more program that is run by the same words as dueproxy, and stands beside it too.
. "$(dirname "$0")/common.sh"
program=$(proved_program)
seconds=${SECONDS_EACH:-2}
web=18281 slow=18282
trap 'kill $(jobs -p) 2>/dev/null || :; wait 2>/dev/null; rm -rf "$folder"' EXIT
echo "nproc $(nproc), $runs runs, $seconds s each; $(haproxy -v | head -n 1)"

mkdir "$folder/www" "$folder/tmp"
head -c 67108864 /dev/zero >"$folder/www/large"
cat >"$folder/nginx.conf" <<CONF
worker_processes 2; daemon off; pid $folder/nginx.pid; error_log /dev/null;
events { worker_connections 4096; }
http {
    access_log off; root $folder/www;
    client_body_temp_path $folder/tmp; proxy_temp_path $folder/tmp; fastcgi_temp_path $folder/tmp; uwsgi_temp_path $folder/tmp; scgi_temp_path $folder/tmp;
    server { listen 127.0.0.1:$web backlog=4096; location = / { return 200 "hello\n"; } }
}
CONF
chmod -R a+rX "$folder"
nginx -c "$folder/nginx.conf" &
python3 "$here/bench/slow.py" $slow 0.005 &

# The configuration of a port, a server's port and its maxconn.
proxy_cfg() {
    cat <<CONF
defaults
    mode http
    timeout connect 5s
    timeout client 30s
    timeout server 30s
    timeout queue 1m
listen it
    bind 127.0.0.1:$1
    balance leastconn
    server it 127.0.0.1:$2 maxconn $3
CONF
}

# Starts a kind of proxy at a port, before a server's port with a maxconn.
start() {
    proxy_cfg "$2" "$3" "$4" >"$folder/$2.cfg"
    case $1 in
    dueproxy) "$program" run "$folder/$2.cfg" --workers 256 >/dev/null 2>&1 & ;;
    other) "$OTHER" run "$folder/$2.cfg" --workers 256 >/dev/null 2>&1 & ;;
    haproxy) sed 's/^defaults/defaults\n    option httpclose\n    maxconn 4000/' "$folder/$2.cfg" >"$folder/$2.ha"; haproxy -db -f "$folder/$2.ha" >/dev/null 2>&1 & ;;
    haproxy1) (echo global; echo "    nbthread 1"; sed 's/^defaults/defaults\n    option httpclose\n    maxconn 4000/' "$folder/$2.cfg") >"$folder/$2.ha"
        haproxy -db -f "$folder/$2.ha" >/dev/null 2>&1 & ;;
    esac
    eval "pid_$2=$!"
}

# Processor time of a process so far, in ticks of 10 ms.
ticks() { awk '{ print $14 + $15 }' "/proc/$1/stat"; }

# One slice: requests a second, the median time of a request in microseconds, and the processor's microseconds a request.
slice() {
    local kind=$1 row=$2 port=$3 threads=$4 clients=$5 pid before
    eval "pid=\$pid_$port"
    before=$(ticks "$pid")
    wrk -t "$threads" -c "$clients" -d "${seconds}s" --latency "http://127.0.0.1:$port/" >"$folder/wrk"
    awk -v used=$(($(ticks "$pid") - before)) '
        function micro(t) { return t ~ /us$/ ? t + 0 : t ~ /ms$/ ? t * 1e3 : t * 1e6 }
        $1 == "50%" { half = micro($2) } /requests in/ { count = $1 } /Requests\/sec/ { rate = $2 }
        END { print rate, half, count ? used * 1e4 / count : 0 }' "$folder/wrk" >>"$folder/$row.$kind"
}

# The milliseconds of one body of 64 MiB.
body() {
    curl -s -o /dev/null -w '%{time_total}\n' "http://127.0.0.1:$3/large" >>"$folder/$2.$1"
}

kinds="dueproxy haproxy haproxy1${OTHER:+ other}"
port=18201
for kind in $kinds; do
    eval "free_$kind=$port limited_$kind=$((port + 1)) single_$kind=$((port + 2))"
    start "$kind" $port $web 0
    start "$kind" $((port + 1)) $slow 4
    start "$kind" $((port + 2)) $web 1
    port=$((port + 3))
done
sleep 2
for _ in $(seq "$runs"); do
    for kind in $kinds; do eval "slice $kind free \$free_$kind 2 64"; done
    for kind in $kinds; do eval "slice $kind alone \$free_$kind 1 1"; done
    for kind in $kinds; do eval "slice $kind limited \$limited_$kind 2 200"; done
    for kind in $kinds; do eval "slice $kind handover \$single_$kind 2 16"; done
    for kind in $kinds; do eval "body $kind large \$free_$kind"; done
done

# The median of a column of a row's runs.
median() { awk -v c="$3" '{ print $c }' "$folder/$1.$2" | sort -n | awk '{ a[NR] = $1 } END { print a[int((NR + 1) / 2)] }'; }

# A line: what, and of dueproxy's median what part HAProxy's are.
line() {
    awk -v what="$1" -v d="$(median "$2" dueproxy "$3")" -v h="$(median "$2" haproxy "$3")" -v o="$(median "$2" haproxy1 "$3")" 'BEGIN {
        printf "%-46s %10.2f; HAProxy %10.2f, nbthread 1 %10.2f; ratios %.2f %.2f", what, d, h, o, h ? d / h : 0, o ? d / o : 0 }'
    if [ -n "${OTHER:-}" ]; then
        awk -v d="$(median "$2" dueproxy "$3")" -v m="$(median "$2" other "$3")" 'BEGIN { printf "; the other %.2f, ratio %.2f", m, m ? d / m : 0 }'
    fi
    echo
}
line "requests/s, 64 clients, no queue" free 1
line "its processor time a request, us" free 3
line "time of one client's request, us" alone 2
line "requests/s, 200 clients, limit 4, 5 ms" limited 1
line "its processor time a request, us" limited 3
line "requests/s over one slot, 16 clients" handover 1
line "64 MiB from a server, s" large 1
