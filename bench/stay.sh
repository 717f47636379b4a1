#!/bin/bash
# Prints `dueproxy run --keep-alive --reuse` beside HAProxy 2.6 with keep-alive on both sides, before the same nginx, in one run, taking turns: the ratios of
# the medians of what each did, with one thread of HAProxy's and with as many as it takes by itself. Measured are requests a second and processor time a request
# (64 clients that stay), and the time of one client's request. Then `ab -k` asks through dueproxy, and the run fails where a request of its failed, or where
# wrk saw errors. It needs haproxy, nginx, wrk and ab. OTHER names one more program that is run by the same words as dueproxy, and stands beside it too.
. "$(dirname "$0")/common.sh"
program=$(proved_program)
seconds=${SECONDS_EACH:-2}
web=18389
trap 'kill $(jobs -p) 2>/dev/null || :; wait 2>/dev/null; rm -rf "$folder"' EXIT
echo "nproc $(nproc), $runs runs, $seconds s each; $(haproxy -v | head -n 1)"

mkdir "$folder/tmp"
cat >"$folder/nginx.conf" <<CONF
worker_processes 2; daemon off; pid $folder/nginx.pid; error_log /dev/null;
events { worker_connections 4096; }
http {
    access_log off; keepalive_requests 1000000000; keepalive_timeout 600s;
    client_body_temp_path $folder/tmp; proxy_temp_path $folder/tmp; fastcgi_temp_path $folder/tmp; uwsgi_temp_path $folder/tmp; scgi_temp_path $folder/tmp;
    server { listen 127.0.0.1:$web backlog=4096; location = / { return 200 "hello\n"; } }
}
CONF
chmod -R a+rX "$folder"
nginx -c "$folder/nginx.conf" &

# The configuration of a port.
proxy_cfg() {
    cat <<CONF
defaults
    mode http
    timeout connect 5s
    timeout client 30s
    timeout server 30s
    timeout queue 1m
listen it
    bind 127.0.0.1:$1
    balance leastconn
    server it 127.0.0.1:$web
CONF
}

# Starts a kind of proxy at a port.
start() {
    proxy_cfg "$2" >"$folder/$2.cfg"
    case $1 in
    dueproxy) "$program" run "$folder/$2.cfg" --keep-alive --reuse >/dev/null 2>&1 & ;;
    other) "$OTHER" run "$folder/$2.cfg" --keep-alive --reuse >/dev/null 2>&1 & ;;
    haproxy*)
        ([ "$1" = haproxy ] || printf 'global\n    nbthread 1\n'
            sed 's/^defaults/defaults\n    option http-keep-alive\n    http-reuse always\n    maxconn 4000/' "$folder/$2.cfg") >"$folder/$2.ha"
        haproxy -db -f "$folder/$2.ha" >/dev/null 2>&1 & ;;
    esac
    eval "pid_$2=$!"
}

# Processor time of a process so far, in ticks of 10 ms.
ticks() { awk '{ print $14 + $15 }' "/proc/$1/stat"; }

# One slice: requests a second, the median time of a request in microseconds, and the processor's microseconds a request.
slice() {
    local kind=$1 row=$2 port=$3 threads=$4 clients=$5 pid before
    eval "pid=\$pid_$port"
    before=$(ticks "$pid")
    wrk -t "$threads" -c "$clients" -d "${seconds}s" --latency "http://127.0.0.1:$port/" >"$folder/wrk"
    if grep 'Non-2xx\|Socket errors' "$folder/wrk"; then echo "$kind, $clients clients"; failed=1; fi
    awk -v used=$(($(ticks "$pid") - before)) '
        function micro(t) { return t ~ /us$/ ? t + 0 : t ~ /ms$/ ? t * 1e3 : t * 1e6 }
        $1 == "50%" { half = micro($2) } /requests in/ { count = $1 } /Requests\/sec/ { rate = $2 }
        END { print rate, half, count ? used * 1e4 / count : 0 }' "$folder/wrk" >>"$folder/$row.$kind"
}

failed=0 first=18385
kinds="dueproxy haproxy haproxy1${OTHER:+ other}"
port=$first
for kind in $kinds; do
    eval "at_$kind=$port"
    start "$kind" $port
    port=$((port + 1))
done
sleep 2
for _ in $(seq "$runs"); do
    for kind in $kinds; do eval "slice $kind free \$at_$kind 2 64"; done
    for kind in $kinds; do eval "slice $kind alone \$at_$kind 1 1"; done
done

# The median of a column of a row's runs.
median() { awk -v c="$3" '{ print $c }' "$folder/$1.$2" | sort -n | awk '{ a[NR] = $1 } END { print a[int((NR + 1) / 2)] }'; }

# A line: what, and of dueproxy's median what part HAProxy's are.
line() {
    awk -v what="$1" -v d="$(median "$2" dueproxy "$3")" -v h="$(median "$2" haproxy "$3")" -v o="$(median "$2" haproxy1 "$3")" 'BEGIN {
        printf "%-46s %10.2f; HAProxy %10.2f, nbthread 1 %10.2f; ratios %.2f %.2f", what, d, h, o, h ? d / h : 0, o ? d / o : 0 }'
    if [ -n "${OTHER:-}" ]; then
        awk -v d="$(median "$2" dueproxy "$3")" -v m="$(median "$2" other "$3")" 'BEGIN { printf "; the other %.2f, ratio %.2f", m, m ? d / m : 0 }'
    fi
    echo
}
line "requests/s, 64 clients that stay" free 1
line "its processor time a request, us" free 3
line "time of one client's request, us" alone 2

ab -q -k -n 20000 -c 16 "http://127.0.0.1:$first/" >"$folder/ab" 2>&1 || failed=1
awk '
    /^Complete requests/ { complete = $3 } /^Failed requests/ { lost = $3 } /^Non-2xx/ { other = $3 } /^Keep-Alive requests/ { stayed = $3 }
    END {
        printf "ab -k, 16 at a time: complete %d, failed %s, not 2xx %d, on connections that stayed %d\n", complete, lost, other, stayed
        exit complete != 20000 || lost != 0 || other > 0
    }' "$folder/ab" || failed=1
if [ "$failed" = 0 ]; then echo "ok      no request failed"; else echo "FAILED"; fi
exit $failed
