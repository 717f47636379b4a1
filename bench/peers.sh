#!/bin/bash
# Puts `dueproxy run` between programs that others wrote: curl, wrk, ab and Python's http.client before it, nginx and Python's server behind it. Prints a line
# for each thing that was tried, and fails where one failed. It needs curl, wrk, ab (apache2-utils), nginx and python3.
. "$(dirname "$0")/common.sh"
program=$(proved_program)
web=18081 python=18082 proxy=18080
failed=0
trap 'kill $(jobs -p) 2>/dev/null || :; wait 2>/dev/null; rm -rf "$folder"' EXIT

tried() {
    if [ "$2" = "$3" ]; then echo "ok      $1"; else echo "FAILED  $1: $2 and not $3"; failed=1; fi
}

digest() { sha256sum | cut -d ' ' -f 1; }

mkdir "$folder/www" "$folder/tmp"
head -c 67108864 /dev/urandom >"$folder/www/large"
echo small >"$folder/www/small"
cat >"$folder/nginx.conf" <<CONF
worker_processes 1; daemon off; pid $folder/nginx.pid; error_log /dev/null;
events { worker_connections 1024; }
http {
    access_log off; root $folder/www;
    client_body_temp_path $folder/tmp; proxy_temp_path $folder/tmp; fastcgi_temp_path $folder/tmp; uwsgi_temp_path $folder/tmp; scgi_temp_path $folder/tmp;
    server { listen 127.0.0.1:$web backlog=2048; location = /204 { return 204; } }
}
CONF
cat >"$folder/proxy.cfg" <<CONF
defaults
    timeout connect 2s
    timeout queue 1m
listen peers
    bind 127.0.0.1:$proxy
    use-server python if { path_beg /p /chunked } or { method POST }
    server nginx 127.0.0.1:$web maxconn 8
    server python 127.0.0.1:$python maxconn 8 weight 0
CONF
chmod -R a+rX "$folder"
nginx -c "$folder/nginx.conf" &
python3 "$here/bench/peers.py" serve $python &
"$program" run "$folder/proxy.cfg" >"$folder/out" &
for _ in $(seq 100); do curl -s -o "$folder/x" "http://127.0.0.1:$proxy/small" && break; sleep 0.1; done

at=http://127.0.0.1:$proxy
large=$(digest <"$folder/www/large")
tried "curl: GET" "$(curl -s $at/small)" small
tried "curl: HEAD" "$(curl -sI $at/small | tr -d '\r' | sed -n 's/^Content-Length: //p')" 6
tried "curl: POST with a length" "$(curl -s -d @"$folder/www/small" $at/p)" "$(printf small | digest)"
tried "curl: POST in chunks" "$(curl -s -H 'Transfer-Encoding: chunked' --data-binary @"$folder/www/small" $at/p)" "$(digest <"$folder/www/small")"
tried "curl: an answer in chunks" "$(curl -s $at/chunked)" "one two three"
tried "curl: 204" "$(curl -s -o /dev/null -w '%{http_code}' $at/204)" 204
tried "curl: 304" "$(curl -s -o /dev/null -w '%{http_code}' -z "$folder/www/small" $at/small)" 304
tried "curl: 404" "$(curl -s -o /dev/null -w '%{http_code}' $at/none)" 404
tried "curl: 64 MiB from a server" "$(curl -s $at/large | digest)" "$large"
tried "curl: 64 MiB to a server, after Expect: 100-continue" "$(curl -s -H 'Expect: 100-continue' --data-binary @"$folder/www/large" $at/p)" "$large"
tried "curl: 64 MiB to a server in chunks" "$(curl -s -H 'Transfer-Encoding: chunked' -H 'Expect:' --data-binary @"$folder/www/large" $at/p)" "$large"
tried "curl: HTTP/1.0" "$(curl -s -0 $at/small)" small
tried "curl: HTTP/1.0, an answer in chunks" "$(curl -s -0 $at/chunked)" "one two three"
python3 "$here/bench/peers.py" client $proxy || failed=1
tried "ab: 2000 requests of HTTP/1.0, 16 at a time" "$(ab -q -n 2000 -c 16 $at/small 2>&1 | awk '/Complete requests|Failed requests|Non-2xx/ { printf "%s ", $3 }')" "2000 0 "
wrk -t 2 -c 32 -d 3s $at/small >"$folder/wrk"
tried "wrk: 3 seconds, 32 at a time" "$(grep -c 'Non-2xx\|Socket errors' "$folder/wrk" || true)" 0
exit $failed
