#!/bin/bash
# Prints the greatest number of requests that two servers with the limits 4 and 2 had at once, of 20,000 requests by 100 clients, while the second server goes
# down and comes up; with `dueproxy run`, which fails where it passed a limit, and, where it is there, with HAProxy.
. "$(dirname "$0")/common.sh"
program=$(proved_program)
cat >"$folder/proxy.cfg" <<'CONF'
defaults
    timeout connect 1s
    timeout queue 1m
    option redispatch
listen limits
    bind 127.0.0.1:18090
    balance leastconn
    server first 127.0.0.1:18091 maxconn 4 check inter 100ms rise 1 fall 1
    server second 127.0.0.1:18092 maxconn 2 check inter 100ms rise 1 fall 1
CONF
status=0
echo dueproxy
python3 "$here/bench/limits.py" "$program" run "$folder/proxy.cfg" || status=1
if command -v haproxy >/dev/null; then
    sed 's/^defaults/defaults\n    mode http\n    option httpclose\n    timeout client 30s\n    timeout server 30s/' "$folder/proxy.cfg" >"$folder/haproxy.cfg"
    haproxy -v | head -n 1
    python3 "$here/bench/limits.py" haproxy -f "$folder/haproxy.cfg" || true
fi
exit $status
