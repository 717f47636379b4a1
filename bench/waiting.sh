#!/bin/bash
# Prints of `dueproxy run`, and of HAProxy where it is there, how many pairs of 1,000, of 4,000 and of 10,000 clients that wait at one slot are served out of due-date order, and
# what the proxy takes meanwhile. Of the 10,000 some 5,900 wait outside, and at the border a pair may be out of order. Fails where `dueproxy run` serves another pair out of
# order, or leaves a client without an answer. It needs python3.
. "$(dirname "$0")/common.sh"
program=$(proved_program)
ulimit -n 20000
cat >"$folder/proxy.cfg" <<'CONF'
defaults
    mode http
    timeout connect 5s
    timeout client 2m
    timeout server 2m
    timeout queue 2m
listen waiting
    bind 127.0.0.1:18285
    balance leastconn
    http-request set-priority-offset req.hdr_val(x-due)
    server it 127.0.0.1:18286 maxconn 1
CONF
sed 's/^defaults/defaults\n    option httpclose\n    maxconn 12000/; s/req.hdr_val/hdr/' "$folder/proxy.cfg" >"$folder/haproxy.cfg"
status=0
for clients in 1000 4000 10000; do
    told=$(python3 "$here/bench/waiting.py" $clients "$program" run "$folder/proxy.cfg" --places 4096) || status=1
    echo "dueproxy: $told"
    case $clients,$told in 10000,* | *", 0 pairs "*) ;; *) status=1 ;; esac
    ! command -v haproxy >/dev/null || echo "HAProxy:  $(python3 "$here/bench/waiting.py" $clients haproxy -db -f "$folder/haproxy.cfg")"
done
exit $status
