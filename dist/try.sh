#!/bin/bash
# try.sh: makes the package of the proved program, or of the one that PROGRAM names, and tries it on this machine, as root: lintian finds no error and systemd nothing in the unit, where they are there; it is
# installed, and started with the unit's command, user, rights and descriptors by hand, as a machine without systemd wants it; it serves port 80 and stops in order, with who was there; and it is removed
# without a trace. Prints a line for each, and fails where one failed. It needs dpkg, python3, curl and setpriv, and port 80.
set -u
here=$(cd "$(dirname "$0")" && pwd)
folder=$(mktemp -d)
chmod 755 "$folder"
failed=0
server=
trap '[ -z "$server" ] || kill "$server" 2>/dev/null; rm -rf "$folder"' EXIT

# A line for what was tried, by the status of the command behind its name.
tried() {
    local name=$1
    shift
    if "$@" >"$folder/said" 2>&1; then echo "ok      $name"; else echo "FAILED  $name:"; head -n 20 "$folder/said"; failed=1; fi
}

# A value of the unit.
unit() {
    sed -n "s/^$1=//p" /lib/systemd/system/dueproxy.service
}

# Without what dpkg and systemd-analyze leave themselves.
files() {
    find /etc /usr /lib /run /var -xdev -not -path '/var/lib/dpkg/*' -not -path '/var/log/*' -not -path '/var/cache/*' -not -path '/run/systemd' -not -path '/run/systemd/systemd-units-load' | LC_ALL=C sort
}

errors() {
    ! lintian --allow-root "$package" 2>&1 | grep '^E:'
}

# With the rights that the unit gives, as nobody.
start() {
    mkdir -p /run/dueproxy && chown nobody /run/dueproxy
    (
        ulimit -n "$(unit LimitNOFILE)"
        exec setpriv --reuid nobody --regid nogroup --clear-groups --no-new-privs --inh-caps=-all,+net_bind_service --ambient-caps=-all,+net_bind_service --bounding-set=-all,+net_bind_service $(unit ExecStart)
    ) >"$folder/out" 2>"$folder/err" &
    proxy=$!
    timeout 10 sh -c "until grep -q ^listening '$folder/err'; do sleep 0.1; done"
}

serves() {
    [ "$(curl -s http://127.0.0.1:80/)" = ok ]
}

# Who is served when it is told to stop gets the whole answer.
stops() {
    curl -s http://127.0.0.1:80/slow >"$folder/slow" &
    local client=$!
    sleep 0.3
    $(unit ExecStop) || return 1
    wait "$client"
    [ "$(cat "$folder/slow")" = ok ] || { echo "who was served got: $(cat "$folder/slow")"; return 1; }
    wait "$proxy" || { echo "its status was $?"; return 1; }
    grep '^server web up' "$folder/out"
}

cleared() {
    rm -rf /run/dueproxy
    dpkg --purge dueproxy && files >"$folder/after" && diff "$folder/before" "$folder/after"
}

python3 - <<'SERVER' &
import http.server, time
class One(http.server.BaseHTTPRequestHandler):
    def do_GET(self):
        time.sleep(1 if self.path == "/slow" else 0)
        self.send_response(200)
        self.send_header("Content-Length", "2")
        self.end_headers()
        self.wfile.write(b"ok")
    def log_message(self, *words):
        pass
http.server.ThreadingHTTPServer(("127.0.0.1", 8080), One).serve_forever()
SERVER
server=$!

files >"$folder/before"
package=$("$here/deb.sh" "$folder") || exit 1
! command -v lintian >/dev/null || tried "lintian finds no error" errors
tried "it is installed" dpkg -i "$package"
! command -v systemd-analyze >/dev/null || tried "systemd finds nothing in the unit" sh -c '[ -z "$(systemd-analyze verify /lib/systemd/system/dueproxy.service 2>&1)" ]'
tried "its man page is read" sh -c 'gunzip -c /usr/share/man/man1/dueproxy.1.gz | grep -q "^.SS dueproxy run"'
tried "its configuration is taken" dueproxy check /etc/dueproxy/dueproxy.cfg
tried "it starts with the rights of its unit" start
tried "it serves port 80" serves
tried "it stops in order" stops
tried "it is removed without a trace" cleared
exit $failed
