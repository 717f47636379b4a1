#!/bin/bash
# Puts `dueproxy run` before peers that are silent, go or aren't there, lets it run out of files, and has it serve so many clients that its log is full more than once; then one proxy stands while its peers break
# (bench/standing.py, with a minute of load on a server that comes and goes, or LOAD_SECONDS), and crowds come (bench/crowds.py, beside HAProxy where it is there). Prints a line for each thing that was tried, and fails where one failed. It needs ab (apache2-utils) and python3.
. "$(dirname "$0")/common.sh"
program=$(proved_program)
clients=${CLIENTS:-140000}
failed=0
trap 'kill $(jobs -p) 2>/dev/null || :; wait 2>/dev/null; rm -rf "$folder"' EXIT
python3 "$here/bench/faults.py" "$program" "$folder" || failed=1
python3 "$here/bench/standing.py" "$program" "$folder" || failed=1
python3 "$here/bench/crowds.py" "$program" "$folder" || failed=1

# A request leaves four to six entries in the log, and a window has 262,144.
cat >"$folder/proxy.cfg" <<'CONF'
listen windows
    bind 127.0.0.1:18180
    server it 127.0.0.1:18181 maxconn 4
CONF
python3 "$here/bench/slow.py" 18181 0 &
sleep 1
"$program" run "$folder/proxy.cfg" --requests "$clients" --workers 64 >"$folder/out" 2>"$folder/err" &
proxy=$!
sleep 1
ab -q -n "$clients" -c 64 http://127.0.0.1:18180/ >"$folder/ab" 2>&1 || failed=1
wait "$proxy" || failed=1
told=$(awk -v clients="$clients" '
    $1 == "window" { windows++; if ($2 != windows) wrong = 1 }
    $1 == "server" { over = 1; given += $5 + $7 }
    $1 == "queue" && !over { reports[windows]++ }
    END { for (i = 1; i <= windows; i++) if (reports[i] != 1) wrong = 1
          if (windows < 2 || given != clients) wrong = 1
          print wrong ? "wrong" : "right" }' "$folder/out")
if [ "$told" = right ]; then
    echo "ok      $clients clients: windows one after the other, each with its report, and servers' lines that sum up to the clients"
else
    echo "FAILED  $clients clients:"; cut -c 1-120 "$folder/out"; failed=1
fi
exit $failed
