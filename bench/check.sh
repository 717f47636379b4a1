#!/bin/bash
# Prints how long `dueproxy check` takes for a configuration of 1 MB with 64 servers, 256 rules and 256 lines of ACLs,
# and for one of half that length, beside `wc -w` on the same bytes, each the best of several runs, and the ratios.
. "$(dirname "$0")/common.sh"
program=$(proved_program)

# A configuration of at most so many bytes: its ACL lines have so many values that it is nearly full.
write_configuration() {
    awk -v bytes="$1" 'BEGIN {
        print "listen front\n    bind :8080"
        for (i = 0; i < 64; i++) print "    server s" i " 127.0.0.1:" 9000 + i " maxconn 4 maxqueue 16 weight " i + 1 " check"
        for (i = 0; i < 256; i++) {
            line = "    acl a" i " path_beg"
            while (length(line) < bytes / 256 - 120) line = line " /shop/" length(line)
            print line
        }
        for (i = 0; i < 128; i++) print "    http-request set-priority-class int(" i ") if a" i " !a" i + 128
        for (i = 0; i < 128; i++) print "    use-server s" i % 64 " if a" i
    }'
}

compare() {
    local checked counted
    write_configuration "$1" >"$folder/configuration"
    checked=$(best_of "$program" check "$folder/configuration")
    if [ "$(cat "$folder/out")" != "ok servers 64" ]; then
        cat "$folder/out" >&2
        exit 1
    fi
    counted=$(best_of wc -w "$folder/configuration")
    echo "bytes $(wc -c <"$folder/configuration"), best of $runs runs"
    echo "dueproxy check $checked us"
    echo "wc -w $counted us"
    awk -v a="$checked" -v b="$counted" 'BEGIN { printf "ratio %.2f\n", a / b }'
}

compare 524288
compare 1048576
