# What compiling, proving and testing share: a folder for what is being made, and commands that run in it.

# Makes that folder in another one. An interrupt ends the commands and removes it.
begin_work() {
    work=$(mktemp -d "$1/dueproxy-making.XXXXXX") && mkdir "$work/running" "$work/tmp" || exit 1
    trap 'end_work; exit 129' HUP
    trap 'end_work; exit 130' INT
    trap 'end_work; exit 143' TERM
}

end_work() {
    trap '' HUP INT TERM
    : >"$work/ending"
    for each in "$work"/running/*; do
        [ ! -e "$each" ] || kill "${each##*/}" 2>/dev/null
    done
    wait
    rm -rf "$work"
    trap - HUP INT TERM
}

# Runs a command that reads nothing, so that standard input is left to the program. It runs in the background, since only there an
# interrupt reaches this shell at once.
run_quietly() {
    "$@" </dev/null >>"$log" 2>&1 &
    running=$!
    : >"$work/running/$running"
    wait "$running"
    status=$?
    rm -f "$work/running/$running"
    return "$status"
}
