# Proves the program by rt ci, over a copy of what it is made of: no tests, no edits that must be refused. What passes is kept beside the
# kit, and rt ci on the whole repository takes it from there.

prove_program() {
    if find_proved; then
        say "this program is proved already: $program"
        return
    fi
    begin_work "${TMPDIR:-/tmp}"
    # Where root runs rt ci, it runs what it built as nobody, who has to get there.
    chmod 711 "$work" "$work/tmp"
    log=$work/log
    copy_own
    total=$(wc -l <"$work/copy/crates.txt" | tr -d ' ')
    say "proving the program and its libraries, $total crates: two hours or more on 4 processors. What is proved before an interrupt counts the next time, where the kit can keep it"
    run_gate || {
        tail -n 40 "$log" >&2
        say "the program was not proved, as the lines above say"
        end_work
        exit 1
    }
    keep_proved
    end_work
    say "the program is proved: $program"
}

copy_own() {
    : >"$work/begun"
    # rt looks for a repository's top.
    mkdir "$work/copy" "$work/copy/.git" || exit 1
    lines_below dueproxy >"$work/copy/crates.txt"
    (cd "$here" && tar -cf - HANDLES $sources $(own_run)) | (cd "$work/copy" && tar -xf -) || exit 1
    chmod -R u+w "$work/copy"
}

# What the program is run on, and what it has to print then.
own_run() {
    for name in args stdin stdout status data; do
        [ ! -e "$here/crates/dueproxy/$name" ] || echo "crates/dueproxy/$name"
    done
}

run_gate() {
    mkfifo "$work/lines"
    tell_progress <"$work/lines" &
    teller=$!
    # The log is written by whoever tells of it.
    log=$work/lines run_quietly gate
    status=$?
    wait "$teller"
    return "$status"
}

gate() {
    cd "$work/copy" && TMPDIR=$work/tmp exec rt ci
}

# Hands the own lines of rt ci on, and keeps all that it says.
tell_progress() {
    ended=0
    while IFS= read -r line; do
        echo "$line" >>"$log"
        case $line in
        'rt: '*': '*' proved') say "${line#rt: }" ;;
        'rt: '*' proved' | 'rt: '*' is kept: an earlier run '*)
            ended=$((ended + 1))
            say "$ended of $total: ${line#rt: }"
            ;;
        'rt: '*) say "${line#rt: }" ;;
        esac
    done
}

# It is kept twice: by what it was made of, for each checkout of the same sources, and in this one, where that can be written to. There it is
# as old as the beginning, so that what was changed since counts as newer.
keep_proved() {
    made=$work/copy/crates/dueproxy/out/dueproxy
    touch -r "$work/begun" "$made"
    program=$kept/proved/dueproxy
    move_to "$program" || exit 1
    ! move_to "$here/crates/dueproxy/out/dueproxy" 2>/dev/null || program=$here/crates/dueproxy/out/dueproxy
}

move_to() {
    mkdir -p "${1%/*}" && cp -p "$made" "$1.new" && mv -f "$1.new" "$1"
}
