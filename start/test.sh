# Runs every test of the repository by rt try, which proves nothing: as many crates at a time as there are processors. Prints a line for
# each crate as it ends, with what its failing tests said, and at last how many tests passed and failed.

test_all() {
    find_kit
    begin_work "${TMPDIR:-/tmp}"
    crates_with_tests >"$work/crates"
    processors=$(nproc 2>/dev/null || getconf _NPROCESSORS_ONLN)
    say "running the tests of $(wc -l <"$work/crates" | tr -d ' ') crates, $processors at a time"
    while [ "$processors" -gt 0 ]; do
        take_crates &
        processors=$((processors - 1))
    done
    wait
    cat "$work"/*.counts | awk '{ passed += $1; failed += $2 } END { printf "%d passed, %d failed\n", passed, failed; exit failed > 0 }'
    status=$?
    end_work
    exit "$status"
}

# The crates that have tests. Those come first above which most lines have to be compiled, since they take longest.
crates_with_tests() {
    for name in $(sed -n 's/^\([a-z0-9_]*\).*:.*/\1/p' "$here/crates.txt"); do
        ! grep -qrs '#\[test\]' "$here/crates/$name/src" || echo "$(count_lines "$name") $name"
    done | sort -rn | cut -d ' ' -f 2
}

count_lines() {
    (cd "$here/crates" && find $(crates_below "$1") -name '*.rt' -exec cat {} + | wc -l)
}

# Each of those who take crates goes through all of them, and takes what none has taken.
take_crates() {
    while [ ! -e "$work/ending" ] && read -r name; do
        mkdir "$work/$name" 2>/dev/null || continue
        log=$work/$name.log
        start=$(date +%s)
        run_quietly try_crate "$name"
        status=$?
        if [ -e "$work/ending" ]; then return; fi
        # Written at once, so that the lines of two crates don't mix.
        tell_crate "$name" "$status" "$(($(date +%s) - start))" >"$work/$name.told"
        cat "$work/$name.told"
    done <"$work/crates"
}

# On a machine with other work a crate's tests may take longer than the minute that rt gives them.
try_crate() {
    cd "$here/crates/$1" && TMPDIR=$work/tmp RT_SECONDS=300 exec rt try --test
}

# A crate's line, and above it what is wrong. One whose tests don't build, or don't end, counts as one failure.
tell_crate() {
    counts=$(sed -n 's/^test result: [A-Za-z]*\. \([0-9]*\) passed; \([0-9]*\) failed.*/\1 \2/p' "$log")
    if [ -z "$counts" ] || { [ "$2" -ne 0 ] && [ "${counts#* }" = 0 ]; }; then
        tail -n 40 "$log"
        echo "${counts:-0 0}" | awk '{ print $1, $2 + 1 }' >"$work/$1.counts"
        echo "$1: its tests did not build, or did not end ($3 s)"
        return
    fi
    awk '/^test / { shown = / FAILED$/ } /^test result:/ { shown = 0 } shown' "$log"
    echo "$counts" >"$work/$1.counts"
    echo "$1: ${counts% *} passed, ${counts#* } failed ($3 s)"
}
