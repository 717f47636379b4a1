#!/usr/bin/env bash
# bench/refused.sh [NAME..]: runs each test of the crates NAME (without names all that are built, but
# those of sockets, and of look-ups of names, at which the C library's getaddrinfo crashes by itself
# where memory is refused) again and again, and refuses one allocation in each run, each in its turn.
# A run has to end well, or with the test's own word: want of memory where the test expected a value,
# or an assertion that saw another answer than with memory. What is no such end: a signal, a wait
# without end. A test whose name begins with a_refused_growth makes a refused call again, and has to
# end well each time. Of another test with more than 400 allocations (MOST) so many are refused,
# evenly spread. One line for each crate; the status is 1 where a run had no such end. Needs gcc, and
# the tests that `rt ci` or `rt test` leaves in crates/NAME/out.
set -u
cd "$(dirname "$0")/.." || exit 2
at_once=$(getconf _NPROCESSORS_ONLN)
export most=${MOST:-400}
export work=$(mktemp -d)
trap 'rm -rf "$work"' EXIT
gcc -shared -fPIC -O2 -o "$work/refused.so" bench/refused.c || exit 2

run() { # PROGRAM TEST N: the run's status, and what it wrote in $work/said.PID
    timeout 20 env REFUSED="$3" COUNTED="$work/count.$$" LD_PRELOAD="$work/refused.so" "$1" "$2" >"$work/said.$$" 2>&1 </dev/null
}

stopped_at() { # WHAT A RUN WROTE: whether it stopped at its own word, and which
    grep -q '^test stopped at' "$1" || return 1
    grep -qE 'AllocError|AllocFailed|NoMemory' "$1" && echo told || echo another
}

refuse_each() { # NAME PROGRAM TEST
    run "$2" "$3" 0 || { echo "$1 $3: fails with all memory: status $?" >>"$work/$1.bad"; return; }
    count=$(cat "$work/count.$$")
    each=$(((count + most - 1) / most))
    case $3 in *a_refused_growth*) each=1 ;; esac
    for ((n = 1; n <= count; n += each)); do
        run "$2" "$3" "$n" 2>/dev/null
        status=$?
        case $status.$3 in
            0.*) echo well ;;
            *.*a_refused_growth*) echo "$1 $3, allocation $n: status $status" >>"$work/$1.bad" ;;
            101.*) echo told ;;
            134.*) stopped_at "$work/said.$$" || echo "$1 $3, allocation $n: status $status" >>"$work/$1.bad" ;;
            *) echo "$1 $3, allocation $n: status $status" >>"$work/$1.bad" ;;
        esac
    done >>"$work/ends.$1.$$"
}
export -f run stopped_at refuse_each

names=("$@")
if [ $# -eq 0 ]; then
    for program in crates/*/out/*_tests; do
        name=$(basename "$(dirname "$(dirname "$program")")")
        case $name in test_serving | test_workers | run_gate) ;; *) [ -x "$program" ] && names+=("$name") ;; esac
    done
    [ ${#names[@]} -gt 0 ] || { echo "no tests are built: run rt ci or rt test first"; exit 1; }
fi
bad=0
for name in "${names[@]}"; do
    program=$PWD/crates/$name/out/${name}_tests
    [ -x "$program" ] || { echo "$name: its tests aren't built"; bad=1; continue; }
    "$program" --list | sed -n 's/: test$//p' | xargs -P "$at_once" -I T bash -c 'refuse_each "$@"' refuse_each "$name" "$program" T
    ends() { cat "$work"/ends."$name".* 2>/dev/null | grep -c "^$1\$"; }
    failed=$(cat "$work/$name.bad" 2>/dev/null | wc -l)
    echo "$name: an allocation refused in each of $(($(ends well) + $(ends told) + $(ends another) + failed)) runs: $(ends told) told so, $(ends another) saw another answer, $(ends well) went well, $failed had no such end"
    [ "$failed" -eq 0 ] || { head -5 "$work/$name.bad"; bad=1; }
done
exit "$bad"
