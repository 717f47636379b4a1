#!/usr/bin/env bash
# bench/edits.sh [NAME..]: tries the edits bench/edits/NAME/*.edit, each of which the prover must refuse as it refuses those of
# crates/NAME/must-fail; without names all. `rt ci` leaves these out: before it tries the edits of a crate it proves the crate once
# more, which takes one processor over a minute in most of these. Prints a line for each; the status is 1 where one wasn't
# refused. Takes about six hours on one processor, and the libraries below are built first where they aren't there.
set -u
cd "$(dirname "$0")/.." || exit 2
command -v rt >/dev/null || { echo "rt, the command of the Rattle kit, is not on the PATH"; exit 2; }
names=("$@")
[ $# -gt 0 ] || names=($(cd bench/edits && ls))
made=()
clear_all() {
    local file
    for file in "${made[@]:+${made[@]}}"; do
        rm -f "$file"
        rmdir "$(dirname "$file")" 2>/dev/null
    done
    made=()
}
trap clear_all EXIT
bad=0
for name in "${names[@]}"; do
    [ -d "bench/edits/$name" ] || { echo "bench/edits has no folder $name"; exit 2; }
    mkdir -p "crates/$name/must-fail"
    for edit in "bench/edits/$name"/*.edit; do
        copy="crates/$name/must-fail/$(basename "$edit")"
        [ ! -e "$copy" ] || { echo "$copy stands there already"; exit 2; }
        cp "$edit" "$copy"
        made+=("$copy")
    done
    rt must-fail "$name" || bad=1
    clear_all
done
exit "$bad"
