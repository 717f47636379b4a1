# What the benchmarks share. Each reads this file first.
set -eu
here=$(cd "$(dirname "$0")/.." && pwd)
runs=${1:-9}
folder=$(mktemp -d)
trap 'rm -rf "$folder"' EXIT
input=/dev/null

# The proved program, or the one that PROGRAM names. What ./dueproxy runs else is compiled in another way and slower, so that its
# figures would tell nothing: it is refused.
proved_program() {
    if [ -n "${PROGRAM:-}" ]; then echo "$PROGRAM"; else "$here/dueproxy" --where; fi
}

# The least time of the runs of a command over the input, in microseconds. What the last run wrote is in the folder.
best_of() {
    local least= start end took
    for _ in $(seq "$runs"); do
        start=${EPOCHREALTIME/[.,]/}
        "$@" <"$input" >"$folder/out"
        end=${EPOCHREALTIME/[.,]/}
        took=$((end - start))
        if [ -z "$least" ] || [ "$took" -lt "$least" ]; then least=$took; fi
    done
    echo "$least"
}

# The same of `replay` by the proved program, which is to refuse no event.
best_of_replay() {
    best_of "$proved" replay
    if grep -q '^refused' "$folder/out"; then
        echo "an event was refused: the script is not what it should be" >&2
        exit 1
    fi
}

# Proves and builds a program, and runs it once.
build() {
    local crate=$here/crates/$1
    (cd "$crate" && rt run -- "${@:2}") >"$folder/log" 2>&1 || {
        tail -n 40 "$folder/log" >&2
        exit 1
    }
}
