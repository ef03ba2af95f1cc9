#!/usr/bin/env bash
# How fast whole runs are. dinero_pipe runs its stages in four threads, with rings of several
# capacities. `measure run` runs the same machines on one thread. The script compares them on all
# cores, on two and on one; with four runs at once; while four other programs only burn time; and
# with a real program's trace.
#
#   bench/run.sh [REFERENCES [ROUNDS]]      3,000,000 references and 5 rounds, if none are given
#
# The trace is the tame one of traces.sh, made in a temporary folder. All runs of a table read the
# same file, in turn, and their reports must be the same. The real program is ls; without valgrind
# that part is left out.
set -euo pipefail
references=${1:-3000000}
rounds=${2:-5}
top=$(CDPATH='' cd -P -- "$(dirname -- "$0")/.." && pwd)
measure=$top/crates/measure/out/measure
threads=$top/crates/dinero_pipe/out/dinero_pipe
. "$top/bench/build.sh"
burners=()
finish() {
    for burner in "${burners[@]}"; do kill "$burner" 2> /dev/null || true; done
    rm -rf "$folder"
}
trap finish EXIT
. "$top/bench/traces.sh"
trace=$folder/made.din

build measure
"$top/bin/dinero_pipe" --help > /dev/null

tame > "$trace"

# same NAME COMMAND..: a line for the runs in turn, once the report is seen to be that of the first.
same() {
    local name=$1
    shift
    "$@" < "$trace" > "$folder/report"
    if [ -e "$folder/first" ]; then
        cmp "$folder/first" "$folder/report"
    else
        mv "$folder/report" "$folder/first"
    fi
    printf '%s\t' "$name"
    printf '%q ' "$@"
    echo
}

# caches SIZE BLOCK WAYS SIZE BLOCK WAYS: the runs with these first-level caches, which are alike,
# and this second level.
caches() {
    local words=(--l1-isize "$1" --l1-ibsize "$2" --l1-iassoc "$3" --l1-dsize "$1" --l1-dbsize "$2"
        --l1-dassoc "$3" --l2-usize "$4" --l2-ubsize "$5" --l2-uassoc "$6")
    rm -f "$folder/first"
    same 'one thread' "$measure" run "$trace" "${@:1:3}" "${@:1:3}" "${@:4:3}" > "$folder/runs"
    for ring in 64 1024 65536; do
        same "threads, ring $ring" "$threads" "${words[@]}" --ring "$ring" >> "$folder/runs"
    done
}

# in_turn TITLE [COPIES]: a table of the runs.
in_turn() {
    echo "== $1"
    "$top/bench/in_turn.py" "$rounds" "$trace" "${2:-1}" < "$folder/runs"
}

for sizes in '32768 64 8 1048576 64 16' '8192 32 1 262144 32 4' '16384 64 256 262144 64 4096'; do
    # shellcheck disable=SC2086 # six words
    caches $sizes
    in_turn "$sizes, $(nproc) cores"
done
if command -v valgrind > /dev/null; then
    mv "$trace" "$folder/kept.din"
    "$top/bin/record" ls /usr/lib 2> /dev/null > "$trace"
    caches 32768 64 8 1048576 64 16
    in_turn "the references of ls, 32768 64 8 1048576 64 16, $(nproc) cores"
    mv "$folder/kept.din" "$trace"
fi
caches 32768 64 8 1048576 64 16
cp "$folder/runs" "$folder/all"
for cores in 0,1 0; do
    sed "s/\t/\ttaskset -c $cores /" "$folder/all" > "$folder/runs"
    in_turn "32768 64 8 1048576 64 16, cores $cores"
done
cp "$folder/all" "$folder/runs"
in_turn "32768 64 8 1048576 64 16, four runs at once" 4
for _ in 1 2 3 4; do
    sh -c 'while :; do :; done' &
    burners+=($!)
done
in_turn "32768 64 8 1048576 64 16, beside four programs that only burn time"
