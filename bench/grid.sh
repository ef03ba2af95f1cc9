#!/usr/bin/env bash
# What a grid of caches costs. `measure grid` serves the data references of a trace in 4, 28 and 60
# caches at once, all of blocks of 32 bytes, write back and write allocation. `measure run`
# simulates the same trace on one thread: an instruction cache, one data cache, and a second level.
#
#   bench/grid.sh [REFERENCES [ROUNDS]]      1,000,000 references and 5 rounds, if none are given
#
# Two traces are made with a fixed seed in a temporary folder: a tame one, of which most data
# references are to 16 KiB, and a hard one, which spreads half of them over 64 KiB and the others
# over 1 and 16 MiB. The third is recorded from ls; without valgrind it is left out.
#
# All runs of a table read the same file, in turn. Below the table stands how many times the
# processor time of one `measure run` each took, by the medians, and how much more memory. With
# valgrind the script also prints the instructions for each reference.
set -euo pipefail
references=${1:-1000000}
rounds=${2:-5}
top=$(CDPATH='' cd -P -- "$(dirname -- "$0")/.." && pwd)
program=$(printf '%q' "$top/crates/measure/out/measure")
. "$top/bench/build.sh"
. "$top/bench/traces.sh"
build measure

sizes=1024,2048,4096,8192,16384,32768,65536
names=('one run' 'grid of 4' 'grid of 28' 'grid of 60')
commands=(
    "$program run /dev/stdin 8192 32 2 8192 32 2 262144 32 4"
    "$program grid /dev/stdin 32 4096,16384 1,4"
    "$program grid /dev/stdin 32 $sizes 1,2,4,8"
    "$program grid /dev/stdin 32 512,$sizes,131072,262144,524288,1048576 1,2,4,8,16"
)

# instructions TRACE COMMAND..: how many the processor takes for it.
instructions() {
    local trace=$1
    shift
    valgrind --tool=callgrind --callgrind-out-file=/dev/null "$@" < "$trace" 2>&1 > /dev/null |
        awk '/Collected/ { print $4 }'
}

# measure TITLE TRACE
measure() {
    echo "== $1"
    for index in "${!names[@]}"; do
        printf '%s\t%s\n' "${names[index]}" "${commands[index]}"
    done > "$folder/runs"
    "$top/bench/in_turn.py" "$rounds" "$2" < "$folder/runs" | tee "$folder/table"
    awk 'NR == 2 { processor = $(NF - 2); memory = $(NF - 1) }
        NR > 2 { printf "%s %s %s: %.2f times the processor time, %+d MB\n", $1, $2, $3,
            $(NF - 2) / processor, $(NF - 1) - memory }' "$folder/table"
    command -v valgrind > /dev/null || return 0
    head -n 100000 "$2" > "$folder/short"
    for index in "${!names[@]}"; do
        local -a command=()
        eval "command=(${commands[index]})"
        all=$(instructions "$folder/short" "${command[@]}")
        echo "${names[index]}: $((all / $(wc -l < "$folder/short"))) instructions a reference"
    done
}

each_trace "$folder" measure
