#!/usr/bin/env bash
# What a table of dinero_grid costs beside as many runs of dinero_pipe, four of them at once.
#
#   bench/table.sh [REFERENCES [ROUNDS]]     1,000,000 references and 5 rounds, if none are given
#
# The grids: 4, 28 and 60 data caches, each with a second level of its own; 28 second levels behind
# one first level; 28 FIFO data caches; and one configuration. All blocks have 32 bytes. dinero_grid
# has 1, 2 and 4 threads, and dinero_pipe rings of 65,536 messages. All runs of a table read the
# same file, in turn. The column `ratio` says how many times as fast as the runs of dinero_pipe.
#
# The traces are those of bench/grid.sh.
set -euo pipefail
references=${1:-1000000}
rounds=${2:-5}
top=$(CDPATH='' cd -P -- "$(dirname -- "$0")/.." && pwd)
folder=$(mktemp -d)
trap 'rm -rf "$folder"' EXIT
. "$top/bench/traces.sh"

# A call of a launcher puts the program in its place.
for program in dinero_pipe dinero_grid; do
    "$top/bin/$program" --help > /dev/null
done
printf -v grid %q "$top/crates/dinero_grid/out/dinero_grid"

# Runs of dinero_pipe over the file `trace`: each line of the file `each` has the options of one.
export pipe=$top/crates/dinero_pipe/out/dinero_pipe trace each=$folder/each
cat > "$folder/runs.sh" <<'END'
xargs -P 4 -I {} sh -c '"$pipe" {} --ring 65536 < "$trace" > /dev/null' < "$each"
END

# split LIST: its values, one on each line.
split() {
    tr , '\n' <<< "$1"
}

# measure NAME TRACE CACHE SIZES WAYS OPTION..: the last are options that do not vary.
measure() {
    local name=$1 cache=$3 sizes=$4 ways=$5 size way threads
    trace=$2
    shift 5
    for size in $(split "$sizes"); do
        for way in $(split "$ways"); do
            echo "$* --$cache""size $size --$cache""assoc $way"
        done
    done > "$each"
    {
        printf 'dinero_pipe\tsh %q\n' "$folder/runs.sh"
        for threads in 1 2 4; do
            printf 'dinero_grid %s\t%s %s --%ssize %s --%sassoc %s --threads %s\n' "$threads" \
                "$grid" "$*" "$cache" "$sizes" "$cache" "$ways" "$threads"
        done
    } > "$folder/commands"
    echo "== $name, $(wc -l < "$each") configurations"
    "$top/bench/in_turn.py" "$rounds" "$trace" < "$folder/commands"
}

seven=1k,2k,4k,8k,16k,32k,64k
first=(--l1-isize 16k --l1-ibsize 32 --l1-iassoc 2 --l1-dbsize 32)
second=(--l2-usize 512k --l2-ubsize 32 --l2-uassoc 8)

# grids TITLE TRACE
grids() {
    local all=("${first[@]}" "${second[@]}")
    local one=("${first[@]}" --l1-dsize 16k --l1-dassoc 2 --l2-ubsize 32)
    measure "$1: data caches" "$2" l1-d 16k 2 "${all[@]}"
    measure "$1: data caches" "$2" l1-d 4k,16k 1,4 "${all[@]}"
    measure "$1: data caches" "$2" l1-d "$seven" 1,2,4,8 "${all[@]}"
    measure "$1: data caches" "$2" l1-d 512,"$seven",128k,256k,512k,1m 1,2,4,8,16 "${all[@]}"
    measure "$1: second levels" "$2" l2-u 64k,128k,256k,512k,1m,2m,4m 1,2,4,8 "${one[@]}"
    measure "$1: FIFO data caches" "$2" l1-d "$seven" 1,2,4,8 "${all[@]}" --l1-drepl f
}

each_trace "$folder" grids
