#!/usr/bin/env bash
# Makes the hand-out of a first course from a trace: three pictures and a table. See usage.
# Functions of the caller's don't come before the shell's own words (bin/common.sh).
POSIXLY_CORRECT=yes && unset -f builtin command
set -euo pipefail
self=handout
here=$(command readlink -f -- "${BASH_SOURCE[0]}"); here=${here%/*}
bin=${here%/*}/bin
. "$bin/common.sh"
. "$bin/plot_place.sh"

usage() {
    cat <<'END'
Makes three pictures and a table of a trace, with the data caches of a first course.

Usage: examples/handout.sh TRACE FOLDER

  TRACE   a din trace; one that ends in .gz, .xz or .zst is unpacked
  FOLDER  where the files go; it is made if it is not there, and files of these names are replaced:

  kinds.svg   the misses of caches from 1 KiB to 64 KiB with 1, 2, 4 and 8 ways, in blocks of 32
              bytes: compulsory, capacity and conflict, as shares of the accesses. Capacity and
              conflict are whole counts, by subtraction, so conflict can be below zero
  sizes.svg   the miss rates of the same caches
  blocks.svg  the miss rates with blocks of 8 to 128 bytes, at 4 KiB, 16 KiB and 64 KiB
  table.md    the counts of the first picture, as a table in Markdown

All caches are LRU, write back, and allocate at writes.

Exit status: 0 all was made, 1 the trace is faulty or has no data references, 2 the arguments were
refused, 4 a file could not be read or written, 69 a tool is missing, 129, 130 or 143 interrupted.
END
}

fixed=(--l1-isize 16k --l1-ibsize 32 --l2-usize 1m --l2-ubsize 128 --l2-uassoc 8)

# sweep_to TABLE WORD..: the table of a sweep of the trace.
sweep_to() {
    "$bin/sweep" "${fixed[@]}" "${@:2}" -- "$trace" > "$1"
}

# has_data: the first row of standard input counts accesses of the data cache.
has_data() {
    awk -F '\t' '
        NR == 1 { for (i = 1; i <= NF; i++) at[$i] = i }
        NR == 2 { exit $at["l1-dcache-fetches"] == 0 }'
}

# write_table: the rows of standard input, by the names of their columns.
write_table() {
    awk -F '\t' '
        NR == 1 {
            for (i = 1; i <= NF; i++) at[$i] = i
            printf "| Size | Ways | Accesses | Misses | Miss rate | Compulsory "
            print "| Capacity (by subtraction) | Conflict (by subtraction) |"
            print "|---|---|---|---|---|---|---|---|"
            next
        }
        {
            all = $at["l1-dcache-fully-associative-misses"]
            printf "| %s | %s | %s | %s | %s | %s | %d | %d |\n", $at["l1-dsize"], $at["l1-dassoc"],
                $at["l1-dcache-fetches"], $at["l1-dcache-misses"], $at["l1-dcache-miss-rate"],
                $at["l1-dcache-compulsory"], all - $at["l1-dcache-compulsory"],
                $at["l1-dcache-misses"] - all
        }'
}

make_all() {
    sweep_to "$work/sizes.tsv" --l1-dbsize 32 \
        --vary --l1-dsize 1k,2k,4k,8k,16k,32k,64k --vary --l1-dassoc 1,2,4,8
    has_data < "$work/sizes.tsv" || die 1 "$trace has no data references"
    sweep_to "$work/blocks.tsv" --l1-dassoc 2 \
        --vary --l1-dsize 4k,16k,64k --vary --l1-dbsize 8,16,32,64,128
    "$bin/plot" kinds "$work/sizes.tsv" "$work/kinds.svg" --whole-counts
    "$bin/plot" rates "$work/sizes.tsv" "$work/sizes.svg"
    "$bin/plot" rates "$work/blocks.tsv" "$work/blocks.svg" --over l1-dbsize --by l1-dsize
    write_table < "$work/sizes.tsv" > "$work/table.md"
}

case ${1-} in
-h | --help) show_help ;;
esac
[[ $# -eq 2 && -n $1 && -n $2 ]] || refuse 'a trace and a folder are needed'
trace=$1 folder=$2
[[ $folder == /* ]] || folder=./$folder
tidy_up_with remove_leftovers
make_temporary
work=$temporary
make_all
mkdir -p -- "$folder" 2>/dev/null || die 4 "$folder could not be made"
for file in kinds.svg sizes.svg blocks.svg table.md; do
    place_anew "$work/$file" "$folder/$file"
done
