#!/usr/bin/env bash
# How fast messages pass through one ring between two threads, and how much processor time a waiting
# thread takes.
#
#   bench/ring.sh [MESSAGES]        10,000,000 messages, if no number is given
#
# A ring of capacity 1 passes 1/64 of the messages, and a ring of capacity 16 a quarter of them. The
# figures are the best and the median of nine rounds, in millions of messages a second. Then comes
# the processor time of a thread that waits for another one, which sends one message a second.
set -euo pipefail
messages=${1:-10000000}
top=$(CDPATH='' cd -P -- "$(dirname -- "$0")/.." && pwd)
program=$top/crates/ring_bench/out/ring_bench
. "$top/bench/build.sh"
build ring_bench

for _ in 1 2 3 4 5 6 7 8 9; do
    "$program" "$messages" time | grep 'a second'
done > "$folder/rounds"
printf '%-10s %8s %8s\n' capacity best median
for capacity in 1 16 64 1024 65536; do
    grep "^capacity $capacity:" "$folder/rounds" | awk '{ print $3 / 1e6 }' | sort -g |
        awk -v capacity=$capacity '
            { speeds[NR] = $1 }
            END { printf "%-10s %8.2f %8.2f\n", capacity, speeds[NR], speeds[int((NR + 1) / 2)] }'
done

echo
echo "processor time of a thread that waits, with that of its sender, which sleeps:"
time "$program" 4 wait > /dev/null
