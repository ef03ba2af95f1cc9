#!/usr/bin/env bash
# What a long trace and a slow trace cost: how much memory a trace takes that repeats one line up to
# 2 GB, and how much processor time the program takes while a pipe gives one line a second.
#
#   bench/waiting.sh [LINES [SECONDS]]        222,222,222 lines and 10 seconds, if none are given
set -euo pipefail
lines=${1:-222222222}
seconds=${2:-10}
top=$(CDPATH='' cd -P -- "$(dirname -- "$0")/.." && pwd)
words=(--l1-isize 32k --l1-ibsize 64 --l1-iassoc 8 --l1-dsize 32k --l1-dbsize 64 --l1-dassoc 8
    --l2-usize 1m --l2-ubsize 64 --l2-uassoc 16)
"$top/bin/dinero_pipe" --help > /dev/null
long() { yes '2 400d7c' | head -n "$lines"; }
slow() { for ((i = 0; i < seconds; i++)); do echo '0 1000'; sleep 1; done; }

for trace in long slow; do
    read -r took processor peak \
        < <("$top/bench/best.py" 1 <($trace) "$top/bin/dinero_pipe" "${words[@]}")
    echo "$trace: $took seconds, $processor of the processor, at most $peak MB"
done
