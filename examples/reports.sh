#!/usr/bin/env bash
# Runs each lesson of this folder, and compares its reports with those that were worked out by hand.
# A run has its words in RUN.words, one a line, its report in RUN.report and its trace in RUN.din;
# the runs without a trace of their own share trace.din. Runs with a table, RUN.tsv, are tried by
# grid_command_line.sh. The first argument is the program; without one the launcher is taken.
set -euo pipefail
folder=$(CDPATH='' cd -P -- "$(dirname -- "$0")" && pwd)
program=${1:-$folder/../bin/dinero_pipe}
. "$folder/tally.sh"
need_program "$program"
for list in "$folder"/*/*.words; do
    run=${list%.words}
    [ ! -f "$run.tsv" ] || continue
    trace=$run.din
    [ -f "$trace" ] || trace=$(dirname "$run")/trace.din
    mapfile -t words <"$list"
    if "$program" "${words[@]}" <"$trace" | diff "$run.report" -; then
        pass "${run#"$folder"/}"
    else
        fail "${run#"$folder"/}"
    fi
done
for report in "$folder"/*/*.report; do
    [ -f "${report%.report}.words" ] || fail "${report#"$folder"/} has no words"
done
tell
