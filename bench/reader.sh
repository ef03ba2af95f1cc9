#!/usr/bin/env bash
# How fast traces are read. The program `measure read` calls Source::next for each record, and does
# nothing else.
#
#   bench/reader.sh [RECORDS]        10,000,000 records, if no number is given
#
# Each trace is made with a fixed seed in a temporary folder. The script also times `wc -l` on the
# same file, so that their ratio depends less on the machine. Times are the best of five, in
# seconds. If valgrind is installed, the script also prints the instructions for each record.
set -euo pipefail
records=${1:-10000000}
top=$(CDPATH='' cd -P -- "$(dirname -- "$0")/.." && pwd)
program=$top/crates/measure/out/measure
. "$top/bench/build.sh"
build measure

# make FORM RECORDS: prints a trace with labels 0 to 4 and addresses of 6 to 8 digits, in a form.
make() {
    awk -v form="$1" -v records="$2" 'BEGIN {
        srand(1)
        for (i = 0; i < records; i++) {
            label = int(5 * rand())
            address = sprintf("%0" (6 + int(3 * rand())) "x", int(16777216 * rand()))
            if (form == "plain") print label " " address
            else if (form == "prefix") print label " 0x" address
            else if (form == "cr-lf") printf "%s %s\r\n", label, address
            else print label "  " address " comment"
        }
    }'
}

# instructions TRACE: how many the processor takes for it.
instructions() {
    valgrind --tool=callgrind --callgrind-out-file=/dev/null "$program" read "$1" 2>&1 > /dev/null |
        awk '/Collected/ { print $4 }'
}

printf '%-8s %9s %9s %9s %14s %14s\n' form megabytes next 'wc -l' 'records/s' 'next / wc -l'
for form in plain prefix cr-lf spaced; do
    trace=$folder/$form
    make $form "$records" > "$trace"
    read -r next _ < <("$top/bench/best.py" 5 /dev/null "$program" read "$trace")
    read -r lines _ < <("$top/bench/best.py" 5 "$trace" wc -l)
    awk -v form=$form -v bytes="$(stat -c %s "$trace")" -v next_="$next" -v lines="$lines" \
        -v records="$records" 'BEGIN {
        printf "%-8s %9.0f %9s %9s %14.0f %14.1f\n", form, bytes / 1e6, next_, lines,
            records / next_, next_ / lines
    }'
    rm "$trace"
done

if command -v valgrind > /dev/null; then
    : > "$folder/empty"
    start=$(instructions "$folder/empty")
    for form in plain prefix cr-lf spaced; do
        make $form 100000 > "$folder/$form"
        all=$(instructions "$folder/$form")
        echo "$form: $(((all - start) / 100000)) instructions a record"
    done
fi
