# Tests that reports.sh finds what is wrong with a report, and that no script of tests passes where
# it tried nothing. Read by tools.sh.
# shellcheck shell=bash disable=SC2154  # names that tools.sh and its other files set

lessons=$work/lessons
mkdir -p "$lessons/lesson"
cp "$top"/examples/{reports,tally}.sh "$lessons"
cp "$top"/examples/1-kinds/* "$lessons/lesson"
report=$lessons/lesson/kinds.report

# ends_by NAME STATUS LINE [PROGRAM]: the script ends so, and prints this line among others.
ends_by() {
    run "$lessons/reports.sh" "${4-$bin/dinero_pipe}"
    [ "$status" -eq "$2" ] && grep -qxF -- "$3" "$out"
    verdict "$1" $?
}

# counts_up NUMBER: the report with a last count that is one more, in the line of counts of this
# number.
counts_up() {
    awk -v number="$1" '
        /[0-9]$/ && ++seen == number {
            digit = (substr($0, length($0)) + 1) % 10
            $0 = substr($0, 1, length($0) - 1) digit
        }
        { print }' "$top/examples/1-kinds/kinds.report" >"$report"
}

ends_by 'a lesson as it is' 0 'passed: lesson/kinds'
for number in {1..30}; do
    counts_up "$number"
    run "$lessons/reports.sh" "$bin/dinero_pipe"
    [ "$status" -eq 1 ] || break
done
[ "$status" -eq 1 ] && [ "$(grep -c '[0-9]$' "$report")" -eq 30 ]
verdict "a lesson with another count in line $number of its report" $?
cp "$top/examples/1-kinds/kinds.report" "$report"
printf '#!/bin/sh\n%q "$@"\nexit 3\n' "$bin/dinero_pipe" >"$work/fails_late"
chmod +x "$work/fails_late"
ends_by 'a report behind which the program fails' 1 'failed: lesson/kinds' "$work/fails_late"
rm "$lessons/lesson/kinds.words"
cp "$top"/examples/9-whole-counts/* "$lessons/lesson"
ends_by 'a report without words' 1 'failed: lesson/kinds.report has no words'
rm "$report"
ends_by 'lessons without a report' 1 '0 passed, 1 failed'
run bash -c '. "$1" && tell' tell "$top/examples/tally.sh"
[ "$status" -eq 1 ] && [ "$(<"$out")" = '0 passed, 0 failed' ]
verdict 'a script that tried nothing' $?
