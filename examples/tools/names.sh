# Names that a shell, gnuplot, awk or GNU parallel could take for more. Each would make a
# file `pwned` if any part of it was run. Read by tools.sh.
# shellcheck shell=bash disable=SC1003,SC2016,SC2034,SC2154  # backquotes that stand for themselves

hostile=('x`touch pwned`' '$(touch pwned)' "'; system 'touch pwned'; '" '"; system "touch pwned"; "'
    "it''s; touch pwned" '|touch pwned' 'x=y\' '--version' '-x {#}' 'a_b^c{d}@e~f&g *'
    'NF[$(touch pwned)]')
# A line feed can stand in a path, but in no line of a table.
hostile_paths=("${hostile[@]}" $'x\ntouch pwned\ny')
# Those that are told apart by their beginning.
few=("${hostile[@]:0:3}" "${hostile_paths[@]: -2}")

# at_all_names NAME FUNCTION NAMES..: the test passes where the function does for each of the names,
# and no command of theirs was run.
at_all_names() {
    local name ran
    for name in "${@:3}"; do
        "$2" "$name" || break
        name=
    done
    ran=$(find "$work" -name 'pwned*' -print -delete)
    [ -z "$name$ran" ]
    verdict "$1${name:+ ($name)}${ran:+, which ran a name}" $?
}
