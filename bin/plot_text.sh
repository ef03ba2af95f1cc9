# Text in a picture. Read by plot.
# shellcheck shell=bash disable=SC2034  # names that other files of plot use
#
# Text from outside is no part of gnuplot's script: all of it is handed over as one argument, and
# the script names its characters, as ARG1[5:9]. The blank before it keeps it from being taken for
# an option.
text=' '

# say TEXT: adds it to the argument; `said` is how the script names it.
say() {
    local LC_ALL=C.UTF-8 first
    first=$((${#text} + 1))
    text+=$1
    said="ARG1[$first:${#text}]"
}

# show TEXT: sets `shown` to it, on one line, with a question mark for each character that can't be
# shown, and without what is longer than a picture could hold.
show() {
    local LC_ALL=C.UTF-8
    shown=$1
    [ ${#shown} -le 400 ] || shown=${shown::399}…
    shown=${shown//[![:print:]]/?}
}

# measure TEXT: sets `columns` to what it takes in width. Letters of East Asia take two. Their codes
# become letters in this locale alone, and so not where bash reads the file. What capitals and
# digits take beyond one column, and M and W once more, is counted in hundredths.
measure() {
    local LC_ALL=C.UTF-8 others wide capitals digits widest
    printf -v others '[!\u1100-\u115f\u2e80-\uffdc\U1f300-\U3fffd]'
    wide=${1//$others/}
    capitals=${1//[![:upper:]]/} digits=${1//[!0-9]/} widest=${1//[!MW]/}
    columns=$((${#capitals} * 20 + ${#digits} * 5 + ${#widest} * 40))
    columns=$((${#1} + ${#wide} + (columns + 99) / 100))
}

# begin TEXT COLUMNS: sets `piece` to as much of its beginning as takes so many columns. No letter
# takes more than three, so a third as many letters as there are columns too many can go at once.
begin() {
    local LC_ALL=C.UTF-8
    piece=${1::$2}
    measure "$piece"
    while [ -n "$piece" ] && [ "$columns" -gt "$2" ]; do
        piece=${piece::${#piece} - (columns - $2 + 2) / 3}
        measure "$piece"
    done
}

# end TEXT COLUMNS: sets `piece` to as much of its end as takes so many columns.
end() {
    local LC_ALL=C.UTF-8
    piece=$1
    measure "$piece"
    while [ -n "$piece" ] && [ "$columns" -gt "$2" ]; do
        piece=${piece:(columns - $2 + 2) / 3}
        measure "$piece"
    done
}

# shorten TEXT COLUMNS: sets `piece` to all of it, or to its beginning and its end. Names often
# differ at their ends.
shorten() {
    local front
    measure "$1"
    if [ "$columns" -le "$2" ]; then
        piece=$1
    else
        begin "$1" $((($2 - 1) / 2))
        front=$piece
        end "$1" $(($2 / 2))
        piece=$front…$piece
    fi
}

# break_at_mark TEXT COLUMNS: cuts `piece`, the text's beginning, behind the last of `_-./` in it,
# if what follows there has room in so many columns.
break_at_mark() {
    local LC_ALL=C.UTF-8 front=${piece%"${piece##*[-_./]}"}
    measure "${1:${#front}}"
    [ -z "$front" ] || [ "$columns" -gt "$2" ] || piece=$front
}

# wrap TEXT COLUMNS LINES: sets `wrapped` to at most so many lines, each of at most so many columns.
# They are broken at blanks where there are some, and else behind a mark.
wrap() {
    local LC_ALL=C.UTF-8 rest=$1
    wrapped=()
    measure "$rest"
    while [ "$columns" -gt "$2" ] && [ ${#wrapped[@]} -lt $(($3 - 1)) ]; do
        begin "$rest" "$2"
        case $piece${rest:${#piece}:1} in
        *' ') ;;
        *' '*) piece=${piece% *} ;;
        *) break_at_mark "$rest" $(($2 * ($3 - 1 - ${#wrapped[@]}))) ;;
        esac
        wrapped+=("$piece")
        rest=${rest:${#piece}}
        rest=${rest# }
        measure "$rest"
    done
    shorten "$rest" "$2"
    wrapped+=("$piece")
}
