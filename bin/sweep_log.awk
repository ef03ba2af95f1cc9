# Puts the rows of a log that are of the grid into the file `pending`. With `forgets`, all of the
# log goes to the file `left` in its place, but damaged lines, and the rows of those traces of the
# grid that have changed. A line is damaged if it is no whole row, or if its counts do not agree;
# and so are rows of one configuration, and one state of its trace, that differ. The file `verdict`
# has a line for what is to be said of the log: `good`, `damaged` and the number of a line, `differ`
# and the numbers of two, or `changed` and the name of a trace. Its second line has how many
# configurations of the grid are in the log, how many the grid has, and how many lines are to be
# left, and how many are not. The first line of the log has the names. sweep_grid.awk and
# sweep_counts.awk are read before it.

BEGIN {
    said = "good"
    found = left = gone = 0
}

FNR == 1 {
    if (forgets) print > made("left")
    for (i = -1; i <= options; i++) front = front "[^\t]*\t"
    next
}

!is_whole() || !counts_agree() { gone++; if (!damaged) damaged = FNR; next }
$1 in trace_at && $2 "" != sum_of[$1] "" { said = "changed" OFS $1; gone++; next }

{
    note_row()
    number = number_of_whole()
    if (!number) next
    if (!(number in row)) found++
    row[number] = 1
    if (!forgets) print > file("pending")
}

# note_row(): what stands before its counts, which tells its configuration and its trace, and they.
function note_row(   key, counts) {
    match($0, front)
    key = substr($0, 1, RLENGTH)
    counts = substr($0, RLENGTH + 1)
    key_at[++noted] = key
    if (!(key in counts_of)) {
        counts_of[key] = counts
        line_of[key] = FNR
    } else if (counts != counts_of[key]) {
        if (!differing) differing = line_of[key] OFS FNR
        differs[key]
    }
}

# leave_rows(): counts those that do not differ from others, and writes them.
function leave_rows(   i) {
    for (i = 1; i <= noted; i++) {
        if (key_at[i] in differs) { gone++; continue }
        left++
        if (forgets) print key_at[i] counts_of[key_at[i]] > made("left")
    }
}

END {
    leave_rows()
    if (damaged) said = "damaged" OFS damaged
    else if (differing) said = "differ" OFS differing
    print said > made("verdict")
    print found, cells, left, gone > made("verdict")
}
