# Makes the columns of a row from a report of dinero_pipe: the totals of its three blocks, whose
# lines are told by their places, and no fault; or no totals, and why there is no report. With
# `full`, each total but the miss rate is followed by the counts of the classes, if it has any.

NR == 1 { first = $0 }
NR % 12 >= 2 && NR % 12 <= 11 {
    columns = split(substr($0, 19), column, " ")
    if (!full || NR % 12 == 4) columns = 1
    for (i = 1; i <= columns; i++) line = line column[i] "\t"
    counts += columns
}
END {
    all = full ? 90 : 30
    if (counts != all) {
        line = ""
        for (counts = 0; counts < all; counts++) line = line "-\t"
        sub(/^dinero_pipe: /, "", first)
    } else first = "-"
    print line first
}
