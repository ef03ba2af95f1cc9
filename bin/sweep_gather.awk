# Finds what is wrong with the rows that tasks have left. The file `verdict` has `good`, `damaged`
# and the number of a line whose counts do not agree, or `differ` and the numbers of two lines that
# are of one configuration, and differ. What is no whole row is left out. sweep_grid.awk and
# sweep_counts.awk are read before it.

BEGIN { said = "good" }
said != "good" || !is_whole() { next }
!counts_agree() { said = "damaged" OFS FNR; next }

{
    number = number_of_whole()
    if (!number) next
    if (!(number in row)) {
        row[number] = $0
        line_of[number] = FNR
    } else if (row[number] != $0) said = "differ" OFS line_of[number] OFS FNR
}

END { print said > made("verdict") }
