# Prints the rows of a table of bin/sweep with what a report has too: without the fully associative
# misses, and with four decimals of each miss rate.

BEGIN { FS = "\t" }
NR == 1 {
    for (i = 1; i <= NF; i++) {
        if ($i ~ /-fully-associative-misses/) is_left_out[i]
        if ($i ~ /-miss-rate$/) is_rate[i]
    }
    next
}
{
    line = ""
    for (i = 1; i <= NF; i++) {
        if (i in is_left_out) continue
        if (i in is_rate && $i != "-") sub(/..$/, "", $i)
        line = line (i > 1 ? "\t" : "") $i
    }
    print line
}
