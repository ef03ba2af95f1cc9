# Makes lines of the table from whole rows, which come in any order. The names of the columns are
# line 0. The file `lines` has how many of those that it makes have a fault, how many lines the grid
# has, and of the first fault its line in the table and its text, if there is one; then the lines,
# from number `from` on, as far as there is a row for each, or with `all` to the end of the grid.
# The rows that are left go to the file `pending`. sweep_grid.awk is read before it.

BEGIN { missing = "not simulated" }

END {
    for (n = from; n <= cells && (n == 0 || all || n in row); n++)
        if (n > 0 && !(n in row && row[n] ~ /\t-$/)) note_fault(n)
    print faults + 0, cells, first_fault > made("lines")
    to = n
    for (n = from; n < to; n++) print line_of(n) > made("lines")
    printf "" > file("pending")
    # What is taken from an index is a text, and would be compared as one.
    for (n in row) if (n + 0 >= to) print row[n] > file("pending")
}

# note_fault(N): counts it. The first line of the table has the names.
function note_fault(n,   text) {
    if (faults++) return
    text = n in row ? row[n] : missing
    sub(/^.*\t/, "", text)
    first_fault = n + 1 OFS text
}

function line_of(n) {
    return n == 0 ? names() : label_of(n) "\t" counts_of(n)
}

function names(   text, i) {
    text = "trace"
    if (full)
        for (i = 1; i <= options; i++) text = text "\t" option[i]
    else {
        for (i = 1; i <= dimensions; i++) text = text "\t" varied[i]
        for (i = 1; i <= ties; i++) text = text "\t" tied[i]
    }
    return text "\t" heads
}

function label_of(n,   text, i) {
    choose(n)
    text = trace[chosen[0]]
    if (full)
        for (i = 1; i <= options; i++) text = text "\t" shown[option[i], chosen_of(option[i])]
    else {
        for (i = 1; i <= dimensions; i++) text = text "\t" chosen_of(varied[i])
        for (i = 1; i <= ties; i++) text = text "\t" chosen_of(tied[i])
    }
    return text
}

# chosen_of(NAME): the value of an option in the row that was chosen.
function chosen_of(name,   d) {
    if (name in lead) name = lead[name]
    if (!(name in dimension_of)) return value_of[name]
    d = dimension_of[name]
    return value[d, chosen[d]]
}

function counts_of(n,   text, field, i) {
    if (!(n in row)) {
        for (i = 1; i < head_count; i++) text = text "-\t"
        return text missing
    }
    split(row[n], field, "\t")
    text = field[3 + options]
    for (i = 2; i <= head_count; i++) text = text "\t" field[2 + options + i]
    return text
}
