# A grid, as its description tells of it, and the whole rows that are there. The other programs of
# sweep are read behind this one. They are given the description first; then, with `part=rows`,
# whole rows, which the array `row` has by their numbers in the grid; and with another `part`, what
# only they see. What they make goes to files in the folder of the sweep.
#
# Each line of a description has its words between tabs:
#
#   counts NAME..            the columns of the simulator's table behind its options
#   option NAME VALUE        in the order of the simulator; the value is empty where a line below
#                            says more
#   vary NAME VALUES         the first varies slowest
#   with NAME OTHER          the first takes the value of the other in each row
#   shown NAME VALUE TEXT    how a full table has a value; only a description of one has such lines
#   trace SUM UNPACKER NAME  the sum tells one state of the file from another; a hyphen stands for
#                            none
#
# A whole row has a trace, its sum, the value of each option, the counts and the fault. A run is a
# trace and a list of values for each varied option; its line has the number of the trace first.

BEGIN {
    FS = OFS = "\t"
    cells_of_trace = 1
}

part == "" {
    if ($1 == "counts") {
        heads = substr($0, 8)
        head_count = NF - 1
        for (i = 2; i < NF; i++) count_form[i - 1] = form_of($i)
    } else if ($1 == "option") {
        option[++options] = $2
        column_of[$2] = options + 2
        value_of[$2] = $3
    } else if ($1 == "vary") {
        read_values($2, $3)
    } else if ($1 == "with") {
        tied[++ties] = $2
        lead[$2] = $3
        is_lead[$3] = 1
    } else if ($1 == "shown") {
        full = 1
        shown[$2, $3] = $4
    } else if ($1 == "trace") {
        read_trace()
    }
    next
}

part == "rows" {
    keep_row($0)
    next
}

# file(NAME): of the sweep's folder.
function file(name) {
    return ENVIRON["work"] "/" name
}

# made(NAME): of the sweep's folder, too, and made by this call alone.
function made(name) {
    return file(name "." ENVIRON["call"])
}

# keep_row(TEXT): a whole row, if it is of the grid.
function keep_row(text,   n) {
    $0 = text
    n = number_of_row()
    if (n) row[n] = text
}

function read_values(name, list,   one, i) {
    varied[++dimensions] = name
    dimension_of[name] = dimensions
    count[dimensions] = split(list, one, ",")
    for (i = 1; i <= count[dimensions]; i++) {
        value[dimensions, i] = one[i]
        place[dimensions, one[i]] = i
    }
    cells_of_trace *= count[dimensions]
}

# read_trace(): its name is the rest of the line. The traces stand behind the options.
function read_trace(   name) {
    name = substr($0, length($1 $2 $3) + 4)
    trace[++traces] = name
    trace_at[name] = traces
    sum_of[name] = $2
    unpacker[traces] = $3
    cells = traces * cells_of_trace
}

# is_alone(D): one run has one value of this option. dinero_grid takes no list of skipcount and
# maxcount. It knows products alone, so two options in step would cost it n * n configurations where
# n are wanted; another reading of the trace for each value costs less, since a configuration takes
# at least as long as a reading.
function is_alone(d) {
    return varied[d] in is_lead || varied[d] == "skipcount" || varied[d] == "maxcount"
}

# form_of(NAME): what a field of this column is like: a rate, or a count.
function form_of(name) {
    if (name ~ /-miss-rate$/) return "^[01][.][0-9][0-9][0-9][0-9][0-9][0-9]$"
    return "^(0|[1-9][0-9]*)$"
}

# is_whole(): the row that was read has all fields. The last one tells no fault, and the counts are
# numbers, or it tells one, and they are hyphens.
function is_whole(   i, before) {
    before = 2 + options
    if (NF != before + head_count || $NF == "") return 0
    if ($NF == "-") {
        for (i = 1; i < head_count; i++) if ($(before + i) !~ count_form[i]) return 0
    } else
        for (i = 1; i < head_count; i++) if ($(before + i) != "-") return 0
    return 1
}

# number_of_row(): of the row that was read, its number in the grid, or 0 if it is not of it.
function number_of_row() {
    return is_whole() ? number_of_whole() : 0
}

# number_of_whole(): the same of a whole row.
function number_of_whole(   i, name, n) {
    if (!($1 in trace_at) || $2 "" != sum_of[$1] "") return 0
    for (i = 1; i <= options; i++) {
        name = option[i]
        if (name in dimension_of) continue
        if ($(i + 2) "" != (name in lead ? $(column_of[lead[name]]) : value_of[name]) "") return 0
    }
    n = trace_at[$1] - 1
    for (i = 1; i <= dimensions; i++) {
        name = $(column_of[varied[i]])
        if (!((i, name) in place)) return 0
        n = n * count[i] + place[i, name] - 1
    }
    return n + 1
}

# choose(N): sets `chosen`, for the trace, which is 0, and each varied option to the place of its
# value in this row of the grid.
function choose(n,   d) {
    n--
    for (d = dimensions; d >= 1; d--) {
        chosen[d] = n % count[d] + 1
        n = (n - chosen[d] + 1) / count[d]
    }
    chosen[0] = n + 1
}

# read_run(LINE): sets `run`.
function read_run(line,   word, d) {
    split(line, word, "\t")
    run[0] = word[1]
    for (d = 1; d <= dimensions; d++) run[d] = word[d + 1]
}

# list_of(NAME): the values of an option in the run that was read.
function list_of(name) {
    if (name in dimension_of) return run[dimension_of[name]]
    return name in lead ? run[dimension_of[lead[name]]] : value_of[name]
}
