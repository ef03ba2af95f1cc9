# Makes whole rows of what runs have printed. The lines that it reads have the number of a run, and
# the run. The rows of those that would end so again go to the file `rows`. The file `verdict` has
# two words for each run: `whole`, or `again` if another run of the same could end otherwise; and
# the fault of the run, which is a hyphen if there is none. sweep_grid.awk is read before it.

BEGIN { printf "" > made("rows") }

{ take_run($1, substr($0, length($1) + 2)) }

# take_run(N, LINE): what it has printed is in the file `raw.N`, if there is one.
function take_run(n, line,   raw, text) {
    read_run(line)
    find_head()
    lines = rows = in_table = is_cut = is_other = 0
    said = ended = unpacked = packer_said = ""
    raw = file("raw." n)
    while ((getline text < raw) > 0) take_line(text)
    close(raw)
    end_run()
}

# find_head(): sets `head` to the names of the options for which the run has a column, and `labels`
# to how many these are.
function find_head(   i) {
    labels = 0
    head = ""
    for (i = 1; i <= options; i++)
        if (has_column(option[i])) {
            labels++
            head = head option[i] "\t"
        }
}

function take_line(text,   field) {
    if (text ~ /^unpacked [0-9]+$/) unpacked = substr(text, 10) + 0
    else if (text ~ /^ended [0-9]+$/) {
        ended = substr(text, 7)
        in_table = 0
    } else if (!in_table && text == head heads) in_table = 1
    else if (in_table) {
        line_of_table[++lines] = text
        if (split(text, field, "\t") != labels + head_count) is_cut = 1
    } else {
        if (said == "" || is_ours(text) && !is_ours(said)) said = text
        if (text != "" && !is_ours(text) && unpacked == "") packer_said = text
    }
}

# is_ours(TEXT): it is the simulator that has said it, and not what unpacks the trace.
function is_ours(text) {
    return text ~ /^dinero_grid: /
}

function end_run() {
    sub(/^dinero_grid: /, "", said)
    gsub(/\t/, " ", said)
    if (said == "" || ended == "") said = "not simulated"
    make_rows(1)
    # A simulator that has refused the trace hears no more of it, and the unpacker is cut off.
    if (unpacked && (unpacked < 128 || is_table()))
        give_fault("again", unpacker[run[0]] " ended with status " unpacked reason())
    else if (is_table()) give_table()
    else give_fault(ended == 1 || ended == 2 ? "whole" : "again", said)
}

# reason(): what the unpacker has said last, without the names in front, if it has said anything. Of
# one that was killed, a shell may say so.
function reason() {
    if (unpacked >= 128) return ""
    sub(/^.*: /, "", packer_said)
    gsub(/\t/, " ", packer_said)
    sub(/ +$/, "", packer_said)
    return packer_said == "" ? "" : ": " packer_said
}

# has_column(NAME): of an option, in what the run has printed.
function has_column(name) {
    return full || index(list_of(name), ",")
}

# make_rows(I): for all values of the options from the I-th on, in the order in which the run prints
# them: `front` has a row up to its counts, and `label` what its line begins with.
function make_rows(i,   n, some, j) {
    if (i > options) {
        make_row()
        return
    }
    n = split(list_of(option[i]), some, ",")
    for (j = 1; j <= n; j++) {
        now[option[i]] = some[j]
        make_rows(i + 1)
    }
}

function make_row(   i, name) {
    rows++
    front[rows] = trace[run[0]] "\t" sum_of[trace[run[0]]]
    label[rows] = ""
    for (i = 1; i <= options; i++) {
        name = option[i]
        front[rows] = front[rows] "\t" now[name]
        if (!has_column(name)) continue
        label[rows] = label[rows] (full ? shown[name, now[name]] : now[name]) "\t"
    }
    if (substr(line_of_table[rows], 1, length(label[rows])) != label[rows]) is_other = 1
}

function is_table() {
    return (ended == "0" || ended == "5") && lines == rows && !is_cut && !is_other
}

function give_table(   i) {
    print "whole", "-" > made("verdict")
    for (i = 1; i <= rows; i++) give_row("whole", i, substr(line_of_table[i], length(label[i]) + 1))
}

function give_fault(how, fault,   i, hyphens) {
    print how, fault > made("verdict")
    for (i = 1; i < head_count; i++) hyphens = hyphens "-\t"
    for (i = 1; i <= rows; i++) give_row(how, i, hyphens fault)
}

function give_row(how, i, counts) {
    if (how == "whole") print front[i], counts > made("rows")
    keep_row(front[i] "\t" counts)
}
