# Chooses the points of a picture from a table of bin/sweep on standard input. The words behind the
# program are KIND CACHE OVER BY and then those of --only, each OPTION=VALUE. KIND is `rates`,
# `kinds`, or `whole` for kinds by whole counts; CACHE, OVER and BY are empty where none was given.
#
# Prints the title, and the label of the axis; on a line what is on the axis, `size`, `ways`,
# `interval` or `other`, the bytes of its unit, the least and the most place on it, the name of the
# place behind all others, or `-`, the number of groups, and how many lines were left out for their
# faults; the name of each group on a line of its own; and then a line for each point: its group,
# its place on the axis, which is 9 * 10^18 for the one behind all others, and as percentages of the
# accesses its misses or their three kinds. If it fails, it prints why and nothing else.
# plot_names.awk and plot_places.awk are read before it.

BEGIN {
    FS = "\t"
    far_away = 9e18
    far = "-"
    kind = ARGV[1]
    cache = ARGV[2]
    over = ARGV[3]
    by = ARGV[4]
    for (i = 5; i < ARGC; i++) only[++conditions] = ARGV[i]
    ARGC = 1
}

function fail(text) {
    print text
    failed = 1
    exit 1
}

# need_column(NAME): the table has it.
function need_column(name) {
    if (!(name in at)) fail("the table has no column " name)
}

# need_option(NAME): the table has a column of this option.
function need_option(name) {
    need_column(name)
    if (is_count(name)) fail("the column " name " is no option")
}

# column_of(OPTION): the column of an option, which may be written as for bin/sweep.
function column_of(option,   bare) {
    bare = option
    return !(option in at) && sub(/^--/, "", bare) && bare in at ? bare : option
}

# choose_lines(): by the words of --only. Each of their columns is a choice.
function choose_lines(   i, split_at, column) {
    for (i = 1; i <= conditions; i++) {
        split_at = index(only[i], "=")
        column = column_of(substr(only[i], 1, split_at - 1))
        if (column == "fault") need_column(column)
        else need_option(column)
        if (!(column in is_chosen)) choice[++choices] = column
        is_chosen[column]
        wanted[column, plain(column, substr(only[i], split_at + 1))] = only[i]
    }
}

function read_names(   i, counts) {
    columns = NF
    for (i = 1; i <= NF; i++) {
        if ($i in at) fail("the table has two columns " $i)
        name[i] = $i
        at[$i] = i
        if (is_count($i) && $i != "fault") counts++
    }
    if (!counts) fail("no table of bin/sweep")
    choose_lines()
    over = column_of(over)
    by = column_of(by)
}

# has_fault(): the line says so.
function has_fault() {
    return "fault" in at && $at["fault"] != "-"
}

# is_wanted(): each column of --only has one of the values that were given for it.
function is_wanted(   column, text, all) {
    all = 1
    for (column in is_chosen) {
        text = plain(column, $at[column])
        if (!((column, text) in wanted)) all = 0
        else if (!has_fault()) found[column, text]
    }
    return all
}

# A line may end in CR and LF.
{ sub(/\r$/, "") }
NR == 1 { read_names(); next }
NF != columns { fail("line " NR ": " NF " fields, where the names are " columns) }
!is_wanted() { next }
has_fault() {
    if (!faults++) first_fault = "line " NR ": " $at["fault"]
    next
}
{
    line[++lines] = $0
    number_of[lines] = NR
}

# read_line(I): the fields are those of the I-th line that was chosen.
function read_line(i) {
    $0 = line[i]
    here = "line " number_of[i] ": "
}

# number(COLUMN): what stands there in this line, which has to be digits.
function number(column,   text) {
    text = $at[column]
    if (text !~ /^[0-9]+$/ || length(text) > 15) fail(here column " is no number: " text)
    return text + 0
}

# is_numeral(TEXT): digits, and k or m behind them.
function is_numeral(text) {
    return text ~ /^[0-9]+[kKmM]?$/ && length(text) <= 13
}

# worth(NUMERAL): its number.
function worth(numeral) {
    return numeral * (numeral ~ /[kK]$/ ? 1024 : numeral ~ /[mM]$/ ? 1048576 : 1)
}

# plain(COLUMN, TEXT): a value of the column as all texts of the same value have it.
function plain(column, text) {
    return is_amount(column) && is_numeral(text) ? sprintf("%.0f", worth(text)) : text
}

# amount(COLUMN): what stands there in this line, which has to be a numeral.
function amount(column,   text) {
    text = $at[column]
    if (!is_numeral(text))
        fail(here column " is no " (is_size(column) ? "size" : "number") ": " text)
    return worth(text)
}

# varies(COLUMN): it has several values in the lines that were chosen.
function varies(column,   i, first, value) {
    for (i = 1; i <= lines; i++) {
        read_line(i)
        value = plain(column, $at[column])
        if (i == 1) first = value ""
        else if (value "" != first) return 1
    }
    return 0
}

# varied_cache(): the cache whose size is varied. With one size in the table, it is that one's.
function varied_cache(   i, sizes, some, several, one, caches) {
    for (i = 1; i <= columns; i++)
        if (name[i] ~ /^l[12]-[idu]size$/) { sizes++; one = cache_of(name[i]) }
    if (!sizes)
        fail("no size is varied: choose " (over == "" ? "the axis by --over" : "by --cache"))
    if (sizes == 1) return one
    for (i = 1; i <= columns; i++)
        if (name[i] ~ /^l[12]-[idu]size$/ && varies(name[i])) {
            several++
            caches = caches " " cache_of(name[i])
        }
    if (!several) fail("the lines vary no size: choose by --cache")
    if (several > 1) fail("the table varies several sizes: choose by --cache one of" caches)
    return substr(caches, 2)
}

# choose_columns(): the cache, the options of the axis and of the groups, and the counts.
function choose_columns(   prefix) {
    if (over != "") need_option(over)
    if (by != "") need_option(by)
    if (cache == "" && over != "") cache = cache_of(over)
    if (cache == "") cache = varied_cache()
    prefix = substr(cache, 1, 4)
    if (over == "") over = size_of(prefix)
    if (by == "" && over != prefix "assoc" && (prefix "assoc") in at) by = prefix "assoc"
    if (by == "" && over != prefix "size" && (prefix "size") in at) by = prefix "size"
    if (by == over) fail(over " can't be both the axis and the groups")
    draw_count("-fetches")
    if (kind != "kinds") draw_count("-misses")
    if (kind != "rates") draw_count("-compulsory")
    if (kind == "kinds") { draw_count("-capacity"); draw_count("-conflict") }
    if (kind == "whole") draw_count("-fully-associative-misses")
}

# size_of(PREFIX): the option of a cache's size, if the table has it.
function size_of(prefix) {
    if (!((prefix "size") in at))
        fail("the table has no column " prefix "size: choose the axis by --over")
    return prefix "size"
}

# draw_count(COUNT): the table has it of the cache, and the picture depends on it.
function draw_count(count) {
    need_column(cache count)
    drawn[cache count]
}

# share(COUNT): of the accesses, as a percentage.
function share(count,   accesses) {
    accesses = number(cache "-fetches")
    if (accesses < count) fail(here "more misses than accesses of " cache)
    return sprintf("%.6f", accesses > 0 ? 100 * count / accesses : 0)
}

# shares(): of the line that was read.
function shares(   compulsory, capacity, conflict, all) {
    if (kind == "rates") return share(number(cache "-misses"))
    compulsory = number(cache "-compulsory")
    if (kind == "kinds") {
        capacity = number(cache "-capacity")
        conflict = number(cache "-conflict")
    } else {
        all = number(cache "-fully-associative-misses")
        if (all < compulsory)
            fail(here "fewer fully associative misses than compulsory ones of " cache)
        capacity = all - compulsory
        conflict = number(cache "-misses") - all
    }
    share(compulsory + capacity + conflict)
    return share(compulsory) "\t" share(capacity) "\t" share(conflict)
}

# group_of_line(): the group of the line that was read, by the order in which they came.
function group_of_line(   value) {
    value = (by == "" ? "" : is_amount(by) ? sprintf("%.0f", amount(by)) : $at[by])
    if (!(value in group)) {
        group[value] = ++groups
        if (groups > most_groups()) fail("more than " most_groups() " groups: choose by --only")
        value_of[groups] = value
        if (value !~ /^[0-9]+$/) has_words = 1
    }
    return group[value]
}

# most_groups(): no picture has room for more. Below the bars, the largest one has the smallest
# letters 2,673 times, and a name takes three. All names of lines, which differ, are below 128 KiB.
function most_groups() {
    return kind == "rates" ? 50000 : 900
}

# class(): of what is on the axis.
function class() {
    if (is_interval(over)) return "interval"
    return is_size(over) ? "size" : is_ways(over) ? "ways" : "other"
}

# rank_groups(): finds the place of each group in the picture, by merging twice as many at a time.
function rank_groups(   i, wide) {
    for (i = 1; i <= groups; i++) ranked[i] = i
    for (wide = 1; wide < groups; wide *= 2) {
        for (i = 1; i <= groups; i += 2 * wide) merge(i, i + wide, i + 2 * wide)
        for (i = 1; i <= groups; i++) ranked[i] = merged[i]
    }
    for (i = 1; i <= groups; i++) rank[ranked[i]] = i
}

# merge(I, J, LAST): those from the I-th on and those from the J-th on, before the last, are each in
# their order; in `merged` all of them are.
function merge(i, j, last,   at, middle) {
    middle = j
    if (last > groups + 1) last = groups + 1
    for (at = i; at < last; at++)
        if (j >= last || i < middle && goes_before(ranked[i], ranked[j])) merged[at] = ranked[i++]
        else merged[at] = ranked[j++]
}

# goes_before(J, I): numbers are in their order. Words, and numbers that are equal, such as 1 and
# 01, are in that of the table.
function goes_before(j, i,   apart) {
    apart = has_words ? 0 : place_of(by, value_of[j]) - place_of(by, value_of[i])
    return apart < 0 || (apart == 0 && j < i)
}

END {
    if (failed) exit 1
    if (!NR) fail("no table of bin/sweep")
    for (i in wanted)
        if (!(i in found)) fail("no line without a fault has " wanted[i])
    if (!lines && faults) fail("each line has a fault, the first: " first_fault)
    if (!lines) fail("no line of the table is left")
    choose_columns()
    keep_points()
    rank_groups()
    print title()
    print axis()
    printf "%s %d %.0f %.0f %s %d %d\n", class(), unit, least, most, far, groups, faults
    for (i = 1; i <= groups; i++) print (by == "" ? "" : label(by, value_of[ranked[i]]))
    for (i = 1; i <= lines; i++) if (i in point) print rank[group_at[i]] "\t" point[i]
}
