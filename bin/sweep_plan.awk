# Cuts a grid into runs. For each, the file `runs` has a line, and `commands` the line of shell that
# makes it. A configuration whose whole row was read needs no run. With `task` and `tasks`, these
# are the runs of one part of so many; with `slots`, so many can be made at once. With `part=sizes`,
# whose lines have the sizes of the traces in bytes as their third words, the runs are for a log,
# and sweep_parts.awk cuts them further. With `of` in place of all these, which is a number of tasks
# or `all`, for each configuration one, nothing is cut: the file `missing` has the numbers of the
# tasks that lack a row, such as `3,5-7`. sweep_grid.awk is read before it, and sweep_parts.awk and
# sweep_commands.awk beside it.

# What one call of dinero_grid takes.
BEGIN { most = 4096 }

# parts_of_trace(SOME): how many runs a trace is to have, of so many that have any. A run has
# one thread, so it fills one core. With fewer traces than cores, each is cut into as few parts as
# give all cores the same number of runs.
function parts_of_trace(some,   a, b, rest) {
    if (some >= slots) return 1
    a = slots
    b = some
    while (b > 0) {
        rest = a % b
        a = b
        b = rest
    }
    return slots / a
}

END {
    if (of) { find_missing(of == "all" ? cells : of); exit }
    printf "" > file("runs")
    printf "" > file("commands")
    if (tasks == cells) plan_row(task)
    else if (tasks) plan_task()
    else plan_rest()
}

function put_run(line) {
    print line > file("runs")
    print command_of(line) > file("commands")
}

# plan_row(N): a run of one configuration.
function plan_row(n,   d, line) {
    choose(n)
    line = chosen[0]
    for (d = 1; d <= dimensions; d++) line = line "\t" value[d, chosen[d]]
    put_run(line)
}

# plan_task(): the same runs are found for each task, each of which makes its share of them.
function plan_task(   i) {
    find_runs()
    for (i = 1; i <= runs; i++)
        if (task_of(i) == task) put_run(found[i])
}

function find_runs(   i, past, n) {
    cover_all()
    n = boxes
    for (i = 1; i <= n; i++) {
        cut(box[i], int((past + size[i]) * tasks / cells) - int(past * tasks / cells))
        past += size[i]
    }
}

# task_of(I): which one makes this run.
function task_of(i) {
    return runs <= tasks ? i : int((i - 1) * tasks / runs) + 1
}

# find_missing(SOME): of so many tasks. The runs are those of a grid without any row.
function find_missing(some,   i, lacks) {
    tasks = some
    for (i = 1; i <= cells; i++)
        if (!(i in row)) lacking[i]
        else if (tasks != cells) delete row[i]
    if (tasks < cells) {
        find_runs()
        for (i = 1; i <= runs; i++)
            if (lacks_row(found[i])) lacks[task_of(i)]
        print ranges_of(lacks) > made("missing")
    } else print (tasks == cells ? ranges_of(lacking) : "") > made("missing")
}

# lacks_row(LINE): a configuration of the run does.
function lacks_row(line) {
    read_run(line)
    return lacks_from(1, run[0] - 1)
}

function lacks_from(d, n,   some, one, i) {
    if (d > dimensions) return (n + 1) in lacking
    some = split(run[d], one, ",")
    for (i = 1; i <= some; i++)
        if (lacks_from(d + 1, n * count[d] + place[d, one[i]] - 1)) return 1
    return 0
}

# ranges_of(SET): of numbers up to that of the tasks.
function ranges_of(set,   i, first, text) {
    for (i = 1; i <= tasks; i++) {
        if (!(i in set)) continue
        for (first = i; (i + 1) in set; i++) continue
        text = text (text ? "," : "") first (i > first ? "-" i : "")
    }
    return text
}

# plan_rest(): of what is not done.
function plan_rest(   i, number, left, parts) {
    parts = parts_of_trace(cover_all())
    for (i = 1; i <= boxes; i++) left[box_trace[i]] += size[i]
    for (i = 1; i <= boxes; i++) cut(box[i], int(parts * size[i] / left[box_trace[i]] + 0.5))
    if (for_log) cut_for_log()
    for (i = 1; i <= runs; i++) put_run(found[i])
}

# cover_all(): finds boxes that together are all that is not done; how many traces have one.
function cover_all(   t, before, some) {
    for (t = 1; t <= traces; t++) {
        before = boxes
        cover(t, 1, marks_of_trace((t - 1) * cells_of_trace), t)
        some += boxes > before
    }
    return some
}

# marks_of_trace(PAST): a 1 for each of its configurations that is not done, and a 0 for the others.
# A long text that grows letter by letter would be copied as often.
function marks_of_trace(past,   i, marks, some) {
    for (i = 1; i <= cells_of_trace; i++) {
        some = some ((past + i) in row ? "0" : "1")
        if (i % 512 == 0) { marks = marks some; some = "" }
    }
    return marks some
}

# cover(T, D, MARKS, LINE): adds boxes for the marked configurations of a trace. LINE has the values
# of the options before D. Values below which the same is marked go together.
function cover(t, d, marks, line,   wide, i, slice, groups, group, list, marks_of) {
    if (d > dimensions) {
        box[++boxes] = line
        box_trace[boxes] = t
        size[boxes] = size_of(line)
        return
    }
    wide = length(marks) / count[d]
    for (i = 1; i <= count[d]; i++) {
        slice = substr(marks, (i - 1) * wide + 1, wide)
        if (!index(slice, "1")) continue
        if (is_alone(d)) cover(t, d + 1, slice, line "\t" value[d, i])
        else if (slice in group) list[group[slice]] = list[group[slice]] "," value[d, i]
        else {
            group[slice] = ++groups
            list[groups] = value[d, i]
            marks_of[groups] = slice
        }
    }
    for (i = 1; i <= groups; i++) cover(t, d + 1, marks_of[i], line "\t" list[i])
}

# size_of(LINE): how many configurations a run has.
function size_of(line,   word, some, d, n) {
    split(line, word, "\t")
    n = 1
    for (d = 1; d <= dimensions; d++) n *= split(word[d + 1], some, ",")
    return n
}

# cut(LINE, PARTS): adds runs of nearly one size, so many or more, by cutting the box in two.
function cut(line, parts,   word, one, d, n, half, share) {
    split(line, word, "\t")
    d = dimension_to_cut(word, parts)
    if (!d || parts <= 1 && size_of(line) <= most) {
        found[++runs] = line
        return
    }
    n = split(word[d + 1], one, ",")
    half = int((n + 1) / 2)
    share = int(parts * half / n + 0.5)
    if (share < 1) share = 1
    if (share > parts - 1) share = parts - 1
    cut(with_values(word, one, d, 1, half), share)
    cut(with_values(word, one, d, half + 1, n), parts - share)
}

# dimension_to_cut(WORD, PARTS): the first option that has several values in the box, since its
# values share least; but of the options of the same cache one whose values make so many equal
# parts, if there is any. It is 0 if no option has several values.
function dimension_to_cut(word, parts,   d, n, one, first) {
    if (cuts_for_log) return cheapest_cut(word, parts)
    for (d = 1; d <= dimensions; d++) {
        n = split(word[d + 1], one, ",")
        if (n == 1) continue
        if (!first) first = d
        if (parts > 1 && n % parts == 0 && cache_of(d) == cache_of(first)) return d
    }
    return first + 0
}

# cache_of(D): the cache that the option belongs to, by the beginning of its name: `l1-d`.
function cache_of(d) {
    return substr(varied[d], 1, 4)
}

# with_values(WORD, ONE, D, FIRST, LAST): a line in which the option D has some of its values.
function with_values(word, one, d, first, last,   i, line, list) {
    list = one[first]
    for (i = first + 1; i <= last; i++) list = list "," one[i]
    line = word[1]
    for (i = 1; i <= dimensions; i++) line = line "\t" (i == d ? list : word[i + 1])
    return line
}
