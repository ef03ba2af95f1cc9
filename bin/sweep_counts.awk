# Tells whether the counts of a whole row agree with one another, as those of the simulator do.
# sweep_grid.awk is read before it.

# find_columns(): where the fetches of each cache stand, and the columns that are sums of others;
# `behind` has how far another column is behind the fetches of its cache.
function find_columns(   i, head, place_of) {
    split(heads, head, "\t")
    for (i = 1; i < head_count; i++) place_of[head[i]] = 2 + options + i
    for (i = 1; i < head_count; i++) {
        if ((head[i] "-instr") in place_of) sum_at[++sums] = place_of[head[i]]
        if (head[i] !~ /-fetches$/) continue
        fetches_at[++caches] = place_of[head[i]]
        name_behind(substr(head[i], 1, length(head[i]) - 7), place_of)
    }
}

# name_behind(CACHE, PLACE_OF): the same for each cache.
function name_behind(cache, place_of,   i, n, kind) {
    n = split("misses miss-rate compulsory capacity conflict", kind, " ")
    for (i = 1; i <= n; i++)
        behind[kind[i]] = place_of[cache kind[i]] - place_of[cache "fetches"]
}

# counts_agree(): those of the row that was read, if it has no fault.
function counts_agree(   i, at) {
    if ($NF != "-") return 1
    if (!caches) find_columns()
    for (i = 1; i <= caches; i++) if (!cache_agrees(fetches_at[i])) return 0
    for (i = 1; i <= sums; i++) {
        at = sum_at[i]
        if ($at + 0 != $(at + 1) + $(at + 2) + $(at + 3) + $(at + 4)) return 0
    }
    return 1
}

# cache_agrees(AT): the counts of a cache, whose fetches stand there. One has at most 2^44 accesses.
function cache_agrees(at,   fetches, misses) {
    fetches = $at + 0
    misses = $(at + behind["misses"]) + 0
    if (fetches > 17592186044416 || misses > fetches) return 0
    if ($(at + behind["miss-rate"]) "" != rate(misses, fetches)) return 0
    return misses == $(at + behind["compulsory"]) + $(at + behind["capacity"]) + \
        $(at + behind["conflict"])
}

# rate(MISSES, FETCHES): with six decimals, rounded down. In steps of two of them, no number is too
# large to be exact.
function rate(misses, fetches,   rest, digits, step, two) {
    if (misses == fetches) return fetches ? "1.000000" : "0.000000"
    rest = misses
    for (step = 1; step <= 3; step++) {
        two = int(rest * 100 / fetches)
        rest = rest * 100 - two * fetches
        digits = digits * 100 + two
    }
    return sprintf("0.%06d", digits)
}
