# Cuts runs further for a log, so that at an interrupt the parts that have ended are kept: the runs
# of a grid would else all end at nearly one time. Each part reads the trace anew. sweep_grid.awk is
# read before it, and sweep_plan.awk beside it.

# Work is counted in thousandths of what reading and two first-level caches do for a byte of the
# trace. A second or so is 400 million bytes of a recorded trace, or more, and 100 million of one
# that misses often. The parts of a run have at least `least` each, by their mean, and together at
# most `worst` times the work of the run. By how much a trace is packed is a guess.
BEGIN {
    least = 1000 * 250000000
    worst = 1.25
    packing = 5
}

part == "sizes" {
    for_log = 1
    split($0, size_word, " ")
    bytes[FNR] = size_word[3] * (unpacker[FNR] == "-" ? 1 : packing)
}

# cut_for_log(): the runs that were found.
function cut_for_log(   i, some, run_found) {
    some = runs
    for (i = 1; i <= some; i++) run_found[i] = found[i]
    runs = 0
    cuts_for_log = 1
    for (i = 1; i <= some; i++) cut(run_found[i], parts_of_run(run_found[i]))
}

# parts_of_run(LINE): as many as the work allows, which is twice as many again and again, so that
# cores which have as many runs have as many parts.
function parts_of_run(line,   before, whole, parts, work, some) {
    before = runs
    whole = work_of(line)
    for (parts = 1; parts * 2 <= size_of(line) && parts * 2 * least <= whole; parts *= 2) {
        cut(line, parts * 2)
        some = runs - before
        for (work = 0; runs > before; runs--) work += work_of(found[runs])
        if (work > whole * worst || work < some * least) break
    }
    return parts
}

# work_of(LINE): of a run, as recorded traces have it (docs/PERFORMANCE.md, "Sweeps"); others have
# more work that parts don't share. Caches of the first level that differ only in size and ways are
# one family, whose caches share most of their work. A pair of them has its own requests to the
# second level. To read the trace takes 30 % of that work, a family 35 %, and besides, a pair takes
# 12 %, and a second level 1.2 %. Values that belong to no cache are of all.
function work_of(line,   word, some, d, n, families, all, pairs, rows) {
    split(line, word, "\t")
    families["l1-i"] = families["l1-d"] = all = pairs = rows = 1
    for (d = 1; d <= dimensions; d++) {
        n = split(word[d + 1], some, ",")
        rows *= n
        if (cache_of(d) == "l2-u") continue
        pairs *= n
        if (!(cache_of(d) in families)) all *= n
        else if (varied[d] !~ /^l1-.(size|assoc)$/) families[cache_of(d)] *= n
    }
    n = 300 + 350 * all * (families["l1-i"] + families["l1-d"]) + 120 * pairs + 12 * rows
    return bytes[word[1]] * n
}

# cheapest_cut(WORD, PARTS): the option along which the run is cut in two with the least work. Of
# several it is one whose values make so many equal parts, and else the first. It is 0 if no option
# has several values.
function cheapest_cut(word, parts,   d, n, one, half, work, cost, is_even, found_one) {
    for (d = 1; d <= dimensions; d++) {
        n = split(word[d + 1], one, ",")
        if (n == 1) continue
        half = int((n + 1) / 2)
        work = work_of(with_values(word, one, d, 1, half))
        work += work_of(with_values(word, one, d, half + 1, n))
        if (found_one && (work > cost || work == cost && (is_even || n % parts))) continue
        found_one = d
        cost = work
        is_even = !(n % parts)
    }
    return found_one + 0
}
