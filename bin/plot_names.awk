# The words of a picture: what the options of the simulator and their values are called. Read before
# plot_points.awk, whose names it uses.

# is_count(NAME): the column has counts, or the fault, and is no option.
function is_count(name) {
    return name == "fault" || name ~ /^(l1-icache|l1-dcache|l2-ucache)-/
}

function is_size(name) {
    return name ~ /^(l1-[id]|l2-u)b?size$/
}

function is_ways(name) {
    return name ~ /^(l1-[id]|l2-u)assoc$/
}

# is_amount(NAME): the option has no values but amounts.
function is_amount(name) {
    return is_size(name) || is_ways(name)
}

# is_interval(OPTION): it counts references, and its 0 means that they never come to an end.
function is_interval(option) {
    return option == "flushcount" || option == "maxcount"
}

# is_endless(OPTION, VALUE): it is that 0.
function is_endless(option, value) {
    return is_interval(option) && value ~ /^0+$/
}

# endless(OPTION): what that 0 is called.
function endless(option) {
    return option == "flushcount" ? "never" : "all"
}

# cache_of(OPTION): the cache that it is of, or nothing.
function cache_of(option) {
    if (option ~ /^l1-i/) return "l1-icache"
    if (option ~ /^l1-d/) return "l1-dcache"
    if (option ~ /^l2-u/) return "l2-ucache"
    return ""
}

# sized(BYTES): in the largest unit that needs no fraction.
function sized(bytes) {
    if (bytes >= 1048576 && bytes % 1048576 == 0) return sprintf("%.0f MiB", bytes / 1048576)
    if (bytes >= 1024 && bytes % 1024 == 0) return sprintf("%.0f KiB", bytes / 1024)
    return sprintf("%.0f bytes", bytes)
}

# blocks_of(BYTES): blocks of that size.
function blocks_of(bytes) {
    bytes = sized(bytes)
    sub(/ bytes$/, "-byte", bytes)
    sub(/ /, "-", bytes)
    return bytes " blocks"
}

# policy(OPTION, VALUE): the name of a policy, or nothing.
function policy(option, value) {
    option = substr(option, 5) value
    if (option == "repll") return "LRU"
    if (option == "replf") return "FIFO"
    if (option == "wbacka") return "write-back"
    if (option == "wbackn") return "write-through"
    if (option == "walloca") return "write allocate"
    if (option == "wallocn") return "no write allocate"
    return ""
}

# label(OPTION, VALUE): sizes and ways are numbers.
function label(option, value,   text) {
    if (option == "trace") return trace_name(value)
    if (is_ways(option)) text = value (value == 1 ? " way" : " ways")
    else if (option ~ /bsize$/ && is_size(option)) text = blocks_of(value)
    else if (is_size(option)) text = sized(value)
    else text = cache_of(option) == "" ? "" : policy(option, value)
    if (text == "") return option " " (is_endless(option, value) ? endless(option) : value)
    return (cache_of(option) == cache ? "" : cache_of(option) " ") text
}

# trace_name(TRACE): without its folder, unless another trace is then called so too.
function trace_name(trace,   other, short) {
    short = without_folder(trace)
    if (by != "trace") return short
    if (!(short in called_so)) for (other in group) called_so[without_folder(other)]++
    return called_so[short] > 1 ? trace : short
}

function without_folder(trace) {
    sub(/.*\//, "", trace)
    return trace
}

# title(): what all points have in common, as far as the table knows it: the trace and the cache
# with its options, and what else was chosen. Lines with a fault are never drawn.
function title(   options, count, i, prefix, text, is_told) {
    text = common("trace")
    text = (text == "" ? "" : text ", ") cache
    prefix = substr(cache, 1, 4)
    count = split("size assoc bsize repl wback walloc", options, " ")
    for (i = 1; i <= count; i++) text = text in_title(prefix options[i], is_told)
    is_told["trace"]
    is_told["fault"]
    for (i = 1; i <= choices; i++) text = text in_title(choice[i], is_told)
    return text
}

# in_title(OPTION, IS_TOLD): its part of the title, unless it is told there before.
function in_title(option, is_told,   text) {
    if (option in is_told) return ""
    is_told[option]
    text = common(option)
    return text == "" ? "" : ", " text
}

# common(OPTION): its label, if it has one value in all points.
function common(option) {
    if (!(option in at) || option == over || option == by || varies(option)) return ""
    return label(option, is_amount(option) ? amount(option) : $at[option])
}

# axis(): its label. Sizes have a unit.
function axis(   text) {
    unit = 1
    text = over
    if (is_ways(over)) text = "ways of " cache_of(over)
    if (!is_size(over)) return text
    unit = is_in_bytes || !least ? 1 : is_in_kib ? 1024 : 1048576
    text = (over ~ /bsize$/ ? "block size of " : "size of ") cache_of(over)
    return text " (" (unit == 1 ? "bytes" : unit == 1024 ? "KiB" : "MiB") ")"
}
