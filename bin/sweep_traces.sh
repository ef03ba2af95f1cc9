# The traces of a call of sweep, and its list of machines, as files. Read by sweep.
# shellcheck shell=bash disable=SC2154,SC2034  # names that sweep and its other files set, or use

unpackers=()

# find_packer TRACE: sets `packer` to the command that unpacks it, if its first bytes are those of a
# packed file. They are read up to a zero byte, as the sixth of xz is, unless the file ends before.
find_packer() {
    local bytes ends=
    IFS= read -r -d '' -n 6 bytes < "$1" || ends=yes
    case $bytes$ends in
    $'\x1f\x8b'*) packer='zcat' ;;
    $'\xfd7zXZ') packer=xzcat ;;
    $'\x28\xb5\x2f\xfd'*) packer=zstdcat ;;
    BZh*) packer=bzcat ;;
    *) packer= ;;
    esac
}

# no_trace TRACE: it can't be read, and why.
no_trace() {
    [ "$1" != - ] || die 4 '- is no file, and a sweep takes files: bin/dinero_grid reads a pipe'
    [ ! -e "$1" ] || [ -f "$1" ] || [ -d "$1" ] || die 4 "no trace to read: $1: Not a regular file"
    unreadable trace "$1"
}

# check_trace TRACE: sets `unpacker` to the command that unpacks it, by the ending of its name, or
# to a hyphen.
check_trace() {
    local packer package
    [ ! -p "$1" ] || die 4 "$1 is a pipe, and a sweep takes files: bin/dinero_grid reads a pipe"
    case $1 in
    /dev/stdin | /dev/fd/* | /proc/*/fd/*)
        die 4 "$1 is another file for each run of a sweep: give the name of the file itself"
        ;;
    esac
    if [ ! -f "$1" ] || [ ! -r "$1" ]; then
        no_trace "$1"
    fi
    find_packer "$1"
    case $1 in
    *.gz) unpacker='zcat' package=gzip ;;
    *.xz) unpacker=xzcat package=xz-utils ;;
    *.zst) unpacker=zstdcat package=zstd ;;
    *) unpacker=- package= ;;
    esac
    [ -z "$package" ] || need "$unpacker" "$package"
    [ "${packer:--}" = "$unpacker" ] || refuse_trace "$1"
}

# refuse_trace TRACE: its name says other than its first bytes.
refuse_trace() {
    local ending
    case $packer in
    zcat) ending=.gz ;;
    xzcat) ending=.xz ;;
    zstdcat) ending=.zst ;;
    '')
        [ -s "$1" ] || die 4 "$1 is empty, though its name says that it is packed"
        die 4 "$1 is not packed, though its name says so"
        ;;
    *) die 4 "$1 is compressed: pipe it through $packer into a file, and take that" ;;
    esac
    die 4 "$1 is compressed: give it a name that ends in $ending, \
or pipe it through $packer into a file, and take that"
}

# check_once: no trace is given twice. Of several that are, the first in the order of bytes is
# named.
check_once() {
    local trace twice=
    local -A given=()
    for trace in "${traces[@]}"; do
        if [ -n "${given[$trace]-}" ] && [[ -z $twice || $trace < $twice ]]; then
            twice=$trace
        fi
        given[$trace]=yes
    done
    [ -z "$twice" ] || refuse "the trace $twice is given twice"
}

# check_kept TRACE: nothing that this call writes goes to it.
check_kept() {
    [ ! -f /dev/stdout ] || [ ! "$1" -ef /dev/stdout ] || refuse "$1 is where the table goes"
    [ -z "$log" ] || [ ! "$1" -ef "$log" ] || refuse "--resume: $log is a trace of this call"
    [ -z "$task" ] || [ ! "$1" -ef "$into/$rows_name" ] ||
        refuse "--into: $into/$rows_name, for the rows, is a trace of this call"
}

check_files() {
    local trace unpacker rows_name
    [ -z "$task" ] || name_rows
    for trace in "${traces[@]}"; do
        [ -n "$trace" ] || refuse 'the name of a trace is empty'
        [[ $trace != *[$'\t\n']* ]] || refuse 'the name of a trace has a tab or a line feed'
        check_kept "$trace"
        check_trace "$trace"
        unpackers+=("$unpacker")
    done
    check_once
    [ -z "$hosts" ] || { [ -r "$hosts" ] && [ ! -d "$hosts" ]; } ||
        unreadable 'list of machines' "$hosts"
}
