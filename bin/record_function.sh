# Where the functions of --from and --until stand in memory. Read by record.
# shellcheck shell=bash disable=SC2154,SC2034  # names that record sets, or uses

# find_functions: the addresses of both, as lackey prints them.
find_functions() {
    local file base=0 address
    need nm binutils
    # What stands behind the name keeps the line feeds at its end.
    file=$(type -P -- "${program[0]}" && echo .) || die 127 "no program to run: ${program[0]}"
    file=${file%$'\n.'}
    # nm takes a word that begins with a hyphen or an @ for one of its own.
    [[ $file == /* ]] || file=./$file
    [ -r "$file" ] || die 126 "${program[0]} can't be read, so its functions are not known"
    if is_position_independent "$file"; then
        base=$(base_of_others) || die 70 "where valgrind puts ${program[0]} is not known; link it with -no-pie"
    fi
    if [ -n "$from" ]; then
        find_function --from "$from" "$file" "$base"
        from_address=$address
    fi
    if [ -n "$until" ]; then
        find_function --until "$until" "$file" "$base"
        until_address=$address
    fi
}

# is_position_independent FILE: the header's word for the kind of the file is 3.
is_position_independent() {
    [ "$(od -A n -j 16 -N 2 -t u1 < "$1" 2>/dev/null | tr -d ' \n')" = 30 ]
}

# base_of_others: where valgrind puts such programs, as it says of one that does nothing.
base_of_others() {
    is_position_independent "$(type -P true)" &&
        valgrind --command-line-only=yes --vgdb=no --tool=none --trace-symtab=yes -- \
            "$(type -P true)" 2>&1 |
        sed -nE '0,/ bias 0x/s/.* bias (0x[0-9a-f]+)$/\1/p' | grep .
}

# find_function OPTION FUNCTION FILE BASE: puts into `address` where the one of this name begins.
find_function() {
    address=$({ nm "$3" 2>/dev/null || echo; } | NAME=$2 LC_ALL=C awk -f "$here/record_function.awk") ||
        refuse "$1: nm finds no function '$2' in ${program[0]}$address"
    [[ $address != *$'\n'* ]] ||
        refuse "$1: nm finds several functions '$2' in ${program[0]}"
    printf -v address '%08x' $((16#$address + $4))
}
