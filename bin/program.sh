# The programs of the product: where they stand, what they are built from, and the kept ones.
# shellcheck shell=bash disable=SC2034,SC2154  # commands use what is set here, and set their names
#
# release/NAME.gz is the program NAME that the gate proved and built, and release/NAME.sums says
# what it was built from. Where that is what the checkout holds, nothing has to be proved here.

# Each command reads this file by its whole path.
top=${BASH_SOURCE[0]%/bin/*}
programs=(dinero_pipe dinero_grid)

# all_below CRATE: the crates that it is built from, each behind those that it uses, itself last.
all_below() {
    awk -v "crate=$1" '
        /^[a-z]/ {
            colon = index($0, ":")
            name = substr($0, 1, colon - 1)
            sub(/ .*/, "", name)
            uses[name] = substr($0, colon + 1)
        }
        function tell(name,   i, count, used) {
            if (name in told || !(name in uses)) return
            told[name]
            count = split(uses[name], used, " ")
            for (i = 1; i <= count; i++) tell(used[i])
            print name
        }
        END { tell(crate) }' "$top/crates.txt"
}

# sum_of FILE
sum_of() {
    sha256sum < "$1" | cut -d ' ' -f 1
}

# kept_word NAME WHAT: what the sums of the kept program NAME say of its sources, of the program
# itself, or of each toolchain that built this very program from these sources.
kept_word() {
    sed -n "s/^$2 //p" "$top/release/$1.sums" 2>/dev/null
}

# has_kept_word NAME WHAT WORD: the sums of the kept program NAME say this.
has_kept_word() {
    local word
    word=$(kept_word "$1" "$2")
    [ "$3" = "$word" ]
}

# list_sources CRATE: its line of crates.txt, and the sums of its code, definitions and proofs.
list_sources() {
    local part parts=("crates/$1/src")
    for part in specs proofs; do
        [ ! -d "$top/crates/$1/$part" ] || parts+=("crates/$1/$part")
    done
    grep -E "^$1( [^:]*)?:" "$top/crates.txt" || return
    (cd "$top" && find "${parts[@]}" -type f -print0 | LC_ALL=C sort -z | xargs -0 sha256sum)
}

# sum_of_sources NAME: of each crate that the program is built from, and of HANDLES.
sum_of_sources() {
    local name
    {
        for name in $(all_below "$1"); do
            list_sources "$name" || exit
        done
        cat "$top/HANDLES"
    } | sha256sum | cut -d ' ' -f 1
}

# find_sources NAME: sets `sources` to that sum.
find_sources() {
    sources=$(sum_of_sources "$1") || die 70 "the sources of $1 can't be read"
}

# is_by_toolchain NAME TOOLCHAIN: it is one of those that built the kept program.
is_by_toolchain() {
    kept_word "$1" toolchain | grep -Fqx -- "$2"
}

# find_built NAME: sets `built` to where the program stands.
find_built() {
    built=$top/crates/$1/out/$1
}

# standing NAME: the sum of a program's sources, and its own.
standing() {
    local built sources program
    find_built "$1"
    sources=$(sum_of_sources "$1")
    program=$(sum_of "$built")
    echo "$sources $program"
}

# note_standing NAME: writes it beside the program, as of a second before it was looked at. The file
# system tells the time, since its clock is the one that the sources have, and may be behind ours.
note_standing() {
    local built part began
    find_built "$1"
    part=$built.from.part$$
    leftovers+=("$part")
    : > "$part" && began=$(stat -c %Y -- "$part") && standing "$1" > "$part" &&
        touch -d "@$((began - 1))" -- "$part" && mv -fT -- "$part" "$built.from"
}

# is_untouched PLACE: by the file system's clock, which no `touch` turns back, nothing that standing
# looks at has changed since that time.
is_untouched() {
    local touched
    touched=$(find "$1" "$top/HANDLES" "$top/crates.txt" "$top"/crates/*/{src,specs,proofs} \
        -cnewer "$1.from" -print -quit 2>&1) && [ -z "$touched" ]
}

# is_current NAME: the program that stands there was built from what the checkout holds.
is_current() {
    local built noted
    find_built "$1"
    [ -x "$built" ] && [ -f "$built.from" ] || return
    is_untouched "$built" || {
        noted=$(< "$built.from")
        [ "$(standing "$1")" = "$noted" ] && { note_standing "$1" 2>/dev/null || true; }
    }
}

# unpack_kept NAME FILE: the kept program, if its sum is the one that was written down.
unpack_kept() {
    gzip -dc "$top/release/$1.gz" > "$2" 2>/dev/null &&
        has_kept_word "$1" program "$(sum_of "$2")"
}

# compare_kept NAME FILE: ends the command unless this is the kept program, and of these sources.
# Other toolchains may have built the same bits before; what is compared is what was built here.
compare_kept() {
    local kept sources
    find_sources "$1"
    make_temporary
    kept=$temporary/$1
    unpack_kept "$1" "$kept" || die 1 "release/$1.gz is missing or damaged"
    cmp -s "$kept" "$2" || die 1 "the kept program $1 is not the one that was built"
    has_kept_word "$1" sources "$sources" ||
        die 1 "release/$1.sums is of other sources"
    echo "release/$1.gz is, bit for bit, the program that was built"
    is_by_toolchain "$1" "$(rt version)" ||
        echo "release/$1.sums does not name the toolchain that built it here; bin/release adds it"
}

# What somebody can do to whom the checkout is closed.
way_out='its owner can call this once, or bin/install PREFIX, which makes programs that need no checkout'

# suits NAME: the kept program is of these sources, and the toolchain that is installed, if any is,
# is one that built it. Else `lack` says why it is not taken.
suits() {
    local sources
    lack="release/$1.sums is missing or damaged"
    [ -n "$(kept_word "$1" sources)" ] || return
    find_sources "$1"
    lack='it is of other sources'
    has_kept_word "$1" sources "$sources" || return
    lack='another toolchain than the one here has built it'
    ! command -v rt >/dev/null || is_by_toolchain "$1" "$(rt version)"
}

# put_kept NAME: the kept program into its place, if it runs there. Else `lack` says why not.
put_kept() {
    local built part
    find_built "$1"
    part=$built.part$$
    leftovers+=("$part")
    { mkdir -p -- "${built%/*}" && : > "$part"; } 2>/dev/null ||
        die 70 "the kept $1 can't be put into ${built%/*}; $way_out"
    lack="release/$1.gz is missing or damaged"
    if unpack_kept "$1" "$part"; then
        lack="it does not run in ${built%/*}"
        if chmod +x -- "$part" && "$part" --help && mv -fT -- "$part" "$built"; then
            note_standing "$1" || true
            return
        fi >/dev/null 2>&1
    fi
    rm -f -- "$part"
    return 1
}

# launch WORD..: becomes the program that the command is named for.
launch() {
    local built
    tidy_up_with remove_leftovers
    build_where_needed "$self"
    find_built "$self"
    exec "$built" "$@"
}

# build_where_needed NAME: puts the program in its place, unless it stands there.
build_where_needed() {
    ! is_current "$1" || return 0
    if suits "$1" && put_kept "$1"; then
        complain "unpacked the kept $1, which was proved and built from these very sources; \
bin/prove proves and builds it here"
    else
        complain "the kept $1 is not taken: $lack"
        . "$top/bin/build.sh"
        build "$1"
    fi
}
