# How a program of the product is proved and built. Read behind program.sh.
# shellcheck shell=bash disable=SC2154  # names that program.sh and the commands set

# uses CRATE: the crates of the repository that it names in crates.txt.
uses() {
    local name names
    read -ra names <<<"$(sed -nE "s/^$1( [^:]*)?://p" "$top/crates.txt")"
    for name in "${names[@]}"; do
        [ ! -d "$top/crates/$name" ] || echo "$name"
    done
}

# can_hold FOLDER: it can be written, or made.
can_hold() {
    if [ -e "$1" ]; then
        [ -d "$1" ] && [ -w "$1" ]
    else
        [ -w "$(dirname -- "$1")" ]
    fi
}

# may_write NAME: a stale checkout that can't be written can't be built either.
may_write() {
    local name
    for name in $(all_below "$1"); do
        can_hold "$top/crates/$name/out" ||
            die 70 "$1 is missing or older than its sources, and $top/crates/$name/out can't be written; $way_out"
    done
}

# build NAME: proves each crate that the program is built from, and then the program, which is built
# by a run of it on its crate's own words and trace.
build() {
    local began=$SECONDS log total sources built
    find_built "$1"
    may_write "$1"
    find_sources "$1"
    command -v rt >/dev/null || die 69 "rt is missing: $1 is built by the Rattle toolchain"
    total=$(all_below "$1" | wc -l)
    complain "proving and building $1 from $total crates, once; this takes about 15 minutes on 4 cores"
    make_temporary
    log=$temporary
    if ! prove_libraries "$1" "$log" || ! run_once "$1" > "$log/$1" 2>&1; then
        cat "$log"/* >&2
        die 70 'the build failed'
    fi
    complain "proved and built $1 ($(((SECONDS - began + 59) / 60)) min)"
    rm -rf "$log"
    # What is noted is the sources as they stand now, and so they must be those that were read.
    note_standing "$1"
    [ "$(sum_of_sources "$1")" = "$sources" ] || {
        rm -f -- "$built.from"
        die 70 'a source was changed while the program was built: call the command again'
    }
}

# prove_libraries NAME LOGS: those that use no others first, and side by side what can be.
prove_libraries() {
    local proved=' ' name ready left
    left=$(all_below "$1" | head -n -1)
    for name in $left; do
        leftovers+=("$(room_of "$name")")
    done
    while [ -n "$left" ]; do
        ready=
        for name in $left; do
            ! is_ready "$name" "$proved" || ready+="$name "
        done
        prove_several "$2" "$ready" || return
        for name in $ready; do
            proved+="$name "
            left=$(grep -vx "$name" <<<"$left") || true
        done
    done
}

# is_ready CRATE PROVED: all that it uses is proved.
is_ready() {
    local name
    for name in $(uses "$1"); do
        [[ $2 == *" $name "* ]] || return
    done
}

# prove_several LOGS CRATES: tells of each as soon as it is proved. A proof of several jobs ends
# sooner, but takes half as much work again: so the largest crate, which the next ones wait for, has
# as many jobs as rt chooses, and those beside it have one.
prove_several() {
    export -f prove_library room_of take_made link_library link_part all_below
    # shellcheck disable=SC2016,SC2086  # the inner shell's words; names of crates
    by_size $2 | sed '2,$s/$/ --jobs 1/' |
        top=$top logs=$1 self=$self xargs -P "$("${cores[@]}")" -L 1 \
            bash -c 'prove_library "$@" > "$logs/$1" 2>&1 && echo "$self: $1 is proved" >&2' lib
}

# by_size CRATE..: the same, the largest first.
by_size() {
    local name
    for name; do
        echo "$(find "$top/crates/$name"/{src,specs,proofs} -type f -printf '%s\n' 2>/dev/null |
            awk '{ bytes += $1 } END { print bytes + 0 }') $name"
    done | LC_ALL=C sort -k 1,1nr -k 2 | cut -d ' ' -f 2
}

# room_of CRATE: where its proof works. It goes at the end of the command, since rt refuses a
# repository in which it stands.
room_of() {
    echo "$top/crates/$1/out/room"
}

# prove_library CRATE WORD..: rt lets no two proofs use one folder of a library at a time. So this
# proves the crate in a room of its own, and then takes what was made there, also where the proof
# failed: the next one goes on from it.
prove_library() {
    local name room made status=0 out=$top/crates/$1/out
    room=$(room_of "$1")
    made=$room/crates/$1/out
    rm -rf -- "$room" && mkdir -p -- "$room/crates" && cp -- "$top/HANDLES" "$room" || return
    for name in $(all_below "$1"); do
        link_library "$name" "$room" || return
    done
    link_part incremental "$out" "$made" || return
    (cd "$room/crates/$1" && rt lib "${@:2}") || status=$?
    take_made incremental "$made" "$out" && take_made rlib "$made" "$out" && rm -rf -- "$room" &&
        return "$status"
}

# take_made PART FROM TO: in place of the part that is there, if it was made.
take_made() {
    [ ! -e "$2/$1" ] || { rm -rf -- "${3:?}/$1" && mv -- "$2/$1" "$3"; }
}

# link_library CRATE ROOM: the crate with what was made of it, as links to the same files: they are
# replaced, and never changed.
link_library() {
    local part from=$top/crates/$1 to=$2/crates/$1
    grep -E "^$1( [^:]*)?:" "$top/crates.txt" >> "$2/crates.txt" && mkdir -p -- "$to/out" || return
    for part in src specs proofs; do
        link_part "$part" "$from" "$to" || return
    done
    link_part rlib "$from/out" "$to/out"
}

# link_part PART FROM TO: copies, where the file system has no links.
link_part() {
    [ ! -e "$2/$1" ] || cp -al -- "$2/$1" "$3" 2>/dev/null || {
        rm -rf -- "${3:?}/$1" && cp -a -- "$2/$1" "$3"
    }
}

# run_once NAME
run_once() {
    local words=()
    [ ! -f "$top/crates/$1/args" ] || mapfile -t words < "$top/crates/$1/args"
    (cd "$top/crates/$1" && rt run -- "${words[@]}" < stdin)
}
