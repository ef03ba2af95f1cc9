# Builds the programs that benchmarks measure. Read by those that set `top`, the checkout. It makes
# `folder`, a temporary folder, which goes at the end.
# shellcheck shell=bash disable=SC2154

folder=$(mktemp -d)
trap 'rm -rf "$folder"' EXIT

# is_built CRATE: its program is there, and nothing that crates are made of is newer. The gate
# leaves one, too.
is_built() {
    local program=$top/crates/$1/out/$1
    [ -x "$program" ] && [ -z "$(find "$top"/crates/*/{src,specs,proofs} \
        -newer "$program" -print -quit 2> /dev/null)" ]
}

# build CRATE..: rt run proves and builds a program, and runs it on the words and the input that its
# crate has, or on no words if these name files of data/, which it does not find.
build() {
    local crate home words input
    for crate in "$@"; do
        ! is_built "$crate" || continue
        echo "proving and building $crate, once; this may take a quarter of an hour" >&2
        home=$top/crates/$crate words=() input=/dev/null
        [ -d "$home/data" ] || [ ! -e "$home/args" ] || mapfile -t words < "$home/args"
        [ ! -e "$home/stdin" ] || input=$home/stdin
        (cd "$home" && rt run -- "${words[@]}" < "$input") > "$folder/build.log" 2>&1 ||
            { cat "$folder/build.log" >&2; exit 1; }
    done
}
