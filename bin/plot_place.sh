# How a picture gets into its place. Read by plot, and by examples/handout.sh.
# shellcheck shell=bash

# place_anew FILE TARGET: puts a whole copy of the file in the target's place, or nothing. A file
# that is there keeps its mode, and a link still leads where it led. A new one has the mode that the
# umask leaves.
place_anew() {
    local target=$2 mode
    if [ -L "$2" ]; then
        # What stands behind the name keeps the line feeds at its end.
        target=$(readlink -f -- "$2" && echo .) || die 4 "$2 could not be written"
        target=${target%$'\n.'}
    fi
    mode=$(stat -c %a -- "$target" 2>/dev/null) || {
        mode=$(umask)
        printf -v mode %o $((0666 & ~mode))
    }
    place "$mode" "$1" "$target"
}
