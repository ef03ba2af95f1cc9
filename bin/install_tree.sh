# The files that are installed, in a tree, as it is to stand below a prefix. Read by install.
# shellcheck shell=bash disable=SC2154  # names that install and its other files set
#
#   bin/dinero_NAME               a way to each simulator and to each command
#   lib/dinero_pipe/NAME          themselves, with the files that the commands read
#   share/man/man1/dinero_NAME.1  a man page for each

commands=(record sweep plot)

# grow TREE VERSION: it fails where a file can't be written. No file of the tree is run, since where
# temporary files are, that may be forbidden.
grow() {
    local lib=$1/lib/dinero_pipe pages=$1/share/man/man1 name built
    mkdir -p "$lib" "$pages" "$1/bin" || return
    for name in "${programs[@]}"; do
        find_built "$name"
        ln -s "$built" "$lib/$name" || return
        print_way "$name" "$name" "$2" > "$1/bin/$name" || return
        chmod 755 "$1/bin/$name" || return
        with_version "$2" < "$top/docs/$name.1" > "$pages/$name.1" || return
    done
    installed_text < "$top/bin/installed_program.sh" > "$lib/program.sh" || return
    for name in $(list_parts); do
        installed_text < "$top/bin/$name" > "$lib/$name" || return
    done
    for name in "${commands[@]}"; do
        print_way "dinero_$name" "$name" "$2" > "$1/bin/dinero_$name" || return
        chmod 755 "$lib/$name" "$1/bin/dinero_$name" || return
        "$BASH" -- "$lib/$name" --help | print_page "dinero_$name" | with_version "$2" > \
            "$pages/dinero_$name.1" || return
    done
}

# make_tree TREE VERSION: or tells what went wrong first.
make_tree() {
    local fault
    fault=$({ grow "$@"; } 2>&1) || {
        case $fault in
        *'No space left on device'* | *'File too large'* | *'Disk quota exceeded'*) no_room ;;
        esac
        fault=${fault%%$'\n'*}
        fault=${fault#*: line [0-9]*: }
        die 4 "the files could not be made${fault:+: $fault}"
    }
}

# with_version VERSION: a man page, whose first line names the product without a version.
with_version() {
    sed "1s/ \"dinero_pipe\" / \"dinero_pipe $1\" /"
}

# list_parts: the commands and what they read: a file of one command alone is named for it.
list_parts() {
    local name part
    echo common.sh
    for name in "${commands[@]}"; do
        for part in "$top/bin/$name" "$top/bin/$name"_*.*; do
            [ ! -e "$part" ] || echo "${part##*/}"
        done
    done
}

# installed_text: a command calls itself and the others by the names that they have there.
installed_text() {
    local names
    names=$(IFS='|' && echo "${commands[*]}")
    sed -E "s,\\bbin/($names)\\b,dinero_\\1,g; s,\\bbin/(dinero_[a-z]+)\\b,\\1,g"
}

# print_way NAME FILE VERSION: the file that a user calls, of this name. It finds what it is for
# wherever the tree stands, and knows the version itself. It is for the plainest of shells, which
# starts fastest.
print_way() {
    cat <<END
#!/bin/sh
if [ "\${1-}" = --version ]; then
    (echo '$1 $3') 2>/dev/null && exit
    echo '$1: the version could not be written' >&2
    exit 4
fi
way=\$0
case \$0 in
*/*) ;;
*) [ -e "\$0" ] && way=./\$0 || way=\$(command -v -- "\$0") ;;
esac
[ ! -L "\$way" ] || way=\$(readlink -f -- "\$way")
way=\${way%/*}/../lib/dinero_pipe/$2
if [ ! -x "\$way" ]; then
    echo '$1: lib/dinero_pipe/$2 is missing: install it again' >&2
    exit 69
fi
exec "\$way" "\$@"
END
}

# print_page NAME: a man page with the words of the help, which it reads.
print_page() {
    local first
    IFS= read -r first
    first=${first%.}
    cat <<END
.TH ${1^^} 1 "" "dinero_pipe" "User Commands"
.SH NAME
$1 \\- ${first,}
.SH DESCRIPTION
.nf
END
    sed -e 's/\\/\\e/g' -e 's/-/\\-/g' -e "s/'/\\\\(aq/g" -e 's/`/\\(ga/g' -e 's/^\./\\\&./'
    printf '.fi\n.SH "SEE ALSO"\n'
    see_also "$1"
}

# see_also NAME: the pages of the others, and of what the command calls.
see_also() {
    local name names=("${programs[@]}")
    for name in "${commands[@]}"; do
        [ "dinero_$name" = "$1" ] || names+=("dinero_$name")
    done
    case $1 in
    dinero_record) names+=(valgrind) ;;
    dinero_sweep) names+=(parallel) ;;
    dinero_plot) names+=(gnuplot) ;;
    esac
    printf '.BR %s (1),\n' "${names[@]::${#names[@]} - 1}"
    printf '.BR %s (1)\n' "${names[@]: -1}"
}

# print_files TREE: one a line.
print_files() {
    find "$1" ! -type d -printf '%P\n' | sort
}
