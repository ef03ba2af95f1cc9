# Traces that benchmarks make, with a fixed seed. Read by those that set `references`, how many a
# trace has, and `top`, the checkout.
# shellcheck shell=bash disable=SC2154

# make NEAR SHARE MIDDLE SHARE: six in ten references are fetches, which run on and sometimes jump
# to one of 64 loops. Of the data references, three in ten are writes. The first share of them is to
# so many bytes, what is left of the second share to more, and the rest to 16 MiB.
make() {
    awk -v references="$references" -v near="$1" -v first="$2" -v middle="$3" -v second="$4" \
        'BEGIN {
        srand(1)
        for (i = 0; i < references; i++) {
            if (rand() < 0.6) {
                counter = rand() < 0.1 ? 4194304 + 1024 * int(64 * rand()) : counter + 4
                printf "2 %x\n", counter
            } else {
                where = rand()
                reach = where < first ? near : where < second ? middle : 16777216
                printf "%d %x\n", rand() < 0.3, 268435456 + 8 * int(reach / 8 * rand())
            }
        }
    }'
}

# tame: most data references are to 16 KiB.
tame() {
    make 16384 0.8 262144 0.97
}

# hard: half of the data references are to 64 KiB, and the others to 1 and 16 MiB.
hard() {
    make 65536 0.5 1048576 0.8
}

# each_trace FOLDER COMMAND..: makes each trace in the folder, and calls the command with its title
# and its file. The second is recorded from ls; without valgrind it is left out.
each_trace() {
    local folder=$1
    shift
    tame > "$folder/tame.din"
    "$@" 'tame' "$folder/tame.din"
    if command -v valgrind > /dev/null; then
        "$top/bin/record" ls /usr/lib 2> /dev/null > "$folder/ls.din"
        "$@" 'the references of ls' "$folder/ls.din"
    fi
    hard > "$folder/hard.din"
    "$@" 'hard' "$folder/hard.din"
}
