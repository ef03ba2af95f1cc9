# Tests which program the commands take: the one that stands there, the kept one, or a new one. Read
# by tools.sh.
# shellcheck shell=bash disable=SC2154  # names that tools.sh and its other files set

# toolchains CHECKOUT [PROGRAM]: the names of those that built its kept program, or dinero_pipe.
toolchains() {
    sed -n 's/^toolchain //p' "$1/release/${2-dinero_pipe}.sums"
}

# A checkout without what was built, and a toolchain of the kept program's name that proves nothing.
fresh=$work/fresh
toolchain=$(toolchains "$top" | head -n 1)
new_checkout() {
    rm -rf "$fresh"
    mkdir "$fresh"
    tar -C "$top" --exclude=out --exclude=.git --exclude=lab -cf - . | tar -C "$fresh" -xf -
}
mkdir "$work/fake" "$work/builds"
cat >"$work/fake/rt" <<'END'
#!/bin/sh
[ "$1" = version ] || { echo "rt $1: nothing is proved here"; exit 1; }
echo "$TOOLCHAIN"
END
chmod +x "$work/fake/rt"

# take_toolchain FOLDER: what is called from now on finds the one that is in it.
take_toolchain() {
    tools=$work/$1
}

# launch: a run of the first lesson in that checkout, with the toolchain in the folder $tools.
take_toolchain fake
mapfile -t words <"$top/examples/1-kinds/kinds.words"
launch() {
    status=0
    TOOLCHAIN=${1-$toolchain} PATH=$tools:$PATH "$fresh/bin/dinero_pipe" "${words[@]}" \
        <"$top/examples/1-kinds/kinds.din" >"$out" 2>"$err" || status=$?
}

is_report() {
    [ "$status" -eq 0 ] && cmp -s "$out" "$top/examples/1-kinds/kinds.report"
}

# kept_words PROGRAM: what a command says when it takes the kept one.
kept_words() {
    echo "unpacked the kept $1, which was proved and built from these very sources; \
bin/prove proves and builds it here"
}

# is_kept: it ran the kept program, and said so in one line.
is_kept() {
    is_report && [ "$(<"$err")" = "dinero_pipe: $(kept_words dinero_pipe)" ]
}

# is_built [WHY]: it began to prove, and said why it does not take the kept program.
is_built() {
    [ "$status" -eq 70 ] && [ ! -s "$out" ] &&
        [[ $(head -n 1 "$err") == "dinero_pipe: the kept dinero_pipe is not taken: ${1-}"* ]] &&
        grep -q '^dinero_pipe: proving and building dinero_pipe from 9 crates' "$err" &&
        grep -q '^rt lib: nothing is proved here' "$err"
}

new_checkout
launch
check 'the first call takes the kept program' is_kept
launch
is_report && [ ! -s "$err" ]
verdict 'the second call says nothing' $?
echo >>"$fresh/README.md"
echo >>"$fresh/crates/cache_core/README.md"
touch "$fresh"/crates/*/src/*.rt
launch
is_report && [ ! -s "$err" ]
verdict 'a change of a README changes no program' $?

other_sources='it is of other sources'
# changed FILE: one more line in it, and the program is proved and built anew.
changed() {
    new_checkout
    [ $# -lt 2 ] || launch
    echo '-- changed' >>"$fresh/$1"
    launch
    check "a change of $1${2+ after a first call} builds the program" is_built "$other_sources"
}
changed crates/sim_run/src/lib.rt
changed crates/cache_core/specs/Kinds.antt after
changed crates/stage_core/proofs/Lib.antt
# A change that the times of the files do not show, and one that leaves no file behind.
new_checkout
launch
sed -i 's/^/ /' "$fresh/crates/sim_run/src/lib.rt"
touch -d 2001-01-01 "$fresh/crates/sim_run/src/lib.rt"
launch
check 'a source that seems to be older builds the program' is_built
# A clock that is ahead of the file system's.
new_checkout
printf '#!/bin/sh\nexec %q -d "1 hour" "$@"\n' "$(command -v date)" >"$work/fake/date"
chmod +x "$work/fake/date"
launch
echo >>"$fresh/crates/sim_run/src/lib.rt"
launch
check 'a source that is older by the clock builds the program' is_built
rm "$work/fake/date"
# A search for sources that have changed, which ends before it finds any.
new_checkout
launch
echo >>"$fresh/crates/sim_run/src/lib.rt"
printf '#!/bin/sh\ncase $* in *-cnewer*) exit 1 ;; esac\nexec %q "$@"\n' "$(command -v find)" \
    >"$work/fake/find"
chmod +x "$work/fake/find"
launch
check 'a search that failed finds no source untouched' is_built
rm "$work/fake/find"
# Sources that can't be read are no other sources.
new_checkout
printf '#!/bin/sh\n[ $# -eq 0 ] || exit 1\nexec %q\n' "$(command -v sha256sum)" >"$work/fake/sha256sum"
chmod +x "$work/fake/sha256sum"
launch
[ "$status" -eq 70 ] && [ ! -s "$out" ] &&
    [ "$(<"$err")" = "dinero_pipe: the sources of dinero_pipe can't be read" ]
verdict "a source that can't be read" $?
rm "$work/fake/sha256sum"
new_checkout
launch
rm "$fresh/crates/sim_run/specs/TraceReport.antt"
launch
check 'a source that was removed builds the program' is_built
new_checkout
sed -i 's/^din_trace:/din_trace: itoa/' "$fresh/crates.txt"
launch
check 'a change of what a crate uses builds the program' is_built
# Changes of what has long been there, and was looked at since.
# shellcheck disable=SC2016  # a dollar of sed's
for change in '$a# changed HANDLES' 's/^din_trace:/din_trace: itoa/ crates.txt' \
    '$a-- changed crates/sim_run/src/lib.rt'; do
    new_checkout
    launch
    sleep 2
    launch
    sed -i "${change% *}" "$fresh/${change##* }"
    launch
    check "a later change of ${change##* } builds the program" is_built
done
new_checkout
launch 'another toolchain'
check 'another toolchain builds the program' is_built 'another toolchain than the one here has built it'
new_checkout
sed -i '/^toolchain /s/13/14/' "$fresh/release/dinero_pipe.sums"
launch
check "another name for the kept program's toolchain builds the program" is_built
new_checkout
echo 'toolchain one more' >>"$fresh/release/dinero_pipe.sums"
launch one
check "a part of a toolchain's name builds the program" is_built
launch 'one more'
check 'each toolchain that built the kept program takes it' is_kept

# What is kept, with one bit of the program changed, or with a program that does not run.
damaged() {
    gzip -dc "$top/release/dinero_pipe.gz" >"$work/program"
    printf '\001' | dd of="$work/program" bs=1 seek=4096 conv=notrunc status=none
    gzip -9n <"$work/program" >"$fresh/release/dinero_pipe.gz"
}
new_checkout
damaged
launch
check 'a damaged program is not run' is_built 'release/dinero_pipe.gz is missing or damaged'
mkdir -p "$fresh/crates/dinero_pipe/out"
gzip -dc "$top/release/dinero_pipe.gz" >"$fresh/crates/dinero_pipe/out/dinero_pipe"
run "$fresh/.ci/kept_programs"
[ "$status" -eq 1 ] && grep -q 'missing or damaged' "$err"
verdict 'the gate refuses a damaged program' $?
sed -i "s/^program .*/program $(sha256sum <"$work/program" | cut -d ' ' -f 1)/" "$fresh/release/dinero_pipe.sums"
run "$fresh/.ci/kept_programs"
[ "$status" -eq 1 ] && grep -q 'is not the one that was built' "$err"
verdict 'the gate refuses another program with its sum' $?
new_checkout
launch
echo >>"$fresh/crates/sim_run/src/lib.rt"
run "$fresh/.ci/kept_programs"
[ "$status" -eq 1 ] && [ "$(tail -n 1 "$err")" = 'kept_programs: release/dinero_pipe.sums is of other sources' ]
verdict 'the gate refuses the kept program of other sources' $?
new_checkout
launch
mkdir -p "$fresh/crates/dinero_grid/out"
echo >"$fresh/crates/dinero_grid/out/dinero_grid"
run "$fresh/.ci/kept_programs"
[ "$status" -eq 1 ] && [ "$(<"$err")" = 'kept_programs: the kept program dinero_grid is not the one that was built' ]
verdict 'the gate looks at each program' $?
new_checkout
echo 'exit 1' | gzip -9n >"$fresh/release/dinero_pipe.gz"
sed -i "s/^program .*/program $(echo 'exit 1' | sha256sum | cut -d ' ' -f 1)/" "$fresh/release/dinero_pipe.sums"
launch
check 'a program that does not run is not kept' \
    is_built "it does not run in $fresh/crates/dinero_pipe/out"
new_checkout
rm -r "$fresh/release"
launch
check 'without a kept program it is built' is_built 'release/dinero_pipe.sums is missing or damaged'
run env PATH="$(without rt)" "$fresh/bin/dinero_pipe" --help
[ "$status" -eq 69 ] && [ "$(tail -n 1 "$err")" = \
    'dinero_pipe: rt is missing: dinero_pipe is built by the Rattle toolchain' ]
verdict 'nor can it be built without a toolchain' $?

# A toolchain that takes the kept program for what it has built, and under which a source changes.
cat >"$work/builds/rt" <<'END'
#!/bin/sh
case $1 in
version) echo "$TOOLCHAIN" ;;
run)
    name=${PWD##*/}
    mkdir -p out && gzip -dc "../../release/$name.gz" >"out/$name"
    chmod +x "out/$name"
    [ ! -e "$TOP/changes" ] || echo >>src/main.rt
    ;;
esac
END
chmod +x "$work/builds/rt"
take_toolchain builds
# launch_new: of a checkout whose sources are not those of the kept program.
launch_new() {
    new_checkout
    echo >>"$fresh/crates/sim_run/src/lib.rt"
    [ $# -eq 0 ] || : >"$fresh/changes"
    TOP=$fresh launch
}
launch_new
is_report && grep -q 'dinero_pipe: proved and built dinero_pipe (' "$err"
verdict 'a program that was built is run' $?
launch
is_report && [ ! -s "$err" ]
verdict 'and then stands there' $?
launch_new changes
[ "$status" -eq 70 ] && [ ! -s "$out" ] && [ "$(tail -n 1 "$err")" = \
    'dinero_pipe: a source was changed while the program was built: call the command again' ]
verdict 'a source that changes while the program is built' $?
rm "$fresh/changes"
TOP=$fresh launch
is_report && grep -q 'proved and built' "$err"
verdict 'the next call builds it again' $?

# under TOOLCHAIN COMMAND..: with the toolchain in the folder $tools, under this name.
under() {
    run env TOP="$fresh" TOOLCHAIN="$1" PATH="$tools:$PATH" "${@:2}"
}
