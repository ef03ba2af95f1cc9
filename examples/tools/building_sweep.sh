# Tests which simulator a sweep takes. Read by tools.sh, behind building.sh.
# shellcheck shell=bash disable=SC2154  # names that tools.sh and its other files set

# A sweep asks the simulator, and begins its runs, while it finds out what that was built from: here
# that is missing, or a fake one of other sources, which takes no word, has other options, has a one
# for each zero of its tables, or takes any word.
# shellcheck disable=SC2054  # commas between values
grid=(--vary --l1-dsize 8,16 --l1-isize 16 --l1-ibsize 4 --l1-dbsize 4 --l2-usize 32 --l2-ubsize 8)
fake_simulator() {
    mkdir -p "$fresh/crates/dinero_grid/out"
    printf '#!/bin/sh\n%s\n' "$1" >"$fresh/crates/dinero_grid/out/dinero_grid"
    chmod +x "$fresh/crates/dinero_grid/out/dinero_grid"
}
# The kept programs need not be built by the same toolchains.
grid_toolchain=$(toolchains "$top" dinero_grid | head -n 1)
sweep_there() {
    under "$grid_toolchain" "$fresh/bin/sweep" "$@" -- "$top/examples/1-kinds/kinds.din"
}
run "$bin/sweep" "${grid[@]}" -- "$top/examples/1-kinds/kinds.din"
cp "$out" "$work/table"
is_swept() {
    [ "$status" -eq 0 ] && cmp -s "$out" "$work/table" && [ "$(wc -l <"$err")" -eq "$1" ]
}
new_checkout
sweep_there "${grid[@]}"
is_swept 1 && [ "$(<"$err")" = "sweep: $(kept_words dinero_grid)" ]
verdict 'a sweep without a simulator takes the kept one' $?
sweep_there "${grid[@]}"
check 'the next sweep says nothing' is_swept 0
for script in 'exit 2' 'echo "      --l3-usize <SIZE>  One"' \
    "$top/crates/dinero_grid/out/dinero_grid \"\$@\" | sed '/^[0-9]/s/0/1/g'"; do
    fake_simulator "$script"
    sweep_there "${grid[@]}"
    is_swept 1 && [ "$(<"$err")" = "sweep: $(kept_words dinero_grid)" ]
    verdict "a sweep believes no simulator of other sources: ${script##*| }" $?
done
fake_simulator "$top/crates/dinero_grid/out/dinero_grid \"\$@\" |
    sed 's/^ *--l1-isize <.*/&\\n      --l0-isize <SIZE>  One more [default: 1]/'"
sweep_there --resume "$work/there.log" "${grid[@]}"
is_swept 1 && [ "$(wc -l <"$work/there.log")" -eq 3 ] && ! grep -q l0-isize "$work/there.log"
verdict 'nor does it begin a log by what that one says' $?
new_checkout
stopped 'a sweep whose simulator is looked at, and' sort \
    "$fresh/bin/sweep" "${grid[@]}" -- "$top/examples/1-kinds/kinds.din"
fake_simulator 'exit 0'
sweep_there --l3-usize 4 "${grid[@]}"
[ "$status" -eq 2 ] && [ ! -s "$out" ] &&
    [ "$(tail -n 1 "$err")" = 'sweep: unknown option: --l3-usize; try --help' ]
verdict 'nor does it refuse a word by what that one says' $?
echo >>"$fresh/crates/grid_run/src/lib.rt"
sweep_there "${grid[@]}"
# Two lines before the first proof, one for each of ten libraries, and one behind them.
is_swept 13 && grep -q '^sweep: proved and built dinero_grid' "$err"
verdict 'a sweep of sources that were changed builds the simulator' $?
