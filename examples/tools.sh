#!/usr/bin/env bash
# Tests bin/record, bin/sweep, bin/plot and bin/install as users call them. What the machine lacks
# of Debian's packages is said, and the tests that need it are skipped.
set -uo pipefail
# A script has what it starts in the background pass over Ctrl-C. The commands tested here must not.
[ "${1-}" = again ] || exec env --default-signal=HUP,INT,QUIT,TERM bash -- "$0" again
top=$(CDPATH='' cd -P -- "$(dirname -- "$0")/.." && pwd)
work=$(realpath "$(mktemp -d)")
daemons=()
clean_up() {
    [ ${#daemons[@]} -eq 0 ] || kill "${daemons[@]}" 2>/dev/null
    wait
    rm -rf "$work"
}
trap clean_up EXIT
. "$top/examples/tally.sh"

# The commands leave what they need for themselves in a folder that is to be empty after each.
export TMPDIR=$work/tmp
mkdir "$TMPDIR" "$work/here"
cd "$work/here" || exit
# shellcheck disable=SC2034  # the files below use them
bin=$top/bin out=$work/out err=$work/err

# The first calls may say which programs they run; the others are then silent.
for program in pipe grid; do
    "$bin/dinero_$program" --help >"$out" 2>"$err" || exit
done

# In this order: a later file uses the tables and traces of those before it. No file is left out.
subjects=(checks names help lessons building building_sweep building_others record record_filter
    record_functions record_output record_signals sweep sweep_tasks sweep_names sweep_words
    sweep_grids sweep_full sweep_resume sweep_restart sweep_counts sweep_disk sweep_parts
    sweep_machines settings slurm plot plot_points plot_caches plot_labels plot_words plot_intervals
    plot_titles plot_names handout install install_places hostile formats)
diff <(printf '%s.sh\n' "${subjects[@]}" | sort) \
    <(cd "$top/examples/tools" && printf '%s\n' *.sh | sort) || exit
for subject in "${subjects[@]}"; do
    # shellcheck source=/dev/null
    . "$top/examples/tools/$subject.sh"
done
tell
