# Turns runs into lines of shell. sweep_grid.awk is read before it.

# command_of(LINE): of a run. It says at its end with which status the simulator ended, and then
# what the unpacker of the trace has said, and its status: while both work, only one of them writes.
# Options and values have no character that a shell could take for its own.
function command_of(line,   name, tool, words, i) {
    read_run(line)
    name = (run[0] - 1) ".din"
    tool = unpacker[run[0]]
    # As many runs are made at once as there are cores.
    words = "./dinero_grid --threads 1" (full ? " --full" : "")
    for (i = 1; i <= options; i++) words = words " --" option[i] " " list_of(option[i])
    if (tool == "-") words = words " < " name "; echo ended $?"
    else
        words = "said=$({ { " tool " < " name "; echo unpacked $? >&2; } 2>&4 | " words \
            " >&3 2>&3; echo ended $? >&3; } 4>&1); printf '%s\\n' \"$said\""
    return "[ -r " name " ] && { " words "; } 3>&1 2>&1"
}
