"""What the prover prints of a crate that it does not prove, read function by function."""

import re

# A goal of a function that is open, at a line of the function.
OPEN = re.compile(r"note: src/\S+?:\d+:\d+: (?:it is not proved|`search` found no proof)")
# A proof that does not fit the function.
UNFIT = re.compile(r"(?:\./)?(proofs/\S+?)[^/]*:\d+:\d+: error: (.*)")
# It does not fit, but only because it names what the edit took away, or cites such a proof. The
# words `has no field` do not always stand before the name that is nearest.
NAMES = re.compile(
    r"has no field|\(nearest: |is not in scope|has no `|was not admitted|that depend"
)
# A function that is not proved, and the functions that it waits for.
WAITS = re.compile(r"fn (\S+): (?:no proof|not proved).*?it calls (.*), which (?:is|are) not proved")
# The text was not understood, so that nothing was tried.
UNREAD = re.compile(r"\berror\[[\w-]+\]")
# The prover has a limit of its own, which it meets wherever it checks the same.
LIMIT = re.compile(
    r"antt ran out of (?:stack|the (?:steps|memory) that the check of one declaration may)"
    r"|(?:outgrew the memory limit|stopped at the step limit) \("
)


def whole_lines(text):
    """The lines of what the prover prints. An error that is too long for one goes on in the next line,
    behind blanks. Further lines of it explain it."""
    lines, is_error = [], False
    for line in text.split("\n"):
        if is_error and line.startswith("  "):
            lines[-1] += f" {line.strip()}"
            is_error = False
        else:
            lines.append(line)
            is_error = ": error" in line
    return lines


def is_told_of(function, line):
    """Whether the line is about the function, and not about what its proof names."""
    found = re.match(r"(?:note: )?(src/\S+?):(\d+):\d+:", line)
    if found:
        return found[1] == function.path and function.first <= int(found[2]) <= function.last
    found = UNFIT.match(line)
    return bool(found) and found[1].startswith(function.proofs) and not NAMES.search(found[2])


def open_goal(function, said):
    """The line that says which goal of the function is open, or that its proof does not fit it; it
    is not enough that the proof names something which is gone."""
    told = (it for it in said if OPEN.match(it) or UNFIT.match(it))
    return next((it for it in told if is_told_of(function, it)), None)


def is_proved(name, said):
    """Whether the function of this name, or of one that ends so, is said to be proved."""
    told = re.compile(rf"fn (\S+::)?{re.escape(name)}: proved\b")
    return any(told.match(it) for it in said)


def type_error(line):
    """What the line says behind the place of an error and its kind."""
    return UNREAD.split(line, maxsplit=1)[-1]


def waits(said):
    """Each function that is not proved, with those that it calls and that are not proved either."""
    found = {}
    for line in said:
        told = WAITS.match(line)
        if told:
            found.setdefault(told[1], set()).update(re.findall(r"`([^`]+)`", told[2]))
    return found


def first_word(said):
    """The first line that says why the crate is not proved, and whether it is more than the name of
    something that is gone."""
    told = [it for it in said if re.match(r"(note: )?(\./)?\S+:\d+:\d+:", it)]
    told = [it for it in told if ": error" in it or it.startswith("note: ")]
    better = [it for it in told if not ("proofs/" in it and NAMES.search(it))]
    return (better or told or [""])[0], bool(better)
