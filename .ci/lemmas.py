"""Lemmas that nothing cites."""

import re
from collections import Counter

# What stands between these in a proof is a word.
WORD = re.compile(r"[^\s(){},;.\[\]|]+")
# The module of an import, and the names that it brings.
IMPORT = re.compile(r"use ([^{}\s]+)\.\{(.*)\}")
# A lemma or a definition. Its name and what it states begin on one line.
DECLARED = re.compile(r"(\s*)(?:(?:pub|abbrev|unfoldable|opaque) )*([^\s(){},;:]+) :(?: |$)")
RECORD = re.compile(r"\s*(?:pub )?(?:record|data) ")
MODULE = re.compile(r"\s*(?:pub )?module ")


def words_in(lines):
    """How often each word stands there, but for comments and imports."""
    code = (it for it in lines if not it.lstrip().startswith("--") and not IMPORT.match(it))
    return Counter(word for line in code for word in WORD.findall(line))


def imports_of(lines):
    """Each name that is imported, with its module before it."""
    for found in filter(None, map(IMPORT.match, lines)):
        module, names = found.groups()
        for name in names.split(","):
            yield module, name.split(" as ")[0].strip()


def blocks_of(lines):
    """Each name that is declared, with its first line and its lines: those up to the next name,
    record or module that is not deeper."""
    starts = []
    fields = None
    for at, line in enumerate(lines):
        depth = len(line) - len(line.lstrip())
        if fields is not None and line.strip() and depth <= fields:
            fields = None
        found = DECLARED.match(line) if fields is None else None
        if RECORD.match(line):
            fields = depth
        if found or RECORD.match(line) or MODULE.match(line):
            starts.append((at, depth, found and found[2]))
    for k, (at, depth, name) in enumerate(starts):
        ends = (later for later, other, _ in starts[k + 1 :] if other <= depth)
        if name:
            yield name, at + 1, lines[at : next(ends, len(lines))]


def uncited(read, paths):
    """Each lemma of a crate's proofs that no other file imports and no document names, and that
    stands in its own file nowhere but in its own lines. `read` gives the lines of a file. What
    answers the goals of a function is cited by the name of its file."""
    texts = {it: read(it) for it in paths if it.suffix == ".antt"}
    imported = {it for lines in texts.values() for it in imports_of(lines)}
    documents = (line for it in paths if it.suffix == ".md" for line in read(it))
    named = {name for line in documents for name in re.findall(r"`([^` ]+)`", line)}
    for path, lines in texts.items():
        found = re.match(r"crates/(\w+/proofs/.*)\.antt$", str(path))
        if not found or path.name in {"Answers.antt", "Invariants.antt"}:
            continue
        module = "Rattle." + found[1].replace("/", ".")
        words = words_in(lines)
        for name, number, block in blocks_of(lines):
            if (module, name) in imported or name in named:
                continue
            if words[name] == words_in(block)[name]:
                yield path, number, f"nothing cites {name}"
