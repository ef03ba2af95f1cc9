"""What .ci/house demands of code, clauses and proofs. Each check yields the path, the line and the
words of each breach."""

import re

from files import lines_of
from lemmas import uncited

# Words above definitions and items

ITEM = re.compile(
    r"\s*pub (?:const |unsafe |ghost )*(fn|struct|enum|trait|const|static|type|union) +(\w+)"
)


# At the margin, or indented below a `module`, where a line of `pub` is a field.
DEFINITION = re.compile(
    r"(abbrev|unfoldable|opaque|pub|record|data)\b|\s+(abbrev|unfoldable|opaque)\b"
)


def check_definitions(path, lines):
    for number, line in enumerate(lines, 1):
        if not DEFINITION.match(line):
            continue
        if re.match(r"pub (use|mod)\b", line):
            continue
        above = lines[number - 2] if number > 1 else ""
        if not above.lstrip().startswith("--"):
            words = line.replace("{", " ").split()
            kinds = {"abbrev", "unfoldable", "opaque", "pub", "record", "data"}
            name = next((word for word in words if word not in kinds), line)
            yield path, number, f"no comment above the definition {name}"


def check_items(path, lines):
    for number, line in enumerate(lines, 1):
        found = ITEM.match(line)
        if not found:
            continue
        above = number - 2
        while above >= 0 and re.match(r"\s*#\[|\s*[\]),]", lines[above]):
            above -= 1
        if above < 0 or not lines[above].lstrip().startswith("///"):
            yield path, number, f"no comment above {found[1]} {found[2]}"


def check_words(top, paths):
    for path in paths:
        name = str(path)
        if re.match(r"crates/\w+/specs/.*\.antt$", name):
            yield from check_definitions(path, lines_of(top, path))
        elif re.match(r"crates/\w+/src/.*\.rt$", name) and "/tests" not in name:
            yield from check_items(path, lines_of(top, path))


# Imports

# How a line of imports begins, and a comment.
IMPORTS = {
    ".rt": (re.compile(r"\s*ghost use ([^;]*)"), "//"),
    ".antt": (re.compile(r"use (.*)"), "--"),
}


def imported(lines, begins):
    """Each name that such lines bring, as it is called in the file, with its line."""
    for number, line in enumerate(lines, 1):
        found = begins.match(line)
        if not found:
            continue
        path = found[1].strip()
        listed = re.search(r"\{(.*)\}", path)
        for name in listed[1].split(",") if listed else [re.split(r"[.\s]", path)[-1]]:
            if name.strip():
                yield name.split(" as ")[-1].strip(), number


def is_used(name, text):
    """Is there each part of the name? A place that takes a term is written as a hollow dot."""
    parts = [part for part in name.split("◌") if part]
    whole = r"(?<![\w-]){}(?![\w-])"
    patterns = [
        whole.format(re.escape(part)) if re.match(r"\w", part) else re.escape(part)
        for part in parts
    ]
    return all(re.search(pattern, text) for pattern in patterns)


def check_imports(top, paths):
    for path in paths:
        if path.suffix not in IMPORTS:
            continue
        begins, comment = IMPORTS[path.suffix]
        lines = lines_of(top, path)
        text = "\n".join(line.partition(comment)[0] for line in lines if not begins.match(line))
        for name, number in imported(lines, begins):
            if not is_used(name, text):
                yield path, number, f"nothing uses {name}"


# Lemmas


def check_lemmas(top, paths):
    return uncited(lambda it: lines_of(top, it), paths)


# Runtimes


def check_runtimes(top, paths):
    for path in paths:
        if not re.match(r"crates/(run_threads|sim_run)/src/.*\.rt$", str(path)):
            continue
        text = "\n".join(line.split("//")[0] for line in lines_of(top, path))
        for found in re.finditer(r"\b(Wait|Gate)\s+for\s+(\w+)", text):
            if found.groups() != ("Gate", "OpenGate"):
                number = text.count("\n", 0, found.start()) + 1
                yield path, number, f"an impl of {found[1]}"
