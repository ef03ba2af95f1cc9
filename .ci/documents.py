"""What .ci/house demands of documents: links that lead somewhere, names that stand for something,
and uses that are run. Each check yields the path, the line and the words of each breach."""

import re

from files import lines_of


def prose_of(top, path):
    """The lines of a document outside its blocks of code, with their numbers."""
    fenced = False
    for number, line in enumerate(lines_of(top, path), 1):
        if line.lstrip().startswith("```"):
            fenced = not fenced
        if not fenced:
            yield number, line


def paragraphs_of(top, path):
    """What stands between empty lines and blocks of code, with the number of its first line."""
    first, lines = 0, []
    for number, line in [*prose_of(top, path), (0, "")]:
        if lines and (number != first + len(lines) or not line.strip() or "```" in line):
            yield first, "\n".join(lines)
            lines = []
        if line.strip() and "```" not in line:
            first = first if lines else number
            lines.append(line)


def spans_of(top, path):
    """The texts between backticks, each with the number of the line where it begins. One may go on
    in the next line."""
    for first, text in paragraphs_of(top, path):
        for found in re.finditer(r"`([^`]+)`", text):
            yield first + text.count("\n", 0, found.start()), found[1].replace("\n", " ")


# Links


def anchor_of(heading):
    """The name that GitHub gives a heading."""
    kept = re.sub(r"[^\w\- ]", "", heading.strip().lower())
    return kept.replace(" ", "-")


def anchors(top, path):
    headings = (re.match(r"#+ (.*)", line) for _, line in prose_of(top, path))
    return {anchor_of(found[1]) for found in headings if found}


def check_link(top, path, number, target):
    place, _, anchor = target.partition("#")
    goal = (top / path).parent / place if place else top / path
    if not goal.exists():
        yield path, number, f"the link leads nowhere: {target}"
    elif anchor and goal.suffix == ".md" and anchor not in anchors(top, goal.resolve()):
        yield path, number, f"the link's heading is gone: {target}"


def check_links(top, paths):
    for path in paths:
        if path.suffix != ".md":
            continue
        for first, text in paragraphs_of(top, path):
            bare = re.sub(r"`[^`]*`", lambda it: "\n" * it[0].count("\n"), text)
            for number, line in enumerate(bare.split("\n"), first):
                targets = re.findall(r"\]\(([^)\s]+)\)", line) + re.findall(r'src="([^"]+)"', line)
                for target in targets:
                    if not re.match(r"[a-z]+:", target):
                        yield from check_link(top, path, number, target)


# Names

# Those of the toolchain and the system, and two that stand for others.
ELSEWHERE = {"axioms", "--test", "pv", "--opt", "LIBRARY_tests"}
OPTION = r"(?<![\w-])--[a-z][\w-]*"
# Files that don't make a name known, but by their own names: documents, and edits of code.
NO_CODE = {".md", ".1", ".edit", ".svg", ".gz", ".sums", ".din"}
COMMENTS = {".rt": "//.*", ".antt": "--.*"}
# Not one with a word of capitals, which stands for something else.
PLACE = re.compile(r"(src|specs|proofs|bin|docs|examples|models)/(?![\w/]*[A-Z]{2})\w[\w/.]*\w")


def known_names(top, paths):
    """The words and options of code, of scripts and of the names of files. Comments of code don't
    count."""
    text = [str(path) for path in paths]
    for path in paths:
        if path.suffix not in NO_CODE:
            whole = (top / path).read_text(encoding="utf-8", errors="replace")
            text.append(re.sub(COMMENTS.get(path.suffix, "$^"), "", whole))
    whole = " ".join(text)
    return {*re.findall(r"\w+", whole), *re.findall(OPTION, whole), *ELSEWHERE}


def places_of(paths):
    """Each file and folder by its path, and by the ends of its path."""
    found = set()
    for path in paths:
        for whole in (path, *path.parents):
            found.update("/".join(whole.parts[first:]) for first in range(len(whole.parts)))
    return found


def names_in(span):
    """The options and the names in a text between backticks: if it is one word, all; else those that
    are of code by their form. A word of capitals stands for something else."""
    if "=" in span:
        return []
    options = re.findall(OPTION, span)
    names = re.findall(r"\b[A-Za-z_]\w\w+", span)
    if " " in span:
        names = [it for it in names if "_" in it.strip("_") or re.search(r"[a-z][A-Z]", it)]
    return options + [it for it in names if not re.fullmatch(r"[A-Z]+", it)]


def check_names(top, paths):
    known, places = known_names(top, paths), places_of(paths)
    for path in paths:
        if path.suffix != ".md" or path.name == "CHANGELOG.md":
            continue
        for number, span in spans_of(top, path):
            for name in names_in(span):
                if name not in known:
                    yield path, number, f"nothing has the name {name}"
            if PLACE.fullmatch(span) and span not in places:
                yield path, number, f"there is no {span}"


# Uses


def check_uses(top, paths):
    texts = {
        path: (top / path).read_text(encoding="utf-8")
        for path in paths
        if re.match(r"crates/uses/src/.*\.rt$", str(path))
    }
    unseen = {path for path in texts if path.name != "main.rt"}
    for path in paths:
        if not re.match(r"crates/\w+/README\.md$", str(path)):
            continue
        block, start = None, 0
        for number, line in enumerate(lines_of(top, path), 1):
            if line == "```rust":
                block, start = [], number
            elif line == "```" and block is not None:
                use = "\n".join(block)
                found = {it for it, text in texts.items() if use.strip() and use in text}
                if not found:
                    yield path, start, "the use does not stand in crates/uses/src"
                unseen -= found
                block = None
            elif block is not None:
                block.append(line)
    for path in sorted(unseen):
        yield path, 1, "no README shows this use"
