"""A wrong body: an edit of a crate's code that plants a bug, and the functions that it changes."""

import re
from dataclasses import dataclass, replace
from functools import cache
from pathlib import Path

from refusal import UNREAD

CONTROL = "control"
HEAD = re.compile(r"( *)(?:pub(?:\([^)]*\))? )?(?:const |unsafe )*fn (\w+)")
TRAIT = re.compile(r"(?:pub(?:\([^)]*\))? )?trait (\w+)")
AT = re.compile(r"(src/\S+?):(\d+):")
TYPE = re.compile(r"^(?:pub(?:\([^)]*\))? )?(?:struct|enum|union) (\w+)", re.M)


class BadEdit(Exception):
    """The edit can't be applied, or says nothing that could be tried."""


@dataclass(frozen=True)
class Function:
    """A function by its name in what the prover prints, as `crate::module::Type::name`, and by its
    place: from its attributes to its last brace. `head` is the line of its name, and `body` the one
    at which its code begins. A copy of it may stand beside it, unless it is of a trait, or calls
    itself."""

    name: str
    path: str
    first: int
    head: int
    body: int
    last: int
    may_be_copied: bool

    @property
    def proofs(self):
        """The folder of its proof."""
        return "proofs/" + "/".join(self.name.split("::")[1:]) + "/"

    @property
    def module(self):
        """The module of its proof, below the crate."""
        return self.proofs[:-1].replace("/", ".")


@dataclass(frozen=True)
class WrongBody:
    """An edit by its crate and the name of its file. `changes` has what it makes of the lines that
    it changes, by path and number. `functions` are those whose code it changes, or None if it
    changes something else."""

    crate: str
    name: str
    text: str
    changes: dict
    functions: frozenset

    @property
    def is_control(self):
        """Whether it has no bug."""
        return self.name == CONTROL

    @property
    def may_be_copied(self):
        """Whether it can stand in copies of its functions."""
        return bool(self.functions) and all(it.may_be_copied for it in self.functions)

    @property
    def by_type(self):
        """A word of what the compiler says of its types, if that has to refuse it."""
        return self.word("by its type")

    @property
    def place(self):
        """The function that has to be refused, by its path below the crate, if the edit names it.
        It does if it changes something else than the code of functions."""
        return self.word("refused in")

    def word(self, name):
        """What a line with this name says."""
        found = re.search(f"^{name}: (.+)$", self.text, re.M)
        return found[1] if found else None

    @property
    def label(self):
        return f"{self.crate}/{self.name}"


def without_arguments(text):
    """The text without what stands in angle brackets."""
    while "<" in text:
        bare = re.sub(r"<[^<>]*>", "", text)
        text = bare if bare != text else text.replace("<", "")
    return text


def of_one_kind(line):
    """How the prover goes on after the name of a generic type, if the `impl` of this line is for
    one kind of it: with the words of its arguments. It adds nothing if these are parameters of the
    `impl`."""
    found = re.match(r"impl(?:<(.*?)>)? (?:\w+::)*\w+<(.*)> ", line)
    if not found:
        return ""
    parameters = re.findall(r"\w+", re.sub(r":[^,]*", "", without_arguments(found[1] or "")))
    words = re.findall(r"\w+", found[2])
    return "" if set(words) <= set(parameters) else "".join("+" + it for it in words)


def type_above(lines, number):
    """The type whose `impl` holds the line, followed by the trait, if there is one; or the trait
    whose own text holds it. And whether there is a trait."""
    for line in reversed(lines[: number - 1]):
        trait = TRAIT.match(line)
        if trait:
            return trait[1], True
        if line.startswith("impl"):
            names = re.findall(r"\w+", without_arguments(line).split(" where")[0])[1:]
            return names[-1] + (names[0] if "for" in names else of_one_kind(line)), "for" in names
        if line == "}":
            break
    return None, False


def calls_itself(name, lines):
    """Whether these lines of a function may have a call of it."""
    return any(re.search(rf"(?:(?<![.\w:])(?<!fn )|self\.|Self::){name}\(", it) for it in lines)


def module_of(path):
    """The module that a file is, as a list of names."""
    return [it for it in path[4:-3].split("/") if it not in ("lib", "main")]


@cache
def types_of(folder):
    """The modules of the types of a crate, by their names. They are read once: no run changes them."""
    found = {}
    for file in sorted((folder / "src").rglob("*.rt")):
        for name in TYPE.findall(file.read_text(encoding="utf-8")):
            found.setdefault(name, []).append(module_of(str(file.relative_to(folder))))
    return found


def functions_of(crate, path, lines, types):
    """The functions of a file. `rt fmt` puts the brace that ends a function, and after a contract
    also the one that begins its code, below the first letter of its head. The prover names a method
    by the module of its type, wherever its `impl` stands."""
    here = module_of(path)
    for number, line in enumerate(lines, 1):
        head = HEAD.match(line)
        if not head:
            continue
        own, is_of_trait = type_above(lines, number) if head[1] else (None, False)
        first = number
        while lines[first - 2].strip().startswith("#["):
            first -= 1
        ends = (at for at in range(number, len(lines)) if lines[at] == head[1] + "}")
        last = number if line.endswith("}") else next(ends, number - 1) + 1
        begins = (at for at in range(number, last) if lines[at] == head[1] + "{")
        body = next(begins, number - 1) + 1
        homes = types.get(own, [here])
        modules = here if here in homes else homes[0]
        name = "::".join([crate, *modules, *([own] if own else []), head[2]])
        is_only = is_of_trait or head[2] == "main" or calls_itself(head[2], lines[first - 1 : last])
        yield Function(name, path, first, number, body, last, not is_only)


def function_at(functions, number):
    """The innermost function whose code has the line."""
    around = [it for it in functions if it.body <= number <= it.last]
    return max(around, key=lambda it: it.first, default=None)


def pairs_of(text):
    """The `old:` and `new:` texts with their files. Other lines are words for the reader."""
    path = old = None
    for line in text.split("\n"):
        if line.startswith("file: "):
            path = line[6:].strip()
        elif line.startswith("old: "):
            old = line[5:]
        elif line.startswith("new:") and path and old is not None:
            yield path, old, line[4:].removeprefix(" ")
            old = None


def read_edit(folder, file):
    """Reads an edit of the crate in the folder. Each pair applies to what those before it made."""
    text = file.read_text(encoding="utf-8")
    before, after = {}, {}
    for path, old, new in pairs_of(text):
        if path not in after:
            if not path.startswith("src/") or not (folder / path).is_file():
                raise BadEdit(f"{path} is no file of src/")
            before[path] = after[path] = (folder / path).read_text(encoding="utf-8")
        if after[path].count(old) != 1:
            raise BadEdit(f"the old text stands {after[path].count(old)} times in {path}")
        after[path] = after[path].replace(old, new)
    changes, functions = {}, set()
    for path, whole in after.items():
        lines, edited = before[path].split("\n"), whole.split("\n")
        inside = list(functions_of(folder.name, path, lines, types_of(folder)))
        for number, (line, other) in enumerate(zip(lines, edited), 1):
            if line != other:
                changes[path, number] = other
                functions.add(function_at(inside, number))
    if not changes:
        raise BadEdit("it changes nothing")
    held = None if None in functions else frozenset(functions)
    return WrongBody(folder.name, file.stem, text, changes, held)


class Planted:
    """Bodies, planted in the crate of a folder: `texts` has the files that change, by path. The
    first one in a function stands in the function itself, and the others in copies behind it, which
    nobody calls. `places` has the functions in which each body stands, by its name, and `origins`
    has for the name of each of these the function that it is, or is a copy of, as it is written."""

    def __init__(self, bodies, folder):
        self.texts, self.origins = {}, {}
        self.places = {it.name: [] for it in bodies}
        self.copied, held = set(), set()
        for body in bodies:
            names = {it.name for it in body.functions or ()}
            if names & held:
                self.copied.add(body.name)
            held |= names
        for path in sorted({path for body in bodies for path, _ in body.changes}):
            lines = (folder / path).read_text(encoding="utf-8").split("\n")
            self.texts[path] = "\n".join(self.plant(path, bodies, lines))

    def plant(self, path, bodies, lines):
        """Returns the lines of a file with the bodies."""
        edits, inside, behind = {}, [], {}
        for number, body in enumerate(bodies):
            changes = {at: line for (of, at), line in body.changes.items() if of == path}
            own = [it for it in body.functions or () if it.path == path]
            if body.name in self.copied:
                for it in own:
                    behind.setdefault(it.last, []).append((body, it, f"_wrong{number}", changes))
            else:
                edits.update(changes)
                inside += [(body, it) for it in own]
        made, now_at = [], {}
        for at, line in enumerate(lines, 1):
            made.append(edits.get(at, line))
            now_at[at] = len(made)
            for body, function, ending, changes in behind.get(at, ()):
                copy = moved(function, len(made) + 2 - function.first, ending)
                own = [changes.get(it, lines[it - 1]) for it in range(function.first, at + 1)]
                head = function.head - function.first
                own[head] = HEAD.sub(rf"\g<0>{ending}", own[head], count=1)
                made += ["", *own]
                self.places[body.name].append(copy)
                self.origins[copy.name] = function
        for body, function in inside:
            place = moved(function, now_at[function.first] - function.first, "")
            self.places[body.name].append(replace(place, last=now_at[function.last]))
            self.origins[place.name] = function
        return made

    def checked(self, body):
        """The functions that are to be checked for a body, by their paths below the crate; none if
        it changes something else and doesn't say which function has to be refused."""
        names = [it.name.partition("::")[2] for it in self.places[body.name]]
        return [body.place] if body.place else sorted(names)

    def write(self, room):
        """Puts the files into a copy of the crate, with the proofs of the copies."""
        for path, text in self.texts.items():
            (room / path).write_text(text, encoding="utf-8")
        for copy in (it for places in self.places.values() for it in places):
            function = self.origins[copy.name]
            if copy.name != function.name and (room / function.proofs).is_dir():
                (room / copy.proofs).mkdir()
                for file in (room / function.proofs).glob("*.antt"):
                    text = file.read_text(encoding="utf-8")
                    text = text.replace(f"{function.module}.", f"{copy.module}.")
                    (room / copy.proofs / file.name).write_text(text, encoding="utf-8")

    def is_unread(self, body, said):
        """Whether the text of a place of this body is said not to be understood."""
        found = [it for line in said if UNREAD.search(line) for it in AT.findall(line)[:1]]
        return any(
            it.path == path and it.first <= int(line) <= it.last
            for it in self.places[body.name]
            for path, line in found
        )

    def as_written(self, place, line):
        """What is said of a place, with the line and the proof of its function as it is written."""
        function = self.origins[place.name]
        by, path = place.first - function.first, re.escape(place.path)
        line = re.sub(rf"({path}):(\d+):", lambda it: f"{it[1]}:{int(it[2]) - by}:", line)
        return line.replace(place.proofs, function.proofs)


def moved(function, by, ending):
    """The function with another end of its name, so many lines further down."""
    return replace(
        function,
        name=function.name + ending,
        first=function.first + by,
        head=function.head + by,
        body=function.body + by,
        last=function.last + by,
    )
