"""Copies of a crate in which it is checked, beside the work that earlier checks kept."""

import contextlib
import heapq
import itertools
import os
import re
import shutil
import subprocess
import threading
import time
from functools import cache
from pathlib import Path

from refusal import whole_lines
from wrong_body import Planted

PARTS = ("src", "specs", "proofs")
# A check takes up to this much memory. A second one begins only if there is as much.
GIGABYTES = 5


class Unsure(Exception):
    """A check came to no end that says anything of the code."""


def lines_of(top):
    """The lines of crates.txt, by crate."""
    lines = (top / "crates.txt").read_text(encoding="utf-8").splitlines()
    return {re.match(r"\w+", it)[0]: it for it in lines if it[:1].isalpha()}


def words_of(top):
    """The crates of crates.txt, in its order, each with all libraries that it uses."""
    return {name: line.partition(":")[2].split() for name, line in lines_of(top).items()}


def crates_of(top):
    """The same with the libraries of the repository alone."""
    uses = words_of(top)
    return {name: [it for it in uses[name] if it in uses] for name in uses}


def all_below(crates, crate):
    found = []
    for name in crates[crate]:
        found += [it for it in [*all_below(crates, name), name] if it not in found]
    return found


@cache
def kit():
    """The folder of the toolchain."""
    page = subprocess.run(["rt", "doc"], check=True, capture_output=True, text=True).stdout
    return Path(page.strip()).parent


class Lanes:
    """Lets so many checks run at once. Of those that wait, the one with the lowest rank is next."""

    def __init__(self, number):
        self.free, self.waiting, self.numbers = number, [], itertools.count()
        self.changed = threading.Condition()

    @contextlib.contextmanager
    def lane(self, rank):
        own = (rank, next(self.numbers))
        with self.changed:
            heapq.heappush(self.waiting, own)
            self.changed.wait_for(lambda: self.free and self.waiting[0] == own)
            heapq.heappop(self.waiting)
            self.free -= 1
            self.changed.notify_all()
        try:
            yield
        finally:
            with self.changed:
                self.free += 1
                self.changed.notify_all()


def link(source, target):
    """Copies what a check made. Such files are replaced and never changed, so the copies can be the
    same files."""

    def copy(one, other):
        try:
            return os.link(one, other)
        except OSError:
            return shutil.copy2(one, other)

    shutil.copytree(source, target, symlinks=True, copy_function=copy)


class Rooms:
    """Runs the checks. Each has a room of its own, with a copy of the crate in which something may
    be planted. The first check of a crate begins from nothing; the others begin with what it kept,
    so they prove again only what is planted in them. The libraries below are those that the run of
    `rt ci` makes which writes this log, or, without one, those that `rt lib` makes here."""

    def __init__(self, top, work, jobs, log=None):
        self.top, self.work, self.log = top, work, log
        self.crates, self.uses = crates_of(top), words_of(top)
        # The largest crates take longest, so they go first.
        self.ranks = {it: -size_of(top / "crates" / it) for it in self.crates}
        self.lanes = Lanes(jobs)
        self.alone = threading.Lock()
        self.building = threading.Lock()
        self.running = set()
        self.ended = False
        self.kept = {}
        self.number = 0

    def end(self, *_):
        """Ends what runs, and begins nothing more: what is not told then is not tried."""
        self.ended = True
        for check in list(self.running):
            check.terminate()

    def run(self, words, folder, rank):
        """Runs a command when a lane and memory are free: its status, and the lines it printed."""
        with self.lanes.lane(rank):
            with self.alone:
                while self.running and free_gigabytes() < GIGABYTES:
                    time.sleep(1)
                if self.ended:
                    raise Unsure("the run was ended")
                check = subprocess.Popen(
                    words,
                    cwd=folder,
                    stdin=subprocess.DEVNULL,
                    stdout=subprocess.PIPE,
                    stderr=subprocess.STDOUT,
                    errors="replace",
                )
                self.running.add(check)
            said = check.communicate()[0]
            self.running.discard(check)
        return check.returncode, whole_lines(said)

    def furnish(self, room, crate):
        """Copies the crate, without what was made of it."""
        room.mkdir(parents=True)
        for part in PARTS:
            if (self.top / "crates" / crate / part).is_dir():
                shutil.copytree(self.top / "crates" / crate / part, room / part)

    def library(self, crate):
        """The library of a crate below, as soon as it is made."""
        made = self.work / "libraries" / f"{crate}.rlib"
        if self.log:
            self.wait_for(crate)
        with self.building:
            if not made.is_dir():
                source = self.top if self.log else self.build(crate)
                link(source / "crates" / crate / "out/rlib" / made.name, made)
        return made

    def wait_for(self, crate):
        """Waits until the log says that the crate is proved."""
        while not self.ended:
            told = self.log.read_text(encoding="utf-8", errors="replace")
            if re.search(rf"^rt: {crate} (proved$|is kept:)", told, re.M):
                return
            if re.search(rf"^rt: {crate} NOT PROVED|^\d+ passed, \d+ failed", told, re.M):
                break
            time.sleep(1)
        raise Unsure(f"there is no library of {crate}")

    def build(self, crate):
        """Makes the library in a copy of the repository, and returns the copy."""
        shop = self.work / "shop"
        if not shop.is_dir():
            shop.mkdir()
            for name in ("HANDLES", "crates.txt"):
                shutil.copy2(self.top / name, shop / name)
            for name in self.crates:
                self.furnish(shop / "crates" / name, name)
        status, said = self.run(["rt", "lib"], shop / "crates" / crate, self.ranks[crate])
        if status:
            raise Unsure(f"there is no library of {crate}:\n" + "\n".join(said[-20:]))
        return shop

    def command(self, crate):
        """The words that check a crate."""
        root = next(it for it in ("lib", "main") if self.source(crate, it).is_file())
        words = [f"{kit()}/bin/rattle", "check", "--crate-name", crate, f"src/{root}.rt"]
        of_kit = ["std", *(it for it in self.uses[crate] if it not in self.crates)]
        words += [f"--extern={it}={kit()}/rlibs/{it}.rlib" for it in of_kit]
        words += [f"--extern={it}={self.library(it)}" for it in self.crates[crate]]
        for name in all_below(self.crates, crate):
            self.library(name)
        words += ["-L", f"dependency={kit()}/rlibs", "-L", f"dependency={self.work}/libraries"]
        words += ["--antt-project", f"{kit()}/rattle/logic/antt-project.json"]
        return [*words, "--logic-built", f"{kit()}/logic_built", "--jobs", "1"]

    def source(self, crate, name):
        return self.top / "crates" / crate / "src" / f"{name}.rt"

    def check(self, crate, bodies):
        """Checks the functions in which these bodies are planted, or the whole crate if one of them
        doesn't tell: the status, the lines that were said, and what was planted."""
        words = self.command(crate)
        with self.alone:
            self.number += 1
            room = self.work / f"room{self.number}"
        self.furnish(room, crate)
        planted = Planted(bodies, self.top / "crates" / crate)
        planted.write(room)
        checked = [planted.checked(it) for it in bodies]
        if all(checked):
            words += [f"--only={it}" for names in checked for it in names]
        if crate in self.kept:
            link(self.kept[crate], room / "kept")
        status, said = self.run([*words, "--incremental", "kept"], room, self.ranks[crate])
        # A check that can't read the code keeps nothing.
        if not (room / "kept").is_dir() or self.kept.setdefault(crate, room / "kept").parent != room:
            shutil.rmtree(room, ignore_errors=True)
        return status, said, planted


def size_of(folder):
    """The bytes of the parts of a crate."""
    files = (it for part in PARTS for it in (folder / part).rglob("*"))
    return sum(it.stat().st_size for it in files)


def free_gigabytes():
    lines = Path("/proc/meminfo").read_text(encoding="ascii")
    return int(re.search(r"MemAvailable:\s+(\d+)", lines)[1]) / 2**20
