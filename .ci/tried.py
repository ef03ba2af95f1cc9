"""What earlier runs found of wrong bodies, by the sum of all that it rests on."""

import hashlib
import os
import subprocess
import sys
from functools import cache
from pathlib import Path

from rooms import PARTS, all_below, lines_of


@cache
def toolchain():
    return subprocess.run(["rt", "version"], check=True, capture_output=True, text=True).stdout


def scripts():
    """Those of this folder that run."""
    named = (getattr(it, "__file__", None) for it in list(sys.modules.values()))
    paths = {Path(it).resolve() for it in named if it}
    return sorted(it for it in paths if it.parent == Path(__file__).resolve().parent)


def sum_of_files(folder):
    found = hashlib.sha256()
    for file in sorted(it for part in PARTS for it in (folder / part).rglob("*") if it.is_file()):
        text = file.read_bytes()
        found.update(f"{file.relative_to(folder)} {len(text)}\n".encode() + text)
    return found.hexdigest()


class Tried:
    """A file for each body that was refused, with the line that says so. Its name is the sum of the
    toolchain, of the crate with those below it, of these scripts, and of the edit itself."""

    def __init__(self, given, crate, crates):
        cache_home = os.environ.get("XDG_CACHE_HOME") or Path.home() / ".cache"
        self.folder = Path(cache_home) / "dinero_pipe" / "wrong-bodies"
        self.anew = given.anew
        self.top = given.top
        self.names = [*all_below(crates, crate), crate]
        self.base = self.sum_now()

    def sum_now(self):
        base = hashlib.sha256(toolchain().encode())
        base.update((self.top / "HANDLES").read_bytes())
        for script in scripts():
            base.update(script.read_bytes())
        for name in self.names:
            folder = self.top / "crates" / name
            base.update(f"{lines_of(self.top)[name]}\n{sum_of_files(folder)}\n".encode())
        return base.hexdigest()

    def file(self, body):
        text = f"{self.base} {body.label}\n{body.text}"
        return self.folder / hashlib.sha256(text.encode()).hexdigest()

    def known(self, body):
        try:
            return None if self.anew else self.file(body).read_text(encoding="utf-8")
        except OSError:
            return None

    def keep(self, body, why):
        """Where nothing can be written, or what was tried has changed since, the next run tries
        again."""
        if self.sum_now() != self.base:
            return
        try:
            self.folder.mkdir(parents=True, exist_ok=True)
            part = self.file(body).with_suffix(f".{os.getpid()}")
            part.write_text(why, encoding="utf-8")
            part.replace(self.file(body))
        except OSError:
            pass
