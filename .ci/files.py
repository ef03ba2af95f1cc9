"""The files of a repository."""

import subprocess
from pathlib import Path


def tracked(top):
    """The files that git knows or would add, relative to the top, without those that are gone."""
    words = ["git", "-C", str(top), "ls-files", "-z", "--cached", "--others", "--exclude-standard"]
    listed = subprocess.run(words, check=True, capture_output=True, text=True).stdout
    paths = sorted({Path(name) for name in listed.split("\0") if name})
    return [path for path in paths if (top / path).is_file()]


def lines_of(top, path):
    return (top / path).read_text(encoding="utf-8").splitlines()


def is_script(top, path):
    with open(top / path, "rb") as file:
        return file.read(2) == b"#!"
