"""Reading, writing and running."""
import subprocess
from pathlib import Path


class Fault(Exception):
    """What stops the tool, in words for its user."""


def read(path):
    return Path(path).read_text(encoding="utf-8")


def write(path, text):
    Path(path).parent.mkdir(parents=True, exist_ok=True)
    Path(path).write_text(text, encoding="utf-8")


def run(words, where):
    """(a command's status, what it prints on either stream)"""
    ended = subprocess.run(words, cwd=where, encoding="utf-8", stdin=subprocess.DEVNULL, stdout=subprocess.PIPE, stderr=subprocess.STDOUT)
    return ended.returncode, ended.stdout


def repository():
    """The folder with crates.txt, here or above."""
    here = Path.cwd()
    for folder in (here, *here.parents):
        if (folder / "crates.txt").exists():
            return folder
    raise Fault("no crates.txt in this folder or above it")
