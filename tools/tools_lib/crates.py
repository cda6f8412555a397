"""The crates of the work tree."""
import os
import shutil

TOP = os.path.dirname(os.path.dirname(os.path.dirname(os.path.realpath(__file__))))


def crates_below():
    """Returns the crates of crates.txt, each with those of the repository that its line names."""
    found = {}
    with open(f"{TOP}/crates.txt", encoding="utf-8") as lines:
        for line in lines:
            head, colon, below = line.partition("#")[0].partition(":")
            if colon and head.split():
                found[head.split()[0]] = below.split()
    return {name: [it for it in below if it in found] for name, below in found.items()}


def put(old, new):
    """Puts a file of the same contents at a second path: a hard link, or a copy on another file system."""
    try:
        os.link(old, new)
    except OSError:
        shutil.copy2(old, new)
