"""What the commands that prove and build share: the crates by crates.txt, and whether what was built is as new as its sources."""
import os
import pathlib
import re
import subprocess
import sys

TOP = pathlib.Path(__file__).resolve().parent.parent
LISTED = re.compile(r"^(\w+)[^:#\n]*:([^#\n]*)", re.M)


def listed():
    """The crates of crates.txt, each with those of the repository that it uses."""
    uses = {name: deps.split() for name, deps in LISTED.findall((TOP / "crates.txt").read_text())}
    return {name: [dep for dep in deps if dep in uses] for name, deps in uses.items()}


def with_below(names, uses):
    """The named crates and all that they use, lowest first, each with what it uses."""
    found = {}

    def visit(name):
        if name not in found:
            for dep in uses[name]:
                visit(dep)
            found[name] = uses[name]

    for name in names:
        visit(name)
    return found


def is_new(made):
    """Whether a file is there and no older than what it is made from: all that is not rt's own."""
    if not made.is_file():
        return False
    when = made.stat().st_mtime
    if (TOP / "crates.txt").stat().st_mtime > when:
        return False
    for at, folders, files in os.walk(TOP / "crates"):
        folders[:] = [name for name in folders if name != "out"]
        if any(os.stat(f"{at}/{name}").st_mtime > when for name in files):
            return False
    return True


def progress(name):
    """Proves and builds a crate and what it uses; where that fails, this ends."""
    if status := subprocess.run([TOP / "bin/progress", name]).returncode:
        sys.exit(status)
