"""What the tests of must-fail edits share: an edit's form, what `rt` says of one, and whether a refusal shows a fact.

An edit is wrong text for right: a `file:` line, then an `old:` line, whose text stands once in that file of the crate, and a
`new:` line in its place; more of each may follow. crates/NAME/must-fail/*.edit are tried by `rt ci`, crates/NAME/more-edits/*.edit
by tests/more-edits.
"""
import re

# A line of `rt ci` or `rt must-fail`: the crate, the edit's file, what came of it, in brackets what the refusal lacks, and the first thing that does not hold.
SAID = re.compile(r"^rt: must-fail (\w+)/(\S+): (refused, as it must be|[A-Z ]+)(?: \(([^)]*)\))?(?:: (.*))?$", re.M)
# The first error of an edit that only makes the proof file unfit for the code shows nothing.
SHAPE = re.compile(r"can be named from here|has no field|has no `|cannot continue|not in scope|is not declared|unknown name|does not parse|syntax error|was not admitted|\(nearest: ", re.I)


class Misfit(Exception):
    """An edit that does not apply to its crate."""


def told(log):
    """What `rt` said of each edit, by its crate and its file's name: whether it was refused, whether for a fact, and the line."""
    found = {}
    for line in SAID.finditer(log):
        crate, edit, end, lacks, first = line.groups()
        refused = end.startswith("refused")
        found[crate, edit] = refused, refused and not lacks and bool(first) and not SHAPE.search(first), line[0]
    return found


def edited(edit, crate):
    """The files of a crate with an edit applied: path, and text."""
    texts, path, old = {}, None, ""
    for line in edit.read_text().splitlines():
        if line.startswith("file: "):
            path = crate / line[6:]
        elif line.startswith("old: "):
            old = line[5:]
        elif line.startswith("new:"):
            if path is None or not path.is_file():
                raise Misfit("a 'file:' line names no file of the crate")
            text = texts.get(path) or path.read_text()
            if not old or text.count(old) != 1:
                raise Misfit(f"an 'old:' text stands {text.count(old) if old else 0} times in {path.relative_to(crate)}")
            texts[path] = text.replace(old, line[4:].removeprefix(" "))
            old = ""
    if not texts:
        raise Misfit("it has no 'old:' and 'new:' pair")
    return texts
