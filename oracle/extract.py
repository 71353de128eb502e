"""Takes items of the Rust source by name, word for word. A name that is not there exactly once ends the run."""

import re
import sys

# What may hide a brace (comments, strings, characters), and the brackets and semicolons themselves.
TOKEN = re.compile(
    r"""//[^\n]*|/\*.*?\*/|r(#*)".*?"\1|"(?:\\.|[^"\\])*"|'(?:\\[^\n']+|\\'|[^\\'\n])'|[][(){};]""",
    re.DOTALL,
)


def fail(message):
    sys.exit(f"oracle: {message}")


def end(text, start, closers="};"):
    """Past the closing brace of what starts there, or past its semicolon."""
    depth = 0
    for token in TOKEN.finditer(text, start):
        mark = token.group()
        if mark in "([{":
            depth += 1
        elif mark in ")]}":
            depth -= 1
        if depth == 0 and mark in closers:
            return token.end()
    fail(f"no end of {text[start:start + 60]!r}")


def with_attributes(text, start):
    """Up over the comments and attributes that stand right above."""
    while start > 0:
        above = text.rfind("\n", 0, start - 1) + 1
        line = text[above : start - 1].strip()
        if not line or line[-1] in "{};":
            break
        start = above
    return start


class Source:
    """One file of the Rust tree."""

    def __init__(self, path):
        self.name = path.name
        self.text = path.read_text()

    def starts(self, name, span):
        """Where `struct S`, `enum E`, `const C`, `type T` or `fn f` starts within a span."""
        kind, word = name.split()
        pattern = rf"^[ ]*(?:pub(?:\([a-z]+\))? )?(?:const )?{kind} {word}\b"
        return [m.start() for m in re.compile(pattern, re.M).finditer(self.text, *span)]

    def item(self, name):
        """Such an item of the file, or `S::f`, a method of an `impl S`."""
        spans = [(0, len(self.text))]
        if "::" in name:
            owner, method = name.split("::")
            blocks = re.finditer(rf"^impl {owner} {{", self.text, re.M)
            spans = [(m.start(), end(self.text, m.start())) for m in blocks]
            name = f"fn {method}"
        found = [start for span in spans for start in self.starts(name, span)]
        if len(found) != 1:
            fail(f"{self.name} has `{name}` {len(found)} times")
        return self.text[with_attributes(self.text, found[0]) : end(self.text, found[0])]

    def piece(self, name, first, last):
        """The part of a function from the text `first` to the end of the statement that starts `last`: of a `let`, its semicolon."""
        body = self.item(name)
        if body.count(first) != 1 or body.count(last) != 1 or body.index(last) < body.index(first):
            fail(f"{self.name}: `{name}` has no single piece from `{first}` to `{last}`")
        return body[body.index(first) : end(body, body.index(last), ";" if last.startswith("let ") else "};")]
