#!/usr/bin/env python3
"""Spells the repository's own names as today's Rattle does: words in snake case, types, facts and modules in camel case.

usage: tools/respell.py    once, at the top of the repository, after the kit's port.py

port.py respells names that its library has too; this script does the others. In specs/ and proofs/ a name that begins with a small
letter gets underscores for its capitals and dashes (recordKind is record_kind, begin-copy is begin_copy), unless the file imports it
from a library that is not the repository's. Where a lemma would then have a definition's name, it ends in _lem. In src/ and in the
must-fail edits the names that clauses cite follow. Functions, fields and constants of src/ keep their names, and so do the SAM tags
aD, aM, aE and the like. In comments, and on the pages of docs/, the names of definitions follow. A line that begins 'meets:' says
which names of one file would have fallen together and were left.
"""

import collections
import glob
import os
import re

NAME = r'[^\s(){}.;,@"«»\[\]|]+'
TOKEN = re.compile(NAME)
USE = re.compile(r"(?m)^((?:ghost |pub )*use) ([^\s{;]+?)\.\{([^}]*)\}")
DECLARED = re.compile(r"(?m)^ *(?:(?:pub|unfoldable|abbrev) )*([^\s.:={}]+)(?: \{[^{}\n]*\})*(?: \([^()\n]*\))* :(?= |$)")
PROOF = re.compile(r"/(Proof|Answers|Invariants)\.antt$")
KEPT = {"aD", "aM", "aE", "bD", "bM", "bE", "cD", "cM", "cE"}


def read(path):
    with open(path, encoding="utf-8") as f:
        return f.read()


def files(*patterns):
    return sorted(p for pattern in patterns for p in glob.glob(pattern, recursive=True) if "/out/" not in p)


def own():
    return {p.split("/")[1] for p in glob.glob("crates/*")}


def is_own(module, crates):
    steps = module.split(".")
    return steps[0] == "package" or (steps[0] == "Rattle" and len(steps) > 1 and steps[1] in crates)


def imported(text, crates):
    """The names that a file brings in from libraries that are not the repository's."""
    names = set()
    for _, module, items in USE.findall(text):
        if not is_own(module, crates):
            names |= {i.strip() for i in items.split(",")}
    return names


def snake(name):
    return re.sub(r"(?<=[a-z0-9])[A-Z]", lambda m: "_" + m[0].lower(), name).replace("-", "_")


def is_turned(name):
    return name[0].isascii() and name[0].islower() and name not in KEPT and bool(re.search(r"[a-z0-9][A-Z]|\w-\w", name)) and "◌" not in name


FIELDS = re.compile(r"(?m)^pub record [^\n]*where\n((?:[ \t]+[^\n]*\n|\n)*)")


def plan(texts, crates):
    """Each name's new spelling, the same in every file, and which names are declared, and which as fields."""
    declared, fields, every = set(), set(), set()
    for path, text in texts.items():
        code = re.sub(r"--.*", "", text)
        declared |= {m[1] for m in DECLARED.finditer(code)}
        for m in FIELDS.finditer(code):
            fields |= {f[1] for f in DECLARED.finditer(m[1])}
        every |= set(TOKEN.findall(code))
    turned = {n: snake(n) for n in every if is_turned(n)}
    definitions = {turned.get(n, n) for n in declared if "-" not in n and n[0].islower()}
    for n in turned:
        if "-" in n and n in declared and n not in fields and turned[n] in definitions:
            turned[n] += "_lem"
    return turned, declared, fields


def apart(texts, turned, declared, fields, crates):
    """Gives names that would fall together in a file an ending that tells them apart."""
    alone = collections.defaultdict(dict)
    for path, text in sorted(texts.items()):
        if PROOF.search(path):
            continue
        kept = imported(text, crates)
        seen = {}
        code = re.sub(r"(?m)(^|\s)--(\s.*|$)", "", text)
        code = USE.sub(lambda m: m[3], re.sub(r"(?m)^ *(?:pub )?(?:use|mod) [^{\n]*$", "", code))
        for name in sorted(set(TOKEN.findall(code)), key=lambda n: ("-" in n, n)):
            new = name if name in kept else turned.get(name, name)
            if seen.get(new, name) != name:
                one = name if is_turned(name) and name not in kept else seen[new]
                if "-" not in one:
                    # A lemma of this file alone, whose name port.py turned.
                    print("apart:", path, new, "->", new + "_lem")
                    alone[path][new] = new + "_lem"
                    continue
                end = "_lem" if one in declared and one not in fields else "_is"
                print("apart:", path, name, seen[new], "->", turned.get(one, one) + end)
                turned[one] = turned.get(one, one) + end
            seen[new] = name
    return alone


def turn(text, turned, kept, fields, is_proof):
    def one(m):
        name = m[0]
        if name in kept or name not in turned:
            return name
        behind = text[max(0, m.start() - 1) : m.start()] == "."
        if is_proof and behind and "-" in name and name not in fields:
            return name
        return turned[name]

    return TOKEN.sub(one, text)


def turn_antt(text, turned, kept, fields, definitions, is_proof):
    out = []
    for line in text.split("\n"):
        m = re.search(r"(^|\s)--(\s|$)", line)
        code, comment = (line[: m.start()], line[m.start() :]) if m else (line, "")
        comment = re.sub(r"\b[a-z]\w*\b", lambda m: definitions.get(m[0], m[0]), comment)
        out.append(turn(code, turned, kept, fields, is_proof) + comment)
    return "\n".join(out)


def turn_words(text, definitions):
    """Names of definitions and claims with capitals inside, in Rattle sources, edits and pages."""
    return re.sub(r"(?<![\w.\"'/-])[a-z]\w*[A-Z]\w*\b(?![\w(-])|(?<=\.)[a-z]\w*[A-Z]\w*\b(?![\w(-])", lambda m: definitions.get(m[0], m[0]), text)


def main():
    crates = own()
    texts = {p: read(p) for p in files("crates/*/specs/**/*.antt", "crates/*/proofs/**/*.antt")}
    turned, declared, fields = plan(texts, crates)
    foreign = set().union(*(imported(text, crates) for text in texts.values()))
    alone = apart(texts, turned, declared, fields, crates)
    definitions = {n: t for n, t in turned.items() if "-" not in n and n in declared}
    for path, text in texts.items():
        new = turn_antt(text, turned | alone[path], imported(text, crates), fields, definitions, bool(PROOF.search(path)))
        if new != text:
            with open(path, "w", encoding="utf-8") as f:
                f.write(new)
    cited = {n: t for n, t in turned.items() if n in declared and "-" in n}
    for path in files("crates/*/src/**/*.rt", "crates/*/must-fail/**/*.edit"):
        text = read(path)
        new = []
        antt = False
        for line in text.split("\n"):
            if path.endswith(".edit"):
                if line.startswith("file:"):
                    antt = line.strip().endswith(".antt")
                if antt and line.startswith(("old:", "new:")):
                    line = line[:4] + TOKEN.sub(lambda m: turned.get(m[0], m[0]) if m[0] not in foreign else m[0], line[4:])
                elif not line.startswith("file:"):
                    line = turn_words(line, definitions)
            else:
                line = turn_words(line, definitions)
                if line.startswith("ghost use") or re.match(r"\s*(requires|ensures)\b", line):
                    line = TOKEN.sub(lambda m: cited.get(m[0], m[0]), line)
            new.append(line)
        if (new := "\n".join(new)) != text:
            with open(path, "w", encoding="utf-8") as f:
                f.write(new)
    os.makedirs("target", exist_ok=True)
    with open("target/respelled.tsv", "w", encoding="utf-8") as f:
        f.writelines(f"{n}\t{t}\n" for n, t in sorted(turned.items()))
    print(len(turned), "names,", len(definitions), "of definitions")


if __name__ == "__main__":
    main()
