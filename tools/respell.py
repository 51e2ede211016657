#!/usr/bin/env python3
"""Brings this repository's own definitions and lemmas to the spelling of today's Rattle, once, after its port script.

usage: python3 tools/respell.py [--pairs FILE] [--dry]     at the top of the repository

A definition, a field, a case and a lemma are in snake case: wordOf becomes word_of, and head-small head_small. A dash stays where it
joins the names of two definitions, as in skips-append; a lemma that would have a definition's name gets _lem. What is declared in src/ and what the library declares keeps its spelling, and
so do types; modules are in camel case.
"""

import collections
import os
import re
import sys

# lemmas that the port script had already given a definition's new name, by the files that speak of them
LEMMAS = {
    "found_in": ["crates/book/proofs/theory/Finding.antt"],
    "plain_rows": ["crates/refusals/proofs/Rows.antt", "crates/refusals/proofs/Refusals.antt"],
    "put_word": ["crates/lent_step/proofs/Put.antt", "crates/lent_step/proofs/Says.antt"],
}

# modules, by crate: a module is in camel case
MODULES = {"book": ["theory"], "histories": ["map", "rules", "simulation", "demand", "filled", "worn", "plainly"]}

# the library's words that a dash joins
WORDS = set(
    """length take drop append map set get_or replicate reverse sum fold eqb ltb leb add sub mul div mod pow suc pred cond not and or
    bit_and bit_or bit_xor min max""".split()
)

# names that Rattle makes
MADE = {"invariant-loop", "decreases-loop"}

WORD = r"[^\W\d_][\w'\-]*"
TOKEN = re.compile(r"(?<![\w'\-])" + WORD, re.UNICODE)
SIGNATURE = re.compile(r"^\s*(?:(?:abbrev|unfoldable|pub|mutual)\s+)*(" + WORD + r"(?:\s+" + WORD + r")*)\s+:(?:\s|$)", re.UNICODE)
RULESET = re.compile(r"^\s*(?:pub\s+)?ruleset\s+(" + WORD + ")")
FIELD = re.compile(r"^\s+(?:pub\s+)?(" + WORD + r")\s+:(?:\s|$)", re.UNICODE)
KEYWORDS = set("record data module use let in where infixl infixr ruleset".split())
OPERATOR = re.compile(r"◌(" + WORD + r")◌")


def files(root, *endings):
    for folder, dirs, names in os.walk(os.path.join(root, "crates")):
        dirs[:] = sorted(d for d in dirs if d != "out")
        for name in sorted(names):
            if name.endswith(endings):
                yield os.path.join(folder, name)


def read(path):
    with open(path, encoding="utf-8") as f:
        return f.read()


def code(line, mark):
    at = line.find(mark)
    return line if at < 0 else line[:at]


def declared(root):
    """The names that the files of specs/ and proofs/ declare, those of them that are fields or cases, and those that specs/ defines."""
    names, fields, defined = set(), set(), set()
    for path in files(root, ".antt"):
        for line in read(path).split("\n"):
            line = code(line, "--")
            found = SIGNATURE.match(line)
            if found and not KEYWORDS & set(found.group(1).split()):
                names.update(found.group(1).split())
                if "/specs/" in path and line[0] != " ":
                    defined.update(found.group(1).split())
            found = RULESET.match(line)
            if found:
                names.add(found.group(1))
            found = FIELD.match(line)
            if found:
                fields.add(found.group(1))
    return names, fields, defined


def snake(word):
    """One word, without a dash: a capital after a small letter or a digit begins a word."""
    if not word or word[0].isupper():
        return word
    return re.sub(r"(?<=[a-z0-9'])([A-Z])", lambda m: "_" + m.group(1).lower(), word)


def joined(name, known):
    """The new spelling of a name: a dash stays between two names of definitions; a function's proof has the function's name."""
    parts = [snake(p) for p in name.split("-")]
    if parts[-1] == "spec":
        return "_".join(parts)
    out = parts[0]
    for before, after in zip(parts, parts[1:]):
        out += ("-" if before in known and after in known else "_") + after
    return out


def pairs(root):
    names, fields, defined = declared(root)
    known = WORDS | {snake(n) for n in defined if "-" not in n and len(n) > 2}
    turned = {n: joined(n, known) for n in names - MADE if n[0].islower() or "-" in n}
    taken = {joined(n, known) for n in names if "-" not in n}
    turned = {a: b + ("_lem" if "-" in a and b in taken else "") for a, b in turned.items()}
    return {a: b for a, b in turned.items() if a != b}, fields


def turn(text, to, fields, mark):
    """The text with each name of `to` respelled. A name with a dash is left alone in a comment and behind a dot, if it is no field."""
    def one(line):
        until = len(code(line, mark))

        def word(m):
            w = m.group(0)
            if w not in to:
                return w
            if "-" in w and (m.start() >= until or (line[: m.start()].endswith(".") and w not in fields)):
                return w
            return to[w]

        return TOKEN.sub(word, line)

    return "\n".join(one(line) for line in text.split("\n"))


def write(path, old, new):
    if new != old:
        with open(path, "w", encoding="utf-8") as f:
            f.write(new)


def apart(root):
    for name, paths in LEMMAS.items():
        for path in (os.path.join(root, p) for p in paths):
            text = read(path)
            write(path, text, TOKEN.sub(lambda m: name + "_lem" if m.group(0) == name else m.group(0), text))


def modules(root):
    for crate, names in MODULES.items():
        proofs = os.path.join(root, "crates", crate, "proofs")
        for name in names:
            for old, new in ((name, name.capitalize()), (name + ".antt", name.capitalize() + ".antt")):
                os.rename(os.path.join(proofs, old), os.path.join(proofs, new))
        path = os.path.join(proofs, "Lib.antt")
        text = read(path)
        write(path, text, re.sub(r"(?m)^((?:pub )?mod )(\w+)$", lambda m: m.group(1) + (m.group(2).capitalize() if m.group(2) in names else m.group(2)), text))
        spoken = re.compile(r"(Rattle\.%s\.proofs\.)(%s)(?![\w'\-])" % (crate, "|".join(names)))
        for path in files(root, ".antt", ".rt"):
            text = read(path)
            write(path, text, spoken.sub(lambda m: m.group(1) + m.group(2).capitalize(), text))


def main(words):
    root = os.getcwd()
    to, fields = pairs(root)
    if "--pairs" in words:
        with open(words[words.index("--pairs") + 1], "w", encoding="utf-8") as f:
            f.writelines(f"{a} {b}\n" for a, b in sorted(to.items()))
    if "--dry" in words:
        return
    apart(root)
    for path in files(root, ".antt", ".rt"):
        text = read(path)
        write(path, text, turn(text, to, fields, "--" if path.endswith(".antt") else "//"))
    modules(root)
    print(f"respell: {len(to)} names")


if __name__ == "__main__":
    main(sys.argv[1:])
