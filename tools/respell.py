#!/usr/bin/env python3
"""Spells the repository's own definitions and lemmas as the library spells its names.

usage: python3 tools/respell.py [--list]     at the top of the repository

A type or a fact is in upper camel case (In-box -> InBox). Everything else is in snake case (with-term -> with_term, addP -> add_p).
A dash stays in a lemma's name where it joins two words that are defined (length-multiplied, of length and multiplied).
Only names that the repository defines are turned, in specs/, proofs/ and the clauses of src/. Functions of src/, goals, strings and
comments of src/ keep their spelling. A file that imports a name of the library under the same spelling keeps that name.
--list prints old and new names and writes nothing.
"""
import os
import re
import sys

WORD = r"[^\W\d][\w']*(?:-[\w'→≤↔*+<≡∷]+)*"
NAME = re.compile(r"(?<![\w'-])" + WORD)
DEFINED = re.compile(r"^ *(?:(?:pub |abbrev |unfoldable |pattern )*(?:record|data) (" + WORD + r")|(?:pub |abbrev |unfoldable |pattern )*(" + WORD + r")(?: \{[^}]*\})? :(?!=))")
# the dash after the symbol of a type, as in ≤ℚ-refl: the repository's own lemmas of whole numbers and fractions
SYMBOL = re.compile(r"(?<=[ℚℤ])-(?=[a-z])")
USE = re.compile(r"use (Rattle\.(\w+)[\w.']*)\.\{([^}]*)\}")
# in src/: comments and strings, or else a name
SKIPPED = re.compile(r"(//[^\n]*|\"(?:[^\"\\]|\\.)*\")|(?<![\w'-])" + WORD)
# words of the library that lemma names of the repository begin or end with
LIBRARY = {"length", "take", "drop", "set", "map", "filter", "fold", "append", "get_or", "replicate", "cond"}


def texts():
    for folder, dirs, files in os.walk("crates"):
        dirs[:] = sorted(d for d in dirs if d != "out")
        for f in sorted(files):
            if f.endswith((".rt", ".antt")):
                path = os.path.join(folder, f)
                with open(path, encoding="utf-8") as it:
                    yield path, it.read()


def is_lemma_file(path):
    return path.split(os.sep)[2] in ("specs", "proofs") and len(path.split(os.sep)) == 4


def defined(files):
    """Names that specs/ and the lemma files define, and where: 'specs' or 'proofs'."""
    names = {}
    for path, text in files:
        if path.endswith(".antt") and is_lemma_file(path):
            for line in text.split("\n"):
                m = DEFINED.match(line)
                if m:
                    names.setdefault(m.group(1) or m.group(2), set()).add(path.split(os.sep)[2])
    return names


def imported(text, own):
    """Names that a file imports from the library."""
    out = set()
    for m in USE.finditer(text):
        if m.group(2) not in own:
            out |= {n.strip().split(" as ")[-1] for n in m.group(3).split(",")}
    return out


def snake(word):
    word = re.sub(r"(?<=[a-z0-9])([A-Z])", lambda m: "_" + m.group(1).lower(), word)
    return word.replace("-", "_")


def camel(word):
    return "".join(w[:1].upper() + w[1:] for w in word.split("-"))


def spelling(name, known, lemma):
    if name[0].isascii() and name[0].isupper():
        return camel(name)
    parts = [snake(p) for p in name.split("-")]
    if lemma and len(parts) == 2 and name[0].isascii() and all(p in known for p in parts):
        return "-".join(parts)
    return "_".join(parts)


def turned_line(line, mark, turn):
    """A line of antt: in a comment only types and facts are turned, since the others may be plain words."""
    cut = line.find(mark + " ") if mark + " " in line else len(line)
    return NAME.sub(turn, line[:cut]) + NAME.sub(lambda m: turn(m) if m.group(0)[0].isupper() else m.group(0), line[cut:])


def main(argv):
    own = {line.split(":")[0].strip() for line in open("crates.txt", encoding="utf-8") if line.strip() and not line.startswith("#")}
    files = list(texts())
    names = defined(files)
    known = LIBRARY | {snake(n) for n, where in names.items() if "specs" in where and not n[0].isupper()}
    new = {n: spelling(n, known, "specs" not in where) for n, where in names.items()}
    new = {n: s for n, s in new.items() if n != s}
    # the name under which port.py imports a module
    new["std-orderings"] = "StdOrdering"
    if "--list" in argv:
        for n in sorted(new):
            print(n, new[n], ",".join(sorted(names.get(n, ["import"]))))
        return 0
    for path, text in files:
        keep = imported(text, own)

        text0, text = text, SYMBOL.sub("_", text)

        def turn(m):
            w = m.group(0)
            return w if w in keep else new.get(w, w)

        if path.endswith(".antt"):
            turned = "\n".join(turned_line(line, "--", turn) for line in text.split("\n"))
        else:
            turned = SKIPPED.sub(lambda m: m.group(0) if m.group(1) else turn(m), text)
        if turned != text0:
            with open(path, "w", encoding="utf-8") as it:
                it.write(turned)
    return 0


if __name__ == "__main__":
    raise SystemExit(main(sys.argv[1:]))
