#!/usr/bin/env python3
"""Respells this repository's own definitions and lemmas: words in snake case, a dash only between two names.

usage: respell_names.py [FOLDER]      the folder that holds crates/; the current one if it is left out

respelled_names.txt, beside this file, has a line for each name: as it was, as it is. In .antt files every word that is such a name is
respelled, but not one that the file takes from a library of the kit; in .rt files the same outside strings. Run it once.
"""
import os
import re
import sys

TOKEN = re.compile(r"[^\s(){}.;,@\"«»\[\]\\:&]+")
USE = re.compile(r"^(?:pub )?(?:ghost )?use (\S+?)\.\{([^}]*)\}", re.M)
STRING = re.compile(r'(b?"(?:[^"\\]|\\.)*")')


def table(path):
    with open(path, encoding="utf-8") as f:
        return dict(line.split() for line in f)


def of_libraries(text, crates):
    """The names that a file takes from the kit's libraries."""
    found = set()
    for module, names in USE.findall(text):
        parts = module.split(".")
        if parts[0] == "Rattle" and parts[1] in crates:
            continue
        for name in names.split(","):
            found.update(name.split(" as "))
    return {name.strip() for name in found}


def respelled(text, names, crates, strings):
    kept = of_libraries(text, crates)

    def word(m):
        w = m.group(0)
        return w if w in kept else names.get(w, w)

    if not strings:
        return TOKEN.sub(word, text)
    parts = STRING.split(text)
    return "".join(p if i % 2 else TOKEN.sub(word, p) for i, p in enumerate(parts))


def main():
    root = sys.argv[1] if len(sys.argv) > 1 else "."
    here = os.path.dirname(os.path.abspath(__file__))
    names = table(os.path.join(here, "respelled_names.txt"))
    crates = set(os.listdir(os.path.join(root, "crates")))
    for folder, folders, files in os.walk(os.path.join(root, "crates")):
        folders[:] = [f for f in folders if f != "out"]
        for name in files:
            if not name.endswith((".antt", ".rt")):
                continue
            path = os.path.join(folder, name)
            with open(path, encoding="utf-8") as f:
                text = f.read()
            new = respelled(text, names, crates, name.endswith(".rt"))
            if new != text:
                with open(path, "w", encoding="utf-8") as f:
                    f.write(new)


main()
