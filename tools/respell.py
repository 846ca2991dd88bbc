#!/usr/bin/env python3
"""Respells the repository's own definitions and lemmas: words in snake case, types in camel case.

usage: tools/respell.py        at the top of the repository, once, right behind the kit's port/port.py

It takes each name that specs/ or proofs/ defines and that has a capital behind a small letter or a digit
(`ifLt`, `roundTo-exact`), and writes it in snake case wherever it stands: in specs/ and proofs/, comments too, in the clauses
and `ghost use` lines of src/, in must-fail edits, and between backticks in the pages. Functions of src/, exported C names,
strings, inputs and outputs keep their names. The lemmas that would fall together with a definition stand in a table below and
get `_lem`, as std writes it. A second run is refused: by then a definition has what was a lemma's name.
"""
import os
import re
import sys

# Lemmas whose names the definitions take: `lastStep` is `last_step` now, and its lemma was that already.
LEMMAS = {
    "last_step": "last_step_lem",
    "apart_from": "apart_from_lem",
    "no_bytes": "no_bytes_lem",
    "or_later": "or_later_lem",
    "past_end": "past_end_lem",
}
LEMMAS_IN = {"too_large": ("text", "too_large_lem")}
# What port.py left with a capital, where a name of the source had none.
MENDED = {"last_Line": "last_line", "word_Row": "word_row", "toBits": "to_bits"}
DEFINED = re.compile(r"^\s*(?:(?:abbrev|unfoldable|pub)\s+)*([a-z][^\s:(){}.]*)(?:\s+[a-z][^\s:(){}.]*)*\s+:\s", re.M)
WORD = r"(?<![\w'-])%s(?![\w'])"


def snake(name):
    return re.sub(r"([a-z0-9])([A-Z])", r"\1_\2", name).lower()


def files(root, folders, ending):
    for folder in folders:
        for at, below, names in os.walk(os.path.join(root, folder)):
            below[:] = sorted(it for it in below if it not in ("out", ".git", "src") or "crates" in at and it == "src")
            for name in sorted(names):
                if name.endswith(ending):
                    yield os.path.join(at, name)


def read(path):
    with open(path, encoding="utf-8") as file:
        return file.read()


def write(path, text, old):
    if text != old:
        with open(path, "w", encoding="utf-8") as file:
            file.write(text)


def defined(root):
    names = set()
    for path in files(root, ["crates"], ".antt"):
        text = re.sub(r"--.*", "", read(path))
        names.update(it[1] for it in DEFINED.finditer(text))
        names.update(re.findall(r"\bas\s+([a-z][\w']*)", text))
    for path in files(root, ["crates"], ".rt"):
        names.update(it for line in re.findall(r"(?m)^\s*ghost use [^;]*;", read(path)) for it in re.findall(r"\bas\s+([a-z]\w*)", line))
    return {it: snake(it) for it in names if re.search(r"[a-z0-9][A-Z]", it) and not re.search(r"_[A-Z]", it)}


def turner(names):
    parts = sorted(names, key=len, reverse=True)
    pattern = re.compile(r"(?<![\w'])(?<!\w-)(?:" + "|".join(map(re.escape, parts)) + r")(?![\w'])")
    return lambda text: pattern.sub(lambda it: names[it[0]], text)


def clauses(text, turn):
    """Turns what a source has for contracts alone: `ghost` lines, and clauses from their word to the brace that ends them."""
    out, at = [], 0
    for it in re.finditer(r"(?m)^\s*(?:ghost use [^;]*;|(?:ensures|requires|ghost)\b\*?[^{;\n]*\{)", text):
        if it.start() < at:
            continue
        end = it.end()
        if it[0].endswith("{"):
            depth = 1
            while depth:
                depth += {"{": 1, "}": -1}.get(text[end], 0)
                end += 1
        out += [text[at : it.start()], turn(text[it.start() : end])]
        at = end
    return "".join(out) + text[at:]


def main():
    root = os.getcwd()
    if not os.path.isdir(os.path.join(root, "crates")):
        sys.exit(__doc__)
    if any(re.search(WORD % new, read(path)) for path in files(root, ["crates"], ".antt") for new in LEMMAS.values()):
        sys.exit("respell: this repository is respelled already")
    names = defined(root)
    turn = turner({**names, **MENDED})
    for path in files(root, ["crates"], ".antt"):
        old = text = read(path)
        crate = os.path.relpath(path, os.path.join(root, "crates")).split(os.sep)[0]
        for lemma, new in LEMMAS.items():
            text = re.sub(WORD % lemma, new, text)
        for lemma, (home, new) in LEMMAS_IN.items():
            text = re.sub(WORD % lemma, new, text) if crate == home else text
        write(path, turn(text), old)
    for path in files(root, ["crates"], ".rt"):
        old = read(path)
        write(path, clauses(old, turn), old)
    for path in files(root, ["crates"], ".edit"):
        old = read(path)
        write(path, turn(old), old)
    for path in [os.path.join(root, it) for it in ("README.md", "CONTRIBUTING.md")] + list(files(root, ["docs"], ".md")):
        old = read(path)
        if os.path.basename(path) != "PORT.md":
            write(path, re.sub(r"`[^`\n]+`", lambda it: turn(it[0]), old), old)
    print(f"respell: {len(names)} names: " + ", ".join(f"{a} -> {b}" for a, b in sorted(names.items())))


main()
