#!/usr/bin/env python3
"""Spells the definitions and lemmas of this repository in snake case: `withHeld` becomes `with_held`, `length-putState` becomes `length-put_state`.

usage: tools/respell.py [FOLDER]      FOLDER is the top of a checkout on which the kit's port.py has run; the default is this one

What turns: in each .antt file, .rt file and .edit file below crates/, a word that begins in lower case and has a capital inside, taken part by part where dashes
join it. What stays: a word that some file imports from the library, text between double quotes, a part with a capital behind an underscore, and the symbols of the
source documents (T1, B3, C, X, H0, Ch, Maj and their like), which begin with a capital.
A lemma that would then have the name of a definition gets `_lem` (LEMMAS below).
"""
import glob
import os
import re
import sys

# A lemma, and the definition that gets its name.
LEMMAS = {
    "rows_true": "rowsTrue",
    "same_block": "sameBlock",
    "block_in": "blockIn",
    "zero_row": "zeroRow",
    "first_plain": "firstPlain",
    "put_four": "putFour",
    "given_back": "givenBack",
    "with_rows": "withRows",
    "of_two": "ofTwo",
    "of_three": "ofThree",
    "none_out": "noneOut",
}
WORD = re.compile(r"""[^\s(){}.;,@"«»\[\]λ`:/|]+""")
QUOTED = re.compile(r'"(?:[^"\\\n]|\\.)*"')
LIBRARY = re.compile(r"use Rattle\.std[^{\n]*\{([^}]*)\}")


def files(top):
    for pattern in ("specs/**/*.antt", "proofs/**/*.antt", "src/**/*.rt", "must-fail/*.edit"):
        yield from sorted(glob.glob(os.path.join(top, "crates", "*", pattern), recursive=True))


def in_snake_case(part):
    if not re.match(r"[a-z][A-Za-z0-9_']*$", part) or not re.search("[A-Z]", part) or re.search("_[A-Z]", part):
        return part
    return re.sub(r"(?<=[a-z0-9'])([A-Z]+)", lambda m: "_" + m[0].lower(), part)


def respelled(word):
    return "-".join(map(in_snake_case, word.split("-")))


def main():
    top = sys.argv[1] if len(sys.argv) > 1 else os.path.join(os.path.dirname(os.path.realpath(__file__)), "..")
    library, changed = set(), 0
    for path in files(top):
        with open(path, encoding="utf-8") as f:
            for names in LIBRARY.findall(f.read()):
                library.update(n.strip().split(" as ")[0] for n in names.split(","))
    for path in files(top):
        with open(path, encoding="utf-8") as f:
            text = f.read()
        lemmas = path.endswith(".antt") or path.endswith(".edit")

        def turn(m):
            word = m[0]
            if word in library:
                return word
            behind = text_now[m.start() - 1 : m.start()]
            if lemmas and word in LEMMAS and behind != "." and not in_folder(m):
                return word + "_lem"
            return respelled(word)

        def in_folder(m):
            return text_now[m.end() : m.end() + 1] == "."

        out, at = [], 0
        spans = list(QUOTED.finditer(text)) if path.endswith(".rt") else []
        for span in spans + [None]:
            text_now = text[at : span.start()] if span else text[at:]
            out.append(WORD.sub(turn, text_now))
            if span:
                out.append(span[0])
                at = span.end()
        new = "".join(out)
        if new != text:
            changed += 1
            with open(path, "w", encoding="utf-8") as f:
                f.write(new)
    print(f"respell: {changed} files")


main()
