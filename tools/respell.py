#!/usr/bin/env python3
"""Turns this repository's own definitions and lemmas to the spelling of today's Rattle: words in snake case.

usage: tools/respell.py [FOLDER]

FOLDER has crates/ (the top of a checkout, if left out). It is run once, right after the toolchain's port.py. In each .antt, .rt and .edit
file below crates/, and each .edit file below tests/ and trials/, a word like isBlank becomes is_blank, alone or between the dashes of a
longer name. Strings, and the names of functions of src/, stay: those are in snake case already. Four lemmas whose names
would fall together with a definition get the ending _lem, as the toolchain's pages ask.
"""

import glob
import os
import re
import sys

CAMEL = re.compile(r"(?<![\w'\\])([a-z][a-z0-9]*(?:[A-Z][a-z0-9]*)+)(?![\w'])")
# The lemmas whose names would fall together with a definition, by the crates that have them.
LEMMAS = {"too_long": "text find write write_header", "text_in": "text emit emit_var", "next_row": "list_job", "one_more": "falls_list"}
PARTS = re.compile(r'("(?:[^"\\\n]|\\.)*")|(b?\'(?:[^\'\\\n]|\\.)\')|([^"\']+|["\'])')


def snake(name):
    return re.sub(r"[A-Z]", lambda letter: "_" + letter[0].lower(), name)


def turned(path, text):
    crate = path.split(os.sep + "crates" + os.sep)[-1].split(os.sep)[0]
    if path.endswith(".antt"):
        for name in (it for it, crates in LEMMAS.items() if crate in crates.split()):
            text = re.sub(rf"(?<![\w.'-]){name}(?![\w'-])", name + "_lem", text)
    out = []
    for part in PARTS.finditer(text):
        out.append(part[0] if part[1] or part[2] else CAMEL.sub(lambda word: snake(word[1]), part[0]))
    return "".join(out)


def main(top):
    paths = [p for kind in ("antt", "rt", "edit") for p in glob.glob(f"{top}/crates/**/*.{kind}", recursive=True)]
    paths += [p for folder in ("tests", "trials") for p in glob.glob(f"{top}/{folder}/**/*.edit", recursive=True)]
    for path in sorted(paths):
        if f"{os.sep}out{os.sep}" in path:
            continue
        with open(path, encoding="utf-8", newline="") as file:
            text = file.read()
        new = turned(path, text)
        if new != text:
            with open(path, "w", encoding="utf-8", newline="") as file:
                file.write(new)


if __name__ == "__main__":
    main(sys.argv[1] if len(sys.argv) > 1 else os.path.join(os.path.dirname(os.path.abspath(__file__)), ".."))
