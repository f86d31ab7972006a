#!/usr/bin/env python3
"""Brings the repository's own definitions and lemmas to snake case, and its types to camel case.

usage: python3 tools/rename_words.py [FOLDER]      (the repository's top, by default the folder above this one)

It was run once, right after the toolchain's port.py. The table beside it, words.tsv, has a line for each name: old, new.
The recursive form of All, which the toolchain's script brings in under the library's own name, is called Each.
In .antt files a name is turned wherever it stands but in comments; in .rt files where it stands outside comments, strings and characters.
In answers and invariants, what follows one of the check's own records (`c.`, `w.`, `l.`, `goal.`) is left alone: those names are made by the check.
"""

import os
import re
import sys

HERE = os.path.dirname(os.path.realpath(__file__))
TOKEN = re.compile(r"[A-Za-z0-9_'\-₀-₉]+")
ALL = re.compile(r"(?<![A-Za-z0-9_'\-.])All(?![A-Za-z0-9_'\-])")
MADE = re.compile(r"(^|[^A-Za-z0-9_'\-.])(c|w|l|goal)\.$")
ANSWERS = ("Answers.antt", "Invariants.antt", "Proof.antt")
COMMENT = re.compile(r"(^|\s)--(\s.*|$)")
SLASHES = re.compile(r"//")
APART = re.compile(r"//[^\n]*|b?\"(?:[^\"\\]|\\.)*\"|b?'(?:[^'\\\n]|\\[^\n]+?)'", re.S)


def table():
    with open(os.path.join(HERE, "words.tsv"), encoding="utf-8") as f:
        return dict(line.rstrip("\n").split("\t") for line in f)


def turned(text, names, made=False):
    def one(m):
        if made and MADE.search(text[max(0, m.start() - 8):m.start()]):
            return m.group(0)
        return names.get(m.group(0), m.group(0))

    return TOKEN.sub(one, text)


def turned_antt(text, names, made):
    out = []
    for line in text.split("\n"):
        m = COMMENT.search(line)
        at = m.start() if m else len(line)
        out.append(turned(line[:at], names, made) + line[at:])
    return "\n".join(out)


def turned_rt(text, names, _made):
    out, at = [], 0
    for m in APART.finditer(text):
        out.append(turned(text[at:m.start()], names))
        out.append(m.group(0))
        at = m.end()
    out.append(turned(text[at:], names))
    return "".join(out)


def each(text, comment):
    out = []
    for line in text.split("\n"):
        m = comment.search(line)
        at = m.start() if m else len(line)
        out.append(ALL.sub("Each", line[:at]) + line[at:])
    return "\n".join(out)


def main():
    root = sys.argv[1] if len(sys.argv) > 1 else os.path.dirname(HERE)
    names = table()
    for folder, dirs, files in os.walk(os.path.join(root, "crates")):
        dirs[:] = [d for d in dirs if d != "out"]
        for name in files:
            turn = {".antt": turned_antt, ".rt": turned_rt}.get(os.path.splitext(name)[1])
            if turn is None:
                continue
            path = os.path.join(folder, name)
            with open(path, encoding="utf-8") as f:
                old = f.read()
            new = turn(old, names, name in ANSWERS)
            if "AllByRecursion as All" in new:
                new = each(new, COMMENT if name.endswith(".antt") else SLASHES)
            if new != old:
                with open(path, "w", encoding="utf-8") as f:
                    f.write(new)


if __name__ == "__main__":
    main()
