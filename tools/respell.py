#!/usr/bin/env python3
"""Respells the repository's own definitions and lemmas by tools/names.tsv: words in snake case, a dash only between two names.

usage: tools/respell.py [FOLDER]    FOLDER is the top of a checkout; this one if left out

It turns crates/*/{specs,proofs}/**/*.antt, the clauses and ghost items of crates/*/src/*.rt, and must-fail edits.
Names that stand in the code of src/, in strings and in running text of comments stay; in comments what stands in backticks turns.
"""
import os
import re
import sys

HERE = os.path.dirname(os.path.realpath(__file__))
WORD = re.compile(r"[^\s(){}\[\],;.\"`«»]+")
QUOTED = re.compile(r'b?"(?:\\.|[^"\\])*"|b?\'(?:\\.|[^\'\\])\'')
NARROW = "net_reader.specs.NetStored"


def table():
    with open(os.path.join(HERE, "names.tsv"), encoding="utf-8") as f:
        return dict(l.rstrip("\n").split("\t") for l in f if l.strip())


NAMES = table()


def words(text):
    return WORD.sub(lambda m: NAMES.get(m.group(), m.group()), text)


def ticked(comment):
    return re.sub(r"`[^`]*`", lambda m: words(m.group()), comment)


def antt_line(line):
    m = re.search(r"(^|\s)--(\s|$)", line)
    if not m:
        return words(line)
    return words(line[: m.start()]) + ticked(line[m.start() :])


def rt_line(line):
    m = re.match(r"\s*//", line)
    if m:
        return ticked(line)
    if '"' in line or "'" in line and not re.search(r"[≡≤<∷]", line):
        out, at = [], 0
        for q in QUOTED.finditer(line):
            out += [words(line[at : q.start()]), q.group()]
            at = q.end()
        return "".join(out) + words(line[at:])
    return words(line)


def edit_line(line):
    m = re.match(r"(old: |new: )(.*)", line, re.S)
    return m.group(1) + words(m.group(2)) if m else line


def turned(path, text):
    lines = text.splitlines(keepends=True)
    one = antt_line if path.endswith(".antt") else rt_line if path.endswith(".rt") else edit_line
    text = "".join(one(l) for l in lines)
    # a fact is spelled as a type
    if path.endswith(".antt") and (path.endswith(NARROW.replace(".", os.sep) + ".antt") or re.search(re.escape(NARROW) + r"\.\{[^}]*\bnarrow\b", text)):
        text = re.sub(r"(?<![\w'-])narrow(?![\w'-])", "Narrow", text)
    return text


def main(argv):
    top = argv[0] if argv else os.path.dirname(HERE)
    n = 0
    for folder, dirs, files in os.walk(os.path.join(top, "crates")):
        dirs[:] = sorted(d for d in dirs if d != "out")
        for f in sorted(files):
            if not f.endswith((".antt", ".rt", ".edit")):
                continue
            path = os.path.join(folder, f)
            with open(path, encoding="utf-8") as it:
                old = it.read()
            new = turned(path, old)
            if new != old:
                n += 1
                with open(path, "w", encoding="utf-8") as it:
                    it.write(new)
    print(f"respell: {n} files turned")


if __name__ == "__main__":
    main(sys.argv[1:])
