#!/usr/bin/env python3
"""Respells the names of definitions and lemmas: words in snake case, types in camel case, a dash only between two names.

usage: python3 tools/respell.py [FOLDER]      once, right after port.py; FOLDER is the top of the repository

The names are those of tools/respelled.txt, a line each: the old and the new. They are replaced in .antt, .rt and .edit files
below crates/ outside comments, and in documents between backquotes. `below` is a common word, so it is respelled only where
it comes from Promises.
"""

import os
import re
import sys

TOP = sys.argv[1] if len(sys.argv) > 1 else "."
HERE = os.path.dirname(os.path.realpath(__file__))
WORD = re.compile(r"[^\W\d][\w'′-]*")
FROM_PROMISES = re.compile(r"(use Rattle\.theory\.specs\.Promises\.\{(?:[^}]*, )?)below(?=[,}])")
IS_BELOW = re.compile(r"(?<![.\w-])below(?= (?:q|c\.field\.order|2|5|f\.order) )")


def table():
    with open(os.path.join(HERE, "respelled.txt"), encoding="utf-8") as f:
        return dict(line.split() for line in f if line.strip())


def files(top, ends):
    for folder, dirs, names in os.walk(top):
        dirs[:] = sorted(d for d in dirs if d not in ("out", ".git", "target"))
        for name in sorted(names):
            if name.endswith(ends):
                yield os.path.join(folder, name)


def swap(words, text):
    return WORD.sub(lambda m: words.get(m[0], m[0]), text)


def code(words, path, text):
    mark = "--" if path.endswith(".antt") else "//"
    lines = []
    for line in text.split("\n"):
        if line.lstrip().startswith(mark):
            lines.append(re.sub(r"`[^`]*`", lambda m: swap(words, m[0]), line))
        else:
            lines.append(swap(words, line))
    text = "\n".join(lines)
    if FROM_PROMISES.search(text) or path.endswith(os.path.join("specs", "Promises.antt")):
        text = FROM_PROMISES.sub(r"\1Below", text)
        text = IS_BELOW.sub("Below", text)
        text = text.replace("abbrev pub below :", "abbrev pub Below :")
    return text


def rewrite(path, turn):
    with open(path, encoding="utf-8") as f:
        old = f.read()
    new = turn(old)
    if new != old:
        with open(path, "w", encoding="utf-8") as f:
            f.write(new)
    return new != old


def main():
    words = table()
    count = 0
    for path in files(os.path.join(TOP, "crates"), (".antt", ".rt", ".edit")):
        count += rewrite(path, lambda text: code(words, path, text))
    known = set()
    for path in files(os.path.join(TOP, "crates"), (".antt", ".rt")):
        with open(path, encoding="utf-8") as f:
            known |= set(WORD.findall(f.read()))

    def name(m):
        new = words.get(m[0], m[0])
        plain = new.replace("-", "_")
        return plain if new not in known and plain in known else new

    documents = [p for p in [os.path.join(TOP, "README.md")] if os.path.exists(p)] + list(files(os.path.join(TOP, "docs"), (".md",)))
    for path in documents:
        count += rewrite(path, lambda text: re.sub(r"`[^`\n]*`", lambda s: WORD.sub(name, s[0]), text))
    print(f"respell: {count} files")


main()
