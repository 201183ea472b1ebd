#!/usr/bin/env python3
"""Gives the project's own definitions and lemmas the spelling of today's Rattle, by names.tsv beside this script: an old name, a tab, the new one and,
where the old one is a right name elsewhere, a tab and the files in which it turns.

usage: respell.py [FOLDER]      FOLDER is the repository; run it once, after the toolchain's port.py, before any edit by hand

Whole words turn: in .antt and .rt files of crates/ everywhere but in comments, and there inside code spans; in must-fail edits on their lines
'old:' and 'new:'; in README.md, CONTRIBUTING.md and docs/ inside code spans. Functions of src/ and what C sees have no such names. A lemma that would have
its function's name ends in _lem; right behind a dot stands the function, or a field.
"""

import os
import re
import sys

HERE = os.path.dirname(os.path.realpath(__file__))
WORD = re.compile(r"[^\s(){}.;,@\"«»\[\]`:!?/]+")
SPAN = re.compile(r"(`+)[^`\n]+\1")
EVERYWHERE, HERE_ALONE = {}, {}
with open(os.path.join(HERE, "names.tsv"), encoding="utf-8") as rows:
    for row in rows:
        old, new, *places = row.rstrip("\n").split("\t")
        if places:
            HERE_ALONE.update({(place, old): new for place in places[0].split()})
        else:
            EVERYWHERE[old] = new


def words(text, place):
    def turn(m):
        new = HERE_ALONE.get((place, m[0])) or EVERYWHERE.get(m[0], m[0])
        behind_dot = text[: m.start()].endswith(".")
        if behind_dot and new.endswith("_lem"):
            return m[0] if "_" in m[0] else new[: -len("_lem")]
        return new

    return WORD.sub(turn, text)


def spans(text, place):
    return SPAN.sub(lambda m: words(m[0], place), text)


def code(text, place, comment):
    lines = []
    for line in text.split("\n"):
        at = re.search(r"(?:^|(?<=\s))" + comment, line)
        cut = at.start() if at else len(line)
        lines.append(words(line[:cut], place) + spans(line[cut:], place))
    return "\n".join(lines)


def edit(text, place):
    return "\n".join(words(line, place) if re.match("(old|new):", line) else spans(line, place) for line in text.split("\n"))


def turned(place, text):
    if place.endswith(".antt"):
        return code(text, place, "--")
    if place.endswith(".rt"):
        return code(text, place, "//")
    return edit(text, place) if place.endswith(".edit") else spans(text, place)


def files(root):
    for top in ("crates", "docs"):
        for folder, dirs, names in os.walk(os.path.join(root, top)):
            dirs[:] = [it for it in dirs if it != "out"]
            for name in names:
                if name.endswith((".antt", ".rt", ".edit", ".md")):
                    yield os.path.relpath(os.path.join(folder, name), root)
    yield from ("README.md", "CONTRIBUTING.md")


def main(root):
    changed = 0
    for place in sorted(files(root)):
        path = os.path.join(root, place)
        with open(path, encoding="utf-8", newline="") as it:
            old = it.read()
        new = turned(place, old)
        if new != old:
            changed += 1
            with open(path, "w", encoding="utf-8", newline="") as it:
                it.write(new)
    print(f"respell: {changed} files")


if __name__ == "__main__":
    main(sys.argv[1] if len(sys.argv) > 1 else ".")
