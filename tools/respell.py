#!/usr/bin/env python3
"""Respells this repository's own definitions, lemmas, fields and constructors.

usage: tools/respell.py [FOLDER]      the repository in FOLDER (here without one), in place; run once, after the kit's port.py

tools/respell.tsv has a line for each name: the old spelling, a tab, the new one. A name is respelled where it stands as a whole word: in the text of
crates/*/src, specs and proofs, in the edits of crates/*/must-fail and tests/wrong_answers, and in the documents' `marked` words. Strings and the names of
functions of src/ are not in the table. It refuses to run where two names would fall together.
"""
import os
import re
import sys

ROOT = sys.argv[1] if len(sys.argv) > 1 else "."
HERE = os.path.dirname(os.path.realpath(__file__))
WORD = re.compile(r"[^\s(){}\[\];:,.\"'`λ→×≡|/⌜⌝]+'*")
MARKED = re.compile(r"`[^`\n]*`")
STRING = re.compile(r'"(?:[^"\\]|\\.)*"')

with open(os.path.join(HERE, "respell.tsv"), encoding="utf-8") as f:
    TABLE = dict(line.rstrip("\n").split("\t") for line in f if line.strip())
with open(os.path.join(ROOT, "crates.txt"), encoding="utf-8") as f:
    CRATES = {line.split("#")[0].split(":")[0].split()[0] for line in f if line.split("#")[0].strip()}
if len(set(TABLE.values())) < len(TABLE):
    sys.exit("respell: two names of the table fall together")


IMPORT = re.compile(r"\buse\s+([\w.]+)\.\{([^}]*)\}")


def words(text, keep=()):
    return WORD.sub(lambda m: m.group(0) if m.group(0) in keep else TABLE.get(m.group(0), m.group(0)), text)


def marked(text, keep=()):
    return MARKED.sub(lambda m: words(m.group(0), keep), text)


def borrowed(text):
    """The names that a file takes from a library: they are the library's to spell."""
    names = set()
    for m in IMPORT.finditer(text):
        path = m.group(1).split(".")
        if not (path[0] == "Rattle" and len(path) > 1 and path[1] in CRATES):
            names |= {n.strip().split(" ")[0] for n in m.group(2).split(",")}
    return names


def code(text, comment):
    """Words outside strings; in a comment only the marked ones."""
    out = []
    keep = borrowed(text)
    for line in text.split("\n"):
        place = line.find(comment)
        head, tail = (line, "") if place < 0 else (line[:place], line[place:])
        parts, last = [], 0
        for m in STRING.finditer(head):
            parts += [words(head[last : m.start()], keep), m.group(0)]
            last = m.end()
        parts.append(words(head[last:], keep))
        out.append("".join(parts) + marked(tail, keep))
    return "\n".join(out)


def turned(path, text):
    if path.endswith(".antt"):
        return code(text, "--")
    if path.endswith(".rt"):
        return code(text, "//")
    if path.endswith((".edit", ".edits")):
        return words(text)
    if path.endswith(".md"):
        return marked(text)
    return text


def main():
    count = 0
    for top in ("crates", "tests", "docs", "README.md"):
        top = os.path.join(ROOT, top)
        walk = os.walk(top) if os.path.isdir(top) else [(os.path.dirname(top), [], [os.path.basename(top)])]
        for folder, folders, files in walk:
            folders[:] = [d for d in folders if d not in ("out", "target")]
            for name in files:
                path = os.path.join(folder, name)
                if not path.endswith((".antt", ".rt", ".edit", ".edits", ".md")):
                    continue
                with open(path, encoding="utf-8") as f:
                    old = f.read()
                new = turned(path, old)
                if new != old:
                    count += 1
                    with open(path, "w", encoding="utf-8") as f:
                        f.write(new)
    print(f"respell: {count} files")


main()
