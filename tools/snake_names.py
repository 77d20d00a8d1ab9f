#!/usr/bin/env python3
"""Spells the repository's own definitions, lemmas and fields in snake case, as the library's are: after port.py, once.

usage: snake_names.py [ROOT]

A name such as mergeClusterInto or labelsAt-next becomes merge_cluster_into, labels_at-next: each part between dashes that
begins with a small letter is turned; facts and types keep their capitals. Names are taken from what crates/ declares. They
are then turned in crates/ (sources, specs, proofs, must-fail edits), in docs/, README.md and reference/. Functions of src/
and exported names have this spelling already. Says each new name that stood somewhere before, to be looked at.
"""

import os
import re
import sys

# A name as antt reads it: words and dashes. What stands beside it is no part of it.
NAME = re.compile(r"(?<![\w'-])[A-Za-z_][\w']*(?:-[\w'*+≡≤<]+)*(?![\w'])")
DECLARED = re.compile(r"(?m)^\s*(?:(?:abbrev|pub|unfoldable)\s+)*([a-z][^\s(){}.,;:=]*)\s*(?:[({][^\n]*)?:\s")
CONSTRUCTORS = re.compile(r"(?m)^  ((?:[a-z]\w*\s+)+): ")
BOUNDARY = re.compile(r"(?<=[a-z0-9'])([A-Z])")
# Of getD, which the library calls get_or since; and a lemma that would have its definition's name.
BY_HAND = {"getD-in": "get_or-in", "none_above": "none_above_lem"}
ELSEWHERE = {".md", ".txt", ".py", ".sh", ".edit"}


def texts(root):
    """The files whose names are turned."""
    for top in ["crates", "docs", "reference"]:
        for folder, folders, files in os.walk(os.path.join(root, top)):
            folders[:] = sorted(f for f in folders if f not in {"out", "target"})
            for name in sorted(files):
                if os.path.splitext(name)[1] in {".rt", ".antt", *ELSEWHERE}:
                    yield os.path.join(folder, name)
    yield os.path.join(root, "README.md")


def turned(name):
    """The name, each part with a small letter first in snake case."""
    if name in BY_HAND:
        return BY_HAND[name]
    parts = name.split("-")
    return "-".join(BOUNDARY.sub(lambda m: "_" + m[1].lower(), p) if re.match("[a-z]", p) else p for p in parts)


def main():
    root = sys.argv[1] if len(sys.argv) > 1 else "."
    files = {}
    for path in texts(root):
        with open(path, encoding="utf-8") as file:
            files[path] = file.read()
    declared, seen = set(), {}
    for path, text in files.items():
        if path.endswith(".antt"):
            declared |= set(DECLARED.findall(text))
            declared |= {name for names in CONSTRUCTORS.findall(text) for name in names.split()}
        if path.endswith((".antt", ".rt")):
            for name in NAME.findall(text):
                seen.setdefault(name, set()).add(os.path.relpath(path, root))
    # Parts of a lemma's name are names of definitions, and so are declared themselves or local.
    local = {name for name in seen if turned(name) != name}
    changes = {name: turned(name) for name in declared | local if turned(name) != name}
    # What port.py turned in crates/ alone.
    for path, text in files.items():
        if not path.endswith((".antt", ".rt")):
            changes.update({name: turned(name) for name in NAME.findall(text) if turned(name) != name and turned(name) in declared})
    for name, new in sorted(changes.items()):
        for path in sorted(seen.get(new, ())):
            print(f"stood before: {name} -> {new} in {path}")
        if name not in declared and name in seen:
            print(f"not declared at the top of a line: {name} -> {new} in {', '.join(sorted(seen[name])[:4])}")
    count = 0
    for path, text in files.items():
        new = NAME.sub(lambda m: changes.get(m[0], m[0]), text)
        if new != text:
            count += 1
            with open(path, "w", encoding="utf-8") as file:
                file.write(new)
    print(f"{len(changes)} names, {count} files")


if __name__ == "__main__":
    main()
