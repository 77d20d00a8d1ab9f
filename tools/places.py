#!/usr/bin/env python3
"""Counts the places that docs/DESIGN-PASS.md lists, point by point, in src/ and proofs/ of every crate.

tools/places.py [-v] [FOLDER]: of a checkout, here if none is named; -v prints each place."""
import re
import sys
from pathlib import Path

LINES = {
    "1 own enums of the shape of Option or Result": r"enum \w+(OrNone|OrError)\b",
    "1 a flag or a number beside a value": r"^\s+(pub(\(crate\))? )?(answer|number|changed|same|recorded|moved): (bool|u32),",
    "1 refusals by number": r"return (1[0-3]|[1-9]);|\b(answer|number|refusal|early) (!=|==) (0|\w+\.number)\b"
        r"|row_check\(.*\) (!=|==) (0|11)\b|answer: 0,|^    10$",
    "1 numbers for kinds": r"^const (NONE|LABELS|LINKS|TABLE|OUTPUTS): u32|\b(kind|buffer|buffer_2|action): (u32|usize)\b"
        r"|const NONE: u32|\bfn far\(",
    "2 functions that differ in a type, a size or a constant": r"\bfn (walk_one|walk_two|walk_three|look|paint_both"
        r"|paint_both_and_look|clear|clear_slot|filled|filled_bytes|are_filled|is_untouched|is_zero|min|max|smaller|least"
        r"|sum_of_two|sum_with|cleared|color_at|residue|load_residue|large_pixels|large_slots|large_outputs|put_pixels"
        r"|put_slots|put_outputs|up|down|left|right|left_of|up_of|up_left_of|up_label|left_label|first_of_entry"
        r"|is_picture|pattern|byte_pattern|changed|also|deepens|prepare_slot)\(",
    "2 types that differ in a size": r"^(pub )?struct (Two|Three|Ends|Edge|Cursors)\b",
    "3 loops by hand": r"^\s*(while |loop \{)",
    "4 equality, order, copies, conversions by hand": r"\bfn (equal|packed|is_nowhere|is_discard|order_of|first_entry|empty"
        r"|action|action_of|signed|channel|shift_of|exceeds|distance|no_sum|two_bytes|are_same|passes|put|far|move_down)\(",
    "7 a switch on which step, or a table of calls": r"\bfn (paint_at|entry_at|row_at|store_at|edge_at|call|trial|make)\(",
}


def closing(text, begin, opened, closed):
    """Where the bracket is closed that is open before begin."""
    depth, i = 1, begin
    while depth:
        depth += {opened: 1, closed: -1}.get(text[i], 0)
        i += 1
    return i - 1


def parts(text):
    """What commas outside brackets divide."""
    found, depth, last = [], 0, 0
    for j, sign in enumerate(text):
        depth += {"(": 1, "[": 1, "<": 1, ")": -1, "]": -1, ">": -1}.get(sign, 0)
        if sign == "," and depth == 0:
            found.append(text[last:j].strip())
            last = j + 1
    found.append(text[last:].strip())
    return [part for part in found if part]


def functions(text):
    """Name and parameters of each function, and its line."""
    for m in re.finditer(r"\bfn (\w+)(<[^>]*>)?\(", text):
        end = closing(text, m.end(), "(", ")")
        yield m.group(1), parts(text[m.end():end]), text.count("\n", 0, m.start()) + 1


def facts(text):
    """The facts of the clauses, as they stand: the factors of each requires and ensures."""
    for m in re.finditer(r"(?:requires|ensures) ?\w* ?\{", text):
        end = closing(text, m.end(), "{", "}")
        for fact in re.split(r"\s×\s", " ".join(text[m.end():end].split())):
            yield fact.strip("() ")


def main():
    shown = "-v" in sys.argv
    rest = [a for a in sys.argv[1:] if a != "-v"]
    top = Path(rest[0] if rest else ".")
    found = {}

    def add(point, crate, place):
        found.setdefault(point, {}).setdefault(crate, []).append(place)

    uses = {}
    for path in sorted(top.glob("crates/*/src/**/*.rt")):
        crate, text = path.relative_to(top).parts[1], path.read_text()
        for number, line in enumerate(text.split("\n"), 1):
            for point, pattern in LINES.items():
                if re.search(pattern, line) and not line.strip().startswith("//"):
                    add(point, crate, f"{path}:{number}: {line.strip()}")
        for name, parameters, number in functions(text):
            if len(parameters) > 7:
                add("5 functions of more than seven parameters", crate, f"{path}:{number}: {name} {len(parameters)}")
            names = {p.split(":")[0] for p in parameters}
            slices = [p for p in parameters if re.search(r"&(mut )?\[", p)]
            if slices and names & {"size", "n", "m", "room", "size_2", "have", "at", "from"}:
                add("6 a slice with its length or an index beside it", crate, f"{path}:{number}: {name}")
        for fact in facts(text):
            uses.setdefault((crate, fact), []).append(path)
    for (crate, fact), paths in uses.items():
        if len(paths) > 2 and re.search(r"[≤<≡]", fact) and "result" not in fact and len(fact) < 80:
            add("5 facts in three contracts or more", crate, f"{crate}: {len(paths)} × {fact}")
    for path in sorted(top.glob("crates/*/proofs/**/*.antt")):
        crate, text = path.relative_to(top).parts[1], path.read_text()
        for m in re.finditer(r"^pub (\S+) : goal\.", text, re.M):
            add("8 answers", crate, f"{path}: {m.group(1)}")
        if path.name in ("Answers.antt", "Proof.antt"):
            for m in re.finditer(r"^(?!pub |use |unfolding|--|\s)([^\s:]+) : ", text, re.M):
                add("8 lemmas inside answers", crate, f"{path}: {m.group(1)}")
    for point in sorted(found):
        crates = found[point]
        print(f"{sum(map(len, crates.values())):5} {point}: "
              + ", ".join(f"{c} {len(p)}" for c, p in sorted(crates.items())))
        if shown:
            for places in crates.values():
                print("\n".join("      " + p for p in places))


main()
