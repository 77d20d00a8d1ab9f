#!/usr/bin/env python3
"""Tries wrong readings of the rules, each made in the library's own code, against the recorded answers.

  reference/wrong_readings.py [NAME..]

Each reference/wrong_readings/NAME.edit says in its first line how it reads the rules, and then what it changes: lines `file:`, `old:`
and `new:` as in the edits under must-fail/, with paths from the repository's root. An edit is made in a copy of crates/, which no proof
admits any more, and the program `replay` is run on it without proof (`rt try`): it counts the recorded cases that differ. Before the
first edit the copy is run as it stands, and must not differ.

Up to RT_JOBS edits (the machine's processors) are tried at a time. Prints a line for each reading. Exit status: 0 all are caught, 1 one is not, 2 an edit cannot be tried: its `old:` text is not in the file
exactly once, or the code does not compile or does not come to its end.
"""
import os
import pathlib
import re
import shutil
import subprocess
import sys
import tempfile
from concurrent.futures import ThreadPoolExecutor

ROOT = pathlib.Path(__file__).resolve().parent.parent
EDITS = ROOT / "reference/wrong_readings"
# What `rt try` says of the build in which the compiler's assumptions are checked while it runs: no edit broke them, and its answers count.
ENDED = "checked: ended status=0"
SECONDS = 300


class BadEdit(Exception):
    """An edit that cannot be tried."""


def parse(text):
    """What an edit reads, and its replacements: file, old, new."""
    lines = text.splitlines()
    file = old = None
    replacements = []
    for line in lines[1:]:
        if line.startswith("file: "):
            file = line[len("file: "):]
        elif line.startswith("old: "):
            old = line[len("old: "):]
        elif line.startswith("new:"):
            if not file or not old:
                raise BadEdit("a 'new:' without its 'file:' or 'old:'")
            replacements.append((file, old, line[len("new:"):].removeprefix(" ")))
            old = None
    if not replacements or not lines[0].startswith("# "):
        raise BadEdit("it has no reading or no replacement")
    return lines[0].removeprefix("# "), replacements


def apply(folder, replacements):
    for file, old, new in replacements:
        path = folder / file
        if not path.is_file():
            raise BadEdit(f"there is no {file}")
        text = path.read_text()
        times = text.count(old)
        if times != 1:
            raise BadEdit(f"{times} times, not once, in {file}: {old}")
        path.write_text(text.replace(old, new))


def copy(folder):
    for name in ["crates.txt", "crates"]:
        source = ROOT / name
        if source.is_dir():
            shutil.copytree(source, folder / name, ignore=shutil.ignore_patterns("out"))
        else:
            shutil.copy(source, folder / name)


def replay(folder):
    """What `replay` printed."""
    crate = folder / "crates/replay"
    with open(crate / "stdin", "rb") as answers:
        done = subprocess.run(["rt", "try", "--seconds", str(SECONDS)], cwd=crate, stdin=answers, capture_output=True, text=True, timeout=2 * SECONDS)
    said = (done.stdout + done.stderr).strip()[:2000]
    if "run=none" in done.stderr:
        raise BadEdit("the code does not compile: " + said)
    if ENDED not in done.stderr or "sheets at the edges" not in done.stdout:
        raise BadEdit("it does not come to its end: " + said)
    return done.stdout


def outcome(printed):
    """Whether an edit is caught, and by what."""
    counts = re.findall(r"(\d+) (?:skipped|differ|wrong|bytes)", printed)
    skipped, differ, left, runs, sheets = (int(count) for count in counts)
    found = [f"{differ} recorded cases differ"] if differ else []
    found += [f"{skipped} cases cannot be read"] if skipped or left else []
    found += [f"{runs + sheets} calls at the edges of the refusals are wrong"] if runs + sheets else []
    return bool(found), ", ".join(found) or "NOT CAUGHT"


def attempt(edit):
    """Tries one edit, or none."""
    with tempfile.TemporaryDirectory() as name:
        folder = pathlib.Path(name)
        copy(folder)
        if edit is not None:
            apply(folder, edit)
        return outcome(replay(folder))


def line(name):
    """How the edit `name` comes out (caught, missed or bad), and what is said of it."""
    try:
        reading, edit = parse((EDITS / f"{name}.edit").read_text())
        caught, what = attempt(edit)
    except (BadEdit, OSError, subprocess.TimeoutExpired) as problem:
        return "bad", f"{name}: BAD EDIT: {problem}"
    return "caught" if caught else "missed", f"{name}: {reading}: {what}"


def main():
    names = sys.argv[1:] or sorted(path.stem for path in EDITS.glob("*.edit"))
    caught, what = attempt(None)
    if caught:
        sys.exit(f"without an edit: {what}")
    came_out = []
    with ThreadPoolExecutor(int(os.environ.get("RT_JOBS") or os.cpu_count())) as jobs:
        for how, said in jobs.map(line, names):
            came_out.append(how)
            print(said, flush=True)
    caught, missed, bad = (came_out.count(how) for how in ("caught", "missed", "bad"))
    print(f"{len(names)} wrong readings: {caught} caught, {missed} not caught, {bad} bad edits")
    sys.exit(2 if bad else 1 if missed else 0)


if __name__ == "__main__":
    main()
