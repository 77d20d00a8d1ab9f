#!/usr/bin/env python3
"""Tries wrong definitions of the rules, made mechanically, against the computed claims alone.

  reference/wrong_definitions.py [--only NAME,..] [--since REV] [-j N] [--list]

Every definition of crates/rules/specs that must be believed (not in the parts EXCLUDED, and no proposition) is
changed in one place at a time: another comparison, operand, constant, field, argument, variable or function, a call
left out and so on (wrong_definitions/changes.py). Each wrong definition goes into a copy of the crate without its
proofs, so that only the computed claims, `name = refl`, can refuse it. One that is not well formed (types, scopes,
recursion) does not count.

The survivors that are known stand in reference/wrong_definitions.txt, each with its reason. Prints every other survivor
as it is found, and a table. Exit status: 0 all survivors are listed, 1 one is not, or one is listed that did not
survive or is not made, 2 the rules as they stand are not admitted.

  --only NAME,..  these definitions alone
  --since REV     the definitions whose text is not that of the git revision REV
  -j N            checks at a time (the machine's processors)
  --list          print the wrong definitions, and try none
"""
import argparse
import collections
import os
import pathlib
import queue
import re
import shutil
import signal
import subprocess
import sys
import tempfile
from concurrent.futures import ThreadPoolExecutor

from wrong_definitions.changes import Rules
from wrong_definitions.syntax import File, squeeze

ROOT = pathlib.Path(__file__).resolve().parent.parent
SPECS = pathlib.Path("crates/rules/specs")
LIBRARY = "Rattle.rules.specs"  # what the path of each module begins with
LISTED = ROOT / "reference/wrong_definitions.txt"
# Examples, and what only code and proofs need: a wrong definition there misleads no reader of the rules.
EXCLUDED = {"Examples", "Code"}
COPIES = [f"Copy{number}" for number in range(8)]  # starting the checker costs as much as checking two
SECONDS = 30  # for each; the rules as they stand take one
COLUMNS = ["ill-formed", "refused", "too long", "survived, listed", "survived, not listed"]


class Workshop:
    """A folder with copies of the crate without its proofs, in which as many wrong definitions are tried at once."""

    def __init__(self, folder):
        self.folder, self.specs = folder, folder / SPECS
        shutil.copytree(ROOT / SPECS.parent / "src", folder / SPECS.parent / "src")
        (folder / "crates.txt").write_text("rules:\n")
        for name in COPIES:
            shutil.copytree(ROOT / SPECS, self.specs / name)
            for path in (self.specs / name).rglob("*.antt"):
                self.write(name, path, path.read_text())
            shutil.move(self.specs / name / "Lib.antt", self.specs / f"{name}.antt")
        (self.specs / "Lib.antt").write_text("".join(f"pub mod {name}\n" for name in COPIES))

    def write(self, name, path, text):
        path.write_text(text.replace(f"{LIBRARY}.", f"{LIBRARY}.{name}."))

    def put(self, name, file, text, imports=()):
        path, at = self.specs / name / file.path.relative_to(SPECS), text.index("use ")
        self.write(name, path, text[:at] + "".join(sorted(imports)) + text[at:])

    def check(self, seconds=SECONDS * len(COPIES)):
        """What the checker refuses in each copy, by module and name; None where it does not come to an answer."""
        run = subprocess.Popen(["rt", "check"], cwd=self.folder / SPECS.parent, stdout=subprocess.PIPE,
                               stderr=subprocess.STDOUT, text=True, start_new_session=True)
        try:
            said = run.communicate(timeout=seconds)[0]
        except subprocess.TimeoutExpired:
            os.killpg(run.pid, signal.SIGKILL)
            run.communicate()
            return None
        refused, errors = {name: set() for name in COPIES}, 0
        for line in said.splitlines():
            error = re.search(r"/specs/(\w+)/(?:\S*/)?(\w+)\.antt:\d+:\d+: error: [^`]*`([^`]*)`", line)
            if error:
                name, *what = error.groups()
                refused[name].add(tuple(what))
                errors = 1
            elif "of this declaration was admitted by the kernel" in line:
                refused[name].discard(tuple(what))  # it was refused only because something was not unfolded
        return refused if run.returncode == errors else None

    def ill_formed(self, file, wrongs):
        """Those of a file's wrong definitions that are not well formed: all are added to it, renamed, and checked."""
        text, names, copy = file.text, {}, COPIES[0]
        for number, wrong in reversed(list(enumerate(wrongs))):
            old, new = wrong.definition.name, f"{wrong.definition.name}-wrong-{number}"
            if "◌" in old:
                continue  # an operator has no second name
            names[new] = wrong
            at = wrong.definition.tokens[-1].end
            alone = re.sub(rf"(?<![^\s(){{}};]){re.escape(old)}(?![^\s(){{}};])", new, wrong.alone)
            text = text[:at] + "\n\n" + " " * wrong.definition.tokens[0].column + alone + text[at:]
        self.put(copy, file, text, set().union(*(w.imports for w in wrongs)))
        refused = (self.check() or {copy: set()})[copy]
        self.put(copy, file, file.text)
        return [names[n] for _, n in refused if n in names]

    def attempt(self, wrongs, claims):
        """How these wrong definitions come out, one in each copy."""
        for name, wrong in zip(COPIES, wrongs):
            self.put(name, wrong.definition.file, wrong.text, wrong.imports)
        refused = self.check(SECONDS * len(wrongs))
        for name, wrong in zip(COPIES, wrongs):
            self.put(name, wrong.definition.file, wrong.definition.file.text)
        if refused is None and len(wrongs) > 1:
            return [how for wrong in wrongs for how in self.attempt([wrong], claims)]
        if refused is None:
            return ["too long"]
        found = [refused[name] for name, _ in zip(COPIES, wrongs)]
        return ["survived" if not names else "refused" if names <= claims else "ill-formed" for names in found]


def texts(revision):
    """The names and texts of the definitions of a git revision."""
    def git(*words):
        return subprocess.run(["git", "-C", str(ROOT), *words], capture_output=True, text=True, check=True).stdout

    paths = git("ls-tree", "-r", "--name-only", revision, str(SPECS)).split()
    files = [File(pathlib.Path(path), git("show", f"{revision}:{path}")) for path in paths]
    return {(d.name, squeeze(d.tokens)) for f in files for d in f.definitions}


def listed():
    """The known survivors, by definition and change, with their reasons."""
    lines = [line for line in LISTED.read_text().splitlines() if line and not line.startswith("#")]
    return {tuple(line.split(" | ")[:2]): line.split(" | ")[2] for line in lines}


def outcomes(rules, wrongs, processes):
    """Each wrong definition with how it came out, in their order."""
    claims = {(f.module, d.name) for f in rules.files for d in f.definitions if squeeze(d.clauses[-1].right) == "refl"}
    with tempfile.TemporaryDirectory() as temporary, ThreadPoolExecutor(processes) as jobs:
        shops = queue.Queue()
        for number in range(processes):
            shops.put(Workshop(pathlib.Path(temporary) / str(number)))

        def within(work, *args):
            shop = shops.get()
            try:
                return work(shop, *args)
            finally:
                shops.put(shop)

        if any((within(Workshop.check) or {"": True}).values()):
            print("the rules as they stand are not admitted", file=sys.stderr)
            sys.exit(2)
        by_file = [(f, [w for w in wrongs if w.definition.file is f]) for f in rules.files]
        found = jobs.map(lambda pair: within(Workshop.ill_formed, *pair), [pair for pair in by_file if pair[1]])
        bad = {id(w) for some in found for w in some}
        yield from ((w, "ill-formed") for w in wrongs if id(w) in bad)
        tried = [w for w in wrongs if id(w) not in bad]
        rounds = [tried[at:at + len(COPIES)] for at in range(0, len(tried), len(COPIES))]
        for some, hows in zip(rounds, jobs.map(lambda some: within(Workshop.attempt, some, claims), rounds)):
            yield from zip(some, hows)


def main():
    p = argparse.ArgumentParser(description=__doc__, formatter_class=argparse.RawDescriptionHelpFormatter)
    p.add_argument("--only")
    p.add_argument("--since")
    p.add_argument("-j", type=int, default=os.cpu_count())
    p.add_argument("--list", action="store_true")
    a = p.parse_args()
    paths = sorted((ROOT / SPECS).rglob("*.antt"))
    excluded = {path.stem for path in paths if EXCLUDED & {path.stem, path.parent.name}} | {"Lib"}
    rules = Rules([File(path.relative_to(ROOT), path.read_text()) for path in paths], excluded)
    chosen = [d for d in rules.definitions.values() if not d.is_proposition()]
    if a.only:
        chosen = [d for d in chosen if d.name in a.only.split(",")]
    if a.since:
        before = texts(a.since)
        chosen = [d for d in chosen if (d.name, squeeze(d.tokens)) not in before]
    wrongs = [w for d in chosen for w in rules.wrong(d)]
    if a.list:
        for w in wrongs:
            print(f"{w.definition.file.module}: {w.definition.name} | {w.said}")
        return
    known = listed()
    left = {key for key in known if key[0] in {d.name for d in chosen} or not (a.only or a.since)}
    counts = collections.defaultdict(collections.Counter)
    for w, how in outcomes(rules, wrongs, a.j):
        key = w.definition.name, w.said
        left.discard(key)
        if how == "survived":
            how = "survived, listed" if key in known else "survived, not listed"
        elif key in known:
            how = f"listed, but {how}"
        counts[w.definition.file.module][how] += 1
        if how not in ("ill-formed", "refused", "survived, listed"):
            print(f"{w.definition.file.module}: {' | '.join(key)}: {how}", flush=True)
    for key in sorted(left):
        print(f"listed, but not made: {' | '.join(key)}")
    total = sum(counts.values(), collections.Counter())
    for module, count in [("File", {c: c for c in COLUMNS}), *counts.items(), ("all", total)]:
        whole = "wrong definitions" if module == "File" else sum(count.values())
        print(f"| {module} | {whole} | " + " | ".join(str(count.get(c, 0)) for c in COLUMNS) + " |")
    sys.exit(bool(left) or any(how not in COLUMNS[:4] for how in total))


if __name__ == "__main__":
    main()
