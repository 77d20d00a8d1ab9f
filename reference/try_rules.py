#!/usr/bin/env python3
"""Tries the definitions of crates/rules against the original on random small images.

  reference/try_rules.py [--count N] [--seed S] [--pixels P]

The judge generates cases and answers them; each answer becomes a claim that the checker must compute: what `run_call` leaves in every
buffer, the labels after stage 1, and the picture that `paint_call` makes of those buffers. The claims go into a copy of the crate in a
temporary folder, and are not kept. Prints how many were tried; exit status 0 where the checker admits them all.
"""
import argparse
import json
import pathlib
import re
import shutil
import subprocess
import sys
import tempfile

ROOT = pathlib.Path(__file__).resolve().parent.parent
JUDGE = ROOT / "reference/target/release/judge"

HEAD = """-- Throw-away claims.
use Rattle.std.specs.Prelude.{◌≡◌, refl, List, [], ◌∷◌, ℕ, pos, negsuc, replicate}
use Rattle.rules.specs.Color.{RunnerConfig, rgba, Keep, Discard}
use Rattle.rules.specs.Run.{stage1}
use Rattle.rules.specs.Calls.{run_call, paint_call}

"""


def numbers(xs):
    return "(" + "".join(f"{x} ∷ " for x in xs) + "[])"


def signed(z):
    return f"pos {z}" if z >= 0 else f"negsuc {-z - 1}"


def config(f):
    """The settings of a case, in the order of the text form."""
    key = " ".join(str(b) for b in bytes.fromhex(f[9]))
    return (
        f"record {{ is_same_color_a = {signed(int(f[2]))}; is_same_color_b = {signed(int(f[3]))}; hierarchical = {f[4]}; good_min_area = {f[5]}; "
        f"good_max_area = {f[6]}; hollow_neighbours = {f[7]}; deepen_diff = {signed(int(f[8]))}; key_color = rgba {key}; keying_action = {f[10].capitalize()} }}"
    )


def claim(i, line, answer):
    """One case: buffers filled with 7 at entry, each two numbers longer than asked."""
    f = line.split()
    w, h = int(f[0]), int(f[1])
    size, n, m = w * h, answer["n"], answer["m"]
    table = [x for slot in answer["table"] for x in slot]
    lengths = dict(labels=size, links=size, table=21 * (size + 1), outputs=2 * size, work=8 * size + 8)

    def filled(name, used):
        return numbers(list(used) + [7] * (lengths[name] + 2 - len(used)))

    entry = "; ".join(f"{k} = replicate {v + 2} 7" for k, v in lengths.items())
    left = "; ".join(
        f"{k} = {filled(k, v)}" for k, v in dict(labels=answer["labels"], links=answer["links"], table=table, outputs=answer["outputs"]).items()
    )
    picture = numbers(bytes.fromhex(answer["picture"]))
    image = numbers(bytes.fromhex(f[11]))
    return f"""abbrev settings{i} : RunnerConfig
settings{i} = {config(f)}

abbrev image{i} : List ℕ
image{i} = {image}

ran{i} : run_call settings{i} {w} {h} image{i} (record {{ {entry} }})
    ≡ record {{ number = 0; n = {n}; m = {m}; buffers = record {{ {left}; work = replicate {lengths['work'] + 2} 0 }} }}
unfolding run_call
ran{i} = refl

first{i} : (stage1 settings{i} {w} {h} image{i}).labels ≡ {numbers(answer['stage_1_labels'])}
unfolding stage1
first{i} = refl

painted{i} : paint_call {w} {h} {filled('links', answer['links'])} {filled('table', table)} {filled('outputs', answer['outputs'])} (replicate {4 * size} 7) {n} {m}
    ≡ record {{ answer = 0; picture = {picture} }}
unfolding paint_call
painted{i} = refl

"""


def check(cases, answers):
    with tempfile.TemporaryDirectory() as folder:
        crate = pathlib.Path(folder) / "crates/rules"
        shutil.copytree(ROOT / "crates/rules/src", crate / "src")
        shutil.copytree(ROOT / "crates/rules/specs", crate / "specs")
        (pathlib.Path(folder) / "crates.txt").write_text("rules:\n")
        with open(crate / "specs/Lib.antt", "a") as f:
            f.write("pub mod Tried\n")
        (crate / "specs/Tried.antt").write_text(HEAD + "".join(claim(i, c, a) for i, (c, a) in enumerate(zip(cases, answers))))
        done = subprocess.run(["rt", "check"], cwd=crate, capture_output=True, text=True)
        if done.returncode != 0:
            print("\n".join(l[:400] for l in (done.stdout + done.stderr).split("\n") if re.search(r"error|not-proved", l)), file=sys.stderr)
        return done.returncode == 0


def main():
    p = argparse.ArgumentParser(description=__doc__, formatter_class=argparse.RawDescriptionHelpFormatter)
    p.add_argument("--count", type=int, default=200, help="cases to try (default 200)")
    p.add_argument("--seed", type=int, default=1, help="seed of the generator (default 1)")
    p.add_argument("--pixels", type=int, default=64, help="images of more pixels are passed over (default 64)")
    p.add_argument("--batch", type=int, default=50, help="claims to one run of the checker (default 50)")
    a = p.parse_args()
    if not JUDGE.exists():
        sys.exit(f"{JUDGE} is not built: run reference/setup.sh first")
    cases, asked = [], a.count
    while len(cases) < a.count:
        asked *= 2
        text = subprocess.run([JUDGE, "cases", "--seed", str(a.seed), "--count", str(asked)], capture_output=True, text=True, check=True).stdout
        small = [l for l in text.split("\n") if l and int(l.split()[0]) * int(l.split()[1]) <= a.pixels]
        cases = [l for l in small if 0 <= int(l.split()[2]) <= 7][: a.count]
    said = subprocess.run([JUDGE, "answer", "--json"], input="\n".join(cases) + "\n", capture_output=True, text=True, check=True).stdout
    answers = [json.loads(l) for l in said.split("\n") if l]
    assert len(answers) == len(cases), "one answer a case"
    tried = 0
    for at in range(0, len(cases), a.batch):
        if not check(cases[at : at + a.batch], answers[at : at + a.batch]):
            print(f"{tried} cases agree; one of cases {at} to {at + a.batch - 1} does not")
            sys.exit(1)
        tried += len(cases[at : at + a.batch])
        print(f"{tried} of {len(cases)} cases agree", flush=True)
    print(f"{tried} cases tried against the original, none differ")


if __name__ == "__main__":
    main()
