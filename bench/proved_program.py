"""Proves and builds a program of a folder of its own, over a copy of the crates."""

import shutil
import subprocess
import sys
from pathlib import Path

HERE = Path(__file__).resolve().parent
ROOT = HERE.parent
# The ledger of what `main` calls is that of its blank.
INVARIANTS = """\
use Rattle.{program}.proofs.main.Given as goal

abbrev pub ghosts-{called} : goal.ghosts-{called}
ghosts-{called} g a = record {{ name = a.blank.name; parts = a.blank.parts }}
"""


def lines_below(names):
    """The lines of crates.txt of these crates and of all that they stand on."""
    lines = {line.split(":")[0]: line for line in (ROOT / "crates.txt").read_text().splitlines()}
    wanted, todo = set(), list(names)
    while todo:
        name = todo.pop()
        if name in lines and name not in wanted:
            wanted.add(name)
            todo += lines[name].split(":")[1].split()
    return {name: lines[name] for name in sorted(wanted)}


def build(room, program, uses, words, called="measure", answered=()):
    """The program over a copy of the crates, with what their checks have kept. `words` are for a first, short run,
    `called` is the function that `main` hands a blank, and each function that is `answered` has answers here."""
    lines = lines_below(uses)
    (room / "crates.txt").write_text("\n".join([*lines.values(), f"{program}: {' '.join(uses)}"]) + "\n")
    shutil.copy(ROOT / "HANDLES", room)
    for name in lines:
        shutil.copytree(ROOT / "crates" / name, room / "crates" / name)
    crate = room / "crates" / program
    (crate / "src").mkdir(parents=True)
    (crate / "proofs/main").mkdir(parents=True)
    shutil.copy(HERE / f"{program}.rt.in", crate / "src/main.rt")
    (crate / "proofs/main/Invariants.antt").write_text(INVARIANTS.format(program=program, called=called))
    for name in answered:
        (crate / "proofs" / name).mkdir()
        answers = (HERE / f"{name}.antt.in").read_text().replace("PROGRAM", program)
        (crate / "proofs" / name / "Answers.antt").write_text(answers)
    print("proving and building the program, which can take some minutes ..", file=sys.stderr, flush=True)
    done = subprocess.run(["rt", "run", "--", *words], cwd=crate, capture_output=True, text=True)
    if done.returncode != 0:
        sys.exit(f"{done.stdout[-4000:]}{done.stderr[-4000:]}rt run ended with {done.returncode}")
    return crate / "out" / program


def best(program, words, runs):
    """The least of some runs, of each figure that the program prints."""
    rows = []
    for _ in range(runs):
        printed = subprocess.run([program, *words], check=True, capture_output=True, text=True).stdout
        rows.append([int(word) for word in printed.split()])
    return [min(figures) for figures in zip(*rows)]
