#!/usr/bin/env python3
"""Times members in memory, and Yjs in Node at the same work, in one run. Prints a table.

    bench/measure_embed.py [--library FOLDER] [--edits 20000] [--events 100000] [--rounds 5]

Edits are typed lines, each with its record for the journal and its frame; of Yjs each is an update. Remote events are these frames and
updates, one after another. Catching up is that of one that was away, with all events of two others: in frames of both in turn, of Yjs in
updates of both in turn or in one state of each. All times are a processor's, and each number is the median of the rounds, in which both
are timed one after the other. It needs a C compiler, Node, and Debian's node-yjs.
"""

import argparse
import os
import subprocess
import sys
from pathlib import Path
from statistics import median
from tempfile import TemporaryDirectory

ROOT = Path(__file__).resolve().parent.parent
HERE = ROOT / "embed/bench"
# What is measured, of this library and of Yjs, its unit, and by what it is divided to be printed.
ROWS = [
    ("an edit", "edit", "edit", "ns", 1),
    ("a remote event", "remote", "remote", "ns", 1),
    ("catching up", "catching", "catching", "ms", 1e-3),
    ("catching up, Yjs with merged states", "catching", "merging", "ms", 1e-3),
    ("going on from the journal, Yjs from updates", "opening", "catching", "ms", 1e-3),
    ("the drawing as JSON", "showing", "showing", "ms", 1e-3),
    ("memory for all events", "memory", "memory", "KB", 1),
    ("bytes to keep, of an edit", "record", "update", "bytes", 1),
    ("bytes to send, of an edit alone", "frame", "update", "bytes", 1),
    ("bytes to keep, of all events", "journal", "updates", "bytes", 1),
    ("bytes to catch up, Yjs with merged states", "frames", "state", "bytes", 1),
]


def measured(words, settings=None):
    """The numbers that a program prints, by their names."""
    done = subprocess.run(words, check=True, capture_output=True, text=True, env=settings)
    return {name: float(number) for name, number in map(str.split, done.stdout.splitlines())}


def medians(rounds):
    return {name: median(each[name] for each in rounds) for name in rounds[0]}


def main():
    parser = argparse.ArgumentParser(description=__doc__.splitlines()[0])
    parser.add_argument("--library", type=Path, default=ROOT / "embed/out")
    parser.add_argument("--edits", type=int, default=20_000)
    parser.add_argument("--events", type=int, default=100_000)
    parser.add_argument("--rounds", type=int, default=5)
    given = parser.parse_args()
    settings = {**os.environ, "NODE_PATH": "/usr/share/nodejs"}
    ours, others = [], []
    with TemporaryDirectory() as room:
        program = f"{room}/times"
        words = [os.environ.get("CC", "gcc"), "-O2", "-o", program, HERE / "times.c", f"-I{given.library}"]
        subprocess.run([*words, given.library / "libgroupdesign.a"], check=True)
        for _ in range(given.rounds):
            ours.append(measured([program, str(given.edits), str(given.events)]))
            node = ["node", "--expose-gc", HERE / "yjs_times.js", str(given.edits), str(given.events)]
            others.append(measured(node, settings))
    ours, others = medians(ours), medians(others)
    print(f"{given.edits} edits, {given.events} events, the median of {given.rounds} rounds")
    print(f"{'':45} {'':6} {'here':>12} {'Yjs':>12} {'times':>7}")
    for what, mine, theirs, unit, part in ROWS:
        here, there = ours[mine] / part, others[theirs] / part
        print(f"{what:45} {unit:6} {here:12,.1f} {there:12,.1f} {there / here if here else float('inf'):7.1f}")
    return 0


if __name__ == "__main__":
    sys.exit(main())
