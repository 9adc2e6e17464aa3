#!/usr/bin/env python3
"""Times `replay` of one log in version three, with checks, beside the same in version two, by the same program and by an older one.
See README.md."""

import argparse
import sys
import tempfile
from pathlib import Path

sys.dont_write_bytecode = True
sys.path.insert(0, str(Path(__file__).resolve().parent))
import make_log
from node_process import add_program, program_of
from one_run import best, run_once

EVENTS, SITES, RUNS = 1_000_000, 16, 5
# A log with checks may take so many times the processor's seconds of one without them.
MOST = 1.1


def write_logs(events, room):
    """The same events in both versions."""
    made = make_log.in_order(events, SITES, "stamps")
    for version in (2, 3):
        make_log.VERSION = version
        (room / f"{version}.log").write_bytes(make_log.log_of(SITES, made))


def timed(rows, room):
    """What each row took at best. The runs are made in turn, and all print the same."""
    taken, drawings = {name: [] for name in rows}, set()
    for _ in range(RUNS):
        for name, (program, version) in rows.items():
            taken[name].append(run_once([program, "replay"], room / f"{version}.log", room / "printed"))
            drawings.add((room / "printed").read_bytes())
    if len(drawings) > 1:
        sys.exit("the programs print different drawings of the same events")
    return {name: best(runs) for name, runs in taken.items()}


def asked():
    parser = argparse.ArgumentParser(prog="bench/measure_checks.py", description=__doc__)
    add_program(parser)
    parser.add_argument("--beside", metavar="PROGRAM", type=Path, help="an older groupdesign, which reads version two")
    parser.add_argument("--events", metavar="N", type=int, default=EVENTS, help=f"how many events the logs have, {EVENTS:,} without it")
    return parser.parse_args()


def main():
    words = asked()
    program = program_of(words)
    rows = {"version three": (program, 3), "version two": (program, 2)}
    if words.beside:
        rows["version two, the older program"] = (words.beside.resolve(), 2)
    with tempfile.TemporaryDirectory() as room:
        room = Path(room)
        write_logs(words.events, room)
        taken = timed(rows, room)
    print(f"{words.events:,} events of {SITES} sites in stamp order, the best of {RUNS} runs:")
    for name, run in taken.items():
        print(f"{name:34}{run.wall:9.3f} s{run.processor:9.3f} s of the processor{run.memory:9,.0f} MB", flush=True)
    first, *others = taken
    for name in others:
        times = taken[first].processor / taken[name].processor
        print(f"{first} takes {times:.2f} times the processor of {name}: {'the bar is met' if times <= MOST else 'the bar is not met'}, at most {MOST}")


if __name__ == "__main__":
    main()
