#!/usr/bin/env python3
"""Times how a site that was away comes to hold the moves of another one, over a proxy that delays or loses datagrams; beside an older
program and Yjs. See README.md."""

import argparse
import os
import shutil
import subprocess
import sys
import tempfile
import time
from collections import namedtuple
from contextlib import ExitStack, contextmanager
from pathlib import Path

sys.dont_write_bytecode = True
HERE = Path(__file__).resolve().parent
sys.path.insert(0, str(HERE))
from node_process import Node, add_program, free_addresses, program_of

# So many moves of one shape are made, as gestures of so many, before the other site comes. Then both poll each so many seconds.
MOVES, TOGETHER, EVERY = 10_000, 500, 0.01
# Journals are here where that is, since syncs of a disk take more than all else, and Yjs keeps nothing.
MEMORY = Path("/dev/shm")
# In Yjs a shape is a map and its six fields.
FIELDS = 7
MODULES = {"NODE_PATH": "/usr/share/nodejs"} | os.environ
LINKS = {
    "loses nothing": [],
    "delays 30 %, 20 ms at most": ["--delay", "0.3"],
    "loses 30 %": ["--lose", "0.3"],
}
# Seconds by the clock; of the one that was away and of the other one those of the processor, and the most memory in MB; and how often
# each polled, where that was counted.
Taken = namedtuple("Taken", "wall away there memory polls")


@contextmanager
def proxied(rates):
    """The addresses of two sites as each of them has them: its own, and the other one's behind a proxy."""
    one, other, for_one, for_other = free_addresses(4)
    words = [sys.executable, HERE / "lossy_proxy.py", *rates, f"{for_one}={one}", f"{for_other}={other}"]
    proxy = subprocess.Popen(words, stdin=subprocess.PIPE, stdout=subprocess.PIPE, text=True)
    proxy.stdout.readline()
    try:
        yield [one, for_other], [for_one, other]
    finally:
        proxy.communicate()


def processor_of(process):
    """The seconds of the processor that a process has had."""
    return int(Path(f"/proc/{process.pid}/schedstat").read_text().split()[0]) / 1e9


def memory_of(process):
    """The most memory that a process has had, in MB."""
    lines = Path(f"/proc/{process.pid}/status").read_text().splitlines()
    return int(next(line for line in lines if line.startswith("VmHWM:")).split()[1]) / 1024


def catch_up(program, moves, rates, room):
    """What it takes two nodes."""
    with proxied(rates) as (ones, others):
        there = Node(program, 1, ones, room / "there.log")
        there.ask("create rect 0 0 10 10")
        for start in range(0, moves, TOGETHER):
            there.ask("\n".join(["begin", *(f"move 1.1 {at} 0" for at in range(start, min(moves, start + TOGETHER))), "end"]))
        before, start, polls = processor_of(there.process), time.perf_counter(), 0
        away = Node(program, 2, others, room / "away.log")
        while away.held() <= moves:
            time.sleep(max(0, start + polls * EVERY - time.perf_counter()))
            for node in (there, away):
                node.poll()
            polls += 1
        took = time.perf_counter() - start
        taken = Taken(took, processor_of(away.process), processor_of(there.process) - before, memory_of(away.process), polls)
        if there.ask("show") != away.ask("show"):
            sys.exit("the two sites show different drawings")
        for node in (there, away):
            node.quit()
            node.journal.unlink()
    return taken


def yjs_peer(stack, own, other, moves):
    ports = [address.split(":")[1] for address in (own, other)]
    words = ["node", HERE / "yjs_peer_over_udp.js", *ports, str(moves), str(round(EVERY * 1000))]
    peer = subprocess.Popen(words, stdin=subprocess.PIPE, stdout=subprocess.PIPE, text=True, env=MODULES)
    stack.callback(peer.kill)
    peer.stdout.readline()
    return peer


def catch_up_by_yjs(_, moves, rates, room):
    """What it takes two peers of Yjs, which send their state vectors as often as nodes poll."""
    with ExitStack() as stack:
        (one, for_other), (for_one, other) = stack.enter_context(proxied(rates))
        there = yjs_peer(stack, one, for_other, moves)
        before = processor_of(there)
        away = yjs_peer(stack, other, for_one, 0)
        away.stdin.write(f"{FIELDS + moves}\n")
        away.stdin.flush()
        wall, processor, memory, last = away.stdout.readline().split()
        if int(last) != moves - 1:
            sys.exit(f"Yjs shows the place {last}")
        return Taken(float(wall), float(processor), processor_of(there) - before, int(memory) / 1024, None)


def has_yjs():
    find = ["node", "-e", "require('yjs')"]
    return shutil.which("node") and subprocess.run(find, capture_output=True, env=MODULES).returncode == 0


def asked():
    parser = argparse.ArgumentParser(prog="bench/measure_catching.py", description=__doc__)
    add_program(parser)
    parser.add_argument("--beside", metavar="PROGRAM", type=Path, help="an older groupdesign, two nodes of which do the same")
    parser.add_argument("--room", metavar="FOLDER", type=Path, help="where the journals are; otherwise in memory")
    parser.add_argument("--moves", metavar="N", type=int, default=MOVES, help=f"how many moves are made, {MOVES:,} without it")
    return parser.parse_args()


def main():
    words = asked()
    peers = {"groupdesign": (catch_up, program_of(words))}
    if words.beside:
        peers["the older program"] = (catch_up, words.beside.resolve())
    if has_yjs():
        peers["Yjs"] = (catch_up_by_yjs, None)
    else:
        print("Yjs is left out: node doesn't find it (in Debian the package node-yjs)")
    print(f"{words.moves:,} moves come to a site that was away, polled each {EVERY * 1000:.0f} ms:")
    print("| The link | Peers | Seconds | Processor, away | Processor, there | Memory, away | Polls of each |")
    print("|---" * 7 + "|", flush=True)
    with tempfile.TemporaryDirectory(dir=words.room or (MEMORY if MEMORY.is_dir() else None)) as room:
        for link, rates in LINKS.items():
            for name, (work, program) in peers.items():
                taken = work(program, words.moves, rates, Path(room))
                cells = [f"{taken.wall:.2f} s", f"{taken.away:.3f} s", f"{taken.there:.3f} s", f"{taken.memory:.0f} MB"]
                print("| " + " | ".join([link, name, *cells, str(taken.polls or "")]) + " |", flush=True)


if __name__ == "__main__":
    main()
