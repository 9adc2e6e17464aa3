#!/usr/bin/env python3
"""Lets nodes draw together over a link that loses, doubles, delays and reorders, and prints a table. See README.md."""

import argparse
import subprocess
import sys
import tempfile
from pathlib import Path
from random import Random

sys.dont_write_bytecode = True
HERE = Path(__file__).resolve().parent
sys.path.insert(0, str(HERE))
from node_process import Node, add_program, free_addresses, poll_all, program_of, same_drawing

# What a link does, and the words of the proxy for it.
LINKS = {
    "hands all on": [],
    "loses 30 %": ["--lose", "0.3"],
    "loses 70 %": ["--lose", "0.7"],
    "doubles 50 %": ["--double", "0.5"],
    "reorders 50 %": ["--reorder", "0.5"],
    "delays 50 %": ["--delay", "0.5"],
    "does all of it": ["--lose", "0.3", "--double", "0.3", "--delay", "0.3", "--reorder", "0.3"],
}
SITES = [2, 3]
# One edit in so many makes a shape, and each site polls behind so many of its edits.
NEW, POLL = 5, 3
HEADS = ["sites", "edits", "refused", "polls", "came", "lost", "doubled", "delayed", "reordered", "objects"]


class Draughtsman:
    """What is typed at one site: edits of the objects that it shows."""

    def __init__(self, node, draw):
        self.node, self.draw, self.made, self.accepted, self.refused = node, draw, [], 0, 0

    def shown(self):
        """The ids of what is shown, top objects and others."""
        return [line.split()[1] for line in self.node.ask("show")[:-1]]

    def line(self, ids):
        draw, of = self.draw, self.draw.choice(ids) if ids else None
        x, y = draw.randrange(1000), draw.randrange(1000)
        if not of or draw.randrange(NEW) == 0:
            return f"create {draw.choice(['rect', 'ellipse', 'line', 'text'])} {x} {y} 10 10 of {self.node.site}"
        lines = [f"move {of} {x} {y}"] * 4 + [f"stroke {of} {draw.randrange(1 << 24):06X}", f"fill {of} none"]
        lines += [f"text {of} {x}", f"resize {of} {x} {y}", f"raise {of}", f"lower {of}", f"delete {of}", f"ungroup {of}", "undo", "redo"]
        lines += [f"group {of} {draw.choice(ids)}"] * 2
        return draw.choice(lines)

    def edit(self):
        answer = self.node.ask(self.line(self.shown()))[0]
        if answer.startswith("ok "):
            self.accepted += 1
        elif answer.startswith("refused: "):
            self.refused += 1
        else:
            sys.exit(f"site {self.node.site} answered {answer!r} to an edit")


def draw_all(nodes, edits, draw):
    """Types so many edits at each site, with polls in between."""
    people = [Draughtsman(node, draw) for node in nodes]
    for turn in range(edits):
        for person in people:
            person.edit()
            if turn % POLL == POLL - 1:
                person.node.poll()
    return sum(person.accepted for person in people), sum(person.refused for person in people)


def start_proxy(words, seed, ways):
    command = [sys.executable, HERE / "lossy_proxy.py", *words, "--seed", str(seed), *ways]
    proxy = subprocess.Popen(command, stdin=subprocess.PIPE, stdout=subprocess.PIPE, text=True)
    if proxy.stdout.readline() != "ready\n":
        sys.exit("the proxy did not start")
    return proxy


def run_link(program, sites, words, edits, seed):
    """What became of one session: the figures of a row."""
    addresses = free_addresses(2 * sites)
    own, others = addresses[:sites], addresses[sites:]
    proxy = start_proxy(words, seed, [f"{here}={there}" for here, there in zip(others, own)])
    with tempfile.TemporaryDirectory() as room:
        nodes = []
        for site in range(1, sites + 1):
            seen = [own[at] if at == site - 1 else others[at] for at in range(sites)]
            nodes.append(Node(program, site, seen, Path(room) / f"{site}.log"))
        accepted, refused = draw_all(nodes, edits, Random(seed))
        rounds = poll_all(nodes, accepted)
        drawing = same_drawing(nodes)
        for node in nodes:
            node.quit()
    counts = proxy.communicate()[0].split()
    told = dict(zip(counts[::2], counts[1::2]))
    shown = [sites, accepted, refused, rounds, *[told[head] for head in HEADS[4:-1]], len(drawing) - 1]
    return "".join(f"{figure:>11}" for figure in shown)


def asked():
    parser = argparse.ArgumentParser(prog="bench/draw_together.py", description=__doc__)
    add_program(parser)
    parser.add_argument("--edits", metavar="N", type=int, default=60, help="how many edits are typed at each site")
    parser.add_argument("--seed", metavar="N", type=int, default=7)
    return parser.parse_args()


def main():
    words = asked()
    program = program_of(words)
    print("".join([f"{'a link that':18}", *(f"{head:>11}" for head in HEADS)]), flush=True)
    for sites in SITES:
        for name, given in LINKS.items():
            print(f"{name:18}{run_link(program, sites, given, words.edits, words.seed)}", flush=True)
    print("in each session all sites, and a replay of each journal, show the same drawing")


if __name__ == "__main__":
    main()
