#!/usr/bin/env python3
"""Writes a log of the newest version to standard output, for measuring.

    make_log.py events COUNT SITES ORDER     COUNT events by SITES sites; one in ten makes a shape, the others move it, set its
                                             stroke or label, or raise it. ORDER: `stamps` (by stamp, so that nothing comes
                                             late), `sites` (site after site, so that most come late), or `shuffle` (the
                                             sites' events merged at random)
    make_log.py nested DEPTH                 DEPTH groups, each in the next one
    make_log.py tree LEAVES                  LEAVES shapes in groups of 32, these in groups of 32, and so on up to one group
"""

import sys
from pathlib import Path
from random import Random

sys.dont_write_bytecode = True
sys.path.insert(0, str(Path(__file__).resolve().parent.parent / "examples"))
from make_examples import RECT, STROKE, create, group, log, move, raise_up, restyle, retext

ORDERS = ["stamps", "sites", "shuffle"]
SEED = 7
# The version of the logs: the newest, but where a program beside is older.
VERSION = 3
# The most events of a site.
MOST = 65_535


def change(draw, own):
    """What a site does with one of its shapes."""
    of, pick = draw.choice(own), draw.randrange(10)
    if pick < 6:
        return move(*of, draw.randrange(1000), draw.randrange(1000))
    if pick < 8:
        return restyle(*of, STROKE, draw.randrange(1 << 24))
    if pick < 9:
        return raise_up(*of)
    return retext(*of, "new")


def events_of(site, count, draw):
    events, own = [], []
    for clock in range(1, count + 1):
        if not own or draw.randrange(10) == 0:
            own.append((clock, site))
            kind = draw.randrange(1, 5)
            what = create(kind, draw.randrange(1000), draw.randrange(1000), 10, 10, "label")
        else:
            what = change(draw, own)
        events.append((clock, site, what))
    return events


def shuffled(lists, draw):
    """The lists merged at random; the events of one list keep their order, as a log wants it."""
    merged, heads, live = [], [0] * len(lists), list(range(len(lists)))
    while live:
        at = draw.choice(live)
        merged.append(lists[at][heads[at]])
        heads[at] += 1
        if heads[at] == len(lists[at]):
            live.remove(at)
    return merged


def in_order(count, sites, order):
    draw = Random(SEED)
    lists = [events_of(site, count // sites, draw) for site in range(1, sites + 1)]
    in_turn = [event for events in lists for event in events]
    if order == "stamps":
        in_turn.sort(key=lambda event: event[:2])
    elif order == "shuffle":
        in_turn = shuffled(lists, draw)
    return in_turn


def log_of(sites, events):
    return log(7, 1, sites, events, VERSION)


def make_events(count, sites, order):
    return log_of(sites, in_order(count, sites, order))


def square(clock, site):
    return clock, site, create(RECT, 0, 0, 10, 10)


def make_nested(depth):
    """Site 1 makes the shapes and site 2 the groups: the first two shapes, then each group with one more shape."""
    events, inner = [square(1, 1)], (1, 1)
    for clock in range(2, 2 * depth + 2, 2):
        events += [square(clock, 1), (clock + 1, 2, group((*inner, 1, 0), (clock, 1)))]
        inner = (clock + 1, 2)
    return log_of(2, events)


def make_tree(leaves):
    """Sites 1 to 4 make the leaves, and site 5 the groups."""
    level = [(1 + at // 4, 1 + at % 4) for at in range(leaves)]
    events = [square(*leaf) for leaf in level]
    clock = leaves
    while len(level) > 1:
        above = []
        for at in range(0, len(level), 32):
            clock += 1
            events.append((clock, 5, group(*level[at:at + 32])))
            above.append((clock, 5))
        level = above
    return log_of(5, events)


def made(what, *rest):
    if what == "events":
        count, sites, order = int(rest[0]), int(rest[1]), rest[2]
        if not 1 <= sites <= 16 or count // sites > MOST or order not in ORDERS:
            sys.exit(f"a log has 1 to 16 sites, and each at most {MOST:,} events")
        return make_events(count, sites, order)
    return {"nested": make_nested, "tree": make_tree}[what](int(rest[0]))


if __name__ == "__main__":
    if len(sys.argv) < 3:
        sys.exit(__doc__)
    sys.stdout.buffer.write(made(*sys.argv[1:]))
