#!/usr/bin/env python3
"""Writes a log of the newest version to standard output, whose late events are hard to place or to repair, for measuring.

    make_hard.py one COUNT                   COUNT events of 4 sites, site after site, all on one object
    make_hard.py groups COUNT                COUNT events of 4 sites, site after site; each makes 32 shapes, groups them 20
                                             times, and begins again
    make_hard.py delete COUNT                an object and its changes by 14 sites, in stamp order, and then one late delete
                                             of it, in front of all the changes
    make_hard.py rework COUNT                shapes and their changes by 4 sites, in stamp order, and then late deletes, one
                                             for 20 events, of shapes that later events change: these are reworked

Of people who were apart, site after site, at the same clocks:

    make_hard.py parts COUNT                 one moves a shape, and one sets its stroke: no late event depends on another
    make_hard.py mix COUNT                   four change 300 shapes; of 100 events 4 group some of them and 4 dissolve a group
    make_hard.py regroup COUNT               two group the same two shapes and dissolve the group, in turn
    make_hard.py square COUNT                one moves a shape, and one deletes it: each delete reworks all later moves

    make_hard.py hub COUNT                   groups of 32 that all have one shape, a third of all events those shapes and groups;
                                             then moves of the others, in stamp order; and one late delete of that shape
    make_hard.py bomb COUNT                  groups of the same two shapes, in stamp order, and then as many late ones in front of
                                             them: each reworks all behind it
"""

import sys
from functools import partial
from pathlib import Path
from random import Random

sys.dont_write_bytecode = True
sys.path.insert(0, str(Path(__file__).resolve().parent))
from make_log import MOST, SEED, change, log_of, square
from make_examples import RECT, STROKE, create, delete, group, move, raise_up, restyle, retext, ungroup

SITES = 4
# The members of a group, and how often they are grouped.
MEMBERS, TIMES = 32, 20
# The sites from 2 on that change the object of `delete`, and the site that deletes it.
CHANGERS, DELETER = 14, 16
# Of `rework`: each deleted shape stands for so many events. A shape is changed while so few younger ones are there, and is
# deleted so many clocks after it was made, half of its changes later.
SHARE, YOUNGER, LATER = 20, 200, 250
# The shapes of `mix`.
MIXED = 300


def make_one(count):
    draw, shape = Random(SEED), (1, 1)
    events = [(clock, site, change(draw, [shape])) for site in range(1, SITES + 1) for clock in range(1, count // SITES + 1)]
    events[0] = square(*shape)
    return log_of(SITES, events)


def shape_or_group(clock, site):
    """What a site of `groups` does at a clock: 32 shapes in turn, and then groups of these."""
    turn = (clock - 1) % (MEMBERS + TIMES)
    if turn < MEMBERS:
        return square(clock, site)
    first = clock - turn
    return clock, site, group(*[(made, site, 1, 1) for made in range(first, first + MEMBERS)])


def make_groups(count):
    sites, clocks = range(1, SITES + 1), range(1, count // SITES + 1)
    return log_of(SITES, [shape_or_group(clock, site) for site in sites for clock in clocks])


def make_delete(count):
    draw, shape = Random(SEED), (1, 1)
    changes = [(3 + at // CHANGERS, 2 + at % CHANGERS, change(draw, [shape])) for at in range(count - 2)]
    return log_of(DELETER, [square(*shape), *changes, (2, DELETER, delete(*shape))])


def changed_shapes(count, draw):
    """Events in stamp order, of which one in ten makes a shape, and the others change a young one; and the shapes."""
    events, shapes = [], []
    for at in range(count):
        clock, site = 1 + at // SITES, 1 + at % SITES
        if not shapes or draw.randrange(10) == 0:
            shapes.append((clock, site))
            events.append(square(clock, site))
        else:
            events.append((clock, site, change(draw, shapes[-YOUNGER:])))
    return events, shapes


def make_rework(count):
    deletes = count // SHARE
    events, shapes = changed_shapes(count - deletes, Random(SEED))
    clock = 0
    for at in range(deletes):
        shape = shapes[at * len(shapes) // deletes]
        clock = max(clock + 1, shape[0] + LATER)
        events.append((clock, SITES + 1, delete(*shape)))
    return log_of(SITES + 1, events)


def apart(sites, shapes, count, event):
    """Shapes of site 1, and then as many events of each site, site after site. An event is handed its clock, its site, and a list
    that the events of one site share."""
    events = [square(clock, 1) for clock in range(1, shapes + 1)]
    for site in range(1, sites + 1):
        shared = []
        for clock in range(shapes + 1, shapes + 1 + (count - shapes) // sites):
            events.append((clock, site, event(clock, site, shared)))
    return log_of(sites, events)


def make_parts(count):
    def event(clock, site, _):
        return move(1, 1, clock % 1000, 5) if site == 1 else restyle(1, 1, STROKE, clock)

    return apart(2, 1, count, event)


def make_square(count):
    def event(clock, site, _):
        return move(1, 1, clock % 1000, 5) if site == 1 else delete(1, 1)

    return apart(2, 1, count, event)


def make_regroup(count):
    def event(clock, site, made):
        if made:
            return ungroup(*made.pop())
        made.append((clock, site))
        return group((1, 1, 1, 1), (2, 1, 1, 1))

    return apart(2, 2, count, event)


def mixed(draw, clock, site, groups):
    """One change of the mix. It keeps the groups that the site made."""
    shape, pick = (draw.randrange(1, MIXED + 1), 1), draw.randrange(100)
    if pick < 4:
        groups.append((clock, site))
        return group(*sorted({(other, 1) for other in draw.sample(range(1, MIXED + 1), draw.randrange(2, 6))}))
    if pick < 8 and groups:
        return ungroup(*draw.choice(groups))
    if pick < 10:
        return delete(*shape)
    if pick < 20:
        return create(RECT, 1, 2, 3, 4, "label")
    if pick < 30:
        return raise_up(*shape)
    if pick < 35:
        return retext(*shape, "new")
    if pick < 50:
        return restyle(*shape, STROKE, draw.randrange(1 << 24))
    return move(*shape, draw.randrange(1000), 3)


def make_mix(count):
    return apart(SITES, MIXED, count, partial(mixed, Random(SEED)))


def make_hub(count):
    groups = max(1, count // 3 // MEMBERS)
    others = [(1 + at // SITES, 2 + at % SITES) for at in range(groups * (MEMBERS - 1))]
    clock = others[-1][0] + 2
    events = [square(1, 1), *(square(*other) for other in others)]
    for at in range(groups):
        events.append((clock + at, 1, group((1, 1), *others[at::groups])))
    clock += groups
    moves = count - len(events) - 1
    events += [(clock + at // SITES, 2 + at % SITES, move(*others[at % len(others)], 1, 1)) for at in range(moves)]
    return log_of(DELETER, [*events, (others[-1][0] + 1, DELETER, delete(1, 1))])


def make_bomb(count):
    half, pair = (count - 2) // 2, group((1, 1), (2, 1))
    behind = [(1_000_000 + at, 1, pair) for at in range(half)]
    return log_of(2, [square(1, 1), square(2, 1), *behind, *[(3 + at, 2, pair) for at in range(half)]])


HARD = {
    "one": make_one, "groups": make_groups, "delete": make_delete, "rework": make_rework,
    "parts": make_parts, "mix": make_mix, "regroup": make_regroup, "square": make_square, "hub": make_hub,
    "bomb": make_bomb,
}

# Kinds with two sites that make the events; the others have four or more.
OF_TWO = ["parts", "regroup", "square", "bomb"]


def main():
    if len(sys.argv) != 3 or sys.argv[1] not in HARD:
        sys.exit(__doc__)
    kind, count = sys.argv[1], int(sys.argv[2])
    most = (2 if kind in OF_TWO else SITES) * MOST
    if not 4 <= count <= most:
        sys.exit(f"this log has 4 to {most:,} events")
    sys.stdout.buffer.write(HARD[kind](count))


if __name__ == "__main__":
    main()
