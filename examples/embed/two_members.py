#!/usr/bin/env python3
"""Two members of a session draw together, in one process: python3 examples/embed/two_members.py"""

import sys
from pathlib import Path
from tempfile import TemporaryDirectory

sys.path.insert(0, str(Path(__file__).resolve().parents[2] / "embed/out/python"))

from groupdesign import Journal, Member, Refused


def send(sender: Member, receiver: Member, journal: Journal) -> None:
    """Hands over what the receiver lacks, which it keeps before it tells anybody."""
    for frame in sender.frames(receiver.site):
        heard = receiver.take(frame)
        journal.keep(receiver)
        print(*(f"site {receiver.site} heard: {line}" for line in heard), sep="\n", end="\n" if heard else "")


with TemporaryDirectory() as room:
    ana, ben = Member(1, 2, session=7), Member(2, 2, session=7)
    anas, bens = Journal(f"{room}/ana.log", ana.journal_head()), Journal(f"{room}/ben.log", ben.journal_head())
    house = ana.create("rect", 0, 0, 100, 50, "House")
    anas.keep(ana)
    send(ana, ben, bens)

    # Both draw while they are apart.
    ana.move(house, 10, 10)
    anas.keep(ana)
    ben.gesture(["create line 0 0 100 20 Roof", f"fill {house} FFCC00"])
    bens.keep(ben)
    send(ben, ana, anas)
    send(ana, ben, bens)
    print(f"the same: {ana.text() == ben.text()}\n{ana.text()}", end="")

    # Ana's program ends, and goes on from her journal.
    anas, kept = Journal.open(f"{room}/ana.log")
    ana = Member.open(kept, 1, 2, session=7)
    try:
        ana.undo()
    except Refused as refusal:
        print(f"nothing from before is undone: {refusal.why}")
