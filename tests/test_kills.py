"""Nodes that are killed at random moments and go on from their journals: what was answered, echoed or sent isn't lost."""

import os
from random import Random

from tests.drawing import Typist
from tests.nodes import Node, Peer, free_addresses, replayed, room
from tests.program import Case
from tests.read import events_of, frame_events
from tests.spelled import log

KILLS, SEED = 60, 7
# So many gestures are typed at once, and a kill comes while they are answered.
EDITS = 40


class Kills(Case):
    def setUp(self):
        self.draw = Random(SEED)

    def type_and_kill(self, node, typed):
        """Types lines and kills the node at a moment that is drawn. Gives the whole lines that it had printed."""
        node.type("".join(f"{line}\n" for each in typed for line in each.lines).encode())
        most = sum(len(each.answers) for each in typed)
        wanted, printed, output = self.draw.randrange(most * 7), b"", node.process.stdout.fileno()
        while len(printed) < wanted and printed.count(b"\n") < most:
            printed += os.read(output, 1 + self.draw.randrange(64))
        node.kill()
        while piece := os.read(output, 65_536):
            printed += piece
        return printed.decode().split("\n")[:-1]

    # A gesture is held as a whole, or not at all.
    def test_what_was_answered_is_held(self):
        typist, may_hold, sent = Typist(self.draw), {0}, 0
        with room() as folder:
            addresses, flags, peer = free_addresses(1), [], Peer()
            for _ in range(KILLS):
                with Node(1, [*addresses, peer.address], folder / "j", *flags) as node:
                    self.assertTrue(node.is_ready())
                    held = node.held()
                    self.assertTrue(held in may_hold and sent <= held, (may_hold, sent, held))
                    self.forget(typist, held)
                    self.assertEqual(node.ask("show"), typist.drawing.text().splitlines())
                    for _ in range(EDITS):
                        typist.edit()
                    answers = self.type_and_kill(node, typist.typed)
                    self.assertEqual(answers, [line for each in typist.typed for line in each.answers][: len(answers)])
                    may_hold = self.may_hold(held, typist.typed, len(answers))
                sent = self.expect_sent(peer, typist)
                flags = ["--resume"]
            journal = (folder / "j").read_bytes()
            peer.close()
        kept = events_of(journal)
        self.assertIn(len(kept), may_hold)
        self.assertEqual(kept, typist.events[: len(kept)])
        self.forget(typist, len(kept))
        self.assertEqual(replayed(journal), typist.drawing.text())

    def may_hold(self, held, typed, printed):
        """How many events are held behind a kill, where so many lines were printed of what was typed: those of all that was answered,
        in part even, and perhaps those of what was typed behind it."""
        counts = [held]
        for each in typed:
            if printed <= 0:
                return {counts[-1], counts[-1] + each.count}
            counts.append(counts[-1] + each.count)
            printed -= len(each.answers)
        return {counts[-1]}

    def forget(self, typist, held):
        """What was typed behind the first events was never done."""
        events = typist.events[:held]
        typist.__init__(self.draw)
        # Nor does a node that goes on from its journal take them back.
        for _, _, op in events:
            typist.happens(op)

    def expect_sent(self, peer, typist):
        """What the other site was sent are events that were typed. Gives how many of them."""
        events = [event for datagram in peer.received() for event in frame_events(datagram)]
        for event in events:
            self.assertEqual(event, typist.events[event[1] - 1])
        return max((event[1] for event in events), default=0)

    # The journal is a log in each moment, whatever of the next event is there.
    def test_each_moment_of_a_journal_is_one_to_go_on_from(self):
        typist = Typist(self.draw)
        for _ in range(3):
            typist.edit()
        whole = log(typist.events, sites=1)
        with room() as folder:
            for cut in range(12, len(whole) + 1):
                (folder / "j").write_bytes(whole[:cut])
                kept = 0
                with Node(1, free_addresses(1), folder / "j", "--resume") as node:
                    first = node.read_line()
                    if first == "ready 1 of 1":
                        kept = node.held()
                        front = log(typist.events[:kept], sites=1, closed=False)
                        self.assertEqual(whole[: min(cut, len(front))], front)
                    else:
                        self.assertEqual(first, f"bad log at {cut}: Short")

