"""Checks behind events: journals with each bit flipped, and what is replayed of them; and sites that part, since a journal was put
back from an older copy, or was used twice."""

import random
import re
from contextlib import ExitStack

from tests.nodes import answered, replayed, room, started
from tests.program import BAD_LOG, DONE, OTHER_JOURNAL, Case, at_a_time, run_program
from tests.read import places_of
from tests.spelled import CHECKSUM, chain, changed, checked_records, checks, crc32c, frame, little, log, record, square
from tests.test_frames import SESSIONS
from tests.worked import CHECKED_TIE, RECT, TIE_TEXT

# A rect of site 1, its move, and an ellipse of site 2 between them.
EVENTS = [
    ((1, 1), 1, ("create", "rect", 5, 5, 10, 10, "a")),
    ((2, 2), 1, ("create", "ellipse", 0, 0, 20, 20, "")),
    ((3, 1), 2, ("move", (1, 1), 50, 60)),
]
JOURNAL = log(EVENTS)
HEADER = 11
# The places of the gates in front of the events, and of the closing one; and of the checks.
GATES = [len(log(EVENTS[:count])) - 1 for count in range(len(EVENTS) + 1)]
CHECKS = [gate - CHECKSUM for gate in GATES[1:]]
# In the header: the magic ends there, and there are the version, the session's number, the site and the number of sites.
MAGIC, VERSION, SESSION, SITE, SITES = 4, 4, range(5, 9), 9, 10
# So many bits are flipped of the journals of some sessions, each by itself.
FLIPS = 2_000


def flip(journal, at, bit):
    return changed(journal, [(at, journal[at] ^ 1 << bit)])


def flipped():
    """Each place of a byte behind the header, each bit of it, and the journal where that is flipped."""
    for at in range(HEADER, len(JOURNAL)):
        for bit in range(8):
            yield at, bit, flip(JOURNAL, at, bit)


def before(at, gates=GATES):
    """How many events stand before that place as they were."""
    return max(count for count, gate in enumerate(gates) if gate <= at)


def usual_journal(typed):
    """The journal of site 1, which takes what was typed at site 2, and then is typed the same."""
    told = answered((2, 2), typed).frames[1]
    return answered((1, 2), f"poll\n{typed}poll\n", told).journal


class Chains(Case):
    # Each check goes over the bytes of all events of its site, and so do those of a log that mixes sites.
    def test_the_check_of_events_is_that_of_their_bytes(self):
        one, other, moved = EVENTS
        self.assertEqual(checks(EVENTS), [chain([one]), chain([other]), chain([one, moved])])
        self.assertEqual(chain([one, moved]), crc32c(record(*one) + record(*moved)))
        self.assertEqual(JOURNAL[CHECKS[2] : GATES[3]], little(chain([one, moved])))
        self.assertEqual(checked_records([moved], [one, other]), checked_records(EVENTS)[2:])

    def test_a_node_writes_the_check_behind_each_event(self):
        typed = "create rect 5 5 10 10 a\npoll\nmove 1.1 50 60\n"
        node = answered((1, 2), typed, [frame([EVENTS[1]])])
        self.assertEqual((node.journal, node.status), (JOURNAL, DONE))

    def test_a_journal_is_replayed_and_upgraded_as_it_is(self):
        self.expect(["replay"], CHECKED_TIE, DONE, TIE_TEXT)
        self.expect(["upgrade"], JOURNAL, DONE, JOURNAL)
        self.expect(["upgrade"], log(EVENTS, version=2), DONE, JOURNAL)


class Flips(Case):
    def expect_place(self, at, text, gates=GATES, checks=CHECKS):
        """A flipped gate is found there, a check there, and a byte of an event in that event, or behind it where the event has another
        length then."""
        held = before(at, gates)
        place, why = re.fullmatch(r"bad log at (\d+): (\w+)\n", text).groups()
        if at in gates:
            self.assertEqual((int(place), why), (at, "Behind"))
        elif at >= checks[held]:
            self.assertEqual((int(place), why), (checks[held], "Check"))
        else:
            self.assertGreater(int(place), gates[held], at)

    def test_each_flipped_bit_of_a_journal_is_found(self):
        rows = list(flipped())
        ends = at_a_time(run_program, [(["replay"], given) for _, _, given in rows])
        for (at, bit, _), ended in zip(rows, ends):
            self.assertEqual(ended.status, BAD_LOG, (at, bit))
            self.expect_place(at, ended.text)

    def test_a_node_doesnt_go_on_from_one(self):
        rows = [row for row in flipped() if row[1] in (0, 6)]
        nodes = at_a_time(answered, [((1, 2), "status\n", (), 2, given) for _, _, given in rows])
        for (at, _, given), node in zip(rows, nodes):
            self.assertEqual((node.status, node.journal, node.sent), (BAD_LOG, given, 0), at)
            self.expect_place(at, node.text)

    def expect_header(self, at, ended, drawn):
        """What is replayed where a byte of the header is another: a fault of it, or of an event from a site that isn't there then,
        or nothing else, where only a node that goes on knows better."""
        if at < MAGIC or at == VERSION:
            wanted = "bad log at 0: Magic\n" if at < MAGIC else "bad log at 4: Version\n"
            self.assertEqual((ended.text, ended.status), (wanted, BAD_LOG))
        elif at in SESSION or ended.status == DONE:
            self.assertEqual((ended.text, ended.status), (drawn, DONE))
        else:
            self.assertEqual(ended.status, BAD_LOG)
            self.assertRegex(ended.text, r"bad log at (9|10): Field\n" if at == SITE else r"bad log at (10: Field|\d+: NoSite)\n")

    # A flipped bit of the magic, the version or the numbers of the header is a fault there, or makes the journal another one.
    def test_a_node_doesnt_go_on_from_another_header(self):
        rows = [(at, flip(JOURNAL, at, bit)) for at in range(HEADER) for bit in range(8)]
        nodes = at_a_time(answered, [((1, 2), "status\n", (), 2, given) for _, given in rows])
        drawn = replayed(JOURNAL)
        for (at, given), node in zip(rows, nodes):
            ended = run_program(["replay"], given)
            self.expect_header(at, ended, drawn)
            wanted = (ended.text, BAD_LOG) if ended.status else ("other journal\n", OTHER_JOURNAL)
            self.assertEqual((node.text, node.status, node.journal), (*wanted, given), at)

    # None goes unnoticed at a node, and a replay says the place of each, but of those of the session, the site and the number of sites.
    def test_flipped_bits_of_usual_journals_are_noticed(self):
        draw, journals = random.Random(7), [usual_journal(typed) for typed in SESSIONS]
        for journal in journals:
            places, drawn = places_of(journal), replayed(journal)
            self.assertGreater(len(places[0]), 12)
            bits = draw.sample(range(8 * len(journal)), FLIPS // len(journals))
            rows = [(bit // 8, flip(journal, bit // 8, bit % 8)) for bit in bits]
            ends = at_a_time(run_program, [(["replay"], given) for _, given in rows])
            nodes = at_a_time(answered, [((1, 2), "status\n", (), 2, given) for _, given in rows])
            for (at, given), ended, node in zip(rows, ends, nodes):
                if at < HEADER:
                    self.expect_header(at, ended, drawn)
                else:
                    self.assertEqual(ended.status, BAD_LOG, at)
                    self.expect_place(at, ended.text, *places)
                wanted = (ended.text, BAD_LOG) if ended.status else ("other journal\n", OTHER_JOURNAL)
                self.assertEqual((node.text, node.status, node.journal, node.sent), (*wanted, given, 0), at)

    # What stands before the fault is shown, and then the fault is said; without a fault the words change nothing.
    def test_what_stands_before_a_fault_is_replayed(self):
        rows = [row for row in flipped() if row[1] in (1, 7)]
        fronts = [replayed(log(EVENTS[:count])) for count in range(len(EVENTS) + 1)]
        ends = at_a_time(run_program, [(["replay", "--upto-fault"], given) for _, _, given in rows])
        for (at, _, _), ended in zip(rows, ends):
            front = fronts[before(at)]
            self.assertEqual((ended.text[: len(front)], ended.status), (front, BAD_LOG), at)
            self.expect_place(at, ended.text[len(front) :])
        self.expect_all([
            (["replay", "--upto-fault"], JOURNAL, DONE, fronts[-1]),
            (["replay", "--upto-fault"], JOURNAL[:50], BAD_LOG, fronts[1] + "bad log at 50: Short\n"),
            (["replay", "--upto-fault"], b"", BAD_LOG, "end 0\nbad log at 0: Short\n"),
            (["replay", "--upto-fault", "--counts"], JOURNAL[:50], BAD_LOG,
             fronts[1] + "arrivals applied 1 dropped 0 reworked 0 undone 0\nbad log at 50: Short\n"),
        ])

    # So it is in each format, of logs of each version, and where the header itself has the fault.
    def test_what_stands_before_a_fault_is_replayed_in_each_format(self):
        for version in (1, 2, 3):
            whole, front = (log(EVENTS[:count], version=version) for count in (3, 2))
            cut = whole[: len(front) + 8]
            for words in (["--format", "text"], ["--format", "json"], ["--format", "events", "--counts"]):
                for given, told, fault in ((cut, front, f"{len(cut)}: Short"), (flip(whole, 0, 1), log([]), "0: Magic"), (whole[:7], log([]), "7: Short")):
                    self.expect(["replay", "--upto-fault", *words], given, BAD_LOG, f"{replayed(told, *words)}bad log at {fault}\n")
                self.expect(["replay", *words, "--upto-fault"], whole, DONE, replayed(whole, *words))

    # The check of another site's events, of fewer, and of the last event alone.
    def test_a_check_of_other_events_is_found(self):
        for check in (chain(EVENTS[1:2]), chain(EVENTS[:1]), chain(EVENTS[2:]), 0):
            given = JOURNAL[: CHECKS[2]] + little(check) + b"\0"
            self.expect(["replay"], given, BAD_LOG, f"bad log at {CHECKS[2]}: Check\n")


# What site 2 typed before it was copied, and behind that at either place.
COPIED = ["create rect 0 0 10 10", "move 1.2 10 10"]
ONE_WAY, OTHER_WAY = "move 1.2 20 20", "move 1.2 70 70"
HELD = [square((1, 2), 1)] + [((clock, 2), clock, ("move", (1, 2), place, place)) for clock, place in ((2, 10), (3, 20))]
DRAWN = [RECT.format("1.2", "20 20").rstrip("\n"), "end 1"]


class Older(Case):
    # A log of version one or two has no checks, and each byte but C3 ends it.
    def test_a_log_without_checks_is_read_as_before(self):
        drawn = [replayed(log(EVENTS[:count])) for count in range(4)]
        for version in (1, 2):
            given = log(EVENTS, version=version)
            gates = [len(log(EVENTS[:count], version=version)) - 1 for count in range(4)]
            self.expect_all([
                (["replay"], given, DONE, drawn[3]),
                (["upgrade"], given, DONE, JOURNAL),
                *((["replay"], changed(given, [(gate, byte)]), DONE, drawn[count]) for count, gate in enumerate(gates) for byte in (0, 1, 0xC2, 0x43)),
                # A moved shape: nothing tells that this isn't what was written.
                (["replay"], flip(given, gates[3] - 1, 0), DONE, drawn[3].replace("at 50 60", "at 50 61")),
            ])

    def test_a_node_goes_on_from_an_older_journal_once_that_is_upgraded(self):
        for version in (1, 2):
            old = log(EVENTS, version=version)
            node = answered((1, 2), "status\n", contents=old)
            self.assertEqual((node.text, node.status, node.journal), ("other journal\n", OTHER_JOURNAL, old))
            node = answered((1, 2), "move 1.1 7 8\n", contents=run_program(["upgrade"], old).printed)
            self.assertEqual((node.text, node.status), ("ready 1 of 2\nok 4.1\n", DONE))
            self.assertEqual(node.journal, log([*EVENTS, ((4, 1), 3, ("move", (1, 1), 7, 8))]))


class Parted(Case):
    def setUp(self):
        self.stack = ExitStack()
        self.addCleanup(self.stack.close)
        self.folder = self.stack.enter_context(room())
        self.others = {site: self.stack.enter_context(started((site, 3))) for site in (1, 3)}
        for node, _ in self.others.values():
            self.assertTrue(node.is_ready())

    def begun(self, site, name, contents=None):
        """A site that is begun, or goes on from these contents of a journal."""
        path = self.folder / name
        if contents is not None:
            path.write_bytes(contents)
        node, peers = self.stack.enter_context(started((site, 3), *["--resume"] * (contents is not None), journal=path))
        self.assertTrue(node.is_ready())
        return node, peers

    def second(self, name, contents=None):
        return self.begun(2, name, contents)

    def type(self, second, *lines):
        """What it answers, once it has sent its frames."""
        node, _ = second
        answers = [answer for line in lines for answer in node.ask(line)]
        node.ask("status")
        return answers

    def carry(self, second):
        """Its newest frame for each other site comes there. What each prints of it."""
        printed = {}
        for site, (node, peers) in self.others.items():
            peers[2].send(node, second[1][site].received()[-1])
            *printed[site], polled = node.ask("poll")
            self.assertEqual(polled, "polled 1")
        return printed

    def expect_parted(self, count, drawn=DRAWN):
        for site, (node, _) in self.others.items():
            self.assertEqual(node.ask("show"), drawn, site)
            self.assertEqual(node.ask("status"), ["held 3 kept 3 line 0 clock 3 parted 1"], site)
            self.assertEqual(node.ask("who"), [f"parted from 2 at {count}", "end 1"], site)
            self.assertEqual(node.journal.read_bytes(), log(HELD, site=site, sites=3), site)

    def expect_two_ways(self, first, second):
        """Site 2 was told one way by the first, and is told the other by the second."""
        self.assertEqual(self.type(first, ONE_WAY), ["ok 3.2"])
        self.assertEqual(len(self.carry(first)[1]), 3)
        self.assertEqual(self.type(second, OTHER_WAY), ["ok 3.2"])
        parted = {site: ["parted from 2 at 3"] for site in self.others}
        self.assertEqual(self.carry(second), parted)
        # Once, however often that comes.
        self.type(second, "name Ada")
        second[0].ask("poll")
        self.assertEqual(self.carry(second), {1: [], 3: []})
        self.expect_parted(3)
        self.assertEqual(self.type(second, "show")[0], RECT.format("1.2", "70 70").rstrip("\n"))

    def test_a_journal_that_was_put_back_from_a_copy_one_event_old(self):
        first = self.second("first")
        self.type(first, *COPIED)
        copy = first[0].journal.read_bytes()
        self.expect_two_ways(first, self.second("copy", copy))

    # Both go on, each with its own events. What the first makes then isn't taken either.
    def test_a_journal_that_was_used_twice(self):
        first = self.second("first")
        self.type(first, *COPIED)
        copy = first[0].journal.read_bytes()
        again = self.second("again", copy)
        self.expect_two_ways(first, again)
        self.type(first, "move 1.2 30 30")
        self.assertEqual(self.carry(first), {1: [], 3: []})
        self.expect_parted(3)

    # The others acknowledge more than it has made, which it says until it has made as many; then they have parted from it.
    def test_a_copy_is_told_that_the_others_have_more(self):
        first = self.second("first")
        self.type(first, *COPIED)
        copy = first[0].journal.read_bytes()
        self.type(first, ONE_WAY)
        self.carry(first)
        again = self.second("again", copy)
        for turn, wanted in enumerate((["frame refused: OverAck 3 2"], [])):
            for site, (node, peers) in self.others.items():
                node.ask("poll")
                again[1][site].send(again[0], peers[2].received()[-1])
                self.assertEqual(again[0].ask("poll"), [*wanted, "polled 1"], (site, turn))
            self.type(again, OTHER_WAY)
        self.assertEqual(again[0].ask("who"), ["end 0"])
        self.assertEqual(again[0].ask("status"), ["held 4 kept 1 line 3 clock 4"])

    # The newest journal is found again. A node takes from it once it has begun anew itself.
    def test_the_newest_journal_is_gone_on_with_behind_a_parting(self):
        first = self.second("first")
        self.type(first, *COPIED)
        copy = first[0].journal.read_bytes()
        self.expect_two_ways(first, self.second("copy", copy))
        newest, one = (node.journal.read_bytes() for node in (first[0], self.others[1][0]))
        self.others[1] = self.begun(1, "one", one)
        self.assertEqual(self.others[1][0].ask("status"), ["held 3 kept 3 line 0 clock 3"])
        self.assertEqual(self.others[1][0].ask("who"), ["end 0"])
        again = self.second("newest", newest)
        self.type(again, "move 1.2 5 5")
        self.assertEqual(self.carry(again), {1: ["echo 4.2 applied move 1.2 5 5"], 3: []})

    # A copy that has all that was told goes on as if nothing had been.
    def test_a_copy_that_has_all_that_was_told_parts_from_none(self):
        first = self.second("first")
        self.type(first, *COPIED, ONE_WAY)
        self.carry(first)
        again = self.second("again", first[0].journal.read_bytes())
        self.type(again, "move 1.2 5 5")
        told = {site: ["echo 4.2 applied move 1.2 5 5"] for site in self.others}
        self.assertEqual(self.carry(again), told)
