"""What each fault of an append leaves of a journal, byte for byte; names of journals, addresses, and how often an input is read."""

import os
import subprocess

from tests.nodes import Node, free_addresses, node_words, room
from tests.program import DONE, JOURNAL_FAULT, LINK_FAULT, LONGEST, PROGRAM, USAGE, WRITE_FAULT, Case, at_a_time, run_program
from tests.spelled import CLOSED, OPEN, checked_records, log, square
from tests.test_calls import OTHERS, STRACE, Plan, may_trace, read_in_pieces, session
from tests.test_statuses import limited
from tests.worked import TIE

ONE, TWO = square((1, 1), 1), ((2, 1), 2, ("create", "rect", 5, 5, 10, 10, ""))
TYPED = b"create rect 0 0 10 10\ncreate rect 5 5 10 10\nquit\n"
LINES = [("ready 1 of 2", 0), ("ok 1.1", 1), ("ok 2.1", 2)]
APPENDED = Plan(None, TYPED, [OTHERS], [[ONE], [TWO]], LINES)
FIRST_RECORD, SECOND_RECORD = checked_records([ONE, TWO])
# A record stands behind the closed gate before that gate is opened.
HEADER, FIRST, BOTH = log([]), log([ONE]), log([ONE, TWO])
SECOND_WRITTEN = FIRST[:-1] + CLOSED + SECOND_RECORD + CLOSED
FIRST_WRITTEN = HEADER + FIRST_RECORD + CLOSED

# The call that fails and which of its name it is, how many lines are printed, and what the journal is then: none before the
# header was synced, and its name in the folder. Two syncs come behind the first write, and one behind each other. The last
# two calls aren't made.
FAULTS = [
    ("pwrite64", 1, 0, None), ("fsync", 1, 0, None), ("fsync", 2, 0, None),
    ("pwrite64", 2, 1, HEADER), ("fsync", 3, 1, FIRST_WRITTEN), ("pwrite64", 3, 1, FIRST_WRITTEN), ("fsync", 4, 1, FIRST),
    ("pwrite64", 4, 2, FIRST), ("fsync", 5, 2, SECOND_WRITTEN), ("pwrite64", 5, 2, SECOND_WRITTEN), ("fsync", 6, 2, BOTH),
    ("pwrite64", 6, 3, BOTH), ("fsync", 7, 3, BOTH),
]

# The same of a gesture: both stand behind the closed gate before that is opened.
TOGETHER = Plan(
    None,
    TYPED.replace(b"create", b"begin\ncreate", 1).replace(b"quit", b"end\nquit"),
    [OTHERS],
    [[ONE, TWO]],
    [("ready 1 of 2", 0), ("ok 1.1", 2), ("ok 2.1", 2), ("end 2", 2)],
)
BOTH_WRITTEN = HEADER + FIRST_RECORD + OPEN + SECOND_RECORD + CLOSED
GESTURE_FAULTS = [
    ("pwrite64", 2, 1, HEADER), ("fsync", 3, 1, BOTH_WRITTEN), ("pwrite64", 3, 1, BOTH_WRITTEN), ("fsync", 4, 1, BOTH),
    ("pwrite64", 4, 4, BOTH), ("fsync", 5, 4, BOTH),
]

# The name of a journal, and the folder in which it stands.
NAMES = [
    ("journal", "."), ("./journal", "."), ("../journal", ".."), ("folder/journal", "folder"),
    ("folder/inner//journal", "folder/inner"),
]

# An input, how often it is read, and how many lines it has that are answered. Behind `quit` it is never read.
INPUTS = [
    (b"", 1, 0), (b"\n\n", 2, 0), (b"at 1 status\nat 1 status", 2, 2), (b"quit\nat 1 status\nat 1 status\n", 1, 0),
    (b"at 1 status\nquit", 2, 1),
]


class Traced(Case):
    def setUp(self):
        if not may_trace():
            self.skipTest("strace isn't there, or may not trace")

    def test_what_a_fault_of_an_append_leaves(self):
        self.expect_left(APPENDED, FAULTS)
        self.expect_left(TOGETHER, GESTURE_FAULTS)

    def expect_left(self, plan, faults):
        rows = [(plan, "-e", f"inject={name}:error=EIO:when={number}") for name, number, _, _ in faults]
        for row, ended in zip(faults, at_a_time(session, rows)):
            _, _, lines, journal = row
            status = DONE if lines == len(plan.lines) else JOURNAL_FAULT
            self.assertEqual((ended.status, ended.lines, ended.journal), (status, plan.printed[:lines], journal), row)

    # The folder of the name is opened, and what is behind the last `/` is made in it.
    def test_a_name_stands_in_its_folder(self):
        for name, folder in [*NAMES, ("{}/journal", "{}")]:
            with room() as place:
                (place / "here/folder/inner").mkdir(parents=True)
                name, folder = name.format(place), folder.format(place)
                command = [STRACE, "-qq", "-o", place / "trace", "-e", "trace=openat,fsync", PROGRAM]
                command += node_words(1, free_addresses(1), name)
                ended = subprocess.run(command, cwd=place / "here", input=b"", capture_output=True, timeout=LONGEST)
                self.assertEqual(ended.returncode, DONE, name)
                self.assertEqual((place / "here" / name).read_bytes(), log([], sites=1), name)
                lines = (place / "trace").read_text().splitlines()
                opened = [line for line in lines if line.startswith(f'openat(AT_FDCWD, "{folder}", ')]
                self.assertEqual(len(opened), 1, (name, lines))
                self.assertIn(f"fsync({opened[0].rpartition('= ')[2]})", "\n".join(lines), name)

    def test_how_often_an_input_is_read(self):
        for given, count, answered in INPUTS:
            status, printed, reads = read_in_pieces(["rehearse", "--sites", "1"], given)
            self.assertEqual((status, printed), (DONE, b"held 0 kept 0 line 0 clock 0\n" * answered), given)
            self.assertEqual(len([file for file, _ in reads if file == 0]), count, given)

    # A write that takes nothing would be tried for ever.
    def test_a_write_that_takes_nothing_is_a_fault(self):
        with room() as place:
            injected = ["-e", "trace=write", "-e", "inject=write:retval=0:when=1"]
            command = [STRACE, "-qq", "-o", place / "trace", *injected, PROGRAM, "replay"]
            ended = subprocess.run(command, input=TIE, capture_output=True, timeout=LONGEST)
            self.assertEqual((ended.returncode, ended.stdout), (WRITE_FAULT, b""))


class Names(Case):
    def test_a_fault_before_the_first_sync_leaves_no_file(self):
        for size in (0, 5):
            with room() as folder:
                ended = run_program(node_words(1, free_addresses(1), folder / "j"), **limited(size))
                self.assertEqual((ended.text, ended.status, os.listdir(folder)), ("", JOURNAL_FAULT, []), size)

    def test_no_journal_has_the_name_of_a_folder(self):
        with room() as folder:
            for name in (".", "/", "no folder/journal"):
                for flags in ([], ["--resume"]):
                    ended = run_program(node_words(1, free_addresses(1), name, *flags), cwd=folder)
                    self.assertEqual((ended.text, ended.status, os.listdir(folder)), ("", JOURNAL_FAULT, []), name)


class Addresses(Case):
    def test_what_is_no_session_is_refused(self):
        here, = free_addresses(1)
        rows = [(1, addresses, LINK_FAULT) for addresses in ([here, "[::1]:4101"], ["[::1]:4101", here])]
        rows += [(1, addresses, LINK_FAULT) for addresses in (["localhost:0"], [here, "256.0.0.1:0"])]
        rows += [(1, [here] * 17, USAGE), (0, [here], USAGE), (2, [here], USAGE)]
        for site, addresses, status in rows:
            with room() as folder:
                ended = run_program(node_words(site, addresses, folder / "j"))
                self.assertEqual((ended.status, os.listdir(folder)), (status, []), addresses)

    # That of a link is read with its number, and nothing is sent there before there is something to say.
    def test_an_address_of_a_link_is_read(self):
        try:
            here, = free_addresses(1, "::1")
        except OSError as error:
            self.skipTest(f"no IPv6 on loopback: {error}")
        with room() as folder, Node(1, [here, "[fe80::2%3]:65535"], folder / "j") as node:
            self.assertTrue(node.is_ready())
