"""The journal of a node as a file: who may read it, who has it, whose it is, and what stands behind its log."""

import os
import resource
import stat

from tests.nodes import Node, answered, free_addresses, node_words, replayed, room
from tests.program import DONE, JOURNAL_FAULT, Case, run_program
from tests.spelled import log, square

RECT = "create rect 0 0 10 10"


class Devices(Case):
    def test_a_journal_is_its_owners_alone(self):
        with room() as folder:
            run_program(node_words(1, free_addresses(1), folder / "j"), preexec_fn=lambda: os.umask(0))
            self.assertEqual(stat.S_IMODE((folder / "j").stat().st_mode), 0o600)

    # The first one goes on, and so does a later one once it has ended.
    def test_a_second_node_on_a_journal_is_refused(self):
        with room() as folder:
            with Node(1, free_addresses(1), folder / "j") as node:
                self.assertTrue(node.is_ready())
                self.assertEqual(node.ask(RECT), ["ok 1.1"])
                again = run_program(node_words(1, free_addresses(1), folder / "j", "--resume"), b"status\n")
                self.assertEqual((again.text, again.status), ("", JOURNAL_FAULT))
                self.assertEqual(node.ask(RECT), ["ok 2.1"])
                node.end()
            later = run_program(node_words(1, free_addresses(1), folder / "j", "--resume"), b"status\n")
            self.assertEqual((later.text, later.status), ("ready 1 of 1\nheld 2 kept 0 line 2 clock 2\n", DONE))

    # One that was killed has it no longer.
    def test_a_node_that_was_killed_leaves_its_journal(self):
        with room() as folder:
            for flags in ([], ["--resume"], ["--resume"]):
                with Node(1, free_addresses(1), folder / "j", *flags) as node:
                    self.assertTrue(node.is_ready())
                    node.kill()

    def test_a_journal_of_another_user_isn_t_taken(self):
        if os.geteuid():
            self.skipTest("only root can give a file away")
        with room() as folder:
            (folder / "j").write_bytes(log([], sites=1))
            os.chown(folder / "j", 12345, 12345)
            ended = run_program(node_words(1, free_addresses(1), folder / "j", "--resume"), b"status\n")
            self.assertEqual((ended.text, ended.status), ("", JOURNAL_FAULT))

    # A journal that can't take its header is no journal, and stands in nobody's way.
    def test_a_start_that_failed_leaves_nothing_or_is_told(self):
        def limit():
            resource.setrlimit(resource.RLIMIT_FSIZE, (0, 0))

        with room() as folder:
            words = node_words(1, free_addresses(1), folder / "j")
            ended = run_program(words, preexec_fn=limit, restore_signals=False)
            self.assertEqual((ended.text, ended.status), ("", JOURNAL_FAULT))
            if (folder / "j").exists():
                again = run_program(node_words(1, free_addresses(1), folder / "j", "--resume"))
                self.assertEqual((again.text, again.status), ("bad log at 0: Short\n", 3))

    def test_a_journal_that_is_gone_or_another_is_noticed_at_the_next_edit(self):
        for is_replaced in (False, True):
            with room() as folder, Node(1, free_addresses(1), folder / "j") as node:
                self.assertTrue(node.is_ready())
                self.assertEqual(node.ask(RECT), ["ok 1.1"])
                (folder / "j").rename(folder / "old")
                if is_replaced:
                    (folder / "j").write_bytes((folder / "old").read_bytes())
                node.type(RECT)
                printed, status, _ = node.end()
                self.assertEqual((printed, status), ("", JOURNAL_FAULT), is_replaced)
                self.assertIn(replayed((folder / "old").read_bytes())[-6:], ("end 1\n", "end 2\n"))

    # Places behind a MiB, and behind 4 GiB, are those of the file.
    def test_a_journal_goes_on_far_behind_its_front(self):
        events = [square((clock, 1), clock) for clock in range(1, 40_001)]
        journal = log(events, sites=1)
        self.assertGreater(len(journal), 1 << 20)
        node = answered((1, 1), f"{RECT}\n{RECT}\n", contents=journal)
        self.assertEqual((node.text, node.status), ("ready 1 of 1\nok 40001.1\nok 40002.1\n", DONE))
        self.assertTrue(node.journal == log(events + [square((clock, 1), clock) for clock in (40_001, 40_002)], sites=1))

    # What stands behind the closing gate isn't read to its end, however far that is.
    def test_what_stands_behind_the_gate_takes_no_time(self):
        def limit():
            resource.setrlimit(resource.RLIMIT_CPU, (5, 5))

        with room() as folder:
            (folder / "j").write_bytes(log([square((1, 1), 1)], sites=1))
            os.truncate(folder / "j", 1 << 40)
            words = node_words(1, free_addresses(1), folder / "j", "--resume")
            ended = run_program(words, b"status\n", preexec_fn=limit)
            self.assertEqual((ended.text, ended.status), ("ready 1 of 1\nheld 1 kept 0 line 1 clock 1\n", DONE))
