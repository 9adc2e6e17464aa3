"""What the launcher tells a person: one line where a run ended with a fault, help and a version, and nothing else."""

import os
import resource

from tests.launcher import checkout, launch
from tests.nodes import Node, Peer, free_addresses, node_words
from tests.program import (
    BAD_LOG, BAD_VIEW, DONE, JOURNAL_FAULT, LINE_LIMIT, LINK_FAULT, OTHER_JOURNAL, READ_FAULT, ROOT, USAGE,
    WRITE_FAULT, Case, run_program,
)
from tests.spelled import header, log
from tests.test_limits import nested, nested_text
from tests.test_statuses import COMMANDS as RUNS
from tests.worked import TIE, TIE_SNAPSHOT, TIE_TEXT

SMALL_STACK = 512 << 10
COMMANDS = ["node", "rehearse", "churn", "replay", "upgrade", "snapshot", "view", "board"]


class Told(Case):
    def run(self, result=None):
        with checkout() as self.folder:
            return super().run(result)

    def expect_told(self, words, given, status, printed, *said, **options):
        """Besides how it ended and what it printed, one line on standard error, with these words in it."""
        ended = launch(self.folder, words, given, **options) if given is not None else launch(self.folder, words, **options)
        self.assertEqual((ended.text, ended.status), (printed, status), words)
        line = ended.said.decode()
        self.assertEqual((line.count("\n"), line[-1:]), (1, "\n"), (words, line))
        for word in said:
            self.assertIn(word, line)

    def test_where_a_run_was_carried_out_nothing_is_said(self):
        ended = launch(self.folder, ["replay"], TIE)
        self.assertEqual((ended.text, ended.status, ended.said), (TIE_TEXT, DONE, b""))

    def test_other_words_are_told(self):
        printed = "usage: groupdesign COMMAND OPTIONS\n"
        for words, said in [
            (["paint"], "no command paint: groupdesign --help"), (["reply"], "is replay meant"), (["vew"], "is view meant"),
            (["darw"], "is draw meant"), ([""], "--help"), (["replay", "--counts=yes"], "groupdesign replay --help"),
            (["view", "x"], "groupdesign view --help"), (["help", "veiw"], "is view meant"),
            (["help", "view", "x"], "groupdesign view --help"), (["snapshots", "--help"], "is snapshot meant"),
        ]:
            self.expect_told(words, b"", USAGE, printed, said)

    # The program alone has no page, and says who has.
    def test_a_page_is_not_the_program_s(self):
        for words in (["draw"], ["draw", "--demo", "2"], ["draw", "--help"], ["help", "draw"]):
            ended = run_program(words)
            self.assertEqual((ended.text, ended.status), ("usage: groupdesign COMMAND OPTIONS\n", USAGE))
            self.assertIn("./draw", ended.said.decode())

    # The launcher's is ./draw, whose words and status it has.
    def test_the_launcher_draws(self):
        for words in (["draw", "--help"], ["help", "draw"]):
            ended = launch(self.folder, words)
            if b"aiohttp isn't there" in ended.said:
                self.skipTest("there is no aiohttp")
            self.assertEqual((ended.status, ended.said), (DONE, b""))
            self.assertIn("--demo N", ended.text)
        ended = launch(self.folder, ["draw", "--site", "1"])
        self.assertEqual((ended.text, ended.status), ("", USAGE))
        self.assertIn("./draw: error: ", ended.said.decode())

    def test_a_failed_read_or_write_is_told(self):
        folder, full = os.open(self.folder, os.O_RDONLY), os.open("/dev/full", os.O_WRONLY)
        self.expect_told(["replay"], None, READ_FAULT, "", stdin=folder)
        self.expect_told(["replay"], TIE, WRITE_FAULT, "", stdout=full)
        os.close(folder), os.close(full)

    def test_a_journal_that_is_there_or_isn_t_is_told(self):
        words = node_words(1, free_addresses(2), "one.log")
        (self.folder / "one.log").write_bytes(log([]))
        self.expect_told(words, b"", JOURNAL_FAULT, "", "one.log", "--resume")
        self.expect_told(node_words(1, free_addresses(2), "two.log", "--resume"), b"", JOURNAL_FAULT, "", "two.log")
        (self.folder / "three.log").write_bytes(log([], session=8))
        words = node_words(1, free_addresses(2), "three.log", "--resume")
        self.expect_told(words, b"", OTHER_JOURNAL, "other journal\n", "three.log")

    # What is left of a start that failed, and a log that is cut.
    def test_a_journal_that_is_no_log_is_told(self):
        for contents, place, said in [(b"", 0, "empty"), (header(), 11, "no whole log")]:
            (self.folder / "one.log").write_bytes(contents)
            words = node_words(1, free_addresses(2), "one.log", "--resume")
            self.expect_told(words, b"", BAD_LOG, f"bad log at {place}: Short\n", "one.log", said)

    def test_what_is_no_journal_of_one_s_own_is_told(self):
        (self.folder / "folder").mkdir()
        self.expect_told(node_words(1, free_addresses(2), "folder", "--resume"), b"", JOURNAL_FAULT, "", "folder")
        self.expect_told(node_words(1, free_addresses(2), "none/one.log"), b"", JOURNAL_FAULT, "", "none/one.log")
        with Node(1, free_addresses(1), self.folder / "one.log") as node:
            self.assertTrue(node.is_ready())
            self.expect_told(node_words(1, free_addresses(2), "one.log", "--resume"), b"", JOURNAL_FAULT, "", "one.log", "held")
            node.journal.unlink()
            printed, status, said = node.end(b"create rect 0 0 1 1\n")
            self.assertEqual((printed, status), ("", JOURNAL_FAULT))
            self.assertRegex(said, r"^groupdesign: .*one\.log .*was taken away.*\n$")
        if not os.geteuid():
            (self.folder / "two.log").write_bytes(log([]))
            os.chown(self.folder / "two.log", 12345, 12345)
            words = node_words(1, free_addresses(2), "two.log", "--resume")
            self.expect_told(words, b"", JOURNAL_FAULT, "", "two.log", "another user")

    def test_an_address_that_can_t_be_had_is_told(self):
        taken = Peer()
        self.expect_told(node_words(1, [taken.address], "j"), b"", LINK_FAULT, "", taken.address)
        taken.close()
        self.expect_told(node_words(1, ["nowhere.invalid:4101"], "j"), b"", LINK_FAULT, "", "nowhere.invalid")
        self.expect_told(node_words(1, ["127.0.0.1:4101", "[::1]:4101"], "j"), b"", LINK_FAULT, "", "both kinds")

    def test_too_long_an_input_and_no_snapshot_are_told(self):
        self.expect_told(["rehearse", "--sites", "1"], b"a" * 65_537, LINE_LIMIT, "line limit\n")
        self.expect_told(["view"], TIE_SNAPSHOT[:122], BAD_VIEW, "bad view at 122: Short\n")

    # On standard output, with status 0; and no build is begun where there is none.
    def test_help_and_a_version_are_printed(self):
        self.expect_help()
        (self.folder / "crates/groupdesign/out/built").unlink()
        self.expect_help()

    def expect_help(self):
        for words in (["--help"], ["-h"], ["help"]):
            text = self.answer(words)
            self.assertTrue(all(command in text for command in COMMANDS), text)
        for command in COMMANDS:
            behind = ([command, "--paint", "--help"], [command, "-h", "--"], [command, "x", "y", "-h", "z"])
            for words in ([command, "--help"], [command, "-h"], ["help", command], ["--help", command], *behind):
                self.assertIn(command, self.answer(words))
        self.assertIn("--counts", self.answer(["replay", "--counts", "--help"]))
        for words in (["--version"], ["-V"]):
            self.assertEqual(self.answer(words), f"groupdesign {(ROOT / 'VERSION').read_text()}")

    def answer(self, words):
        """What is printed of words that ask for no run, of which nothing is said."""
        ended = launch(self.folder, words)
        self.assertEqual((ended.status, ended.said), (DONE, b""), words)
        return ended.text

    # The signal that a file has reached its limit would end the program before it could say so.
    def test_a_limit_on_files_is_a_failed_journal(self):
        def limit():
            resource.setrlimit(resource.RLIMIT_FSIZE, (22, 22))

        words = node_words(1, free_addresses(1), "j")
        self.expect_told(words, b"create rect 0 0 10 10\n", JOURNAL_FAULT, "ready 1 of 1\n", "j", preexec_fn=limit)

    # Deeply nested groups take no more of the stack than others. Nobody can raise the limit.
    def test_a_stack_of_512_kib_is_enough(self):
        runs = [(words, given, printed) for words, given, printed in RUNS if words[0] in COMMANDS]
        for words, given, printed in [*runs, (["replay"], nested(), nested_text().encode())]:
            self.expect_in_a_small_stack(words, given, printed)
        typed = b"create rect 0 0 10 10\nundo\nredo\npoll\nstatus\n"
        words = node_words(1, free_addresses(1), "small")
        self.expect_in_a_small_stack(
            words, typed, b"ready 1 of 1\nok 1.1\nok 2.1\nend 1\nok 3.1\nend 1\npolled 0\nheld 3 kept 0 line 3 clock 3\n")
        words = node_words(1, free_addresses(1), "small", "--resume")
        self.expect_in_a_small_stack(words, b"status\n", b"ready 1 of 1\nheld 3 kept 0 line 3 clock 3\n")
        churned = self.launch_in_a_small_stack(["churn", "--seed", "1", "--steps", "2000"], b"")
        self.assertEqual((churned.status, churned.text.count("same yes")), (DONE, 1))

    def expect_in_a_small_stack(self, words, given, printed):
        ended = self.launch_in_a_small_stack(words, given)
        self.assertEqual((ended.status, ended.said), (DONE, b""), words)
        self.assertTrue(ended.printed == printed, (words, ended.printed[:200]))

    def launch_in_a_small_stack(self, words, given):
        limit = (resource.RLIMIT_STACK, (SMALL_STACK, SMALL_STACK))
        return launch(self.folder, words, given, preexec_fn=lambda: resource.setrlimit(*limit))
