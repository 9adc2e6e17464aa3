"""The words of ./draw over a broker."""

import contextlib
import io
import unittest
from pathlib import Path

from carrier.words import asked, is_carried, without_link

PROGRAM = Path("groupdesign")
LINK = "groupdesign:#abc"


class Words(unittest.TestCase):
    def refused(self, *words):
        with self.assertRaises(SystemExit) as found, contextlib.redirect_stderr(io.StringIO()):
            asked(list(words), PROGRAM)
        self.assertEqual(found.exception.code, 2)

    def test_which_words_are_over_a_broker(self):
        carried = [["--found", "Oak"], ["--invite"], ["--join", LINK], ["--join=" + LINK], ["--keep", LINK], ["--retire=2"], ["--watch", LINK]]
        for words in [*carried, ["--journal", "a"], ["--journal=a", "--open"]]:
            self.assertTrue(is_carried(words), words)
        node = ["--session", "7", "--site", "1", "--journal", "a", "A", "B"]
        for words in ([], ["--demo", "2"], node, ["--site=1", "--journal", "a"], ["--help"], ["--journal", "a", "--help"]):
            self.assertFalse(is_carried(words), words)

    def test_what_is_asked_for(self):
        given = asked(["--found", "Oak", "--listen", "h:1", "--journal", "a", "--port", "5", "--open"], PROGRAM)
        self.assertEqual((given.found, given.listen, given.broker, given.port, given.open), ("Oak", "h:1", None, 5, True))
        self.assertEqual((given.journal, given.program, given.demo), (Path("a"), PROGRAM, None))
        given = asked(["--found", "Oak", "--broker", "[::1]:8883", "--ca", "ca.pem", "--journal", "a"], PROGRAM)
        self.assertEqual((given.broker, given.ca, given.account), ("[::1]:8883", Path("ca.pem"), None))
        self.assertEqual(asked(["--found", "Oak", "--broker", "h:1", "--account", "-", "--journal", "a"], PROGRAM).account, Path("-"))
        self.assertIsNone(asked(["--invite"], PROGRAM).journal)
        self.assertEqual(asked(["--watch", LINK], PROGRAM).watch, LINK)
        self.assertEqual([asked(words, PROGRAM).watch for words in (["--invite", "--watch"], ["--invite"])], ["", None])
        self.assertEqual(asked(["--retire", "16"], PROGRAM).retire, 16)
        self.assertEqual(asked(["--keep", LINK, "--journal", "a"], PROGRAM).keep, LINK)
        self.assertEqual(asked(["--join", LINK, "--journal", "a"], PROGRAM).join, LINK)
        self.assertEqual(asked(["--journal", "a", "--program", "p"], PROGRAM).program, Path("p"))

    def test_words_that_don_t_go_together(self):
        place, journal = ["--listen", "h:1"], ["--journal", "a"]
        for words in (
            ["--found", "Oak", *place],
            ["--found", "Oak", *journal],
            ["--found", "Oak", *place, "--broker", "h:1", *journal],
            ["--found", "Oak", *place, "--ca", "ca.pem", *journal],
            ["--found", "Oak", *place, *journal, "--join", LINK],
            ["--found", "Oak", *place, *journal, "--account", "file"],
            [*journal, "--account", "file"],
            ["--found", "Oak", "--listen", "nowhere", *journal],
            ["--found", "Oak", "--broker", "h:70000", *journal],
            ["--join", LINK],
            ["--join", LINK, *journal, "--invite"],
            [*journal, *place],
            [*journal, "--port", "65536"],
            [*journal, "A"],
            ["--retire", "0"],
            ["--retire", "17"],
            ["--retire", "2", "--invite"],
            ["--watch"],
            ["--watch", LINK, "--invite"],
            ["--watch", LINK, *journal],
            ["--watch", LINK, "--join", LINK, *journal],
            ["--keep", LINK],
            ["--keep", LINK, "--join", LINK, *journal],
        ):
            self.refused(*words)

    def test_a_run_goes_on_without_its_link(self):
        journal = ["--journal", "a"]
        for words in (["--join", LINK, *journal], [*journal, "--keep", LINK], ["--join=" + LINK, *journal], ["--keep=-", *journal]):
            self.assertEqual(without_link(words), ["--journal", "a"])
        self.assertEqual(without_link(["--join", "-", "--open", "--journal=a"]), ["--open", "--journal=a"])
