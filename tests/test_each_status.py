"""Each command with each of its exit statuses, a run for each; and these are all that FORMATS, help and the man pages name."""

import os
import re
import subprocess
from contextlib import ExitStack

from tests.nodes import Peer, free_addresses, node_words, room
from tests.pages import quoted, rows_of
from tests.program import (
    BAD_LOG, BAD_VIEW, DONE, JOURNAL_FAULT, LINE_LIMIT, LINK_FAULT, LONGEST, NO_MEMORY, NO_WORDS, OTHER_JOURNAL, PROGRAM,
    READ_FAULT, ROOT, USAGE, WRITE_FAULT, Case, run_program,
)
from tests.spelled import log
from tests.test_formats import VOTES, VOTES_TEXT
from tests.test_words import NOTHING_CHURNED, USAGE_LINE
from tests.worked import TIE, TIE_SNAPSHOT, TIE_TEXT, tie_of

READY, OTHER = "ready 1 of 1\n", "other words"
TOO_LONG = b"a" * 65_537
# Over an input: the words of each command, a good input and what is printed of it, a bad one, what is printed of that, and how
# that ends.
READERS = [
    ("replay", TIE, TIE_TEXT.encode(), TIE[:41], "bad log at 41: Short\n", BAD_LOG),
    ("upgrade", tie_of(1), tie_of(3), TIE[:41], "bad log at 41: Short\n", BAD_LOG),
    ("snapshot", TIE, TIE_SNAPSHOT, TIE[:41], "bad log at 41: Short\n", BAD_LOG),
    ("board", VOTES, VOTES_TEXT.encode(), VOTES[:30], "bad log at 30: Short\n", BAD_LOG),
    ("view", TIE_SNAPSHOT, TIE_TEXT.encode(), TIE_SNAPSHOT[:122], "bad view at 122: Short\n", BAD_VIEW),
    ("view", TIE_SNAPSHOT, TIE_TEXT.encode(), TIE_SNAPSHOT + b"\0\0" * 1_000_001, None, LINE_LIMIT),
    ("rehearse --sites 1", b"at 1 show\n", b"end 0\n", TOO_LONG, "line limit\n", LINE_LIMIT),
]


def wanted():
    """The statuses of each command, as FORMATS has them."""
    (table,) = rows_of("docs/FORMATS.md", "Command", "Statuses")
    return {name: [int(each) for each in row[1].split(", ")] for row in table for name in quoted(row[0]) or [row[0]]}


def numbers(text):
    """The numbers of a list of statuses: single ones, and from one to another."""
    found = set()
    for first, last in re.findall(r"(\d+)(?: to (\d+))?", text):
        found |= set(range(int(first), int(last or first) + 1))
    return found


class EachStatus(Case):
    def run(self, result=None):
        with ExitStack() as self.opened:
            self.folder = self.opened.enter_context(room())
            self.seen = {}
            return super().run(result)

    def expect_ended(self, command, words, status, printed=None, **options):
        ended = run_program(words, cwd=self.folder, **options)
        self.assertEqual(ended.status, status, (command, words, ended.text[-200:]))
        if printed is not None:
            self.assertEqual(ended.printed, printed.encode() if isinstance(printed, str) else printed, (command, words))
        # The line of a bad log says it all, where the log was read from standard input.
        is_told = status not in (DONE, BAD_LOG) or (command, status) == ("node --resume", BAD_LOG)
        self.assertEqual(bool(ended.said), is_told, (command, words, ended.said))
        self.seen.setdefault(command, set()).add(status)

    def descriptor(self, path, flags):
        found = os.open(path, flags)
        self.opened.callback(os.close, found)
        return found

    def expect_faults_of_streams(self, command, words, given, front=b""):
        """A folder as its input, and a full output."""
        self.expect_ended(command, words(), READ_FAULT, front, stdin=self.descriptor(self.folder, os.O_RDONLY))
        self.expect_ended(command, words(), WRITE_FAULT, given=given, stdout=self.descriptor("/dev/full", os.O_WRONLY))

    def test_each_command_has_each_of_its_statuses(self):
        self.readers(), self.churn(), self.nodes(), self.nodes_that_go_on(), self.other_words()
        # Memory has tests of its own, of each command but of other words: what takes these are the words themselves.
        found = {command: sorted(statuses | {NO_MEMORY}) for command, statuses in self.seen.items()}
        self.assertEqual(found, wanted())

    def readers(self):
        for text, good, printed, bad, line, status in READERS:
            command = text.split()[0]
            self.expect_ended(command, text.split(), DONE, printed, given=good)
            self.expect_ended(command, text.split(), status, line, given=bad)
            self.expect_faults_of_streams(command, text.split, good)

    def churn(self):
        words = "churn --seed 1 --steps 0".split()
        self.expect_ended("churn", words, DONE, NOTHING_CHURNED)
        self.expect_ended("churn", words, WRITE_FAULT, stdout=self.descriptor("/dev/full", os.O_WRONLY))

    def words_of_node(self, *flags):
        """Of a node that begins a journal which isn't there, or goes on from one that is whole."""
        if flags:
            (self.folder / "j").write_bytes(log([], sites=1))
        else:
            (self.folder / "j").unlink(missing_ok=True)
        return node_words(1, free_addresses(1), "j", *flags)

    def expect_of_node(self, command, *flags):
        """What a node has in common with one that goes on."""
        self.expect_ended(command, self.words_of_node(*flags), DONE, READY)
        self.expect_ended(command, self.words_of_node(*flags), LINE_LIMIT, f"{READY}line limit\n", given=TOO_LONG)
        self.expect_faults_of_streams(command, lambda: self.words_of_node(*flags), b"", READY.encode())
        peer = Peer()
        self.opened.callback(peer.close)
        self.expect_ended(command, [*self.words_of_node(*flags)[:-1], peer.address], LINK_FAULT, "")

    def nodes(self):
        self.expect_of_node("node")
        words = self.words_of_node()
        (self.folder / "j").write_bytes(b"")
        self.expect_ended("node", words, JOURNAL_FAULT, "")

    def nodes_that_go_on(self):
        command = "node --resume"
        self.expect_of_node(command, "--resume")
        for contents, status, printed in [(None, JOURNAL_FAULT, ""), (b"", BAD_LOG, "bad log at 0: Short\n"),
                                          (log([], session=8, sites=1), OTHER_JOURNAL, "other journal\n")]:
            words = self.words_of_node("--resume")
            (self.folder / "j").unlink()
            if contents is not None:
                (self.folder / "j").write_bytes(contents)
            self.expect_ended(command, words, status, printed)

    def other_words(self):
        for words in ([], ["paint"], *([command] for command in ("node", "rehearse", "churn"))):
            self.expect_ended(OTHER, words, USAGE, USAGE_LINE)
        self.expect_ended(OTHER, ["paint"], WRITE_FAULT, stdout=self.descriptor("/dev/full", os.O_WRONLY))
        for command in ("replay", "upgrade", "snapshot", "view", "board", "node", "rehearse", "churn"):
            self.expect_ended(OTHER, [command, "--paint"], USAGE, USAGE_LINE)
            self.expect_ended(OTHER, [command, b"\xff"], NO_WORDS, "")

    # 2 and 13 are of words, whichever command these name.
    def test_help_and_man_pages_name_them_all(self):
        for command, statuses in wanted().items():
            if command in (OTHER, "node --resume"):
                continue
            more = wanted()["node --resume"] if command == "node" else []
            every = {*statuses, *more, USAGE, NO_WORDS}
            (line,) = re.findall(r"^Exit statuses: (.*)\.$", run_program([command, "--help"]).text, re.MULTILINE)
            self.assertEqual(numbers(line), every, command)
            page = (ROOT / f"packaging/man/groupdesign-{command}.1").read_text()
            section = page.partition(".Sh EXIT STATUS\n")[2].partition("\n.Sh ")[0]
            self.assertEqual(numbers(section.partition("see\n")[0]), every, command)
        every = {status for statuses in wanted().values() for status in statuses}
        (text,) = re.findall(r"^Exit statuses: (.*?)\.$", run_program(["--help"]).text, re.MULTILINE | re.DOTALL)
        self.assertEqual({int(each) for each in re.findall(r"(?:^|,\s)(\d+) ", text)}, every)

    # Each example of help is run as it stands there, over files of these names.
    def test_examples_of_help_are_run(self):
        for name, contents in [("mine.log", TIE), ("old.log", tie_of(1)), ("cards.log", VOTES), ("mine.snapshot", TIE_SNAPSHOT),
                               ("lines.txt", b"at 1 show\n")]:
            (self.folder / name).write_bytes(contents)
        (self.folder / "groupdesign").symlink_to(PROGRAM)
        for command in ([], *([each] for each in wanted() if each not in (OTHER, "node --resume"))):
            (example,) = re.findall(r"^example: (groupdesign .*)$", run_program([*command, "--help"]).text, re.MULTILINE)
            for old, free in zip(re.findall(r"127\.0\.0\.1:\d+", example), free_addresses(2)):
                example = example.replace(old, free)
            with self.subTest(example):
                path = {**os.environ, "PATH": f"{self.folder}:{os.environ['PATH']}"}
                done = subprocess.run(["sh", "-c", example], cwd=self.folder, env=path, stdin=subprocess.DEVNULL,
                                      capture_output=True, timeout=LONGEST)
                self.assertEqual((done.returncode, done.stderr), (DONE, b""))
