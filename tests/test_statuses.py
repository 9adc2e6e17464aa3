"""Each exit status over real inputs, outputs, files and sockets, by each command that has it."""

import os
import resource
import shutil
import signal
import subprocess
import unittest
from contextlib import contextmanager

from tests.nodes import Peer, free_addresses, node_words, room, started
from tests.program import (
    BAD_LOG, DONE, JOURNAL_FAULT, LINK_FAULT, LONGEST, OTHER_JOURNAL, PROGRAM, READ_FAULT, USAGE, WRITE_FAULT,
    Case, guarded, run_program,
)
from tests.spelled import header, log, square
from tests.test_formats import VOTES, VOTES_TEXT
from tests.test_words import NOTHING_CHURNED
from tests.worked import TIE, TIE_SNAPSHOT, TIE_TEXT, tie_of

# Each command that reads or prints: its words, an input, and what is printed of it.
COMMANDS = [
    (["replay"], TIE, TIE_TEXT.encode()),
    (["replay", "--format", "json"], log([], version=1), b"[]\n"),
    (["upgrade"], TIE, tie_of(3)),
    (["snapshot"], TIE, TIE_SNAPSHOT),
    (["view"], TIE_SNAPSHOT, TIE_TEXT.encode()),
    (["board"], VOTES, VOTES_TEXT.encode()),
    (["rehearse", "--sites", "2"], b"at 1 create rect 0 0 1 1\nat 1 status\n", b"ok 1.1\nheld 1 kept 1 line 0 clock 1\n"),
    (["churn", "--seed", "1", "--steps", "0"], b"", NOTHING_CHURNED.encode()),
    (["paint"], b"", b"usage: groupdesign COMMAND OPTIONS\n"),
]


@contextmanager
def opened(path, flags):
    descriptor = os.open(path, flags)
    try:
        yield descriptor
    finally:
        os.close(descriptor)


def closed_pipe():
    """The writing end of a pipe that nobody reads."""
    reads, writes = os.pipe()
    os.close(reads)
    return writes


def limited(size):
    """Limits the files that a process writes to that size, and has it ignore the signal that says so."""

    def limit():
        signal.signal(signal.SIGXFSZ, signal.SIG_IGN)
        resource.setrlimit(resource.RLIMIT_FSIZE, (size, size))

    return {"preexec_fn": limit, "restore_signals": False}


class Inputs(Case):
    def test_a_folder_as_input_is_a_failed_read(self):
        for words, _, _ in COMMANDS[:-2]:
            with room() as folder, opened(folder, os.O_RDONLY) as given:
                ended = run_program(words, stdin=given)
                self.assertEqual((ended.printed, ended.status), (b"", READ_FAULT), words)

    def test_a_node_whose_input_is_a_folder_is_ready_first(self):
        with room() as folder, opened(folder, os.O_RDONLY) as given:
            ended = run_program(node_words(1, free_addresses(1), folder / "j"), stdin=given)
            self.assertEqual((ended.text, ended.status), ("ready 1 of 1\n", READ_FAULT))
            self.assertEqual((folder / "j").read_bytes(), log([], sites=1))

    def test_a_file_and_a_pipe_in_pieces_are_read_alike(self):
        for words, given, printed in COMMANDS[:-2]:
            with room() as folder:
                (folder / "given").write_bytes(given)
                with opened(folder / "given", os.O_RDONLY) as file:
                    ended = run_program(words, stdin=file)
                self.assertEqual((ended.printed, ended.status), (printed, DONE), words)
            pipes = {"stdin": subprocess.PIPE, "stdout": subprocess.PIPE, "bufsize": 0}
            with subprocess.Popen([PROGRAM, *words], **pipes) as process, guarded(process):
                for at in range(len(given)):
                    process.stdin.write(given[at : at + 1])
                self.assertEqual((process.communicate()[0], process.returncode), (printed, DONE), words)


class Outputs(Case):
    def test_a_full_device_and_a_closed_pipe_are_failed_writes(self):
        for words, given, _ in COMMANDS:
            with opened("/dev/full", os.O_WRONLY) as full:
                self.assertEqual(run_program(words, given, stdout=full).status, WRITE_FAULT, words)
            closed = closed_pipe()
            try:
                self.assertEqual(run_program(words, given, stdout=closed).status, WRITE_FAULT, words)
            finally:
                os.close(closed)

    def test_a_full_file_holds_a_front_of_what_is_printed(self):
        for words, given, printed in COMMANDS:
            for size in (0, 1, len(printed) // 2, len(printed) - 1, len(printed)):
                with room() as folder, opened(folder / "printed", os.O_WRONLY | os.O_CREAT) as output:
                    ended = run_program(words, given, stdout=output, **limited(size))
                    status = WRITE_FAULT if size < len(printed) else USAGE if words == ["paint"] else DONE
                    self.assertEqual(ended.status, status, (words, size))
                    self.assertEqual((folder / "printed").read_bytes(), printed[:size], (words, size))

    def test_help_that_cannot_be_written_is_a_failed_write(self):
        for words in (["--help"], ["replay", "--counts", "--help"], ["-V"]):
            with opened("/dev/full", os.O_WRONLY) as full:
                self.assertEqual(run_program(words, stdout=full).status, WRITE_FAULT, words)

    # The event was accepted, and the journal holds it, but nobody was told: an answer that can't be written ends the run.
    def test_a_node_with_a_full_output_ends_and_keeps_its_journal(self):
        for path in ("/dev/full", None):
            with room() as folder:
                output = os.open(path, os.O_WRONLY) if path else closed_pipe()
                words = node_words(1, free_addresses(1), folder / "j")
                ended = run_program(words, b"create rect 0 0 10 10\n", stdout=output)
                os.close(output)
                self.assertEqual(ended.status, WRITE_FAULT)
                self.assertEqual((folder / "j").read_bytes(), log([], sites=1))

    # The event behind the last answer that could be written is in the journal.
    def test_an_output_that_is_closed_ends_a_node_with_what_it_accepted(self):
        for answers in (0, 1, 3):
            with started((1, 1)) as (node, _):
                self.assertTrue(node.is_ready())
                for clock in range(1, answers + 1):
                    self.assertEqual(node.ask("create rect 0 0 10 10"), [f"ok {clock}.1"])
                node.process.stdout.close()
                node.type("create rect 0 0 10 10\n" * 3 + "quit")
                self.assertEqual(node.process.wait(LONGEST), WRITE_FAULT)
                self.assertEqual(node.journal.read_bytes(), log([square((k, 1), k) for k in range(1, answers + 2)], sites=1))


class Journals(Case):
    def expect_fault(self, journal, *flags, status=JOURNAL_FAULT, printed=""):
        ended = run_program(node_words(1, free_addresses(2), journal, *flags), b"show\n")
        self.assertEqual((ended.text, ended.status), (printed, status), (journal, flags))

    def test_a_journal_that_is_there_already_is_left_as_it_is(self):
        with room() as folder:
            for contents in (b"", b"of another program", log([square((1, 1), 1)])):
                (folder / "j").write_bytes(contents)
                self.expect_fault(folder / "j")
                self.assertEqual((folder / "j").read_bytes(), contents)

    def test_what_is_no_file_is_no_journal(self):
        with room() as folder:
            (folder / "folder").mkdir()
            os.mkfifo(folder / "fifo")
            (folder / "link").symlink_to(folder / "nowhere")
            for name in ("folder", "fifo", "link"):
                self.expect_fault(folder / name)
                self.expect_fault(folder / name, "--resume")
            self.expect_fault("/dev/full", "--resume")
            self.expect_fault("/dev/null", "--resume")
            self.assertEqual(sorted(path.name for path in folder.iterdir()), ["fifo", "folder", "link"])

    def test_a_journal_that_is_gone_or_has_no_folder(self):
        with room() as folder:
            self.expect_fault(folder / "j", "--resume")
            self.expect_fault(folder / "none" / "j")
            self.expect_fault(folder / "none" / "j", "--resume")
            self.assertEqual(list(folder.iterdir()), [])

    def test_a_journal_of_another_or_a_broken_one_is_left_as_it_is(self):
        with room() as folder:
            for contents, status, printed in [
                (log([], session=8), OTHER_JOURNAL, "other journal\n"),
                (log([], site=2), OTHER_JOURNAL, "other journal\n"),
                (log([], sites=3), OTHER_JOURNAL, "other journal\n"),
                (log([], version=1), OTHER_JOURNAL, "other journal\n"),
                (log([], version=2), OTHER_JOURNAL, "other journal\n"),
                (header(), BAD_LOG, "bad log at 11: Short\n"),
                (b"GDOX", BAD_LOG, "bad log at 0: Magic\n"),
                (log([square((1, 1), 1)])[:-5], BAD_LOG, "bad log at 40: Short\n"),
            ]:
                (folder / "j").write_bytes(contents)
                self.expect_fault(folder / "j", "--resume", status=status, printed=printed)
                self.assertEqual((folder / "j").read_bytes(), contents)

    # A limit on files stands for a full disk. The header takes 12 bytes, and an event 32 with its check, and its gate.
    def test_a_journal_that_can_take_no_more_ends_the_node(self):
        rows = [(0, 0, None), (5, 0, None), (12, 1, 0), (12 + 10, 1, 0), (12 + 32, 1, 0), (12 + 33, 2, 1), (12 + 44, 2, 1)]
        for size, answers, held in rows:
            with room() as folder:
                words = node_words(1, free_addresses(1), folder / "j")
                ended = run_program(words, b"create rect 0 0 10 10\n" * 5, **limited(size))
                text = "ready 1 of 1\n" + "".join(f"ok {clock}.1\n" for clock in range(1, 6))
                self.assertEqual((ended.text, ended.status), ("".join(text.splitlines(True)[:answers]), JOURNAL_FAULT), size)
                if held is not None:
                    again = run_program([*words, "--resume"], b"status\ncreate rect 0 0 1 1\n")
                    self.assertTrue(again.text.startswith(f"ready 1 of 1\nheld {held} "), (size, again.text))
                    self.assertTrue(again.text.endswith(f"ok {held + 1}.1\n"), (size, again.text))


class Links(Case):
    def expect_link_fault(self, site, addresses):
        with room() as folder:
            ended = run_program(node_words(site, addresses, folder / "j"), b"show\n")
            self.assertEqual((ended.text, ended.status), ("", LINK_FAULT), addresses)
            self.assertEqual(list(folder.iterdir()), [])

    def test_what_is_no_address_is_a_fault(self):
        good, other = free_addresses(2)
        ports = ["127.0.0.1", "127.0.0.1:", "127.0.0.1:65536", "127.0.0.1:-1"]
        for bad in ["", "A", *ports, ":4101", "1.2.3:4", "nowhere.invalid:4101"]:
            self.expect_link_fault(1, [good, bad])
            self.expect_link_fault(2, [other, bad])

    # One that another socket has, and one of a network of examples, which is nobody's here.
    def test_an_address_that_can_t_be_had_is_a_fault(self):
        taken = Peer()
        try:
            self.expect_link_fault(1, [taken.address])
        finally:
            taken.close()
        self.expect_link_fault(1, ["192.0.2.1:4101"])
        self.expect_link_fault(2, [*free_addresses(1), "192.0.2.1:4101"])

    # Where nobody answers a node runs on: a frame that is lost is no fault of the run.
    def test_a_site_that_isn_t_there_is_no_fault(self):
        with room() as folder:
            words = node_words(1, free_addresses(3), folder / "j")
            ended = run_program(words, b"create rect 0 0 10 10\n" * 20 + b"poll\n" * 20 + b"status\n")
            lines = ended.text.splitlines()
            self.assertEqual((ended.status, lines[1:21]), (DONE, [f"ok {clock}.1" for clock in range(1, 21)]))
            self.assertEqual(lines[-1], "held 20 kept 20 line 0 clock 20")


@contextmanager
def small_disk(folder, size):
    """A disk of that size in a folder, or a test that is skipped where none can be had."""
    mounted = shutil.which("mount") and subprocess.run(
        ["mount", "-t", "tmpfs", "-o", f"size={size}", "none", folder], capture_output=True
    ).returncode == 0
    if not mounted:
        raise unittest.SkipTest("no disk can be mounted")
    try:
        yield
    finally:
        subprocess.run(["umount", "--lazy", folder], check=True)


class FullDisk(Case):
    # Each event takes 33 bytes with its gate and its check, so the disk is full long before all are typed.
    def test_a_node_on_a_full_disk_holds_what_it_answered(self):
        with room(on_disk=True) as folder, small_disk(folder, "32k"):
            words = node_words(1, free_addresses(1), folder / "j")
            ended = run_program(words, b"create rect 0 0 10 10\n" * 3_000)
            answered = ended.text.count("ok ")
            self.assertEqual((ended.status, ended.text.splitlines()[0]), (JOURNAL_FAULT, "ready 1 of 1"))
            self.assertTrue(900 < answered < 1_000, answered)
            subprocess.run(["mount", "-o", "remount,size=1m", folder], check=True)
            again = run_program([*words, "--resume"], b"create rect 0 0 10 10\nstatus\n")
            held = answered + 1
            self.assertEqual(again.text.splitlines()[1:], [f"ok {held}.1", f"held {held} kept 0 line {held} clock {held}"])
            self.assertEqual((folder / "j").read_bytes(), log([square((k, 1), k) for k in range(1, held + 1)], sites=1))
