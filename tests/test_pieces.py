"""Inputs that are handed out in pieces, one a read, and how many reads they take: typed lines, and snapshots."""

import fcntl
import os
import re
import shutil
import socket
import subprocess
import sys
import termios
import time

from tests.nodes import room
from tests.program import (
    BAD_VIEW, DONE, LINE_LIMIT, LONGEST, PROGRAM, READ_FAULT, WRITE_FAULT, Case, Ended, guarded,
)
from tests.spelled import changed, number
from tests.test_calls import may_trace
from tests.test_viewers import KEPT
from tests.worked import TIE, TIE_SNAPSHOT

UNKNOWN, LONG = "refused: UnknownCommand\n", "refused: LongLine\n"
REHEARSE = ["rehearse", "--sites", "1"]
OURS = re.compile(r"(?:read|write)\((?P<file>\d+),.* = (?P<size>-?\d+)")


def pieces_of(given, most):
    return [given[at : at + most] for at in range(0, len(given), most)]


def run_over(command, pieces, is_open=False):
    """Runs a command whose input hands out one of these pieces a read. It ends behind them, or is left open."""
    ours, theirs = socket.socketpair(socket.AF_UNIX, socket.SOCK_SEQPACKET)
    with ours:
        process = subprocess.Popen(command, stdin=theirs, stdout=subprocess.PIPE, stderr=subprocess.PIPE)
        theirs.close()
        with guarded(process):
            try:
                for piece in pieces:
                    ours.send(piece)
            except (BrokenPipeError, ConnectionResetError):
                # It has ended before the end of its input.
                pass
            ours.close() if not is_open else None
            printed, said = process.communicate()
    return Ended(process.returncode, printed, said)


def unread(pipe):
    """How many bytes a pipe holds."""
    return int.from_bytes(fcntl.ioctl(pipe, termios.FIONREAD, bytes(4)), sys.byteorder)


def run_in_turn(command, pieces):
    """Runs a command over a pipe, into which each piece comes when all before it was read: a read may ask for less."""
    reading, writing = os.pipe()
    process = subprocess.Popen(command, stdin=reading, stdout=subprocess.PIPE, stderr=subprocess.PIPE)
    with guarded(process), open(reading), open(writing, "wb", buffering=0) as pipe:
        for piece in pieces:
            pipe.write(piece)
            while unread(reading) and process.poll() is None:
                time.sleep(0.0001)
        pipe.close()
        printed, said = process.communicate()
    return Ended(process.returncode, printed, said)


def traced(words, pieces, call, injected=None):
    """The same under strace, which may inject a fault: how it ended, and the calls of its input or its output, each
    with its number and its size."""
    file = {"read": "0", "write": "1"}[call]
    with room() as folder:
        inject = ["-e", f"inject={call}:error=EIO:when={injected}"] if injected else []
        strace = [shutil.which("strace"), "-qq", "-o", folder / "trace", "-e", f"trace={call}", *inject]
        ended = run_over([*strace, PROGRAM, *words], pieces)
        found = [OURS.match(line) for line in (folder / "trace").read_text().splitlines()]
    calls = [(at, int(each["size"])) for at, each in enumerate(found, 1) if each and each["file"] == file]
    return ended, calls


# What is typed, in pieces of at most how many bytes, what is printed, and how many reads it takes.
TYPED = [
    (b"", 8, "", 1),
    (b"\n", 8, "", 2),
    (b"ab\n\nc\r\n", 8, UNKNOWN * 2, 2),
    (b"ab\n\nc\r\n", 1, UNKNOWN * 2, 8),
    (b"ab\ncd", 8, UNKNOWN * 2, 2),
    (b"ab\ncd", 1, UNKNOWN * 2, 6),
    (b"ab", 8, UNKNOWN, 2),
    (b"x" * 65_536, 4_096, LONG, 17),
]
# The same for lines that are too many bytes to count their reads.
LONG_TYPED = [
    (b"x" * 65_536 + b"\nab", LONG + UNKNOWN, DONE),
    (b"x" * 65_537, "line limit\n", LINE_LIMIT),
]
BEHIND = b"\xAA\xBB\xCC\xDD\xEE"
SIZES = [1, 2, 7, 30, 44, 100, 65_536]


class Pieces(Case):
    def expect_over(self, words, pieces, status, printed, run=run_over, **options):
        ended = run([PROGRAM, *words], pieces, **options)
        self.assertEqual((ended.text, ended.status), (printed, status), (words, len(pieces)))

    def test_lines_come_out_of_any_pieces(self):
        for typed, most, printed, _ in TYPED:
            self.expect_over(REHEARSE, pieces_of(typed, most), DONE, printed)
        for typed, printed, status in LONG_TYPED:
            self.expect_over(REHEARSE, pieces_of(typed, 1), status, printed)

    # What stands behind a snapshot is the length of an item, which is too great.
    def test_a_snapshot_comes_out_of_any_pieces(self):
        for given in (TIE_SNAPSHOT, KEPT):
            for most in SIZES:
                printed = f"bad view at {len(given)}: Long\n"
                self.expect_over(["view"], pieces_of(given + BEHIND, most), BAD_VIEW, printed, run_in_turn)

    # Its end is never seen.
    def test_another_magic_is_found_in_the_first_piece(self):
        first = changed(TIE_SNAPSHOT, [(0, 0x48)])[:20]
        self.expect_over(["view"], [first], BAD_VIEW, "bad view at 0: Magic\n", is_open=True)


def many_objects(count):
    """A snapshot of one site with so many ellipses."""
    body = bytes.fromhex("02 00000000 00000000 00000014 00000014 00000000 FFFFFFFF 01 00 00 FFFFFFFF 64 0000 00 00 00 00 00 01 00000000000101")
    objects = b"".join(number(clock, 6) + b"\x01" + body for clock in range(1, count + 1))
    return bytes.fromhex("47444F53 03 00000007 01 01 FFFF 00000000FFFF") + number(count, 4) + objects + bytes(4)


class Calls(Case):
    def setUp(self):
        if not may_trace():
            self.skipTest("strace isn't there, or may not trace")

    def test_lines_take_few_reads(self):
        for typed, most, printed, reads in TYPED:
            ended, calls = traced(REHEARSE, pieces_of(typed, most), "read")
            self.assertEqual((ended.text, len(calls)), (printed, reads), (typed[:20], most))
        ended, calls = traced(REHEARSE, pieces_of(b"x" * 65_536 + b"\r\n", 1_000_000), "read")
        self.assertEqual((ended.text, len(calls)), ("line limit\n", 1))

    # The lines before it are answered.
    def test_a_read_that_fails_is_the_end(self):
        for words, given, most, printed in [
            (REHEARSE, b"ab", 8, ["", ""]),
            (REHEARSE, b"ab\ncd\n", 4, ["", UNKNOWN]),
            (["view"], TIE_SNAPSHOT, 20, [""] * 6),
        ]:
            pieces = pieces_of(given, most)
            _, whole = traced(words, pieces, "read")
            for turn, (number_of, text) in enumerate(zip([at for at, _ in whole], printed), 1):
                ended, calls = traced(words, pieces, "read", number_of)
                self.assertEqual((ended.text, ended.status, len(calls)), (text, READ_FAULT, turn), (words, turn))

    # What stands in front of the objects is one piece, and so are each object and the number of kept events.
    def test_a_write_that_fails_leaves_the_pieces_before(self):
        whole, calls = traced(["snapshot"], [TIE], "write")
        self.assertEqual((whole.printed, [size for _, size in calls]), (TIE_SNAPSHOT, [31, 55, 55, 4]))
        for (number_of, _), length in zip(calls, (0, 31, 86, 141)):
            ended, _ = traced(["snapshot"], [TIE], "write", number_of)
            self.assertEqual((ended.printed, ended.status), (TIE_SNAPSHOT[:length], WRITE_FAULT), length)


class Files(Case):
    def test_many_bytes_take_few_reads(self):
        if not may_trace():
            self.skipTest("strace isn't there, or may not trace")
        lines = (b"x" * 60_000 + b"\n") * 5
        for words, given, first, last, most in [
            (REHEARSE, b"x" * 65_536 + b"\n", LONG, LONG, 2),
            (REHEARSE, b"x" * 65_537 + b"\n", "line limit\n", "line limit\n", 1),
            (REHEARSE, lines, LONG, LONG, 6),
            (["view"], many_objects(20_000), "ellipse 1.1 ", "\nend 20000\n", 19),
        ]:
            with room() as folder:
                (folder / "given").write_bytes(given)
                command = [shutil.which("strace"), "-qq", "-o", folder / "trace", "-e", "trace=read", PROGRAM, *words]
                with open(folder / "given", "rb") as file:
                    ended = subprocess.run(command, stdin=file, capture_output=True, timeout=LONGEST)
                found = [OURS.match(line) for line in (folder / "trace").read_text().splitlines()]
            reads = [each for each in found if each and each["file"] == "0"]
            text = ended.stdout.decode()
            self.assertTrue(text.startswith(first) and text.endswith(last), (text[:100], text[-100:]))
            self.assertLessEqual(len(reads), most, words)
