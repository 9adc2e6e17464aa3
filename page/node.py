"""A node as a process: what is typed at it, and its answers, in their order."""

import asyncio
import fcntl
import os
import subprocess
import time
from collections import deque

from page.lines import last_of

PIECE = ROOM = 1 << 20
REST = 0.002
# How long a node that was told to quit has for its end.
FAREWELL = 5
# A node that answers nothing is typed so many lines at, and no more.
MOST_WAITING = 20_000


class Ended(Exception):
    """The node ended before its whole answer was there. Its text is what the node said last, where it said something."""


class Busy(Exception):
    """So many lines wait for their answers that no more are typed."""


class Slot:
    """The place of one answer among those that are waited for: that to a line, or to the lines of a gesture.

    `accepted` is how many edits the node had accepted once this answer was whole: what a `show` printed has these."""

    __slots__ = ("last", "count", "lines", "whole", "cut", "accepted")

    def __init__(self, last, loop, count=1):
        """`count` lines were typed. The last one of the answer begins as `last` says."""
        self.last, self.count, self.lines, self.cut, self.accepted = last, count, [], False, 0
        self.whole = loop.create_future()

    def events(self):
        """How many edits were accepted by what was typed. No other answer begins so."""
        if not self.lines[0].startswith((b"ok ", b"refused: ")):
            return 0
        return sum(line.startswith(b"ok ") for line in self.lines)

    def close(self, cut=False):
        self.cut = cut
        if not self.whole.done():
            self.whole.set_result(None)

    async def settled(self):
        """Waits until the answer is whole, or is cut for good."""
        if not self.whole.done():
            # Who waits may be called off, and others may wait for the same.
            await asyncio.shield(self.whole)

    async def answer(self):
        """The lines of the answer, as bytes. Raises `Ended` where they aren't all there."""
        await self.settled()
        if self.cut:
            raise Ended
        return self.lines


class Node:
    """A running node. `ended` is called once with its status and the lines that it printed and nobody had asked for, when
    its output is at its end. All of it runs in the loop in which it is made."""

    def __init__(self, command, ended=lambda status, lines: None):
        self.ended, self.status, self.stray, self.accepted = ended, None, [], 0
        self.loop = asyncio.get_running_loop()
        # Keys that end this program don't end the node, which is told to quit.
        pipes = {"stdin": subprocess.PIPE, "stdout": subprocess.PIPE, "bufsize": 0, "start_new_session": True}
        self.process = subprocess.Popen(command, **pipes)
        self.source, self.goal = self.process.stdout.fileno(), self.process.stdin.fileno()
        self.pending, self.unwritten = b"", bytearray()
        self.ready = Slot((b"ready ",), self.loop)
        self.slots, self.lines_waiting, self.heard_at = deque([self.ready]), 1, time.monotonic()
        self.is_over, self.ending = asyncio.Event(), None
        self.prepare()

    def prepare(self):
        """Has both pipes never wait, and the one for answers take long ones at once, where the system allows that."""
        for pipe in (self.source, self.goal):
            os.set_blocking(pipe, False)
        try:
            fcntl.fcntl(self.source, fcntl.F_SETPIPE_SZ, ROOM)
        except OSError:
            # It is quicker with more room, and works without.
            pass
        self.loop.add_reader(self.source, self.read)

    async def wait_until_ready(self):
        """Waits for its first line, and gives it. Raises `Ended` with all that it printed where there is none."""
        await self.ready.whole
        if self.ready.cut:
            raise Ended(b"\n".join(self.ready.lines).decode(errors="replace"))
        return self.ready.lines[-1].decode()

    def type(self, *lines):
        """Types lines, which are such as have answers, and gives the slots of these; a gesture stands here as one line, and has
        one. Raises `Ended` where the node has, and `Busy` where too many answers are waited for; then none is typed."""
        if self.status is not None:
            raise Ended
        slots = [Slot(last_of(line), self.loop, line.count(b"\n") + 1) for line in lines]
        count = sum(slot.count for slot in slots)
        if self.lines_waiting + count > MOST_WAITING:
            raise Busy
        if not self.slots:
            self.heard_at = time.monotonic()
        self.lines_waiting += count
        self.slots.extend(slots)
        self.write(b"".join(line + b"\n" for line in lines))
        return slots

    async def ask(self, line):
        """Types a line, and waits for the lines of its answer, as bytes. Raises `Ended` where these aren't all there."""
        (slot,) = self.type(line)
        return await slot.answer()

    def silence(self):
        """For how many seconds it has answered nothing, though answers are waited for."""
        return time.monotonic() - self.heard_at if self.slots and self.status is None else 0.0

    def write(self, data):
        is_first = not self.unwritten
        self.unwritten += data
        if is_first:
            self.write_on()

    def write_on(self):
        """Writes what the pipe takes, and comes again when it takes more."""
        try:
            del self.unwritten[: os.write(self.goal, self.unwritten[:PIECE])]
        except BlockingIOError:
            pass
        except OSError:
            # Its end is told by its output.
            self.unwritten.clear()
        if self.unwritten:
            self.loop.add_writer(self.goal, self.write_on)
        else:
            self.loop.remove_writer(self.goal)

    def read(self):
        """Takes what it printed. The node writes each line of an answer by itself: a rest lets many of them gather."""
        try:
            piece = os.read(self.source, PIECE)
        except BlockingIOError:
            return
        except OSError:
            piece = b""
        if not piece:
            self.loop.remove_reader(self.source)
            self.ending = self.loop.create_task(self.end())
            return
        self.heard_at = time.monotonic()
        self.hand_out(piece)
        if self.slots and self.slots[0].lines:
            self.loop.remove_reader(self.source)
            self.loop.call_later(REST, self.read_again)

    def read_again(self):
        if self.status is None:
            self.loop.add_reader(self.source, self.read)

    def hand_out(self, piece):
        """Hands the lines of a piece of what was printed to the slots that wait for them."""
        # LF alone ends a line: a label may have other characters that end lines elsewhere.
        *lines, self.pending = (self.pending + piece).split(b"\n")
        place = 0
        while place < len(lines):
            slot = self.slots[0] if self.slots else None
            if slot is None or (not slot.lines and lines[place] == b"line limit"):
                self.stray.append(lines[place])
                place += 1
                continue
            last = next((at for at in range(place, len(lines)) if lines[at].startswith(slot.last)), None)
            end = len(lines) if last is None else last + 1
            slot.lines += lines[place:end]
            place = end
            if last is not None:
                self.finish(self.slots.popleft())

    def finish(self, slot):
        self.lines_waiting -= slot.count
        self.accepted += slot.events()
        slot.accepted = self.accepted
        slot.close()

    async def end(self):
        """Tells all who wait that no answer comes any more."""
        self.status = await self.loop.run_in_executor(None, self.process.wait)
        self.loop.remove_writer(self.goal)
        for slot in self.slots:
            slot.close(cut=True)
        self.slots.clear()
        self.process.stdin.close()
        self.process.stdout.close()
        self.ended(self.status, [line.decode(errors="replace") for line in self.stray])
        self.is_over.set()

    async def quit(self):
        """Ends the node, by `quit` where it still listens, and gives its status."""
        if self.status is None:
            self.write(b"quit\n")
        late = self.loop.call_later(FAREWELL, self.process.kill)
        try:
            await self.is_over.wait()
        finally:
            late.cancel()
        return self.status
