"""The drawing of who only looks on: the program's `view` shows it, of a snapshot and frames behind it."""

import asyncio
import struct
import subprocess
import time

from carrier.frames import crc32c, frames
from carrier.roster import SEATS

LENGTH = struct.Struct(">H")
# So many seconds lie between two looks at least, and so many times as long as the last one took.
BETWEEN, RESTS = 0.1, 2.0


class NoView(Exception):
    """The program showed nothing. The text says why."""


def empty_log(session):
    """A log of a session in which nothing was drawn yet."""
    return b"GDOL\x07" + session.to_bytes(4, "big") + bytes([1, SEATS, 0])


async def printed(program, command, given):
    """What a command of the program prints of some bytes. Raises `NoView`."""
    try:
        pipes = {"stdin": subprocess.PIPE, "stdout": subprocess.PIPE}
        run = await asyncio.create_subprocess_exec(str(program), command, **pipes)
        out, _ = await run.communicate(given)
    except OSError as fault:
        raise NoView(f"the program {program} wasn't started: {fault.strerror}") from None
    if run.returncode:
        raise NoView(f"the program's {command} ended with status {run.returncode}")
    return out


def items(session, seat, first, records, clocks, check):
    """Records of a seat, behind others of that check, as the items that stand behind a snapshot: frames, each behind its length."""
    return b"".join(LENGTH.pack(len(each)) + each for each in frames(session, seat, seat, first, records, clocks, check))


def shown(lines):
    """The lines of the drawing among those that a view prints, its last one too."""
    count = int(lines[-1].split(b" ")[1])
    return lines[len(lines) - 1 - count :]


class Viewing:
    """The view of one session. `show` is called with the lines of the drawing, as `show` of a node prints them."""

    def __init__(self, program, session, show):
        self.program, self.session, self.show = program, session, show
        self.base, self.items, self.checks, self.changed, self.task = b"", [], {}, asyncio.Event(), None

    async def start(self):
        """Has the program make the snapshot that all frames stand behind. Raises `NoView`."""
        self.base = await printed(self.program, "snapshot", empty_log(self.session))
        self.task = asyncio.get_running_loop().create_task(self.run())

    async def stop(self):
        if self.task:
            self.task.cancel()
            await asyncio.gather(self.task, return_exceptions=True)

    def add(self, seat, first, records, clocks):
        """More records of a seat, behind those that were added before."""
        check = self.checks.get(seat, 0)
        self.items.append(items(self.session, seat, first, records, clocks, check))
        self.checks[seat] = crc32c(b"".join(records), check)
        self.changed.set()

    async def run(self):
        while True:
            await self.changed.wait()
            self.changed.clear()
            start = time.monotonic()
            given = self.base + b"".join(self.items)
            self.show(shown((await printed(self.program, "view", given)).split(b"\n")[:-1]))
            await asyncio.sleep(max(BETWEEN, RESTS * (time.monotonic() - start)))
