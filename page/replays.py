"""What the program prints of a journal: the drawing, and its events."""

import asyncio
import base64
import subprocess
from pathlib import Path

FORMATS = {"text": [], "json": ["--format", "json"], "events": ["--format", "events"]}


class NoReplay(Exception):
    """A journal wasn't replayed. Its text says why."""


async def replayed(program, journal, form):
    """The bytes that a replay of a journal prints in one of `FORMATS`. Raises `NoReplay`."""
    try:
        with open(journal, "rb") as given:
            words = [str(program), "replay", *FORMATS[form]]
            replay = await asyncio.create_subprocess_exec(*words, stdin=given, stdout=subprocess.PIPE)
            printed, _ = await replay.communicate()
    except OSError as fault:
        raise NoReplay(str(fault)) from None
    if replay.returncode:
        raise NoReplay(f"reading the drawing’s file ended with status {replay.returncode}")
    return printed


async def saved(program, journal, form):
    """The text of a file to be saved: what a replay prints in one of `FORMATS`, or for `log` the journal itself, in base64.
    Raises `NoReplay`; a form that there isn't is one."""
    if form == "log":
        try:
            return base64.b64encode(Path(journal).read_bytes()).decode()
        except OSError as fault:
            raise NoReplay(str(fault)) from None
    if not isinstance(form, str) or form not in FORMATS:
        raise NoReplay("a drawing is saved as text, json, events or log")
    return (await replayed(program, journal, form)).decode(errors="replace")
