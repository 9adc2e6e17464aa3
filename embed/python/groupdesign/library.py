"""The C library: where it is found, and the types of its calls, as groupdesign.h has them."""

import ctypes
import ctypes.util
import os
from ctypes import POINTER, c_bool, c_char_p, c_int64, c_size_t, c_uint8, c_uint16, c_uint32, c_uint64, c_void_p
from pathlib import Path

NAME = "libgroupdesign.so"
# The variable that names another library.
NAMED_BY = "GROUPDESIGN_LIBRARY"

EMPTY, SPENT, OCCUPIED, NO_MEMORY, ROOM, REFUSED, NOT_HERE = -1, -2, -3, -4, -5, -6, -7
UNWRITTEN, NOT_THESE, NO_SITE, NO_NOTE, NOT_PARTED, BAD_JOURNAL, OTHER_JOURNAL = -8, -9, -10, -11, -12, -13, -14

FRAME_BYTES = 1200
WHY_BYTES = 64


class Handle(ctypes.Structure):
    """`gd_member`."""

    _fields_ = [("at", c_void_p), ("is_live", c_bool)]


class Standing(ctypes.Structure):
    """`gd_standing`."""

    _fields_ = [(name, c_uint64) for name in ("held", "kept", "line", "clock", "parted")]


class Noted(ctypes.Structure):
    """`gd_noted`."""

    _fields_ = [(name, c_uint64) for name in ("number", "clock", "site")]


_MEMBER: type = POINTER(Handle)
_BYTES: list[type] = [c_char_p, c_size_t]
_OUT: list[type] = [c_char_p, c_size_t, POINTER(c_uint64)]
_CALLS: dict[str, list[type]] = {
    "gd_new": [c_uint8, c_uint8, c_uint32],
    "gd_open": [*_BYTES, c_uint8, c_uint8, c_uint32, *_OUT],
    "gd_free": [],
    "gd_journal_head": _OUT,
    "gd_line": _BYTES,
    "gd_gesture": _BYTES,
    "gd_take": _BYTES,
    "gd_frame": [c_uint8, POINTER(c_uint16), *_OUT],
    "gd_unwritten": [POINTER(c_uint64), *_OUT],
    "gd_written": [c_uint64],
    "gd_said": _OUT,
    "gd_json": [],
    "gd_text": [],
    "gd_snapshot": [],
    "gd_events": _BYTES,
    "gd_status": [POINTER(Standing)],
    "gd_note": [c_uint8, POINTER(Noted)],
    "gd_parted": [c_uint8],
}


def _path() -> str:
    """The library that the environment names, the one beside this package, or the system's."""
    beside = Path(__file__).resolve().parent / NAME
    named = os.environ.get(NAMED_BY) or (str(beside) if beside.exists() else ctypes.util.find_library("groupdesign"))
    if not named:
        raise ImportError(f"no {NAME}: build it by embed/build, and name it by {NAMED_BY}")
    return named


def _load() -> ctypes.CDLL:
    """The library, with the types of its calls."""
    found = ctypes.CDLL(_path())
    for name, given in _CALLS.items():
        call = getattr(found, name)
        call.argtypes, call.restype = [_MEMBER, *given], c_int64
    return found


LIBRARY = _load()
