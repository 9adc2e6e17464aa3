"""Logs, frames and snapshots that were worked out by hand, with what is printed of them."""

from tests.spelled import changed, header, log, square

RECT = "rect {} in - at {} size 10 10 stroke 000000 fill none width 1\n"

# A rect of site 2 and an ellipse of site 1, both at clock 1. The worked log of docs/FORMATS.md, section 6.
TIE = bytes.fromhex(
    "47444F4C 01 00000007 01 02"
    "C3 000000000001 02 0001 01 01 00000005 00000005 0000000A 0000000A 00"
    "C3 000000000001 01 0001 01 02 00000000 00000000 00000014 00000014 00"
    "00"
)
# The same in version three, with a check behind each event. Its gates stand at 11, 44 and 77, its checks at 40 and 73.
CHECKED_TIE = bytes.fromhex(
    "47444F4C 07 00000007 01 02"
    "C3 000000000001 02 0001 01 01 00000005 00000005 0000000A 0000000A 00 4F603653"
    "C3 000000000001 01 0001 01 02 00000000 00000000 00000014 00000014 00 FDF1134D"
    "00"
)
ELLIPSE_LINE = "ellipse 1.1 in - at 0 0 size 20 20 stroke 000000 fill none width 1\n"
RECT_LINE = RECT.format("1.2", "5 5")
TIE_TEXT = ELLIPSE_LINE + RECT_LINE + "end 2\n"

EMPTY = header(version=1) + b"\0"

# A rect, an ellipse, a raise of the rect at clock 5, and behind it one of the ellipse at clock 4.
RANKS = log(
    [
        square((1, 1), 1),
        ((2, 1), 2, ("create", "ellipse", 0, 0, 20, 20, "")),
        ((5, 1), 3, ("raise", (1, 1))),
        ((4, 2), 1, ("raise", (2, 1))),
    ],
    version=1,
)
RANKS_TEXT = (
    "ellipse 2.1 in - at 0 0 size 20 20 stroke 000000 fill none width 1\n"
    "rect 1.1 in - at 0 0 size 10 10 stroke 000000 fill none width 1\nend 2\n"
)

# A delete at clock 3, and behind it the create of its object at clock 1.
EFFECT_FIRST = log([((3, 2), 1, ("delete", (1, 1))), square((1, 1), 1)], version=1)

# An ellipse, its size, its stroke, fill, width and label, and the fill of an object that isn't there.
LOOK = log(
    [
        ((1, 1), 1, ("create", "ellipse", 0, 0, 20, 20, "")),
        ((2, 1), 2, ("resize", (1, 1), -5, 30)),
        ((3, 1), 3, ("stroke", (1, 1), 0x00AB0C)),
        ((4, 1), 4, ("fill", (1, 1), 0xFF8000)),
        ((5, 1), 5, ("width", (1, 1), 64)),
        ((6, 1), 6, ("text", (1, 1), "café")),
        ((7, 1), 7, ("fill", (1, 2), None)),
    ],
    version=1,
)
LOOK_TEXT = "ellipse 1.1 in - at 0 0 size -5 30 stroke 00AB0C fill FF8000 width 64 text café\nend 1\n"

# The frame of site 2 for site 1 with a rect at 0 0, its one event. The worked frame of section 8.
FRAME = bytes.fromhex(
    "47444F46 03 00000007 02 01 0000 0001 000000000001 C218FBBA 0000 00000000000000 00 01"
    "000000000001 02 0001 01 01 00000000 00000000 0000000A 0000000A 00"
    "49B34D30"
)
# Where the event of that frame begins, and its checksum.
EVENT, CHECK = 36, 64

# The snapshot of the tie: each site made one event and has the sure clock 1, so both objects stand and no event is kept.
TIE_SNAPSHOT = bytes.fromhex(
    "47444F53 03 00000007 01 02 0001 000000000001 0001 000000000001 00000002"
    "000000000001 01 02 00000000 00000000 00000014 00000014 00000000 FFFFFFFF 01 00 00 FFFFFFFF 64 0000 00 00 00 00 00 01 000000000001 01"
    "000000000001 02 01 00000005 00000005 0000000A 0000000A 00000000 FFFFFFFF 01 00 00 FFFFFFFF 64 0000 00 00 00 00 00 01 000000000001 02"
    "00000000"
)


def tie_of(version):
    """The tie's log in that version."""
    return CHECKED_TIE if version == 3 else changed(TIE, [(4, version)])
