"""The tie's log with each byte changed. It is a log of two records, at 12 and at 41."""

from tests.program import BAD_LOG, DONE, Case, at_a_time, run_program
from tests.spelled import changed
from tests.worked import TIE

CHANGES = [1, 2, 4, 8, 16, 32, 64, 128, 255]


def field(at, is_in_range):
    return None if is_in_range else (at, "Field")


def header_site(value):
    """The site of the header, of which there are two."""
    return field(9, False) if not 1 <= value <= 16 else field(10, value <= 2)


def sites(value):
    """The number of sites, where the first record is of site 2."""
    return (18, "NoSite") if value == 1 else field(10, 1 < value <= 16)


def site(at, other, value):
    """The site of a record, where the other record is of that other site, and the second record's number is at 48."""
    if not 1 <= value <= 16:
        return at, "Field"
    if value == other:
        return 48, "Turn"
    return (at, "NoSite") if value > 2 else None


def number_end(at, value):
    """The last byte of a number, whose first byte is 0."""
    return None if value == 1 else (at, "Turn") if value else (at, "Field")


def number_front(at, value):
    """The first byte of a number, whose last byte is 1."""
    return (at, "Turn") if value else None


def tag(at, id_site, group, value):
    """A tag. Behind it stands what would be an id of that site byte, and what would be a group with that faulty byte."""
    if value == 1:
        return None
    if value == 7:
        return group, "Field"
    return (id_site, "Field") if 2 <= value <= 9 else (at, "Field")


def place_front(at, value):
    """The first byte of a place whose others are at most 5: at most 3B000005, and at least C5000000."""
    return field(at, value <= 0x3B or value >= 0xC5)


def size_second(at, value):
    """The second byte of a size whose others are at most 20: at most 0F0014."""
    return field(at, value <= 0x0F)


def label(at, text, behind, value):
    """The length of a label whose text stands at `text`, in front of so many bytes, which are no text."""
    if not value:
        return None
    if value > 64:
        return at, "Field"
    return (text, "Field") if value <= behind else (70, "Short")


def header(at, value):
    if at < 4:
        return 0, "Magic"
    if at == 4:
        return None if value == 2 else (40, "Check") if value == 7 else (4, "Version")
    return header_site(value) if at == 9 else sites(value) if at == 10 else None


# Of each byte of the two records that has a rule: its rule, and what that is handed in front of the value.
RULES = {
    17: (lambda value: field(12, value > 0),),
    18: (site, 18, 1),
    19: (number_front, 19),
    20: (number_end, 19),
    21: (tag, 21, 28, 22),
    22: (lambda value: field(22, 1 <= value <= 4),),
    23: (place_front, 23),
    27: (place_front, 27),
    31: (lambda value: field(31, value == 0),),
    32: (size_second, 31),
    35: (lambda value: field(35, value == 0),),
    36: (size_second, 35),
    39: (label, 39, 40, 30),
    46: (lambda value: field(41, value > 0),),
    47: (site, 47, 2),
    48: (number_front, 48),
    49: (number_end, 48),
    50: (tag, 50, 57, 52),
    51: (lambda value: field(51, 1 <= value <= 4),),
    52: (place_front, 52),
    56: (place_front, 56),
    60: (lambda value: field(60, value == 0),),
    61: (size_second, 60),
    64: (lambda value: field(64, value == 0),),
    65: (size_second, 64),
    68: (label, 68, 69, 1),
    69: (lambda value: (70, "Short") if value == 0xC3 else None,),
}
# How many shapes the log shows where that byte is changed and there is no fault: a changed gate ends it.
SHOWN = {11: 0, 40: 1}


def fault_at(at, value):
    """The first fault of the log with that byte changed to that value, or none."""
    if at < 11:
        return header(at, value)
    rule, *given = RULES.get(at, (lambda value: None,))
    return rule(*given, value)


def values_at(at):
    """The values that a byte is changed to: nine, and those on both sides of each edge at which the outcome is another."""
    outcomes = [fault_at(at, value) for value in range(256)]
    edges = {value + side for value in range(255) for side in (0, 1) if outcomes[value] != outcomes[value + 1]}
    return sorted((edges | {TIE[at] ^ change for change in CHANGES}) - {TIE[at]})


class Changes(Case):
    def test_a_changed_byte_is_found_or_leaves_as_many_shapes(self):
        rows = [(at, value) for at in range(len(TIE)) for value in values_at(at)]
        for (at, value), ended in zip(rows, at_a_time(run_program, [(["replay"], changed(TIE, [row])) for row in rows])):
            fault = fault_at(at, value)
            if fault:
                self.assertEqual((ended.text, ended.status), ("bad log at {}: {}\n".format(*fault), BAD_LOG), (at, value))
            else:
                self.assertEqual(ended.status, DONE, (at, value))
                last = f"end {SHOWN.get(at, 2)}\n"
                self.assertEqual(ended.text[-len(last):], last, (at, value))
