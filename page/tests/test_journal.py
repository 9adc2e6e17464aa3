"""The reader of journals, on the logs that docs/FORMATS.md writes down byte by byte (sections 1, 2 and 6)."""

from page.journal import BadJournal, Journal
from page.tests.logs import create, header, log, record, stamp
from page.tests.places import WithFolder

HEAD = "47 44 4F 4C 01 00 00 00 07 01 02"
# The worked log, its records each behind its gate, and what it says.
WORKED = [
    "C3 00 00 00 00 00 01 02 00 01 01 01 00 00 00 05 00 00 00 05 00 00 00 0A 00 00 00 0A 00",
    "C3 00 00 00 00 00 01 01 00 01 01 02 00 00 00 00 00 00 00 00 00 00 00 14 00 00 00 14 00",
]
MADE = [
    {"id": "1.2", "clock": 1, "site": 2, "seq": 1, "op": "create", "h": 10, "kind": "rect", "label": "", "w": 10, "x": 5, "y": 5},
    {"id": "1.1", "clock": 1, "site": 1, "seq": 1, "op": "create", "h": 20, "kind": "ellipse", "label": "", "w": 20, "x": 0, "y": 0},
]
# A look, record by record.
LOOK = {
    "00 00 00 00 00 02 01 00 02 04 00 00 00 00 00 01 01 FF FF FF FB 00 00 00 1E": {"op": "resize", "target": "1.1", "w": -5, "h": 30},
    "00 00 00 00 00 03 01 00 03 05 00 00 00 00 00 01 01 01 00 00 AB 0C": {"op": "restyle", "target": "1.1", "stroke": "00AB0C"},
    "00 00 00 00 00 04 01 00 04 05 00 00 00 00 00 01 01 02 00 FF 80 00": {"op": "restyle", "target": "1.1", "fill": "FF8000"},
    "00 00 00 00 00 05 01 00 05 05 00 00 00 00 00 01 01 03 00 00 00 40": {"op": "restyle", "target": "1.1", "width": 64},
    "00 00 00 00 00 06 01 00 06 06 00 00 00 00 00 01 01 05 63 61 66 C3 A9": {"op": "retext", "target": "1.1", "label": "caf\u00e9"},
    "00 00 00 00 00 07 01 00 07 05 00 00 00 00 00 01 02 02 FF FF FF FF": {"op": "restyle", "target": "1.2", "fill": None},
}
GROUP = (
    "00 00 00 00 00 03 01 00 01 07 02 00 00 00 00 00 01 02 00 00 00 05 FF FF FF F9"
    "00 00 00 00 00 02 01 3B 9A CA 00 C4 65 36 00"
)
MEMBERS = [{"dx": 5, "dy": -7, "id": "1.2"}, {"dx": 1_000_000_000, "dy": -1_000_000_000, "id": "2.1"}]
# An ellipse in a group, which has none to tie, and a dissolved group, which lies low and ties two others; what takes a group
# away, and gives its two members their links; and a rank.
ELLIPSE = "02 FFFFFFFB 00000006 00000014 0000001E 0000AB0C 00FF8000 40 01 02 00000008 32 0018 03 02 C3A9 00"
PLAIN = "05 00000001 00000002 00000000 00000000 00000000 FFFFFFFF 01 00 00 FFFFFFFF 64 0000 00 00 00"
TIES = "02 000000000001 01 00 000000000002 01 01 000000000004 01 00000005 FFFFFFF9"
TIED = [{"id": "1.1", "link": None}, {"id": "2.1", "link": {"dx": 5, "dy": -7, "id": "4.1"}}]
SEEN = {"at": [-5, 6], "size": [20, 30], "stroke": "00AB0C", "fill": "FF8000", "width": 64, "label": "\u00e9", "dissolved": False,
        "dash": "dashed", "heads": "start", "round": 8, "opacity": 50, "letters": 24, "align": "end"}
BARE = {"at": [1, 2], "size": [0, 0], "stroke": "000000", "fill": None, "width": 1, "label": "", "link": None, "dissolved": True}
TURNED = [
    (11, f"000000000001 02 {ELLIPSE} 01 000000000003 01 00000001 FFFFFFFF 00 01 000000000002 02 00",
     {"op": "restore", "target": "1.2", "kind": "ellipse", **SEEN, "link": {"dx": 1, "dy": -1, "id": "3.1"}, "rank": {"high": "2.2"}, "ties": []}),
    (11, f"000000000003 01 {PLAIN} 00 01 00 000000000005 02 {TIES}",
     {"op": "restore", "target": "3.1", "kind": "group", **BARE, "rank": {"low": "5.2"}, "ties": TIED}),
    (12, f"000000000003 01 {TIES}", {"op": "disband", "target": "3.1", "ties": TIED}),
    (13, "000000000003 01 00 000000000005 02", {"op": "rerank", "target": "3.1", "rank": {"low": "5.2"}}),
    (15, "000000000003 01 00 00 00 01 01 00 00 01 32 00 01 00", {"op": "restyle", "target": "3.1", "dash": "dashed", "opacity": 50, "align": None}),
    (16, "000000000001 02 000000000003 01 03 61 0A 62", {"op": "connect", "from": "1.2", "to": "3.1", "label": "a\nb"}),
    (17, "000000000005 01 000000000003 01 000000000001 02", {"op": "reconnect", "target": "5.1", "from": "3.1", "to": "1.2"}),
]


def bare(event):
    """What an event did, without what tells which one it is."""
    return {key: value for key, value in event.items() if key not in ("id", "clock", "site", "seq")}


class Reading(WithFolder):
    def events(self, data):
        self.journal.write_bytes(data)
        return Journal(self.journal).read_on()

    def test_the_worked_log(self):
        self.assertEqual(self.events(bytes.fromhex(HEAD + "".join(WORKED) + "00")), MADE)

    def test_each_version_reads_alike(self):
        data = bytearray(bytes.fromhex(HEAD + "".join(WORKED) + "00"))
        for version in (1, 2):
            data[4] = version
            self.assertEqual(self.events(data), MADE)
        records = [bytes.fromhex(each)[1:] for each in WORKED]
        data = log(header(), *records)
        self.assertEqual(data[40:44], bytes.fromhex("4F 60 36 53"))
        self.assertEqual(self.events(data), MADE)

    def test_a_look(self):
        for bytes_of, wanted in LOOK.items():
            (event,) = self.events(log(header(), bytes.fromhex(bytes_of)))
            self.assertEqual(bare(event), wanted)

    def test_a_group_and_its_end(self):
        end = "00 00 00 00 00 04 02 00 01 08 00 00 00 00 00 03 01"
        made, ended = self.events(log(header(), bytes.fromhex(GROUP), bytes.fromhex(end)))
        self.assertEqual(bare(made), {"op": "group", "members": MEMBERS})
        self.assertEqual((ended["id"], bare(ended)), ("4.2", {"op": "ungroup", "target": "3.1"}))

    def test_what_an_undo_makes(self):
        for tag, body, wanted in TURNED:
            (event,) = self.events(log(header(), record("9.1", 1, tag, bytes.fromhex(body))))
            self.assertEqual(bare(event), wanted)

    def test_the_operations_with_an_id_alone(self):
        for tag, name in ((2, "delete"), (8, "ungroup"), (9, "raise"), (10, "lower"), (14, "reopen")):
            (event,) = self.events(log(header(), record("9.1", 1, tag, stamp("281474976710655.16"))))
            self.assertEqual(bare(event), {"op": name, "target": "281474976710655.16"})

    def test_a_move_and_the_ends_of_the_ranges(self):
        body = stamp("1.1") + bytes.fromhex("C4653600 3B9ACA00")
        (event,) = self.events(log(header(), record("281474976710655.16", 65_535, 3, body)))
        wanted = {"id": "281474976710655.16", "clock": 281_474_976_710_655, "site": 16, "seq": 65_535, "op": "move", "target": "1.1"}
        self.assertEqual(event, {**wanted, "x": -1_000_000_000, "y": 1_000_000_000})

    def test_the_longest_label(self):
        (event,) = self.events(log(header(), create("1.1", 1, "text", 0, 0, 1, 1, "\u05d0" * 100)))
        self.assertEqual(event["label"], "\u05d0" * 100)

    def test_what_stands_behind_the_gate_that_ends_it_isn_t_read(self):
        more = b"\xc3" + create("2.1", 2, "rect", 0, 0, 1, 1)
        self.assertEqual(len(self.events(log(header(), create("1.1", 1, "rect", 0, 0, 1, 1)) + more)), 1)


class ReadingOn(WithFolder):
    def test_each_event_comes_once_however_the_file_grows(self):
        records = [bytes.fromhex(each) for each in LOOK] + [bytes.fromhex(GROUP)]
        records += [record("9.1", 8 + at, tag, bytes.fromhex(body)) for at, (tag, body, _) in enumerate(TURNED)]
        whole = log(header(), *records)
        journal, found = Journal(self.journal), []
        self.assertEqual(journal.read_on(), [])
        for cut in range(len(whole) + 1):
            self.journal.write_bytes(whole[:cut])
            found += journal.read_on()
        self.assertEqual([event["seq"] for event in found], [2, 3, 4, 5, 6, 7, 1, *range(8, 15)])
        self.assertEqual(bare(found[6]), {"op": "group", "members": MEMBERS})
        self.assertEqual([bare(event) for event in found[7:]], [wanted for _, _, wanted in TURNED])

    def test_it_grows_as_a_node_writes_it(self):
        first, second = (create(f"{clock}.1", clock, "rect", clock, 0, 1, 1) for clock in (1, 2))
        self.journal.write_bytes(log(header(), first))
        journal = Journal(self.journal)
        self.assertEqual([event["id"] for event in journal.read_on()], ["1.1"])
        gate = self.journal.stat().st_size - 1
        with open(self.journal, "r+b") as file:
            # The event and a closed gate behind it, and then the gate in front of it is opened.
            file.seek(gate + 1)
            file.write(log(header(), first, second)[gate + 1 :])
            file.flush()
            self.assertEqual(journal.read_on(), [])
            file.seek(gate)
            file.write(b"\xc3")
        self.assertEqual([event["id"] for event in journal.read_on()], ["2.1"])
        self.assertEqual(journal.read_on(), [])

    def test_what_was_read_isn_t_read_again(self):
        first, second = (create(f"{clock}.1", clock, "rect", 0, 0, 1, 1) for clock in (1, 2))
        self.journal.write_bytes(log(header(), first, gate=b""))
        journal = Journal(self.journal)
        journal.read_on()
        with open(self.journal, "r+b") as file:
            size = self.journal.stat().st_size
            file.write(b"\xff" * size)
            file.write(log(header(), first, second, gate=b"")[size:])
        self.assertEqual([event["id"] for event in journal.read_on()], ["2.1"])


class Faults(WithFolder):
    def test_what_is_no_log_is_told_each_time(self):
        made = create("1.1", 1, "rect", 0, 0, 1, 1)
        rows = {
            "another magic": b"GDOB" + header()[4:] + b"\x00",
            "version four": header(version=4) + b"\x00",
            "a flipped bit of version three": header(version=3) + b"\x00",
            "no such tag": log(header(), record("1.1", 1, 18, stamp("1.1"))),
            "no such height": log(header(), record("2.1", 1, 13, stamp("1.1") + b"\x02" + stamp("1.1"))),
            "no such kind": log(header(), made[:10] + b"\x05" + made[11:]),
            "no such style": log(header(), record("2.1", 1, 5, stamp("1.1") + b"\x04\x00\x00\x00\x00")),
            "a label of no UTF-8": log(header(), record("2.1", 1, 6, stamp("1.1") + b"\x01\xff")),
        }
        for name, data in rows.items():
            self.journal.write_bytes(data)
            journal = Journal(self.journal)
            for _ in range(2):
                with self.assertRaises(BadJournal, msg=name):
                    journal.read_on()
