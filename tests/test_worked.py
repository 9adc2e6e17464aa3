"""What the pages work out, read off the pages and run: the changed logs and frames, the look, the group, JSON, a churn, the snapshot
and the view of docs/FORMATS.md, and the words and refusals of docs/LINES.md."""

import re

from tests.echoes import words
from tests.nodes import answered
from tests.pages import blocks_of, lines_of, quoted, rows_of
from tests.program import BAD_LOG, DONE, Case, run_program
from tests.spelled import PLAIN, body_of, changed, checked, frame, header, item
from tests.worked import CHECKED_TIE, FRAME, RECT_LINE, TIE, TIE_SNAPSHOT, TIE_TEXT

FORMATS, LINES = "docs/FORMATS.md", "docs/LINES.md"
FRONT = 11


def hex_of(text):
    return bytes.fromhex(text)


def changed_by(given, words):
    """These bytes with the change that a row tells in words."""
    if whole := re.search(r"first (\d+) bytes", words):
        front = given[: int(whole[1])]
        if then := re.search(r"and then `([^`]*)`", words):
            front += hex_of(then[1])
        if one := re.search(r"byte (\d+) as `(\w\w)`", words):
            front = changed(front, [(int(one[1]), int(one[2], 16))])
        return front
    if "a byte is added" in words:
        return given + b"\0"
    at, *others = map(int, re.findall(r"\d+", words.split("`")[0]))
    values = hex_of(quoted(words)[0])
    if "bytes" in words and " to " not in words.split("`")[0]:
        return changed(given, [(place, value) for place, value in zip([at, *others], values * len([at, *others]))])
    return changed(given, list(enumerate(values, at)))


def block_with(page, line):
    """The one block of a page that begins so, as text."""
    (block,) = [block for block in blocks_of(page) if block and block[0].startswith(line)]
    return "".join(f"{each}\n" for each in block if each)


class Formats(Case):
    def table(self, *heads):
        (rows,) = rows_of(FORMATS, *heads)
        return rows

    def test_the_worked_log_prints_its_block(self):
        self.assertEqual(block_with(FORMATS, "ellipse 1.1 in - at 0 0 size 20 20"), TIE_TEXT)
        self.expect(["replay"], TIE, DONE, TIE_TEXT)

    def test_changed_logs(self):
        rows = self.table("Change", "Outcome")
        self.assertGreater(len(rows), 8)
        for change, outcome in rows:
            given = changed_by(TIE, change)
            if outcome.startswith("no events"):
                self.expect_all([(["replay"], each, DONE, "end 0\n") for each in (given, given + b"\0")])
            else:
                why, _, at = outcome.split(" ")[:3]
                self.expect(["replay"], given, BAD_LOG, f"bad log at {at}: {why}\n")

    # In version three, with checks.
    def test_changed_checks_and_gates(self):
        rows = self.table("Byte", "Set to", "Outcome")
        self.assertGreater(len(rows), 4)
        for byte, value, outcome in rows:
            given = changed(CHECKED_TIE, [(int(re.match(r"\d+", byte)[0]), int(quoted(value)[0], 16))])
            why, at = re.match(r"(\w+) at (\d+)", outcome).groups()
            self.expect(["replay"], given, BAD_LOG, f"bad log at {at}: {why}\n")
            if "--upto-fault" in outcome:
                self.expect(["replay", "--upto-fault"], given, BAD_LOG, f"{RECT_LINE}end 1\nbad log at {at}: {why}\n")

    def test_the_look(self):
        rows = self.table("Place", "Record", "Meaning")
        log = header(version=1) + b"".join(b"\xC3" + hex_of(quoted(row[1])[0]) for row in rows) + b"\0"
        for place, record, _ in rows:
            self.assertEqual(log[int(place) :][: len(hex_of(quoted(record)[0]))], hex_of(quoted(record)[0]))
        self.assertEqual(len(log), 183)
        self.expect(["replay"], log, DONE, block_with(FORMATS, "ellipse 1.1 in - at 0 0 size -5 30"))

    def test_the_connector(self):
        rows = self.table("Place", "Record", "Check", "Meaning")
        records = [hex_of(quoted(row[1])[0]) + hex_of(quoted(row[2])[0]) for row in rows]
        log = header() + b"".join(b"\xC3" + record for record in records) + b"\0"
        for (place, *_), record in zip(rows, records):
            self.assertEqual(log[int(place) :][: len(record)], record)
        self.assertEqual(len(log), 239)
        first = "rect 1.1 in - at 0 0 size 10 10 stroke 000000 fill none width 1 dash dashed"
        self.expect(["replay"], log, DONE, block_with(FORMATS, first))

    # The group's members aren't there, and its end dissolves it.
    def test_the_group(self):
        for table in rows_of(FORMATS, "Place", "Bytes", "Meaning"):
            record = hex_of("".join("".join(quoted(row[1])) for row in table))
            if record[7:10] == b"\0\x01\x07":
                break
        else:
            self.fail("no record of a group")
        text = "\n".join(lines_of(FORMATS))
        end = hex_of(re.search(r"`([0-9A-F ]+)`: 4\.2, the first event of site 2, dissolves", text)[1])
        log = header(version=1) + b"\xC3" + record
        self.expect(["replay"], log, DONE, "group 3.1 in - at 0 0\nend 1\n")
        self.expect(["replay"], log + b"\xC3" + end + b"\0", DONE, "end 0\n")
        members = '{"dx":5,"dy":-7,"id":"1.2"},{"dx":1000000000,"dy":-1000000000,"id":"2.1"}'
        self.assertIn(members, run_program(["replay", "--format", "events"], log).text)

    # The changes of the first table are of a whole frame, and those of the second one are followed by their checksum.
    def test_changed_frames(self):
        rows = [(changed_by(FRAME, change), why) for change, why in self.table("Change of the 68 bytes", "Refused as")]
        behind = self.table("Change of the first 64 bytes", "Refused as")
        rows += [(checked(changed_by(body_of(FRAME), change)), why) for change, why in behind]
        self.assertGreater(len(rows), 16)
        for datagram, why in rows:
            why = re.sub(r" \(.*", "", why)
            node = answered((1, 2), "poll\n", [datagram])
            self.assertEqual(node.text, f"ready 1 of 2\nframe refused: {why}\npolled 1\n", datagram.hex())

    def test_the_lines_of_json(self):
        shape, event = block_with(FORMATS, '{"at":[5,5]').splitlines()
        self.assertIn(shape, run_program(["replay", "--format", "json"], TIE).text)
        self.assertIn(event, run_program(["replay", "--format", "events"], TIE).text)

    # The steps of a churn, played by their lines: what a delivery takes stands in front of its own end.
    def test_the_steps_of_a_churn(self):
        rows = [row for row in self.table("Site", "Number", "Line", "Answer") if quoted(row[2])]
        lines, answers = [quoted(row[2])[0] for row in rows], [answer for row in rows for answer in quoted(row[3])]
        typed = [line if line.split()[0] in ("send", "deliver") else f"at {row[0]} {line}" for row, line in zip(rows, lines)]
        ended = run_program(["rehearse", "--sites", "4"], "".join(f"{line}\n" for line in typed).encode())
        printed = [line for line in ended.text.splitlines() if not line.startswith("delivered ")]
        self.assertEqual((printed, ended.status), (answers, DONE))
        self.assertGreater(len(rows), 6)

    def test_what_churns_print(self):
        text = " ".join(lines_of(FORMATS))
        steps = "churn --seed 224141972 --steps 8"
        for words, sentence in [
            ("churn --seed 1 --steps 0", text[text.index("`churn --seed 1 --steps 0` prints") :][:300]),
            (steps, text[text.index("and it prints `held 6") :][:300]),
        ]:
            said = quoted(sentence.removeprefix(f"`{words}` prints"))[:4]
            lines = [f"site {site} {said[0]}" for site in range(1, 5)] + said[1:]
            self.assertEqual(run_program(words.split()).text.splitlines(), lines)

    # A word behind some bytes says that they stand there twice.
    def test_the_snapshot(self):
        pieces = b""
        for cell, _ in self.table("Bytes", "What"):
            for part, twice in re.findall(r"`([0-9A-F ]+)`( twice)?", cell):
                pieces += hex_of(part) * (2 if twice else 1)
        self.assertEqual(pieces, TIE_SNAPSHOT)
        self.expect(["snapshot"], TIE, DONE, pieces)

    def test_the_view(self):
        moved = item(frame([((2, 2), 2, ("move", (1, 1), 7, 8))]))
        self.assertEqual((len(moved), moved[:2]), (67, b"\0\x41"))
        self.expect(["view"], TIE_SNAPSHOT + moved, DONE, block_with(FORMATS, "echo 2.2 applied move 1.1 7 8"))


class Lines(Case):
    # A label of each row is given to a text, and `show` prints it at the end of its line.
    def test_labels(self):
        (rows,) = rows_of(LINES, "Line", "Label")
        for typed, label in rows:
            line = re.search(r"`([^`]*)`", typed)[1]
            wanted = "" if label == "empty" else re.sub(r"`([^`]*)`", r"\1", label)
            wanted = wanted.replace("a space, ", " ").replace(", a space", " ")
            given = f"at 1 create rect 0 0 1 1 x\nat 1 {line}\nat 1 show\n"
            shown = run_program(["rehearse", "--sites", "1"], given.encode()).text.splitlines()[2]
            self.assertEqual(shown.partition("width 1")[2], f" text {wanted}" if wanted else "", line)

    # Two objects are there, 1.1 and 2.1; the examples name others, or one of them twice. What waits is refused at its end.
    def test_refusals(self):
        (rows,) = rows_of(LINES, "WHY", "When", "Example")
        found = [(row[0], quoted(row[2])) for row in rows if quoted(row[2])]
        self.assertGreater(len(found), 3)
        for why, lines in found:
            typed = ["create rect 0 0 1 1"] * 2 + lines + ["end"] * (lines[0] == "begin")
            end = "end 1\n" if lines[0] == "begin" else ""
            printed = f"ready 1 of 1\nok 1.1\nok 2.1\nrefused: {why}\n{end}"
            self.assertEqual(answered((1, 1), "".join(f"{line}\n" for line in typed)).text, printed, why)

    # Each echo of the table ends with the words of its operation.
    def test_echoes(self):
        (rows,) = rows_of(LINES, "Echo", "What it says")
        ops = {
            "4.1": ("move", (1, 1), 5, 5), "7.1": ("text", (1, 1), "Hi"), "8.1": ("group", ((1, 1), 0, 0), ((2, 1), 5, 5)),
            "9.1": ("disband", (3, 1), ((1, 1), None), ((2, 1), ((4, 1), 5, 5))),
            "16.2": ("restore", (1, 2), ("rect", 1, 2, -3, 4, 0, 0xFF00, 7, *PLAIN, "Hi", None, None, False, ("low", (14, 2)))),
        }
        self.assertEqual(len(rows), len(ops))
        for cell, _ in rows:
            (echo,) = quoted(cell)
            self.assertTrue(echo.endswith(f" {words(ops[echo.split(' ')[1]])}"), echo)

    def test_faults_of_a_rehearsal(self):
        (rows,) = [rows for rows in rows_of(LINES, "Line", "Fault") if "`at`, `at 1`" in rows[0][0]]
        for cell, fault in rows:
            why = re.match(r"\w+", fault)[0]
            for line in quoted(cell):
                self.expect(["rehearse", "--sites", "2"], f"{line}\n".encode(), DONE, f"refused: {why}\n")
