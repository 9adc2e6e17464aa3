"""Typed and printed lines, against docs/LINES.md and docs/FORMATS.md."""

import unittest

from page.lines import (
    Refused, datagrams_of, is_older, item_of, last_of, meaning_of, news_of, note_of, notes_of, parted_of, standing_of, typed,
)


class Typed(unittest.TestCase):
    def refused(self, text, why):
        with self.assertRaises(Refused) as found:
            typed(text)
        self.assertEqual(str(found.exception), why, repr(text))

    def test_a_line_is_one_line(self):
        self.assertEqual(typed("text 1.1  a b "), b"text 1.1  a b ")
        self.assertEqual(typed("  move 1.1 5 5"), b"  move 1.1 5 5")
        self.assertEqual(typed("text 1.1 \u00e9\u2028\u0085"), "text 1.1 \u00e9\u2028\u0085".encode())

    def test_line_breaks_never_go_through(self):
        for text in ("text 1.1 a\nquit", "text 1.1 a\r", "\ntext 1.1 a", "text 1.1 a\n", "text 1.1 a\r\nquit", "\n", "\r"):
            self.refused(text, "BadLabel")

    def test_what_has_no_bytes_is_refused(self):
        self.refused("text 1.1 \ud800", "BadLabel")

    def test_the_longest_line(self):
        self.assertEqual(len(typed("text 1.1 " + "a" * 1015)), 1024)
        self.refused("text 1.1 " + "a" * 1016, "LongLine")
        self.refused("text 1.1 " + "\u00e9" * 508, "LongLine")

    def test_only_edits_turns_and_notes_go_through(self):
        for verb in ("create", "delete", "move", "resize", "stroke", "fill", "width", "text", "group", "ungroup"):
            self.assertEqual(typed(verb), verb.encode())
        for verb in ("raise", "lower", "undo", "redo", "name", "focus"):
            self.assertEqual(typed(verb), verb.encode())
        for text in ("", "   ", "begin", "end", "quit", " quit", "poll", "show", "who", "status", "Create", "\tundo", "undo\t", "Redo", "paint"):
            self.refused(text, "UnknownCommand")

    def test_what_is_no_text_is_refused(self):
        for wrong in (None, 1, ["undo"], {"line": "undo"}, True):
            self.refused(wrong, "UnknownCommand")


class Printed(unittest.TestCase):
    def test_a_shape(self):
        line = "ellipse 12.16 in 3.1 at -5 0 size 20 -7 stroke 00FFAA fill none width 64"
        wanted = {"kind": "ellipse", "id": "12.16", "in": "3.1", "at": [-5, 0], "size": [20, -7]}
        self.assertEqual(item_of(line), {**wanted, "stroke": "00FFAA", "fill": None, "width": 64, "label": ""})

    def test_a_label_is_all_that_follows_one_space(self):
        line = "text 1.1 in - at 0 0 size 9 9 stroke 000000 fill FFFFFF width 1 text  end 3  text x "
        item = item_of(line)
        self.assertEqual((item["label"], item["fill"], item["in"]), (" end 3  text x ", "FFFFFF", None))

    def test_a_group(self):
        self.assertEqual(item_of("group 3.1 in - at 4 -5"), {"kind": "group", "id": "3.1", "in": None, "at": [4, -5]})

    def test_a_node_that_has_parted_says_so_among_the_notes(self):
        answer = ["who 2 Ann focus -", "parted from 2 at 3", "parted from 3 at 1", "end 3"]
        self.assertEqual(notes_of(answer), [{"site": 2, "name": "Ann", "focus": None}])
        self.assertEqual(parted_of(answer), [2, 3])
        self.assertEqual(parted_of(["who 2 parted focus -", "end 1"]), [])
        rows = [("frame refused: OverAck 5 4", True), ("frame refused: Session", False), ("echo 1.2 applied text 1.1 frame refused: OverAck 5 4", False)]
        self.assertEqual([is_older(line) for line, _ in rows], [older for _, older in rows])
        standing = standing_of("held 3 kept 0 line 3 clock 3 parted 2")
        self.assertEqual(standing, {"held": 3, "kept": 0, "line": 3, "clock": 3, "parted": 2})

    def test_notes_and_numbers(self):
        self.assertEqual(note_of("who 2 Ada focus 1.1"), {"site": 2, "name": "Ada", "focus": "1.1"})
        self.assertEqual(note_of("who 16 - focus -"), {"site": 16, "name": None, "focus": None})
        standing = {"held": 8, "kept": 1, "line": 7, "clock": 12}
        self.assertEqual(standing_of("held 8 kept 1 line 7 clock 12"), standing)
        self.assertEqual(datagrams_of("polled 3"), 3)
        self.assertEqual(datagrams_of("link fault after 2"), 2)

    def test_what_a_poll_says(self):
        rows = {
            "echo 1.2 applied move 1.1 5 -5": {"what": "applied", "event": "1.2", "line": "move 1.1 5 -5"},
            "echo 7.2 dropped by 9.1 text 1.1  a b ": {"what": "dropped", "event": "7.2", "by": "9.1", "line": "text 1.1  a b "},
            "echo 8.2 reworked 17 rerank 1.1 high 1.1": {"what": "reworked", "event": "8.2", "count": 17, "line": "rerank 1.1 high 1.1"},
            "echo 9.2 applied text 1.1 dropped by \u2028\u0085": {"what": "applied", "event": "9.2", "line": "text 1.1 dropped by \u2028\u0085"},
        }
        for line, wanted in rows.items():
            self.assertEqual(news_of(line), wanted)
        for line in ("event 1.2 refused: Backdated 1 3", "frame refused: Short at 0", "frame refused: Session"):
            self.assertEqual(news_of(line), {"what": "said", "line": line})

    def test_where_answers_end(self):
        self.assertEqual(last_of(b"show"), (b"end ",))
        self.assertEqual(last_of(b"  who "), (b"end ",))
        self.assertEqual(last_of(b"poll"), (b"polled ", b"link fault "))
        self.assertEqual(last_of(b"text 1.1 show"), (b"",))
        self.assertEqual(last_of(b"begin\ntext 1.1 show\nshow\nend"), (b"end ",))
        for verb in (b"undo", b" redo "):
            self.assertEqual(last_of(verb), (b"end ", b"refused: "))

    def test_each_status_of_a_node_has_a_meaning(self):
        meanings = [meaning_of(status) for status in (0, 2, 3, 4, 5, 6, 7, 8, 9, 11, 13)]
        self.assertEqual(len(set(meanings)), 11)
        self.assertNotIn(meaning_of(1), meanings)
        self.assertEqual(meaning_of(-9), "it was ended by signal 9")
