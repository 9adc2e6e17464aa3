"""Names for people, and as much of them as a node takes."""

import stat
import unittest

from page.names import BadName, NameFile, name_of, read_word, word_of
from page.tests.places import WithFolder


class Names(unittest.TestCase):
    def test_which_texts_are_names(self):
        for text in ("Ada", "Ada Lovelace", "\u0410\u043b\u0435\u043a\u0441\u0430\u043d\u0434\u0440", "\U0001f642" * 16, "a" * 64, ""):
            self.assertEqual(name_of(f"  {text} "), text)
        for text in ("a" * 65, "\u00e9" * 33, "a\nb", "a\tb", "\x7f", "a\x85b", "\ud800", None, 5, ["a"]):
            with self.assertRaises(BadName, msg=repr(text)):
                name_of(text)

    def test_the_word_has_16_bytes_and_no_space(self):
        rows = {
            "Ada": "Ada",
            "Ada Lovelace": "Ada\u00a0Lovelace",
            "Ada B Lovelace X": "Ada_B_Lovelace_X",
            "Ada Lovelace the first": "Ada\u00a0Lovelace\u00a0t",
            "\u0410\u043b\u0435\u043a\u0441\u0430\u043d\u0434\u0440\u0430": "\u0410\u043b\u0435\u043a\u0441\u0430\u043d\u0434",
            "\u5c71\u7530\u592a\u90ce\u3055\u3093": "\u5c71\u7530\u592a\u90ce\u3055",
            "\U0001f642" * 5: "\U0001f642" * 4,
            "Ada Lovelace 1 2": "Ada_Lovelace_1_2",
            "": "-",
        }
        for name, word in rows.items():
            self.assertEqual(word_of(name), word)
            self.assertTrue(1 <= len(word.encode()) <= 16 and " " not in word)

    def test_a_word_is_read_as_the_name(self):
        self.assertEqual(read_word("Ada\u00a0Lovelace"), "Ada Lovelace")
        self.assertEqual((read_word("-"), read_word(None)), (None, None))


class Kept(WithFolder):
    def test_a_name_outlives_a_start_and_is_for_this_user_alone(self):
        kept = NameFile(self.journal)
        self.assertEqual(kept.read(), "")
        for name in ("Ada Lovelace the first of all", "\u5c71\u7530", ""):
            kept.write(name)
            self.assertEqual(NameFile(self.journal).read(), name)
        self.assertEqual(stat.S_IMODE(self.beside("name").stat().st_mode), 0o600)

    def test_a_file_with_something_else_is_no_name(self):
        for data in (b"\xff\xfe", b"a\nb", b"a" * 65):
            self.beside("name").write_bytes(data)
            self.assertEqual(NameFile(self.journal).read(), "")
