"""What a person is called: a whole name here, and as much of it as a node takes."""

import os
from pathlib import Path

# Bytes of UTF-8 of a name for people, and of the word that a node takes.
MOST_NAME, MOST_WORD = 64, 16
NO_BREAK = "\u00a0"


class BadName(Exception):
    """A text is no name. Its text says why."""


def is_control(letter):
    return letter < " " or "\x7f" <= letter <= "\x9f" or "\ud800" <= letter <= "\udfff"


def name_of(text):
    """The name that a text is, without spaces at its ends; it may be empty. Raises `BadName`."""
    if not isinstance(text, str) or any(is_control(letter) for letter in text):
        raise BadName("a name is text in one line")
    name = text.strip()
    if len(name.encode()) > MOST_NAME:
        raise BadName(f"a name has at most {MOST_NAME} bytes")
    return name


def word_of(name):
    """The word that the line `name` is given for a name: 1 to 16 bytes without a space, cut behind a whole character."""
    for space in (NO_BREAK, "_"):
        word = name.replace(" ", space)
        if len(word.encode()) <= MOST_WORD:
            return word or "-"
    return name.replace(" ", NO_BREAK).encode()[:MOST_WORD].decode(errors="ignore").rstrip(NO_BREAK) or "-"


def read_word(word):
    """The name that a word of `who` stands for, or none."""
    return None if word in (None, "-") else word.replace(NO_BREAK, " ")


class NameFile:
    """The file beside a journal in which the whole name is kept, for the next start."""

    def __init__(self, journal):
        self.path = Path(f"{journal}.name")

    def read(self):
        """The name that was kept, or an empty one."""
        try:
            return name_of(self.path.read_text(encoding="utf-8"))
        except (OSError, UnicodeDecodeError, BadName):
            return ""

    def write(self, name):
        """Keeps a name. Raises `OSError` where it can't be written."""
        new = Path(f"{self.path}.new")
        with open(os.open(new, os.O_WRONLY | os.O_CREAT | os.O_TRUNC, 0o600), "w", encoding="utf-8") as file:
            file.write(name)
        os.replace(new, self.path)
