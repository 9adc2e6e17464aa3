"""Typed lines of any bytes, at a node and in a rehearsal: each fault of each command, and what each word is read as."""

from tests.nodes import answered
from tests.program import DONE, Case, at_a_time
from tests.tables import dialogues
from tests.test_rehearsals import rehearse


def spelled(text):
    """The bytes of a table's text: what is no printed ASCII, and a space at an end, stands there as `\\xNN` or `\\r`."""
    return text.encode("ascii").decode("unicode_escape").encode("latin-1")


class Lines(Case):
    # Each table is the dialogue of one node, the last of its sites.
    def test_lines_of_a_node(self):
        rows = list(dialogues("lines.txt"))
        nodes = at_a_time(answered, [((sites, sites), spelled(typed)) for _, sites, typed, _ in rows])
        for (name, sites, _, printed), node in zip(rows, nodes):
            text = f"ready {sites} of {sites}\n" + spelled(printed).decode()
            self.assertEqual((node.text, node.status), (text, DONE), name)

    def test_lines_of_a_rehearsal(self):
        self.expect_all([
            (rehearse(sites), spelled(typed), DONE, spelled(printed))
            for _, sites, typed, printed in dialogues("scripts.txt")
        ])

    # A CR at the end is none of the 1,024 bytes, and only one is taken off.
    def test_a_line_has_at_most_1024_bytes(self):
        spaces, letters = b" " * 1_024, b"x" + b" " * 1_023
        long, unknown = "refused: LongLine\n", "refused: UnknownCommand\n"
        rows = [
            (spaces, ""), (spaces + b" ", long), (spaces + b"\r", ""), (spaces + b"\r\r", long), (letters, unknown),
            (letters + b"\r", unknown), (letters + b"\r\r", long),
        ]
        typed = b"".join(line + b"\n" for line, _ in rows)
        printed = "".join(answer for _, answer in rows)
        self.assertEqual(answered((1, 1), typed).text, f"ready 1 of 1\n{printed}")
        self.expect(rehearse(1), typed, DONE, printed)
