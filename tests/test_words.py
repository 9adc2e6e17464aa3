"""The words of the command line: other spellings that ask for a command, and words that are refused."""

from tests.nodes import free_addresses, room
from tests.program import DONE, LINK_FAULT, NO_WORDS, USAGE, Case, run_program
from tests.worked import TIE, TIE_TEXT

USAGE_LINE = "usage: groupdesign COMMAND OPTIONS\n"
NODE = "node --session 7 --site 1 --journal j A B"
LARGEST = 2**64 - 1

# No command, and no form of one.
REFUSED = [
    [],
    [""],
    ["paint"],
    ["Replay"],
    ["upgrades"],
    ["replay", "replay"],
    ["replay", ""],
    ["replay", "--counts", "--counts"],
    ["replay", "--format", "xml"],
    ["replay", "--format"],
    ["replay", "--format", "text", "--format", "json"],
    ["replay", "--form", "text"],
    ["replay", "-c"],
    ["replay", "--counts=yes"],
    ["replay", "--upto-fault", "--upto-fault"],
    ["replay", "--upto"],
    ["upgrade", "--upto-fault"],
    ["board", "--upto-fault"],
    ["upgrade", "replay"],
    ["upgrade", "--counts"],
    ["snapshot", "--counts"],
    ["view", "replay"],
    ["board", "--format", "text"],
    ["board", "--counts", "--counts"],
    ["draw", "--demo", "2"],
    ["help", "paint"],
    ["help", "view", "board"],
    ["--version", "view"],
    ["replay", "--", "--help"],
    ["node", "--session", "7", "--site", "3", "--journal", "j", "A", "B"],
]

# What a node wants and doesn't get, what it gets twice, and what is out of range: the last row has 17 addresses.
REFUSED_NODES = [
    "node",
    "node --session 7 --site 1 --journal j",
    "node --session 7 --site 1 A B",
    "node --session 7 --journal j A B",
    "node --site 1 --journal j A B",
    "node --session 7 --session 7 --site 1 --journal j A B",
    "node --session 4294967296 --site 1 --journal j A B",
    "node --session -7 --site 1 --journal j A B",
    "node --session 7 --site 0 --journal j A B",
    "node --session 7 --site 1 --journal j A --B",
    "node --resume --session 7 --site 1 --journal j A B --resume",
    "node --resume=yes --session 7 --site 1 --journal j A B",
    "node --session 7 --site 1 --journal j" + " A" * 17,
    "node --sess 7 --site 1 --journal j A B",
    "node --session 7x --site 1 --journal j A B",
]

REFUSED_PLAYS = [
    "rehearse",
    "rehearse 2",
    "rehearse --sites 0",
    "rehearse --sites 17",
    "rehearse --sites +2",
    "rehearse --sites 2 --sites 2",
    "rehearse --site 2",
    "churn",
    "churn --seed 1",
    "churn --steps 1",
    "churn --seed 1 --steps 10001",
    f"churn --seed {LARGEST + 1} --steps 1",
    "churn --seed -1 --steps 1",
    f"churn --seed {LARGEST}0 --steps 1",
    f"churn --seed 0{LARGEST} --steps 0",
    "churn --seed 0 --steps 000000000000000000000",
]

NOTHING_CHURNED = (
    "".join(f"site {site} held 0 kept 0 line 0 clock 0\n" for site in range(1, 5))
    + "edits 0 refused 0 sent 12 delivered 12 idle 0\narrivals applied 0 dropped 0 reworked 0 undone 0\nsame yes\n"
)

TAKEN_PLAYS = [
    ("rehearse --sites 1", ""),
    ("rehearse --sites 16", ""),
    ("rehearse --sites=003", ""),
    ("churn --seed 0 --steps 0", NOTHING_CHURNED),
    (f"churn --steps 0 --seed {LARGEST}", NOTHING_CHURNED),
    ("churn --seed=00000000000000000001 --steps=00", NOTHING_CHURNED),
]


class Words(Case):
    def test_other_words_are_refused(self):
        self.expect_all([(words, TIE, USAGE, USAGE_LINE) for words in REFUSED])

    def test_other_forms_of_a_node_a_rehearsal_and_a_churn_are_refused(self):
        self.expect_all([(text.split(), b"", USAGE, USAGE_LINE) for text in REFUSED_NODES + REFUSED_PLAYS])

    def test_other_spellings_of_a_replay_are_taken(self):
        for text in ["replay", "replay --format text", "replay --format=text", "replay --upto-fault --format text", "replay --"]:
            self.expect(text.split(), TIE, DONE, TIE_TEXT)

    def test_other_spellings_of_rehearsals_and_churns_are_taken(self):
        self.expect_all([(text.split(), b"", DONE, printed) for text, printed in TAKEN_PLAYS])

    def test_other_spellings_of_a_node_are_taken(self):
        one, two = free_addresses(2)
        for text, sites in [
            (f"node --session 7 --site 1 --journal j {one} {two}", 2),
            (f"node {one} --site=1 --session 7 {two} --journal j", 2),
            (f"node --session 4294967295 --site 01 --journal=j {one} --", 1),
            (f"node --journal j --session=0 --site 1 -- {one} {two}", 2),
        ]:
            with self.subTest(text), room() as folder:
                ended = run_program(text.split(), b"", cwd=folder)
                self.assertEqual((ended.text, ended.status), (f"ready 1 of {sites}\n", DONE))
                self.assertTrue((folder / "j").is_file())

    # Words that are taken, of a node whose link can't be opened then.
    def test_what_stands_behind_the_options_is_an_address(self):
        for text in ["node --session 4294967295 --site 01 --journal= - --", "node --journal j --session=0 --site 1 -- --A B"]:
            self.expect(text.split(), b"", LINK_FAULT, "")

    # Each word counts: with the first one alone these would be no commands, or others.
    def test_words_that_are_no_text_end_the_run_with_13(self):
        for words in [[b"replay", b"\xff"], [b"\xff"], [b"\xc3"], [b"replay", b"--format", b"\xed\xa0\x80"]]:
            self.expect(words, TIE, NO_WORDS, "")
