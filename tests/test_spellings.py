"""Words of a node at the edges of what they may be: the greatest session, sixteen addresses, zeros in front."""

from tests.nodes import free_addresses, room
from tests.program import DONE, LINK_FAULT, USAGE, Case, run_program
from tests.spelled import log
from tests.test_words import USAGE_LINE

REFUSED = [
    "node --session 4294967296 --site 1 --journal j A",
    "node --session -1 --site 1 --journal j A",
    "node --session 7 --site 0 --journal j A",
    "node --session 7 --site 2 --journal j A",
    "node --session= --site 1 --journal j A",
    "node --session 7 --site 16 --journal j A B C D E F G H I J K L M N O P Q",
]
# Words in front of as many addresses, and what they ask for: a session and a site.
TAKEN = [
    ("node --session 4294967295 --site 1 --journal j", 1, 4294967295, 1),
    ("node --session 007 --site=01 --journal j --", 1, 7, 1),
    ("node --session 7 --site 16 --journal j", 16, 7, 16),
]


class Spellings(Case):
    def test_words_that_are_out_of_range_are_refused(self):
        self.expect_all([(text.split(), b"", USAGE, USAGE_LINE) for text in REFUSED])

    def test_words_at_the_edges_are_taken(self):
        for text, sites, session, site in TAKEN:
            with self.subTest(text), room() as folder:
                ended = run_program([*text.split(), *free_addresses(sites)], cwd=folder)
                self.assertEqual((ended.text, ended.status), (f"ready {site} of {sites}\n", DONE))
                self.assertEqual((folder / "j").read_bytes(), log([], site=site, sites=sites, session=session))

    # They are taken, and the link can't be opened: no address begins so.
    def test_behind_two_dashes_each_word_is_an_address(self):
        self.expect("node --session 007 --site=01 --journal j -- -A".split(), b"", LINK_FAULT, "")
