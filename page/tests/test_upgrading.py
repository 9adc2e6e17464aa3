"""A journal of an older version, written anew before a node goes on from it."""

import json

from page.tests.desks import WithDesk
from page.tests.logs import create, header, log
from page.tests.places import STAND_IN, WithFolder
from page.upgrading import upgrade

MADE = create("1.1", 1, "rect", 0, 0, 1, 1)


class Upgrading(WithFolder):
    def left(self):
        """The files beside the journal, and what they have."""
        return {path.name.removeprefix(self.journal.name): path.read_bytes() for path in self.journal.parent.glob(f"{self.journal.name}*")}

    def test_an_older_one_is_written_anew_and_kept_beside(self):
        for version in (1, 2):
            old, new = log(header(version=version), MADE), log(header(), MADE)
            self.journal.write_bytes(old)
            upgrade(STAND_IN, self.journal)
            self.assertEqual((self.journal.read_bytes(), self.left()[f".v{version}"]), (new, old))
            self.assertEqual(self.journal.stat().st_mode & 0o777, 0o600)
            # Once that is done it is the newest.
            upgrade("/bin/false", self.journal)
            self.assertEqual(self.journal.read_bytes(), new)

    def test_what_is_kept_beside_stays(self):
        self.journal.write_bytes(log(header(version=2), MADE))
        kept = self.journal.with_name(f"{self.journal.name}.v2")
        kept.write_bytes(b"from before")
        upgrade(STAND_IN, self.journal)
        self.assertEqual(self.left(), {"": log(header(), MADE), ".v2": b"from before"})

    def test_what_is_none_stays_as_it_is(self):
        for data in (log(header(), MADE), header(version=3), header(version=4), b"GDOB" + header()[4:], b"GDO", b""):
            self.journal.write_bytes(data)
            upgrade(STAND_IN, self.journal)
            self.assertEqual(self.left(), {"": data})

    def test_where_the_program_can_t_all_stays_as_it_is(self):
        old = log(header(version=2), MADE)[:-2]
        self.journal.write_bytes(old)
        upgrade("/bin/false", self.journal)
        self.assertEqual(self.left(), {"": old})


class Going(WithDesk):
    async def test_a_desk_goes_on_from_an_older_journal(self):
        self.journal.write_bytes(log(header(version=2), MADE))
        desk = await self.desk()
        self.assertIn("--resume", json.loads(self.beside("words").read_text()))
        self.assertEqual(self.journal.read_bytes(), log(header(), MADE))
        self.assertEqual([event["id"] for event in self.opened(desk)["history"]["events"]], ["1.1"])
