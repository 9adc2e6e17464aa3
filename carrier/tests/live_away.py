"""Members who are there at different times, and journals that aren't the newest."""

import shutil

from carrier.heads import signed
from carrier.broker import topic
from carrier.tests.members import Member, WithMembers
from page.tests.places import until


class Away(WithMembers):
    async def test_two_who_never_meet_get_each_other_s_edits_through_a_third(self):
        ana, cem = await self.sit(1, 3)
        await ana.draw(*[f"create rect {count} 0 5 5 a{count}" for count in range(120)])
        await cem.draw("create rect 0 0 5 5 by Cem")
        await self.same([ana, cem], 121)
        await ana.leave()
        await until(lambda: cem.standing.heads.proved[1].count == 120, what="the last head of Ana")
        (ben,) = await self.sit(2)
        shown = await self.same([ben, cem], 121)
        self.assertIn("a119", shown)
        await ben.draw("move 1.1 7 7", "create rect 0 0 5 5 by Ben")
        await self.same([ben, cem], 123)
        await ben.leave()
        await until(lambda: cem.standing.heads.proved[2].count == 2, what="the last head of Ben")
        (again,) = await self.sit(1)
        self.assertIn("by Ben", await self.same([again, cem], 123))
        self.assertFalse(cem.standing.heads.liars | again.standing.heads.liars)


class Stories(WithMembers):
    async def test_an_older_journal_is_refused_at_the_start(self):
        ana, ben = await self.sit(1, 2)
        await ben.draw("create rect 0 0 5 5 one")
        await self.same([ana, ben], 1)
        await ben.leave()
        shutil.copy(ben.journal, self.folder / "copy")
        (ben,) = await self.sit(2)
        await ben.draw("create rect 0 0 5 5 two")
        await self.same([ana, ben], 2)
        await ben.leave()
        shutil.copy(self.folder / "copy", ben.journal)
        wrong = await Member(self, 2).sit()
        self.assertIn("is older than what this seat has told", wrong)
        self.assertIn("it has 1 of its own edits, and they know of 2", wrong)

    async def test_a_seat_that_draws_at_two_places_is_told_and_carried_no_more(self):
        ana, ben = await self.sit(1, 2)
        await ben.draw("create rect 0 0 5 5 one")
        await self.same([ana, ben], 1)
        await until(lambda: ben.standing.told == 1, what="the head")
        shutil.copy(ben.journal, self.folder / "other.log")
        other = Member(self, 2, "other.log")
        # It may hear before its node runs or just behind that.
        wrong = await other.sit()
        await until(lambda: wrong or other.said, what="what is wrong")
        self.assertIn("is in use elsewhere", wrong or other.said[0])
        await until(lambda: ben.said, what="that it was opened elsewhere")
        self.assertIn("was opened elsewhere", ben.said[0])
        await ben.draw("create rect 0 0 5 5 two")
        await self.same([ana, ben], 2)
        if not wrong:
            await other.draw("create rect 0 0 5 5 other story")
        await ben.draw("create rect 0 0 5 5 three")
        shown = await self.same([ana, ben], 3)
        self.assertNotIn("other story", shown)

    async def test_two_stories_of_a_seat_are_told_to_all_once(self):
        ana, ben = await self.sit(1, 2)
        await ben.draw("create rect 0 0 5 5 one")
        await self.same([ana, ben], 1)
        lie = signed(self.roster, ben.carrier.keys.signing, 2, 1, 1, bytes(32))
        for _ in range(3):
            ben.carrier.broker.publish(topic(self.roster.session, "head", 2), lie, keep=True)
        await until(lambda: ana.said, what="what is wrong")
        self.assertEqual([line.partition(":")[0] for line in ana.said], ["seat 2 tells two stories"])
