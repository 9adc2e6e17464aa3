"""A seat that was left for good, over a real broker and nodes of the built program."""

import asyncio

from carrier.files import Founder, write_private
from carrier.retiring import leaving_file
from carrier.tests.members import Member, WithMembers
from carrier.tests.rosters import FOUNDER
from page.tests.places import PATIENCE, until


class Retired(WithMembers):
    async def kept(self, member):
        """How many events the node of a member keeps for those who may be late."""
        (standing,) = await member.desk.node.ask(b"status")
        return int(standing.split(b" ")[3])

    async def test_nobody_waits_for_a_retired_seat_and_it_is_heard_no_more(self):
        Founder(FOUNDER).write(self.folder / "1.log")
        ana, ben, cem = await self.sit(1, 2, 3)
        await cem.draw("create rect 0 0 5 5 by Cem")
        await self.same([ana, ben, cem], 1)
        await cem.leave()
        await until(lambda: ana.standing.heads.proved.get(3), what="Cem's head")
        await ana.draw("create rect 0 0 5 5 by Ana")
        await self.same([ana, ben], 2)
        # Cem could still say something that comes before what Ana drew.
        self.assertGreater(await self.kept(ana), 0)
        Founder.note_retired(self.folder / "1.log", 3)
        await until(lambda: 3 in ben.retiring.ready(), what="the retirement")
        await ben.draw("create rect 0 0 5 5 by Ben")
        await self.same([ana, ben], 3)
        for member in (ana, ben):
            for _ in range(PATIENCE * 10):
                if await self.kept(member) == 0:
                    break
                await asyncio.sleep(0.1)
            self.assertEqual(await self.kept(member), 0)
        # Cem comes back, is told, and isn't heard.
        cem = Member(self, 3)
        self.assertIsNone(await cem.sit())
        await until(lambda: cem.said, what="what is wrong")
        self.assertIn("was retired", cem.said[0])
        await cem.draw("create rect 0 0 5 5 too late")
        await ana.draw("create rect 0 0 5 5 still")
        await until(lambda: b"still" in ben.journal.read_bytes(), what="what Ana drew")
        shown = await self.same([ana, ben], 4)
        self.assertNotIn("too late", shown)

    async def test_a_seat_retires_itself(self):
        ana, ben, cem = await self.sit(1, 2, 3)
        await cem.draw("create rect 0 0 5 5 by Cem")
        write_private(leaving_file(cem.journal), "")
        await self.same([ana, ben, cem], 1)
        await until(lambda: 3 in ben.retiring.ready() and 3 in ana.retiring.ready(), what="the leave of Cem")
        await until(lambda: cem.said, what="what is said to Cem")
        self.assertIn("was retired by itself", cem.said[0])
        await cem.draw("create rect 0 0 5 5 too late")
        await ana.draw("create rect 0 0 5 5 still")
        shown = await self.same([ana, ben], 2)
        self.assertNotIn("too late", shown)
        await cem.leave()
        # Nobody founded anything here: it is the seat's own word, and stands for whoever comes later.
        dan = await self.sit(4)
        await until(lambda: 3 in dan[0].retiring.gone, what="the leave of Cem")
