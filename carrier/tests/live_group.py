"""A full session over a real broker and nodes of the built program: the short form of carrier/bench/measure_group.py."""

import asyncio

from carrier.bench.group import drawn_by, idle_rate
from carrier.tests.members import WithMembers
from page.tests.places import until

# In messages a second a seat.
MOST_IDLE = 3.0


class Group(WithMembers):
    async def test_sixteen_seats_of_which_eight_draw(self):
        members = await self.sit(*range(1, 17))
        edits = await drawn_by(members[:8], 6, 5)
        self.assertEqual(edits, 240)
        await self.same(members, edits)

    async def test_a_seat_says_little_where_nobody_draws(self):
        members = await self.sit(1, 2, 3, 4)
        await members[0].draw("create rect 0 0 5 5 one")
        await self.same(members, 1)
        await until(lambda: all(len(member.carrier.here()) == 3 for member in members), what="all others")
        await asyncio.sleep(15)
        self.assertLessEqual(await idle_rate(members, 20), MOST_IDLE)

    async def test_a_newcomer_to_many_events(self):
        (ana,) = await self.sit(1)
        for first in range(0, 3000, 500):
            await ana.draw(*[f"create rect {each} 0 5 5 old" for each in range(first, first + 500)])
        await until(lambda: ana.standing.told == 3000, what="the head over all")
        (ben,) = await self.sit(2)
        await self.same([ana, ben], 3000)
