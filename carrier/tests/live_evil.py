"""A broker, and members, that mean ill: what they keep, repeat, swap, cut, change and forge reaches no node."""

import random
import subprocess

from carrier.frames import LAST_CLOCK, crc32c, frame
from carrier.keys import Keys
from carrier.tests.logs import create
from carrier.tests.members import WithMembers
from carrier.tests.rosters import SEEDS
from page.tests.places import until

DEEDS = ("repeat", "misroute", "cut", "flip", "forge", "noise", "head", "roster")


class Evil(WithMembers):
    """A client that may read and write all there is plays a broker that means ill."""

    def deed(self, client, draw, seen):
        """One message, as a broker could make it that kept what it has seen."""
        name, data = draw.choice(seen)
        deed, seats = draw.choice(DEEDS), [draw.randint(1, 3), draw.randint(1, 3)]
        root = f"gd/{self.roster.session.hex()}"
        record = create(LAST_CLOCK, 2, 1, b"bomb")
        bomb = frame(self.roster.number, 2, 1, [record], 1, LAST_CLOCK, crc32c(record))
        place = draw.randrange(len(data))
        messages = {
            "repeat": (name, data),
            "misroute": (f"{root}/{seats[0]}/{seats[1]}", data),
            "cut": (name, data[:place]),
            "flip": (name, data[:place] + bytes([data[place] ^ (1 << draw.randrange(8))]) + data[place + 1 :]),
            "forge": (f"{root}/1/2", bomb),
            "noise": (f"{root}/{seats[0]}/{seats[1]}", draw.randbytes(draw.randrange(4200))),
            "head": (f"{root}/head/{seats[0]}", draw.choice([data, draw.randbytes(114), b""])),
            "roster": (f"{root}/roster", draw.randbytes(40)),
        }
        client.publish(*messages[deed], retain=deed in ("head", "roster") and draw.random() < 0.5)
        return deed

    async def test_a_broker_that_means_ill(self):
        seen, done, draw = [], [], random.Random(5)
        client, answer = await self.client("evil", lambda name, data: len(data) > 80 and seen.append((name, data)))
        self.assertEqual(answer, 0)
        members = await self.sit(1, 2, 3)
        await members[0].draw("create rect 0 0 5 5 first label")
        await self.same(members, 1)
        for count in range(90):
            await members[count % 3].draw(f"create rect {count} 0 5 5 label {count}" if count % 4 else f"move 1.1 {count} {count}")
            done += [self.deed(client, draw, seen[:4000]) for _ in range(20)]
        shown = await self.same(members, 91)
        self.assertEqual({deed: done.count(deed) > 100 for deed in DEEDS}, dict.fromkeys(DEEDS, True))
        self.assertNotIn("bomb", shown)
        said = [each["line"] for member in members for each in member.desk.news.entries if each["what"] == "said"]
        self.assertEqual([line for line in said if "refused" in line or "fault" in line], [])
        self.assertTrue(all(member.carrier.counts["strange"] for member in members))
        self.assertFalse(any(member.standing.heads.liars for member in members))
        # It saw sizes and times, and nothing of what was drawn.
        self.assertFalse(any(b"label" in data for _, data in seen))


class Strangers(WithMembers):
    async def test_rules_of_the_broker(self):
        """What isn't for a seat doesn't come to it, and what isn't from it goes nowhere."""
        root, seen = f"gd/{self.roster.session.hex()}", []
        watching, _ = await self.client("evil", lambda name, data: seen.append((name, data)))
        got = []
        user, password = f"{self.roster.session.hex()}.3", Keys(SEEDS[3]).password
        third, answer = await self.client(user, lambda name, data: got.append((name, data)), password)
        self.assertEqual(answer, 0)
        for name in ("1/2", "2/1", "head/1", "retired/1", "roster", "3/1"):
            third.publish(f"{root}/{name}", b"as another", retain=True)
        third.publish(f"{root}/1/3", b"as itself")
        await until(lambda: (f"{root}/1/3", b"as itself") in seen, what="the true message")
        self.assertEqual(seen, [(f"{root}/1/3", b"as itself")])
        watching.publish(f"{root}/2/1", b"for 2")
        watching.publish(f"{root}/3/1", b"for 3")
        await until(lambda: got, what="the message for 3")
        self.assertEqual(got, [(f"{root}/3/1", b"for 3")])

    async def test_who_isn_t_let_in(self):
        user = f"{self.roster.session.hex()}.3"
        for name, password in ((user, "wrong"), ("nobody", "x"), (user, Keys(SEEDS[4]).password)):
            _, answer = await self.client(name, password=password)
            self.assertNotEqual(answer, 0)

    async def test_without_tls_nothing_is_told(self):
        host, port = self.address.split(":")
        words = ["mosquitto_sub", "-h", host, "-p", port, "-u", "evil", "-P", "evil", "-t", "gd/#", "-C", "1", "-W", "5"]
        try:
            done = subprocess.run(words, capture_output=True, timeout=300)
        except FileNotFoundError:
            self.skipTest("there is no mosquitto_sub (Debian's mosquitto-clients)")
        self.assertNotEqual(done.returncode, 0)

    async def test_a_member_forges_nothing_of_another(self):
        ana, ben, cem = await self.sit(1, 2, 3)
        record = create(LAST_CLOCK, 2, 1, b"bomb")
        bomb = frame(self.roster.number, 2, 1, [record], 1, LAST_CLOCK, crc32c(record))
        # Cem seals well, and says in the frame that he is Ben; and he sends what Ben sealed for him.
        self.assertTrue(cem.carrier.send(1, 1, bomb))
        sealed = ben.carrier.seals.seal(3, 1, bomb)
        cem.carrier.broker.publish(f"gd/{self.roster.session.hex()}/1/3", sealed)
        await until(lambda: ana.carrier.counts["strange"] == 1, what="what Ben sealed")
        await cem.draw("create rect 0 0 1 1 true")
        shown = await self.same([ana, ben, cem], 1)
        self.assertNotIn("bomb", shown)
        await ana.draw("create rect 0 0 1 1 more")
        await self.same([ana, ben, cem], 2)


