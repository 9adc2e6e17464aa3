"""Guests at seats that one machine hosts, with nodes of the built program: alone, and in a session over a real broker."""

import asyncio
import json
import re
import sys

import aiohttp

from page.tests.places import PATIENCE
from carrier.tests.runs import PROGRAM, Person, WithPeople, free_port
from page.draw import ROOT
from page.server import TAKEN
from page.tests.serving import Socket


class Kept(Socket):
    """A socket that is read all the time, as a browser's is: so it answers the host that asks whether it is still there."""

    def __init__(self, socket):
        super().__init__(socket)
        self.messages = asyncio.Queue()
        self.reading = asyncio.create_task(self.read())

    async def read(self):
        async for message in self.socket:
            await self.messages.put(json.loads(message.data))

    async def next(self, wanted, seconds=PATIENCE):
        while True:
            fields = await asyncio.wait_for(self.messages.get(), seconds)
            if wanted(fields):
                return fields


class Guest(Person):
    """Somebody at a page of a host, which others run."""

    def __init__(self, test, address):
        super().__init__(test, "guest")
        self.address = address

    async def open(self):
        self.page = Kept(await self.test.client.ws_connect(f"{self.address}socket", headers={"Origin": self.origin}))
        self.hello = await self.page.kind("hello")
        return self


class Hosts(WithPeople):
    async def host(self, seats, journal, links=()):
        """A host of so many seats, and its guests."""
        given = ["--host", str(seats), "--at", "127.0.0.1:0", "--journal", str(self.folder / journal), "--program", PROGRAM]
        host = Person(self, journal)
        pipes = {"stdin": asyncio.subprocess.PIPE, "stdout": asyncio.subprocess.PIPE}
        host.run = await asyncio.create_subprocess_exec(sys.executable, str(ROOT / "draw"), *given, **pipes)
        host.run.stdin.write("".join(f"{link}\n" for link in links).encode())
        host.run.stdin.close()
        guests = []
        for _ in range(seats):
            line = (await asyncio.wait_for(host.run.stdout.readline(), PATIENCE)).decode()
            self.assertRegex(line, r"^http://127\.0\.0\.1:\d+/[\w-]{32}/  \(seat \d+, for one person at a time\)\n$")
            guests.append(await Guest(self, re.match(r"\S+", line).group()).open())
        return host, guests

    async def test_guests_draw_together_and_go_on_later(self):
        host, guests = await self.host(3, "host.log")
        for guest in guests:
            await guest.draw(f"create rect {guest.seat} 0 10 10 by {guest.seat}")
        self.assertEqual(await self.all_see(guests, 3), ["by 1", "by 2", "by 3"])
        headers = {"Origin": guests[1].origin}
        second = await self.client.ws_connect(f"{guests[1].address}socket", headers=headers)
        message = await asyncio.wait_for(second.receive(), PATIENCE)
        self.assertEqual((message.type, second.close_code), (aiohttp.WSMsgType.CLOSE, TAKEN))
        self.assertEqual(await host.end(), 0)
        again, guests = await self.host(3, "host.log")
        self.assertEqual(await self.all_see(guests, 3), ["by 1", "by 2", "by 3"])
        await again.end()

    async def test_a_host_with_guests_draws_with_other_hosts(self):
        ana = await self.found()
        links = [await self.link(ana) for _ in range(3)]
        ben = await Person(self, "ben.log").begin("--join", links[0])
        await ben.draw("create rect 0 0 10 10 by Ben")
        await self.all_see([ana, ben], 1)
        await ben.end()
        await ana.end()
        # Ana's guests sit at seats of her own, and Ben's at those of links.
        _, at_ana = await self.host(2, "ana.log")
        _, at_ben = await self.host(3, "ben.log", links[1:])
        guests = at_ana + at_ben
        self.assertEqual([guest.seat for guest in guests], [1, 5, 2, 3, 4])
        for guest in guests:
            await guest.draw(f"create rect {guest.seat} 0 10 10 by {guest.seat}")
        self.assertEqual(len(await self.all_see(guests, 6)), 6)

    async def test_what_can_t_be_hosted(self):
        taken = free_port()
        server = await asyncio.start_server(lambda reader, writer: None, "127.0.0.1", taken)
        self.addCleanup(server.close)
        for words, why in (
            (["--at", f"127.0.0.1:{taken}"], "can't be served"),
            (["--cert", "nowhere", "--key", "nowhere"], "aren't a certificate and its key"),
            (["--at", "no.such.host.invalid:1"], "isn't known here"),
        ):
            self.assertIn(why, await Person(self, f"{len(self.people)}.log").refused("--host", "1", *words))
