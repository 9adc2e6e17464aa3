"""Hosted seats: a link for each, for one page at a time, with and without TLS."""

import argparse
import asyncio
import shutil
import ssl
import subprocess
from pathlib import Path
from unittest import mock

import aiohttp

from page import hosting
from page.addresses import BadAddress
from page.audience import Audience
from page.desk import Desk
from page.gate import MOST_STRANGERS
from page.server import HERE, TAKEN, Place
from page.tests.places import PATIENCE, WithStandIn, until
from page.tests.serving import Socket, rest_of


class WithHost(WithStandIn):
    """A host of two seats over stand-ins."""

    place = Place((HERE,))

    async def asyncSetUp(self):
        await super().asyncSetUp()
        self.audience, self.desks = Audience(), []
        for number in (1, 2):
            journal = self.folder / f"{number}.log"
            command = [*self.command()[:2], "--session", "7", "--site", str(number), "--journal", str(journal), "A", "B"]
            self.desks.append(Desk(number, command, journal, self.audience, 7, 1000))
        for desk in self.desks:
            await desk.start()
            self.addAsyncCleanup(desk.stop)
        self.server = hosting.HostServer(self.desks, self.audience, self.place)
        await self.server.start(0)
        self.addAsyncCleanup(self.server.stop)
        self.tokens = list(self.server.doors)
        self.client = aiohttp.ClientSession()
        self.addAsyncCleanup(self.client.close)

    async def open(self, seat, query="", **headers):
        """A socket of a seat's link."""
        address = self.server.address_of(self.tokens[seat - 1])
        given = {"Origin": "/".join(address.split("/")[:3]), **headers}
        made = await self.client.ws_connect(f"{address}socket{query}", headers=given, ssl=self.trusted())
        self.addAsyncCleanup(made.close)
        return Socket(made)

    def trusted(self):
        return True


class Links(WithHost):
    async def test_each_link_opens_its_own_seat_and_nothing_of_another(self):
        self.assertEqual(len(set(self.tokens)), 2)
        for seat in (1, 2):
            page = await self.open(seat, f"?desk={3 - seat}")
            hello = await page.kind("hello")
            self.assertEqual((hello["desk"], hello["desks"]), (seat, [seat]))
            told = await page.ask("batch", desk=3 - seat, lines=["delete 1.1"])
            self.assertIn("no such desk", told["error"])
            self.assertEqual((await page.ask("batch", desk=seat, lines=["delete 1.1"]))["answers"][0][:3], "ok ")

    async def test_a_second_one_is_told_and_has_the_seat_once_the_first_is_gone(self):
        first = await self.open(1)
        await first.kind("hello")
        for _ in range(2):
            second = await self.open(1)
            message = await asyncio.wait_for(second.socket.receive(), PATIENCE)
            self.assertEqual((message.type, second.socket.close_code), (aiohttp.WSMsgType.CLOSE, TAKEN))
        # Another seat is free all the time, and the first one goes on.
        await (await self.open(2)).kind("hello")
        self.assertEqual((await first.ask("batch", lines=["delete 1.1"]))["is"], "answers")
        await first.socket.close()
        await until(lambda: self.tokens[0] not in self.server.opened)
        await (await self.open(1)).kind("hello")

    async def test_tokens_hosts_and_origins_hold(self):
        port = self.server.port
        for path, headers, status in (
            (f"/{self.tokens[1]}/", {}, 200),
            ("/x/", {}, 403),
            (f"/{self.tokens[0]}x/", {}, 403),
            (f"/{self.tokens[0]}/", {"Host": f"evil.example:{port}"}, 421),
            (f"/{self.tokens[0]}/", {"Host": f"localhost:{port}"}, 421),
            (f"/{self.tokens[0]}/", {"Origin": "http://evil.example"}, 403),
            (f"/{self.tokens[0]}/", {"Sec-Fetch-Site": "cross-site", "Sec-Fetch-Dest": "document"}, 403),
        ):
            async with self.client.get(f"http://{HERE}:{port}{path}", headers=headers) as answer:
                self.assertEqual(answer.status, status, (path, headers))
                self.assertIn(f"connect-src 'self' ws://{HERE}:{port};", answer.headers["Content-Security-Policy"])
        for origin in ("http://evil.example", f"https://{HERE}:{port}"):
            with self.assertRaises(aiohttp.WSServerHandshakeError):
                await self.open(1, Origin=origin)


class Silence(WithHost):
    place = Place((HERE,), heartbeat=0.2)

    async def test_a_page_that_went_without_a_goodbye_leaves_its_seat(self):
        reader, writer = await asyncio.open_connection(HERE, self.server.port)
        self.addCleanup(writer.close)
        head = [f"GET /{self.tokens[0]}/socket HTTP/1.1", f"Host: {HERE}:{self.server.port}", "Upgrade: websocket", "Connection: Upgrade"]
        head += [f"Origin: http://{HERE}:{self.server.port}", "Sec-WebSocket-Version: 13", "Sec-WebSocket-Key: dGhlIHNhbXBsZSBub25jZQ=="]
        writer.write(("\r\n".join(head) + "\r\n\r\n").encode())
        self.assertIn(b" 101 ", await asyncio.wait_for(reader.readline(), PATIENCE))
        await until(lambda: self.tokens[0] in self.server.opened)
        await until(lambda: self.tokens[0] not in self.server.opened)


class Encrypted(WithHost):
    def setUp(self):
        super().setUp()
        if not shutil.which("openssl"):
            self.skipTest("there is no openssl")
        self.certificate, key = self.folder / "certificate.pem", self.folder / "key.pem"
        name = ["-subj", "/CN=host", "-addext", f"subjectAltName=IP:{HERE}", "-days", "2", "-out", str(self.certificate)]
        words = ["openssl", "req", "-x509", "-newkey", "ec", "-pkeyopt", "ec_paramgen_curve:P-256", "-nodes", "-keyout", str(key), *name]
        subprocess.run(words, check=True, capture_output=True)
        self.given = argparse.Namespace(at=f"{HERE}:0", cert=self.certificate, key=key)
        self.place, port = hosting.place_of(self.given)
        self.assertEqual(port, 0)

    def trusted(self):
        return ssl.create_default_context(cafile=self.certificate)

    async def test_pages_and_sockets_over_tls(self):
        address = self.server.address
        self.assertTrue(address.startswith(f"https://{HERE}:"))
        for _ in range(5):
            async with self.client.get(address, ssl=self.trusted()) as answer:
                self.assertEqual(answer.status, 200)
                self.assertIn("wss://", answer.headers["Content-Security-Policy"])
                self.assertIn(b"groupdesign", await answer.read())
        async with self.client.get(address.replace(self.tokens[0], "x"), ssl=self.trusted()) as answer:
            self.assertEqual(answer.status, 403)
        hello = await (await self.open(1)).kind("hello")
        self.assertFalse(hello["openly"])

    async def test_strangers_without_a_handshake_are_few_and_get_nothing(self):
        for first in (b"", f"GET /{self.tokens[0]}/ HTTP/1.1\r\n\r\n".encode()):
            made = [await asyncio.open_connection(HERE, self.server.port) for _ in range(MOST_STRANGERS + 20)]
            for _, writer in made:
                writer.write(first)
            await until(lambda: len(self.server.strangers.waiting) <= MOST_STRANGERS)
            for reader, writer in made:
                self.assertNotIn(b"HTTP", await asyncio.wait_for(rest_of(reader), PATIENCE))
                writer.close()
        await until(lambda: not self.server.strangers.waiting)
        async with self.client.get(self.server.address, ssl=self.trusted()) as answer:
            self.assertEqual(answer.status, 200)

    async def test_what_is_no_certificate(self):
        for cert, key in ((self.given.key, self.given.key), (self.certificate, self.certificate), (Path("nowhere"), self.given.key)):
            with self.assertRaises(BadAddress):
                hosting.place_of(argparse.Namespace(at=f"{HERE}:0", cert=cert, key=key))


class Words(WithStandIn):
    def given(self, **fields):
        return argparse.Namespace(at=None, cert=None, key=None, host=2, journal=self.journal, **fields)

    async def test_where_pages_are_served(self):
        for at, names, bound, port in (
            ("127.0.0.1:7000", ("127.0.0.1",), "127.0.0.1", 7000),
            ("localhost:0", ("localhost",), "127.0.0.1", 0),
            # An address that a router has, and not this machine.
            ("192.0.2.7:7000", ("192.0.2.7",), "0.0.0.0", 7000),
        ):
            with mock.patch("socket.getaddrinfo", return_value=[(2, 1, 6, "", (bound if bound != "0.0.0.0" else "192.0.2.7", 0))]):
                given = self.given()
                given.at = at
                place, found = hosting.place_of(given)
            self.assertEqual((place.names, place.bound, found), (names, bound, port))
            self.assertEqual(hosting.is_open(place), bound != HERE)
        for at in ("nowhere", "h:", ":1", "h:70000", "no.such.host.invalid:1"):
            given = self.given()
            given.at = at
            with self.assertRaises(BadAddress):
                hosting.place_of(given)

    async def test_hosts_by_the_port_that_a_scheme_has_anyway(self):
        self.assertEqual(Place(("a",)).hosts(80), {"a", "a:80"})
        self.assertEqual(Place(("a",), tls=ssl.create_default_context()).hosts(80), {"a:80"})

    async def test_a_journal_is_gone_on_with_by_as_many_seats(self):
        given = self.given()
        self.assertLess(hosting.session_of(given), 2**32)
        self.journal.write_bytes(b"GDOL\x07" + (77).to_bytes(4, "big") + bytes([1, 2, 0]))
        self.assertEqual(hosting.session_of(given), 77)
        self.assertEqual([str(each)[len(str(self.journal)) :] for each in hosting.journals(given)], ["", ".2"])
        given.host = 3
        with self.assertRaises(BadAddress):
            hosting.session_of(given)
