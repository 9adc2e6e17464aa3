"""Certificates of a broker, as a link names them."""

import asyncio
import ssl

from carrier import trust
from carrier.broker import Broker, login_of
from carrier.keys import Keys
from carrier.mosquitto import OwnBroker
from carrier.tests.rosters import SEEDS, roster_with
from carrier.tests.runs import free_port, why_not
from carrier.trust import AUTHORITY, EXACT, SYSTEM, BadTrust, Trust, exact, fetched
from page.addresses import parts_of
from page.tests.places import WithFolder, until


class Certificates(WithFolder):
    def setUp(self):
        super().setUp()
        why = why_not()
        if why:
            self.skipTest(why)

    def broker(self, host="127.0.0.1", days=30):
        """A broker with a certificate for so many days from now, its address and the certificate."""
        address = f"{host}:{free_port()}"
        own = OwnBroker(self.folder / f"{days}.log", address)
        shown = own.make(roster_with(), {1: Keys(SEEDS[1]).password}, days)
        own.start()
        self.addCleanup(own.stop)
        return parts_of(address), shown

    async def said(self, address, trusted, certificate):
        """What a connection says that doesn't come about; nothing, where it does."""
        changes = []
        broker = Broker(address, login_of(None, roster_with().session, 1, Keys(SEEDS[1])), trusted, certificate, print)
        broker.changed = lambda: changes.append((broker.up, broker.fault))
        broker.start([])
        try:
            await until(lambda: changes, what="an end of the first attempt")
        finally:
            await broker.stop()
        return changes[0][1] if not changes[0][0] else ""

    async def get(self, *words):
        return await asyncio.get_running_loop().run_in_executor(None, fetched, *words)

    async def test_the_one_that_the_link_names_and_no_other(self):
        address, shown = self.broker()
        self.assertEqual(await self.get(exact(shown), *address), shown)
        self.assertEqual(await self.said(address, exact(shown), shown), "")
        with self.assertRaisesRegex(BadTrust, "another certificate"):
            await self.get(Trust(EXACT, bytes(32)), *address)
        # Somebody who took the broker's place since has another one.
        _, other = self.broker(days=31)
        self.assertIn("isn't the one that the link names", await self.said(address, exact(other), other))

    async def test_one_that_has_expired(self):
        address, shown = self.broker(days=-1)
        self.assertIn("has expired", await self.said(address, exact(shown), shown))

    async def test_authorities_are_for_one_host(self):
        """Its own certificate as an authority's: it is right for the host that it names, and for no other."""
        address, shown = self.broker("localhost")
        pem = ssl.DER_cert_to_PEM_cert(shown)
        trusted = trust.authority(pem)
        self.assertEqual((trusted.kind, trusted.data), (AUTHORITY, shown))
        self.assertEqual(await self.said(("localhost", address[1]), trusted, shown), "")
        self.assertIn("isn't the one", await self.said(("127.0.0.1", address[1]), trusted, shown))
        # Those that the machine trusts don't vouch for it.
        self.assertIn("isn't the one", await self.said(("localhost", address[1]), Trust(SYSTEM), b""))
        for text in ("", "no certificate", pem + pem):
            with self.assertRaises(BadTrust):
                trust.authority(text)
