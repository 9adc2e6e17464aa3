"""Rosters, links and the files of secrets."""

import base64
import dataclasses
import json
import os
import threading
import unittest

from carrier.files import BadFile, Founder, Seat, write_private
from carrier.broker import Account
from carrier.link import SCHEME, BadLink, Link, checksum, link_of
from carrier.roster import BadRoster, roster_of
from carrier.tests.rosters import FOUNDER, SEEDS, SESSION, roster_with
from carrier.trust import AUTHORITY, EXACT, SYSTEM, BadTrust, Trust
from page.tests.places import WithFolder

TRUSTS = (Trust(SYSTEM), Trust(EXACT, bytes(32)), Trust(AUTHORITY, b"certificate" * 40))


def link_with(trust=TRUSTS[1], broker="broker.example:8883", seat=2):
    return Link(seat, SESSION, SEEDS[2], roster_with().digest, trust, broker)


class Rosters(unittest.TestCase):
    def test_bytes_and_back(self):
        for name in ("Oak", "é", "x" * 64):
            roster = roster_with(name)
            self.assertEqual(roster_of(roster.data), roster)
        self.assertEqual(len(roster_with("Oak").data), 5 + 16 + 1 + 3 + 32 + 16 * 64)

    def test_each_change_is_another_roster_or_none(self):
        data = roster_with().data
        for place in range(len(data)):
            changed = bytearray(data)
            changed[place] ^= 1
            try:
                self.assertNotEqual(roster_of(bytes(changed)).digest, roster_with().digest)
            except BadRoster:
                pass
        for cut in range(0, len(data), 7):
            with self.assertRaises(BadRoster):
                roster_of(data[:cut])
        with self.assertRaises(BadRoster):
            roster_of(data + b"\0")

    def test_names_that_are_none(self):
        for name in ("", " Oak", "a\nb", "x" * 65, "\udc80"):
            with self.assertRaises(BadRoster):
                roster_with(name)

    def test_seats_have_keys_of_their_own(self):
        seats = roster_with().seats
        with self.assertRaises(BadRoster):
            roster_with(seats=(seats[0],) * 16)


class Links(unittest.TestCase):
    def test_text_and_back_and_all_of_it_stands_behind_the_hash(self):
        for trust in TRUSTS:
            for broker, seat in (("broker.example:8883", 2), ("[2001:db8::1]:1", 0)):
                link = link_with(trust, broker, seat)
                self.assertEqual(link_of(link.text), link)
                self.assertEqual(link_of(f" '{link.text}'\n"), link)
                self.assertRegex(link.text, r"^groupdesign:#[A-Za-z0-9_-]+$")
        self.assertLess(len(link_with().text), 220)

    def test_a_link_with_an_account_at_the_broker(self):
        for user, password in (("oak", "a password"), ("é", "x" * 255)):
            link = dataclasses.replace(link_with(), account=Account(user, password))
            self.assertEqual(link_of(link.text), link)
        for user, password in (("", "x"), ("x", ""), ("a\nb", "x"), ("x", "y" * 256), ("x", "a\0")):
            with self.assertRaises(ValueError):
                Account(user, password)
        # One whose account is cut is none, though its sum is right.
        data = base64.urlsafe_b64decode(link.text[13:] + "==")[:-4]
        for cut in range(len("broker.example:8883"), 270):
            short = data[:-cut] + checksum(data[:-cut])
            with self.assertRaises(BadLink):
                link_of(SCHEME + base64.urlsafe_b64encode(short).rstrip(b"=").decode())

    def test_a_letter_that_is_wrong_or_missing_is_seen(self):
        text = link_with().text
        for place in range(len("groupdesign:#"), len(text)):
            other = "A" if text[place] != "A" else "B"
            for changed in (text[:place] + other + text[place + 1 :], text[:place], text[:place] + text[place + 1 :]):
                # The last letter has bits that say nothing.
                if place < len(text) - 1:
                    with self.assertRaises(BadLink):
                        link_of(changed)

    def test_other_texts(self):
        for text in ("", "groupdesign:#", "https://a/#b", "groupdesign:#" + "A" * 9000, "groupdesign:#ä", "x" + link_with().text):
            with self.assertRaises(BadLink):
                link_of(text)
        for link in (link_with(seat=17), link_with(seat=255), link_with(broker="nowhere"), link_with(broker="a:0")):
            with self.assertRaises(BadLink):
                link_of(link.text)

    def test_trusts_that_are_none(self):
        for kind, data in ((SYSTEM, b"x"), (EXACT, b""), (EXACT, bytes(31)), (AUTHORITY, b""), (AUTHORITY, bytes(4096)), (3, b"")):
            with self.assertRaises(BadTrust):
                Trust(kind, data)


class Files(WithFolder):
    def seat(self, **others):
        return Seat(2, SEEDS[2], roster_with(), "127.0.0.1:8883", TRUSTS[1], b"certificate", **others)

    def test_a_seat_is_read_again_and_its_file_is_private(self):
        old = os.umask(0)
        self.addCleanup(os.umask, old)
        for seat in (self.seat(), self.seat(listen=True, begun=True), self.seat(account=Account("oak", "a password"))):
            seat.write(self.journal)
            self.assertEqual(Seat.read(self.journal), seat)
            self.assertEqual(os.stat(Seat.path(self.journal)).st_mode & 0o777, 0o600)
        self.assertEqual(sorted(file.name for file in self.folder.iterdir()), ["site.log.seat"])

    def test_a_file_that_others_may_read_isn_t_used(self):
        self.seat().write(self.journal)
        for mode in (0o640, 0o604, 0o620):
            os.chmod(Seat.path(self.journal), mode)
            with self.assertRaisesRegex(BadFile, "chmod 600"):
                Seat.read(self.journal)

    def test_files_that_are_none(self):
        self.seat().write(self.journal)
        path = Seat.path(self.journal)
        fields = json.loads(path.read_text())
        texts = ["", "{", "[]", "1", json.dumps({**fields, "seat": 17}), json.dumps({**fields, "roster": "AAAA"})]
        texts += [json.dumps({name: value for name, value in fields.items() if name != left}) for left in list(fields)[:6]]
        for text in texts:
            write_private(path, text)
            with self.assertRaises(BadFile, msg=text):
                Seat.read(self.journal)
        path.unlink()
        with self.assertRaises(FileNotFoundError):
            Seat.read(self.journal)

    def test_each_seat_is_handed_out_once(self):
        Founder(FOUNDER, {seat: SEEDS[seat] for seat in range(2, 17)}).write(self.journal)
        taken = []
        threads = [threading.Thread(target=lambda: taken.append(Founder.take(self.journal))) for _ in range(15)]
        for thread in threads:
            thread.start()
        for thread in threads:
            thread.join()
        self.assertEqual(sorted(taken), [(seat, SEEDS[seat]) for seat in range(2, 17)])
        self.assertIsNone(Founder.take(self.journal))
        self.assertEqual(Founder.read(self.journal), Founder(FOUNDER, {}))
        text = Founder.path(self.journal).read_text()
        self.assertNotIn(base64.b64encode(SEEDS[5]).decode(), text)
