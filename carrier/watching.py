"""Looking on: a run without a seat, which reads what the seats leave for that, and serves a page without tools."""

import asyncio
import os
import secrets
import shutil
import sys
import tempfile
import time
from pathlib import Path

from carrier import commands
from carrier.broker import Broker, login_of, topic
from carrier.feeds import Feed, first_digest, next_digest, records_of
from carrier.frames import CHECKSUM, crc32c
from carrier.heads import Heads
from carrier.keys import Keys, public_bytes
from carrier.retiring import SIZE as STATEMENT, retired_of
from carrier.roster import SEATS
from carrier.sealing import WATCH, WATCHERS, Seals
from carrier.standing import LIES
from carrier.viewing import NoView, Viewing, empty_log
from carrier.watched import key_of, piece_of
from page.addresses import parts_of
from page.audience import Audience, message
from page.draw import ANOTHER_PORT, BROKEN, FAILED, ROOT, USAGE, say, say_unserved, serve
from page.history import History
from page.news import News
from page.picture import Picture
from page.server import Server

# What comes is taken so often.
LOOK = 0.1
# The place of the seat in a record.
SEAT = 6
OTHER_KEY = "the founder lets nobody look on with this link: ask for another one"


class Log:
    """The file in which the records lie that came, as a log of the program."""

    def __init__(self, path, session):
        self.path, self.checks = Path(path), {}
        self.path.write_bytes(empty_log(session))

    def add(self, records):
        with open(self.path, "r+b") as file:
            file.seek(-1, os.SEEK_END)
            file.write(b"".join(b"\xc3" + each + self.check(each) for each in records) + b"\0")

    def check(self, record):
        """The bytes of the check behind the next record of a seat."""
        seat = record[SEAT]
        self.checks[seat] = crc32c(record, self.checks.get(seat, 0))
        return CHECKSUM.pack(self.checks[seat])


class Feeds:
    """The records of all seats that came so far, each list up to a head that its seat has signed."""

    def __init__(self, roster):
        self.roster, self.ends = roster, {}
        self.feeds = {seat: Feed(first_digest(roster.session, seat)) for seat in range(1, SEATS + 1)}
        self.heads, self.waiting, self.names = Heads(roster, self.feeds), {seat: {} for seat in self.feeds}, {}

    def take(self, seat, content):
        """Takes a piece of a seat, which waits for those before it."""
        piece = piece_of(self.roster, content)
        if piece is None or piece.head.seat != seat:
            return
        before = self.waiting[seat].get(piece.first)
        if before is None or before.head.count < piece.head.count:
            self.waiting[seat][piece.first] = piece
        newest = self.heads.newest.get(seat)
        if newest is None or piece.head.count >= newest.count:
            self.names[seat] = piece.name
        self.heads.take(piece.head.data)

    def retire(self, data):
        """Takes statements of the founder, or of a seat that left: of a retired seat nothing more is taken than they say."""
        for at in range(0, len(data), STATEMENT):
            found = retired_of(self.roster, data[at : at + STATEMENT])
            if found:
                self.ends.setdefault(found.seat, found.count)

    def grown(self):
        """What can be shown since the last call: for each seat that has more the number of the first new record, the records, and
        their clocks."""
        for seat in self.feeds:
            first = self.feeds[seat].count + 1
            records = [each for piece in self.ready(seat) for each in self.follow(piece)]
            if records:
                events = [event for record in records for event, _ in records_of(record)]
                yield seat, first, records, [event["clock"] for event in events]

    def ready(self, seat):
        """The pieces that have more than is here, as long as one follows on the other."""
        waiting = self.waiting[seat]
        for first in sorted(waiting):
            if first > self.feeds[seat].count + 1:
                return
            piece = waiting[first]
            if piece.head.count > self.feeds[seat].count:
                yield piece

    def follow(self, piece):
        """Takes the new records of a piece, and gives them; none where they don't lead from what is here to its head."""
        seat = piece.head.seat
        feed, count = self.feeds[seat], min(piece.head.count, self.ends.get(seat, piece.head.count))
        digests = [feed.digest(piece.first - 1)]
        for record in piece.records:
            digests.append(next_digest(digests[-1], record))
        if digests[-1] != piece.head.digest or digests[feed.count + 1 - piece.first] != feed.digest(feed.count):
            self.heads.liars.add(seat)
            self.waiting[seat].pop(piece.first)
            return []
        new = piece.records[feed.count + 1 - piece.first : count + 1 - piece.first]
        for record in new:
            feed.add(0, record, 0)
        self.heads.grow([seat])
        return new


class Board:
    """What a page is told of who looks on: it has no node, and takes no lines."""

    is_watch = True

    def __init__(self, journal, program, roster, audience, fields):
        """`fields` gives what is known of the session."""
        self.number, self.journal, self.program, self.roster, self.fields = 1, journal, program, roster, fields
        self.audience, self.picture, self.news, self.history = audience, Picture(), News(), History(journal)
        self.is_demo, self.desks, self.names, self.told, self.edits = False, [1], {}, None, 0
        self.history.begin()
        audience.openings.append((self.number, self.opening))

    def show(self, lines):
        """Tells what is different in a drawing."""
        self.edits += 1
        difference = self.picture.take(lines)
        self.tell("picture", edits=self.edits, others=True, polled_at=None, whole=False, **difference)
        first = len(self.history.events)
        self.history.go_on()
        if first < len(self.history.events):
            for text in self.history.messages(self.number, first, len(self.history.events)):
                self.audience.spread(text, self.number)

    def say(self, line):
        self.tell("news", news=self.news.take([{"what": "said", "line": line}], time.monotonic()), earlier=False)

    def look(self):
        """Tells what is known of the session where that has changed."""
        fields = self.fields()
        if fields != self.told:
            self.told = fields
            self.tell("carried", **fields)

    def name(self, names):
        """Takes what people are called."""
        if names != self.names:
            self.names = dict(names)
            self.tell("who", who=self.who())

    def who(self):
        return [{"site": seat, "name": name or None, "focus": None} for seat, name in sorted(self.names.items())]

    def tell(self, kind, **fields):
        self.audience.tell(kind, desk=self.number, **fields)

    def opening(self):
        """What a page that comes is told."""
        number = self.number
        fields = {"site": 0, "sites": SEATS, "session": self.roster.number, "demo": False, "watcher": True, "gestures": []}
        yield message("hello", desk=number, **fields, journal=self.roster.name, desks=self.desks, names={})
        yield message("news", desk=number, news=list(self.news.entries), earlier=True)
        yield message("carried", desk=number, **self.fields())
        yield message("who", desk=number, who=self.who())
        yield message("peers", desk=number, peers=[], waiting=0, quiet=False, silent=False)
        picture = self.picture.whole()
        yield message("picture", desk=number, edits=self.edits, others=False, polled_at=None, whole=True, **picture)
        yield from self.history.messages(number, 0, len(self.history.events))


class Watcher:
    """One who looks on."""

    def __init__(self, given, link, roster, certificate, room):
        self.link, self.roster, self.keys = link, roster, Keys(link.seed)
        self.seals, self.feeds, self.said = Seals(roster, WATCHERS, self.keys), Feeds(roster), set()
        self.log, audience = Log(Path(room) / "drawing.log", roster.number), Audience()
        self.board = Board(self.log.path, given.program, roster, audience, self.fields)
        self.viewing = Viewing(given.program, roster.number, self.board.show)
        login, address = login_of(link.account, link.session, WATCHERS, self.keys), parts_of(link.broker)
        self.broker = Broker(address, login, link.trust, certificate, self.come, self.board.look)

    async def start(self):
        """Begins to look on. Raises `NoView`."""
        await self.viewing.start()
        words = (["roster"], ["retired"], ["watched"], ["head", "+"], ["left", "+"], ["watch", "+", "+"])
        self.broker.start([topic(self.link.session, *each) for each in words])

    async def stop(self):
        await self.broker.stop()
        await self.viewing.stop()

    def fields(self):
        """What a page is told of the session."""
        missing, heads = set(self.feeds.heads.missing()), self.feeds.heads.newest
        seats = [
            {
                "site": seat,
                "here": False,
                "heard": None,
                "missing": heads[seat].count - self.feeds.feeds[seat].count if seat in missing else 0,
                "lies": seat in self.feeds.heads.liars,
            }
            for seat in sorted(heads)
        ]
        fault = "" if self.broker.up else self.broker.fault
        own = {"name": self.roster.name, "seats": seats, "up": self.broker.up, "fault": fault}
        return {**own, "broker": self.link.broker, "invites": 0, "watches": False, "watched": True}

    def come(self, name, data, was_kept):
        """A message came. What isn't sealed for those who look on, or isn't signed, is passed over."""
        words = name.split("/")[2:]
        if words[0] == "watch" and len(words) == 3 and words[1].isascii() and words[1].isdigit() and len(words[1]) < 3:
            opened = self.seals.opened(int(words[1]), data)
            if opened and opened[0] == WATCH:
                self.feeds.take(int(words[1]), opened[1])
        elif words[0] == "head":
            self.feeds.heads.take(data)
        elif words[0] in ("retired", "left"):
            self.feeds.retire(data)
        elif words == ["watched"] and key_of(self.roster, data) not in (None, public_bytes(self.keys.exchange)):
            self.tell_once(OTHER_KEY)

    def tell_once(self, line):
        if line not in self.said:
            self.said.add(line)
            self.board.say(line)

    async def run(self):
        """Takes what came, again and again."""
        while True:
            for seat, first, records, clocks in self.feeds.grown():
                self.log.add(records)
                self.viewing.add(seat, first, records, clocks)
            for seat in self.feeds.heads.liars:
                self.tell_once(LIES.format(seat=f"seat {seat}"))
            self.board.name(self.feeds.names)
            self.board.look()
            await asyncio.sleep(LOOK)


async def watch(given, link, roster, certificate, room):
    """Looks on until this program is told to end, and gives the status."""
    watcher = Watcher(given, link, roster, certificate, room)
    server, running = Server(secrets.token_urlsafe(24), [watcher.board], watcher.board.audience), None
    try:
        await watcher.start()
        running = asyncio.get_running_loop().create_task(watcher.run())
        await server.start(given.port)
        await serve(server, given)
        return 0
    except NoView as why:
        say(str(why))
        return FAILED
    except OSError as fault:
        say_unserved(f"port {given.port}", fault, ANOTHER_PORT)
        return FAILED
    finally:
        if running:
            running.cancel()
            await asyncio.gather(running, return_exceptions=True)
        await watcher.stop()


def hide_link(text, words):
    """Goes on without the link among the words, which others on this machine can read: it is then read from standard input."""
    if text == "-":
        return
    reading, writing = os.pipe()
    os.write(writing, f"{text}\n".encode())
    os.close(writing)
    os.dup2(reading, 0)
    left = ["-" if word == text else word.replace(f"--watch={text}", "--watch=-") for word in words]
    os.execv(sys.executable, [sys.executable, str(ROOT / "draw"), *left])


def main(given, words):
    """Does what `--watch` asks for, and gives the status."""
    room = None
    try:
        hide_link(given.watch, words)
        reached = commands.reached(given.watch, is_watching=True)
        room = tempfile.mkdtemp(prefix="draw-watch-")
        return asyncio.run(watch(given, *reached, room))
    except commands.Wrong as why:
        say(str(why))
        return USAGE
    except KeyboardInterrupt:
        return BROKEN
    finally:
        if room:
            shutil.rmtree(room, ignore_errors=True)
