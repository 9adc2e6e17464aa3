"""A desk: one node, what pages type at it, and what it has to tell."""

import asyncio
import time
from pathlib import Path

from page import lines
from page.audience import message
from page.batch import Batch
from page.gestures import Gestures
from page.history import History
from page.names import BadName, NameFile, name_of, word_of
from page.news import News
from page.node import Busy, Ended, Node
from page.peers import Peers
from page.picture import Picture
from page.rounds import Rounds
from page.turns import Turns
from page.upgrading import upgrade

POLL_EVERY = 0.1
# How often what is known of the others is looked at.
WATCH_EVERY = 0.5


class Desk:
    """One node and what is known of it. Each change is told to the audience, with the number of the desk."""

    # One that only looks on has no node. The network can read along where pages come over another one than loopback, unencrypted.
    is_watch = is_openly = False

    def __init__(self, number, command, journal, audience, session=None, poll_every=POLL_EVERY):
        """`command` is the node's, without `--resume`, which is added behind `node` where the journal is there."""
        self.number, self.command, self.journal, self.session = number, command, Path(journal), session
        self.audience, self.poll_every = audience, poll_every
        self.picture, self.news, self.names = Picture(), News(), NameFile(journal)
        self.history, self.peers = History(self.journal, self.note_event), Peers(number, 0)
        self.name, self.who, self.standing, self.end, self.told_peers = "", [], {}, None, None
        # From which sites the node has parted, and whether others know of own edits that it hasn't.
        self.parted, self.is_older = [], False
        self.site, self.sites, self.is_demo, self.desks = number, number, False, [number]
        # Edits that earlier runs of the node took, and the number of the last one that was shown.
        self.edits_before, self.shown, self.was_silent, self.is_fault_told = 0, -1, False, False
        # Which edits are one gesture, which of these can be taken back, and how many events were told.
        self.gestures, self.turns, self.told_events = Gestures(), Turns(), 0
        self.node, self.rounds, self.tasks = None, None, []
        # Whether the rounds are woken whenever a datagram has come.
        self.is_woken = False
        # What pages ask of a session over a broker is asked of this, and the whole names of others come from there.
        self.carried, self.whole_names = None, dict
        self.starting, self.typing = asyncio.Lock(), asyncio.Lock()
        audience.openings.append((number, self.opening))

    @property
    def program(self):
        return self.command[0]

    @property
    def edits(self):
        """How many edits were taken since this program started."""
        return self.edits_before + (self.node.accepted if self.node else 0)

    # The start and the end.

    async def start(self):
        """Starts the node and waits until it is ready. Raises `Ended` with what it said where it ends first."""
        flags = []
        if self.journal.exists():
            flags.append("--resume")
            await asyncio.to_thread(upgrade, self.program, self.journal)
        self.edits_before = self.edits
        self.node = Node([self.command[0], "node", *flags, *self.command[2:]], self.note_end)
        words = (await self.node.wait_until_ready()).split(" ")
        self.end, self.rounds = None, Rounds(self, self.node, self.poll_every)
        self.begin(int(words[1]), int(words[3]))
        self.tasks = [asyncio.create_task(each) for each in (self.rounds.run(), self.watch(self.node))]

    def begin(self, site, sites):
        """Takes what the node said when it was ready; at the first start also what its journal and the files beside have."""
        if not self.peers.others:
            self.site, self.sites, self.peers = site, sites, Peers(site, sites)
            self.history.begin()
            self.told_events = len(self.history.events)
            self.name = self.names.read()
        self.peers.resume()
        self.take_parted([], False)
        if self.name:
            self.node.type(b"name " + word_of(self.name).encode())

    async def start_again(self):
        """Starts a node that has ended, to go on from its journal. Raises `Ended` where it ends at once, and `Busy` where
        one runs."""
        async with self.starting:
            if self.node and self.node.status is None:
                raise Busy
            try:
                await self.start()
            except Ended as said:
                await self.node.is_over.wait()
                raise Ended(str(said)) from None
            self.turns.forget()
            self.tell("turns", **self.turns.told())
            self.audience.tell("begun", desk=self.number)

    async def stop(self):
        """Ends the node, and gives its status."""
        for task in self.tasks:
            task.cancel()
        await asyncio.gather(*self.tasks, return_exceptions=True)
        return await self.node.quit()

    def note_end(self, status, said):
        """Tells that the node has ended, and what that means."""
        self.end = {"status": status, "meaning": lines.meaning_of(status), "said": said}
        self.tell("end", end=self.end)

    # What pages ask for.

    async def batch(self, texts, name=""):
        """Types the lines of one gesture, which a page calls so, and gives an answer for each and the number of the last edit that
        was taken."""
        batch = Batch(texts, self)
        self.gestures.begin()
        try:
            # One gesture is typed behind the other, also where one waits for the clock.
            async with self.typing:
                await batch.type_all()
            if self.rounds:
                self.rounds.expect(batch.verbs)
            answers = await batch.all_answers()
        finally:
            self.end_gesture(batch, name)
        return {"answers": answers, "edits": self.edits, "turns": self.turns.told()}

    def end_gesture(self, batch, name):
        """Tells which edits were one gesture, and then those of its events that waited for that; and what can be taken back now."""
        if batch.is_cut:
            self.history.go_on()
        gesture = self.gestures.end([int(event.partition(".")[0]) for event, _ in batch.taken], batch.is_cut)
        if gesture:
            self.tell("gestures", gestures=[gesture])
        if self.told_events < len(self.history.events):
            self.read_history()
        self.tell_news([{"what": "own", "event": event, "line": text} for event, text in batch.taken])
        if self.turns.end(name, batch.replies, batch.is_astray):
            self.tell("turns", **self.turns.told())

    def type(self, typed):
        """Types lines, and gives their slots. Raises `Refused` where the node has ended or has too many to answer."""
        if self.node is None:
            raise lines.Refused("Ended")
        try:
            return self.node.type(*typed)
        except Ended:
            raise lines.Refused("Ended") from None
        except Busy:
            raise lines.Refused("Busy") from None

    async def clock(self):
        """The clock of the site, while nothing is typed that gives it another one. Raises `Refused` as `type` does."""
        (slot,) = self.type([b"status"])
        try:
            (standing,) = await slot.answer()
        except Ended:
            raise lines.Refused("Ended") from None
        return lines.standing_of(standing.decode())["clock"]

    async def rename(self, text):
        """Takes what the person here is called, for as long as the journal lies there. Raises `BadName`, and `OSError` where
        the name can't be kept; the node has it then all the same."""
        name = name_of(text)
        if self.rounds and self.node.status is None:
            try:
                self.type([b"name " + word_of(name).encode()])
            except lines.Refused:
                raise BadName("the program that keeps the drawing doesn't answer: give the name again when it does") from None
            self.rounds.expect(lines.NOTES)
        self.name = name
        self.who = self.with_own_name(self.who)
        self.tell("who", who=self.who)
        self.names.write(self.name)

    # What the node says.

    def take_picture(self, shown, accepted, others, polled_at):
        """Tells what is different in a drawing, which has so many edits of this run of the node."""
        difference = self.picture.take(shown)
        self.shown = self.edits_before + accepted
        # Who sees an edit can step back from it.
        self.read_history()
        self.tell("picture", edits=self.shown, others=others, polled_at=polled_at, whole=False, **difference)

    def take_standing(self, standing):
        """Tells the numbers where they have changed. Says whether fewer events are kept than before."""
        self.peers.stand(standing)
        if standing == self.standing:
            return False
        is_less = standing["kept"] < self.standing.get("kept", 0)
        self.standing = standing
        self.tell("standing", standing=standing)
        self.tell_peers()
        return is_less

    def take_notes(self, notes):
        """Tells what all say of themselves where that has changed."""
        who = self.with_own_name(notes)
        if who == self.who:
            return
        before = {each["site"]: each for each in self.who}
        for each in who:
            if before.get(each["site"]) != each:
                self.peers.note(each["site"])
        self.who = who
        self.tell("who", who=who)

    def take_parted(self, sites, is_older):
        """Tells whose edits are others here than there, or that the own ones are, where that is news. It is so until the node is
        begun anew."""
        if (sites, is_older) != (self.parted, self.is_older):
            self.parted, self.is_older = sites, is_older
            self.tell("parted", sites=sites, older=is_older)

    def take_news(self, came, last):
        """Tells what a poll said, and gives its echoes."""
        news = [lines.news_of(line) for line in came]
        if last.startswith("link fault"):
            news.append({"what": "said", "line": last})
        if any(map(lines.is_older, came)):
            self.take_parted(self.parted, True)
        echoes = [each for each in news if each["what"] in lines.ECHOES]
        for each in echoes:
            self.history.came(each)
        self.tell_news(news)
        return echoes

    # What is told.

    def with_own_name(self, who):
        """Notes in which this site has its whole name."""
        return [{**each, "name": self.name or None} if each["site"] == self.site else each for each in who]

    def called(self):
        """The names of sites, as far as they are known."""
        names = {each["site"]: each["name"] for each in self.who if each["name"]} | self.whole_names()
        return {**names, self.site: self.name} if self.name else names

    def tell_news(self, news):
        now = time.monotonic()
        told = self.news.take(news, now) + self.news.due(now)
        if told:
            self.tell("news", news=told, earlier=False)

    def read_history(self):
        """Tells what came to the journal, up to the first event whose gesture isn't whole, or once that it isn't read any more."""
        self.history.go_on()
        if self.history.fault and not self.is_fault_told:
            self.is_fault_told = True
            self.tell_news([{"what": "said", "line": f"the drawing's file isn't read for the history: {self.history.fault}"}])
        first, self.told_events = self.told_events, self.gestures.told(len(self.history.events))
        if first < self.told_events:
            for text in self.history.messages(self.number, first, self.told_events):
                self.audience.spread(text, self.number)

    def note_event(self, place, event, is_new):
        if is_new and event["site"] == self.site:
            self.gestures.see(place, event["clock"])
        self.peers.event(event["clock"], event["site"], is_new)

    def tell_peers(self):
        """Tells what is known of the others, where more than the time since they were heard has changed."""
        silence = self.node.silence() if self.node else 0
        peers = self.peers.told(self.called(), silence)
        heard = [each["heard"] for each in peers["peers"]]
        plain = {**peers, "peers": [{**each, "heard": None} for each in peers["peers"]]}
        if plain != self.told_peers or 0 in heard:
            self.told_peers = plain
            self.tell("peers", **peers)

    async def watch(self, node):
        """Looks at the others, and at the node itself, again and again until it has ended."""
        while node.status is None:
            is_silent = node.silence() >= self.poll_every + WATCH_EVERY
            if self.was_silent and not is_silent:
                self.peers.resume()
            self.was_silent = is_silent
            self.tell_peers()
            self.tell_news([])
            await asyncio.sleep(WATCH_EVERY)

    def tell(self, kind, **fields):
        self.audience.tell(kind, desk=self.number, **fields)

    def hello(self):
        """What a page that comes is told first."""
        fields = {"site": self.site, "sites": self.sites, "session": self.session, "demo": self.is_demo}
        fields |= {"openly": self.is_openly, "journal": self.journal.name, "desks": self.desks, "turns": self.turns.told()}
        return message("hello", desk=self.number, **fields, names=self.called(), gestures=self.gestures.whole)

    def opening(self):
        """What a page that comes is told of this desk."""
        yield self.hello()
        yield message("news", desk=self.number, news=list(self.news.entries), earlier=True)
        yield message("who", desk=self.number, who=self.who)
        yield message("standing", desk=self.number, standing=self.standing)
        yield message("parted", desk=self.number, sites=self.parted, older=self.is_older)
        silence = self.node.silence() if self.node else 0
        yield message("peers", desk=self.number, **self.peers.told(self.called(), silence))
        # Before the node has shown the drawing there is none, which isn't the same as an empty one: a page would show that.
        if self.shown >= 0 or self.end:
            whole = self.picture.whole()
            yield message("picture", desk=self.number, edits=self.shown, others=False, polled_at=None, whole=True, **whole)
        yield from self.history.messages(self.number, 0, self.told_events)
        if self.end:
            yield message("end", desk=self.number, end=self.end)
