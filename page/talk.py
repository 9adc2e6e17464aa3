"""What a page says on its socket, and what it is answered."""

import asyncio
import json
import logging

from aiohttp import WSMsgType

from page.audience import message
from page.batch import MOST_LINES
from page.names import BadName
from page.node import Busy, Ended
from page.placed import CALLED
from page.replays import NoReplay, saved
from page.turns import MOST_NAME

# So many things that a page asked for may be under way. While they are, no more is read from it.
MOST_ASKED = 64
# The code with which a socket is closed where this program ends or lets a page go.
GOING = 4001
LOG = logging.getLogger("page.talk")


class Wrong(Exception):
    """What a page asks for isn't done. Its text says why."""


class Talk:
    """The talk with one page."""

    def __init__(self, socket, desks, audience, demo):
        self.socket, self.desks, self.audience, self.demo = socket, desks, audience, demo
        self.room, self.under_way, self.closing = asyncio.Semaphore(MOST_ASKED), set(), False
        self.calls = {
            "batch": self.batch,
            "again": self.again,
            "name": self.name,
            "save": self.save,
            "link": self.link,
            "carried": self.carried,
        }
        if any(desk.is_watch for desk in desks.values()):
            # Who only looks on saves what is seen, and asks for nothing else.
            self.calls = {"save": self.save}

    async def run(self, desk, let_go):
        """Talks until either side ends. The page is told of one desk. `let_go` breaks the connection off."""
        listener = self.audience.join(desk, let_go)
        telling = asyncio.create_task(self.tell(listener))
        try:
            async for each in self.socket:
                if each.type == WSMsgType.TEXT:
                    await self.take(each.data)
        finally:
            # What was asked for is done all the same: half a gesture is nobody's wish.
            self.audience.leave(listener)
            if not self.closing:
                telling.cancel()
            await asyncio.gather(telling, return_exceptions=True)

    async def tell(self, listener):
        """Hands on what there is to tell, and closes the socket behind it."""
        try:
            while (text := await listener.get()) is not None:
                await self.socket.send_str(text)
        except ConnectionError:
            # The page has gone, as the reading side finds too.
            return
        self.closing = True
        await self.socket.close(code=GOING, message=b"going")

    async def take(self, text):
        """Begins with what a message asks for. Each is begun in turn, and none waits for the answer to another."""
        await self.room.acquire()
        task = asyncio.create_task(self.answer(text))
        self.under_way.add(task)
        task.add_done_callback(self.is_done)

    def is_done(self, task):
        self.under_way.discard(task)
        self.room.release()

    async def answer(self, text):
        """Does what a message asks for, and answers it."""
        asked = {}
        try:
            asked = self.read(text)
            answer = await self.call(asked)(asked)
        except (Wrong, BadName, NoReplay) as why:
            answer = message("reply", id=asked.get("id"), error=str(why))
        except Exception:
            # A page that is told nothing waits for good.
            LOG.exception("what a page asked for wasn't done")
            answer = message("reply", id=asked.get("id"), error=f"{CALLED} failed at this; it says more where it runs")
        try:
            await self.socket.send_str(answer)
        except ConnectionError:
            pass

    def read(self, text):
        """The object that a message is. Raises `Wrong`."""
        try:
            asked = json.loads(text)
        except (ValueError, RecursionError):
            raise Wrong("a message is JSON") from None
        if not isinstance(asked, dict):
            raise Wrong("a message is an object")
        if not isinstance(asked.get("id"), (int, str, type(None))):
            raise Wrong("an id is a number or a text")
        return asked

    def call(self, asked):
        """What does what is asked for. Raises `Wrong`."""
        wanted = asked.get("do")
        if not isinstance(wanted, str) or wanted not in self.calls:
            raise Wrong(f"a message asks for one of {', '.join(self.calls)}")
        return self.calls[wanted]

    def desk(self, asked):
        number = asked.get("desk")
        desk = self.desks.get(number) if type(number) is int else None
        if desk is None:
            raise Wrong("there is no such desk")
        return desk

    async def batch(self, asked):
        desk, texts = self.desk(asked), asked.get("lines")
        if not isinstance(texts, list) or len(texts) > MOST_LINES:
            raise Wrong(f"a batch has a list of at most {MOST_LINES} lines")
        name = asked.get("name", "")
        if not isinstance(name, str) or len(name) > MOST_NAME:
            raise Wrong(f"a batch is called by a text of at most {MOST_NAME} characters")
        return message("answers", id=asked.get("id"), **await desk.batch(texts, name))

    async def again(self, asked):
        try:
            await self.desk(asked).start_again()
        except Busy:
            raise Wrong("it runs already") from None
        except Ended as said:
            raise Wrong(f"it ended at once{f': {said}' if str(said) else ''}") from None
        return message("reply", id=asked.get("id"), result=True)

    async def name(self, asked):
        desk = self.desk(asked)
        try:
            await desk.rename(asked.get("name"))
        except OSError as fault:
            raise Wrong(f"the name wasn't kept for the next start: {fault.strerror}") from None
        return message("reply", id=asked.get("id"), result=desk.name)

    async def save(self, asked):
        desk = self.desk(asked)
        return message("reply", id=asked.get("id"), result=await saved(desk.program, desk.journal, asked.get("form")))

    async def carried(self, asked):
        """Something of a session over a broker."""
        desk = self.desk(asked)
        if desk.carried is None:
            raise Wrong("nobody can be invited to this drawing")
        try:
            return message("reply", id=asked.get("id"), result=await desk.carried(asked))
        except ValueError as fault:
            raise Wrong(str(fault)) from None

    async def link(self, asked):
        if self.demo is None:
            raise Wrong("there is no link to set: this is no demonstration")
        try:
            self.demo.set(asked)
        except ValueError as fault:
            raise Wrong(str(fault)) from None
        return message("reply", id=asked.get("id"), result=True)
