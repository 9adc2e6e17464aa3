"""All pages that listen, and what they are told."""

import asyncio
import json
from collections import deque

# A page that lets so many messages lie, or so many characters of them, is let go. It comes again, and is told all anew.
MOST_WAITING, MOST_CHARACTERS = 5_000, 64 << 20


def packed(fields):
    """JSON without spaces."""
    return json.dumps(fields, separators=(",", ":"), ensure_ascii=False)


def message(kind, **fields):
    """The text of one message to a page."""
    return packed({"is": kind, **fields})


class Listener:
    """What one page still has to be told, in its order, and `None` as the last."""

    def __init__(self, desk, let_go=lambda: None):
        """`let_go` is called where the page lets too much lie."""
        self.desk, self.let_go = desk, let_go
        self.waiting, self.characters, self.ended = deque(), 0, False
        self.changed = asyncio.Event()

    def put(self, text):
        self.waiting.append(text)
        self.characters += len(text)
        self.changed.set()

    def is_slow(self):
        return len(self.waiting) > MOST_WAITING or self.characters > MOST_CHARACTERS

    def end(self):
        self.ended = True
        self.changed.set()

    def drop(self):
        """Ends with all that lies there untold."""
        self.waiting.clear()
        self.end()
        self.let_go()

    async def get(self):
        """The next message, or `None` where no more comes."""
        while not self.waiting:
            if self.ended:
                return None
            self.changed.clear()
            await self.changed.wait()
        text = self.waiting.popleft()
        self.characters -= len(text)
        return text


class Audience:
    """The pages that listen, each to one desk."""

    def __init__(self):
        self.listeners = set()
        # Calls that give what a newcomer at a desk is told, with the number of the desk, or with none for those of all.
        self.openings = []

    def join(self, desk=None, let_go=lambda: None):
        """A listener that was told all that a newcomer is told, and gets each message from then on. Where no desk is named
        it hears of all."""
        listener = Listener(desk, let_go)
        # What is said of no desk comes last, since a page knows only then what it is.
        for number, opening in sorted(self.openings, key=lambda each: each[0] is None):
            if None in (desk, number) or number == desk:
                for text in opening():
                    listener.put(text)
        self.listeners.add(listener)
        return listener

    def leave(self, listener):
        self.listeners.discard(listener)

    def tell(self, kind, **fields):
        """Tells all who listen to the desk that `fields` names, or to any where it names none."""
        if self.listeners:
            self.spread(message(kind, **fields), fields.get("desk"))

    def spread(self, text, desk=None):
        """Hands a text on to all who listen to a desk."""
        for listener in list(self.listeners):
            if None in (desk, listener.desk) or listener.desk == desk:
                listener.put(text)
                if listener.is_slow():
                    self.leave(listener)
                    listener.drop()

    def close(self):
        """Tells all who listen that nothing more comes."""
        for listener in self.listeners:
            listener.end()
        self.listeners.clear()
