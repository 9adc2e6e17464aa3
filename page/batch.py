"""The lines of one gesture of a page, each of which may name what earlier ones of it made.

A node takes several edits as one where they stand between `begin` and `end`, and answers them when all are done. So the ids that
later ones of them need are foretold, by the clock of the site. Where one of the edits is refused, those behind it get lower clocks
than was foretold: if any was about another object then, all of it is taken back at once."""

import re

from page.lines import EDITS, TURNS, Refused, first_word, typed

MOST_LINES = 10_000
# So many edits does a node take as one gesture. More of them are several gestures in a row.
MOST_TOGETHER = 512
# `@K` as a whole word stands for the id that the line K of the batch made.
REFERENCE = re.compile(r"(?<![^ ])@([1-9][0-9]{0,4})(?![^ ])")
# What stands in front of a label, in which `@K` is a word like any other.
HEADS = {
    "create": re.compile(r" *create(?: +[^ ]+){5}"),
    "connect": re.compile(r" *connect(?: +[^ ]+){2}"),
    "text": re.compile(r" *text +[^ ]+"),
}
# A line was typed, and the node ended before it had answered: it may have been taken.
UNANSWERED = "unanswered"


def head_of(text):
    """How many characters of a line stand in front of its label; all, where it has none."""
    pattern = HEADS.get(next((word for word in text.split(" ") if word), ""))
    found = pattern.match(text) if pattern else None
    return found.end() if found else len(text)


def references(text):
    """The numbers of the lines, from 1, whose objects a line names."""
    if not isinstance(text, str) or "@" not in text:
        return []
    return [int(each) for each in REFERENCE.findall(text[: head_of(text)])]


def with_ids(text, ids):
    """A line with the ids of objects in the place of the references to them, as far as there are any."""
    end = head_of(text)
    return REFERENCE.sub(lambda found: ids.get(int(found[1]), found[0]), text[:end]) + text[end:]


def stamps_of(answer):
    """The stamps of the events that an answer tells of."""
    return [line[3:] for line in answer.split("\n") if line.startswith("ok ")]


def is_edit(text):
    return isinstance(text, str) and first_word(text.encode(errors="replace")) in EDITS - TURNS


def parts_of(texts):
    """The places of the lines that are typed together: edits one behind the other, and any other line alone."""
    parts = []
    for index, text in enumerate(texts):
        is_next = parts and index and is_edit(text) and is_edit(texts[index - 1]) and len(parts[-1]) < MOST_TOGETHER
        if is_next:
            parts[-1].append(index)
        else:
            parts.append([index])
    return parts


class Part:
    """Lines that are typed as one gesture, or one line, by their places in the batch."""

    def __init__(self, places, clock=0, site=0):
        """`clock` is the site's where ids are foretold."""
        self.places, self.clock, self.site = frozenset(places), clock, site
        self.lines, self.foretold, self.uses, self.slot = {}, {}, {}, None

    def add(self, index, line, uses):
        """One line more, which names what these lines of the part are to make."""
        self.lines[index], self.uses[index] = line, uses
        self.foretold[index] = f"{self.clock + len(self.lines)}.{self.site}"

    @property
    def typed(self):
        """What is typed."""
        lines = list(self.lines.values())
        return b"\n".join([b"begin", *lines, b"end"]) if len(lines) > 1 else lines[0]

    @property
    def reply(self):
        """The lines of the answer, once it is there."""
        return [line.decode(errors="replace") for line in self.slot.lines]

    @property
    def answers(self):
        """The answers to the lines, by their places, once they are there."""
        if self.slot.cut:
            return dict.fromkeys(self.lines, UNANSWERED)
        reply = self.reply
        return dict(zip(self.lines, reply if len(self.lines) > 1 else ["\n".join(reply)]))

    def is_astray(self):
        """Whether a line was taken that names another object than it was to name."""
        answers = self.answers
        wrong = {index for index, name in self.foretold.items() if answers[index] != f"ok {name}"}
        return any(wrong & self.uses[index] and stamps_of(answers[index]) for index in self.lines)


class Batch:
    """Lines that are typed together. `desk` has `type`, which types lines, as bytes, and gives their slots, or raises `Refused`;
    `clock`, which waits for the clock of the site; and the number of that. What was typed then stands in `texts`, and the first
    words of that in `verbs`."""

    def __init__(self, texts, desk):
        self.texts, self.desk, self.verbs = list(texts), desk, set()
        self.answers, self.parts, self.is_astray = [None] * len(texts), [], False

    async def type_all(self):
        """Types all lines. Waits for the clock where ids are foretold, and for answers where a line names what an earlier part
        makes."""
        for places in parts_of(self.texts):
            part = await self.prepared(places)
            if part.lines:
                await self.type_part(part)

    async def all_answers(self):
        """The answers to all lines, once all are there."""
        for part in self.parts:
            await self.answer(part)
        return self.answers

    @property
    def answered(self):
        """The lines that have an answer, each with that."""
        return [(text, answer) for text, answer in zip(self.texts, self.answers) if answer]

    @property
    def taken(self):
        """The events of the lines that the node took, each with its line."""
        return [(stamp, text) for text, answer in self.answered for stamp in stamps_of(answer)]

    @property
    def replies(self):
        """What was typed at once, each by its first word, with the lines of its answer."""
        return [(first_word(part.typed.partition(b"\n")[0]), part.reply) for part in self.parts if not part.slot.cut]

    @property
    def is_cut(self):
        """Whether lines were typed whose answers never came."""
        return UNANSWERED in self.answers

    async def prepared(self, places):
        """The lines at these places as they are typed. Those that aren't are answered."""
        part = Part(places)
        try:
            if any(each - 1 in part.places for index in places for each in references(self.texts[index]) if each <= index):
                part = Part(places, await self.desk.clock(), self.desk.site)
        except Refused as why:
            self.refuse(places, why)
            return part
        for index in places:
            await self.prepare(part, index)
        return part

    async def prepare(self, part, index):
        """Adds a line to a part, or answers it."""
        text = self.texts[index]
        needed = {each - 1 for each in references(text) if each <= index}
        try:
            ids = {each + 1: await self.id_of(part, each) for each in needed}
            # What refers to no earlier line stays, and the node refuses it.
            text = with_ids(text, ids) if ids else text
            part.add(index, typed(text), needed & part.places)
        except Refused as why:
            self.refuse([index], why)
            return
        self.texts[index] = text
        self.verbs.add(first_word(part.lines[index]))

    async def id_of(self, part, index):
        """The id that a line makes. Raises `Refused` where it makes nothing."""
        if index in part.foretold:
            return part.foretold[index]
        for earlier in self.parts:
            if index in earlier.lines:
                await self.answer(earlier)
        stamps = stamps_of(self.answers[index])
        if len(stamps) != 1:
            raise Refused("NoObject")
        return stamps[0]

    def refuse(self, places, why):
        for index in places:
            self.answers[index] = f"refused: {why}"

    async def type_part(self, part):
        """Types a part. Where its ids were foretold, all of it is taken back if a line went astray by that."""
        try:
            (part.slot,) = self.desk.type([part.typed])
        except Refused as why:
            self.refuse(part.lines, why)
            return
        self.parts.append(part)
        if any(part.uses.values()):
            await self.answer(part)
            if not part.slot.cut and part.is_astray():
                self.take_back(part)

    def take_back(self, part):
        """Has a part be taken back, of which some line was refused: that is the answer to all that weren't."""
        self.is_astray = True
        self.parts.remove(part)
        why = next(answer for answer in part.answers.values() if not stamps_of(answer))
        for index, answer in part.answers.items():
            self.answers[index] = why if stamps_of(answer) else answer
        try:
            self.desk.type([b"undo"])
        except Refused:
            # The node has ended: it begins anew without what could be taken back.
            pass

    async def answer(self, part):
        """Waits for the answers to a part."""
        await part.slot.settled()
        for index, answer in part.answers.items():
            self.answers[index] = answer
