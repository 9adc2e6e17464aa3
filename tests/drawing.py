"""The drawing of events, and what a person who types lines at one site makes, written from docs/FORMATS.md and docs/LINES.md
alone."""

from dataclasses import astuple, dataclass

GROUP = "group"
CONNECTOR = "connector"
# As many gestures are taken back, and so many done again.
MOST_BACKS = 1_024


@dataclass
class Object:
    """A shape, a group or a connector, with the fields of a restore in their order behind its id. `link` is its group and its shift in it,
    and `rank` is `low` or `high` and the stamp of the event that gave it."""

    id: tuple
    kind: str
    x: int
    y: int
    w: int
    h: int
    stroke: int
    fill: int | None
    width: int
    dash: str
    heads: str
    round: int | None
    opacity: int
    size: int | None
    align: str | None
    label: str
    ends: tuple | None
    link: tuple | None
    is_dissolved: bool
    rank: tuple

    @property
    def whole(self):
        return astuple(self)[1:]

    @property
    def place(self):
        """What the stack is sorted by."""
        side, (clock, site) = self.rank
        return ((1, clock, site) if side == "high" else (0, -clock, -site)), self.id


def new(stamp, kind, x=0, y=0, w=0, h=0, label="", ends=None):
    heads = "none" if ends is None else "end"
    return Object(stamp, kind, x, y, w, h, 0, None, 1, "solid", heads, None, 100, None, None, label, ends, None, False, ("high", stamp))


def id_text(id):
    return f"{id[0]}.{id[1]}"


def escaped(label):
    """A label on a line."""
    return label.replace("\\", "\\\\").replace("\n", "\\n")


# What a look has that isn't as it is made, in the order in which it is printed.
MARKS = (("dash", "solid"), ("heads", "none"), ("round", None), ("opacity", 100), ("size", None), ("align", None))


def marks(it):
    return "".join(f" {part} {getattr(it, part)}" for part, usual in MARKS if getattr(it, part) != usual)


def own_ties(it, ties):
    """The ties that an object gives where it is put or taken: only a group ties others."""
    return ties if it.kind == GROUP else ()


def taking(id, ties):
    """What takes an object away, and ties others."""
    return ("disband", id, *ties) if ties else ("delete", id)


class Drawing:
    """Objects by their ids, as events in the order of their stamps leave them."""

    def __init__(self):
        self.objects = {}

    def apply(self, stamp, op):
        """Applies the next event: its stamp, and an operation with what it asks for, as in spelled.py."""
        name, *given = op
        if name == "create":
            self.put(new(stamp, *given))
        elif name == GROUP:
            self.put(new(stamp, GROUP), [(id, (stamp, *shift)) for id, *shift in given])
        elif name == "restore":
            self.put(Object(given[0], *given[1]), given[2:])
        elif name == "connect":
            self.put(new(stamp, CONNECTOR, label=given[2], ends=tuple(given[:2])))
        elif given[0] in self.objects:
            self.change(stamp, name, self.objects[given[0]], given[1:])

    def put(self, it, ties=()):
        if it.id not in self.objects:
            self.tie(own_ties(it, ties))
            self.objects[it.id] = it

    def tie(self, ties):
        for id, link in ties:
            if id in self.objects:
                self.objects[id].link = link

    def change(self, stamp, name, it, given):
        is_shape = it.kind != GROUP
        is_placed = it.kind != CONNECTOR
        match name:
            case "delete" | "disband":
                del self.objects[it.id]
                self.tie(own_ties(it, given))
            case "move" if is_placed:
                it.x, it.y = given
            case "reconnect" if not is_placed:
                it.ends = tuple(given)
            case "style" if is_shape:
                for part, value in given[0].items():
                    setattr(it, part, value)
            case "raise" | "lower":
                it.rank = "high" if name == "raise" else "low", stamp
            case "rerank":
                (it.rank,) = given
            case "ungroup" | "reopen" if not is_shape:
                it.is_dissolved = name == "ungroup"
            case "resize" if is_shape and is_placed:
                it.w, it.h = given
            case "stroke" | "fill" | "width" if is_shape:
                setattr(it, name, given[0])
            case "text" if is_shape:
                it.label = given[0]

    def back(self, stamp, op):
        """What takes an operation back that is applied next, and changes something."""
        name, *given = op
        if name in ("create", "connect"):
            return taking(stamp, [])
        if name == GROUP:
            return taking(stamp, self.links(id for id, *_ in given))
        if name == "restore":
            return taking(given[0], self.links(id for id, _ in given[2:]))
        it = self.objects[given[0]]
        match name:
            case "delete" | "disband":
                return "restore", it.id, it.whole, *self.links(id for id, _ in own_ties(it, given[1:]))
            case "move":
                return "move", it.id, it.x, it.y
            case "resize":
                return "resize", it.id, it.w, it.h
            case "text":
                return "text", it.id, it.label
            case "reconnect":
                return "reconnect", it.id, *it.ends
            case "style":
                return "style", it.id, {part: getattr(it, part) for part in given[1]}
            case "ungroup" | "reopen":
                return "ungroup" if it.is_dissolved else "reopen", it.id
            case "raise" | "lower" | "rerank":
                return "rerank", it.id, it.rank
            case _:
                return name, it.id, getattr(it, name)

    def links(self, ids):
        """Those of these objects that are there, each with its link."""
        return [(id, self.objects[id].link) for id in ids if id in self.objects]

    def chain(self, it):
        """The groups that an object is in, from the innermost on; None where one of them isn't there. Behind it, the sum of all
        shifts, and of the places of these groups."""
        groups, dx, dy = [], 0, 0
        while it.link:
            parent, *shift = it.link
            if parent not in self.objects:
                return None, 0, 0
            it = self.objects[parent]
            groups.append(it)
            dx, dy = dx + shift[0] + it.x, dy + shift[1] + it.y
        return groups, dx, dy

    def shown(self, id):
        """The group that an object is shown in, or None, and its offset. None alone where it isn't shown."""
        it = self.objects.get(id)
        groups, dx, dy = self.chain(it) if it else (None, 0, 0)
        if groups is None or it.kind == GROUP and it.is_dissolved:
            return None
        if it.kind == CONNECTOR and not (it.ends and all(map(self.is_end, it.ends))):
            return None
        parent = next((group.id for group in groups if not group.is_dissolved), None)
        return parent, dx, dy

    def is_end(self, id):
        """Whether a shape or a group of that id is shown."""
        return id in self.objects and self.objects[id].kind != CONNECTOR and self.shown(id) is not None

    def line(self, it, parent, dx, dy):
        front = f"{it.kind} {id_text(it.id)} in {id_text(parent) if parent else '-'}"
        place = f"{front} at {it.x + dx} {it.y + dy}"
        if it.kind == GROUP:
            return place
        where = f"{place} size {it.w} {it.h}"
        if it.kind == CONNECTOR:
            where = f"{front} from {id_text(it.ends[0])} to {id_text(it.ends[1])}"
        fill = "none" if it.fill is None else f"{it.fill:06X}"
        label = f" text {escaped(it.label)}" if it.label else ""
        return f"{where} stroke {it.stroke:06X} fill {fill} width {it.width}{marks(it)}{label}"

    def text(self):
        """The printed text: what is in nothing from bottom to top, and behind each object what is in it."""
        inside = {}
        for it in sorted(self.objects.values(), key=lambda it: it.place):
            seen = self.shown(it.id)
            if seen:
                inside.setdefault(seen[0], []).append((it, seen))
        lines, todo = [], inside.get(None, [])[::-1]
        while todo:
            it, seen = todo.pop()
            lines.append(self.line(it, *seen))
            todo += inside.get(it.id, [])[::-1]
        return "".join(f"{line}\n" for line in lines) + f"end {len(lines)}\n"


# Some of each part of a look, as they are typed and kept.
SOME_LOOKS = {
    "stroke": (0, 0xAB0C), "fill": (None, 0xFF8000), "width": (1, 64), "dash": ("solid", "dashed", "dotted"),
    "heads": ("none", "end", "start", "both"), "round": (0, 8, 1_000_000), "opacity": (1, 100), "size": (1, 1_000),
    "align": ("start", "middle", "end"),
}
# At the edges of their lengths, and with what a line has to escape.
LABELS = ["", "a", " two words ", "é\"\\", "x" * 200, "y" * 201, "z" * 456, "ß" * 250, "one\ntwo\n", "\\n"]


def look_word(part, value):
    if part in ("stroke", "fill"):
        return "none" if value is None else f"{value:06X}"
    return str(value)


@dataclass
class Typed:
    """What is typed at once, a line or a gesture: its lines, those that are printed of it, and how many events it makes."""

    lines: list
    answers: list
    count: int


class Typist:
    """Edits that a person types at one site that is alone, alone or in gestures, drawn from a seed, and the events that they make. All
    are accepted. Some of them are taken back, and some of these done again."""

    # It has about so many objects. A group is deleted seldom, since what was in it is hidden for good.
    MOST, SELDOM = 300, 0.02
    # So many of the gestures have several edits, or none, and so many at most.
    TOGETHER, LARGEST = 0.1, 12

    def __init__(self, draw, site=1):
        self.draw, self.site, self.drawing = draw, site, Drawing()
        self.typed, self.events, self.undos, self.redos = [], [], [], []
        # The lines of a gesture that has begun, and what takes each of them back.
        self.waiting = None

    def type(self, line, op):
        """An edit, typed and as the operation of its event: a gesture by itself, where none has begun."""
        back = self.happens(op)
        if self.waiting is None:
            self.end([line], [back], [])
        else:
            self.waiting.append((line, back))

    def together(self, count):
        """So many edits are typed as one gesture."""
        self.waiting = []
        for _ in range(count):
            self.draw_on()
        lines, backs = [line for line, _ in self.waiting], [back for _, back in self.waiting]
        self.waiting = None
        self.end(["begin", *lines, "end"], backs, [f"end {count}"])

    def end(self, lines, backs, behind):
        """A gesture was done, which is taken back so."""
        self.note(lines, len(backs), behind)
        if backs:
            self.undos.append(backs[::-1])
            del self.undos[:-MOST_BACKS]
            self.redos = []

    def note(self, lines, count, behind):
        oks = [f"ok {id_text(stamp)}" for stamp, _, _ in self.events[len(self.events) - count :]]
        self.typed.append(Typed(lines, oks + behind, count))

    def happens(self, op):
        """The operation of the next event. Gives what takes that back."""
        stamp = (len(self.events) + 1, self.site)
        back = self.drawing.back(stamp, op)
        self.events.append((stamp, stamp[0], op))
        self.drawing.apply(stamp, op)
        return back

    def turn(self, line):
        """The last gesture is taken back by an `undo`, or done again by a `redo`."""
        due, other = (self.undos, self.redos) if line == "undo" else (self.redos, self.undos)
        backs = [self.happens(op) for op in due.pop()]
        other.append(backs[::-1])
        self.note([line], len(backs), [f"end {len(backs)}"])

    def create(self):
        draw = self.draw
        kind, label = draw.choice(["rect", "ellipse", "line", "text"]), draw.choice(LABELS)
        x, y, w, h = (draw.randint(-1000, 1000) for _ in range(4))
        self.type(f"create {kind} {x} {y} {w} {h}{label and ' '}{escaped(label)}", ("create", kind, x, y, w, h, label))

    def edit(self):
        """Types one more gesture. Behind an undo comes often another one, or a redo."""
        turns = ["undo"] * bool(self.undos) + ["redo", "redo"] * bool(self.redos)
        if turns and self.draw.random() < (0.7 if self.redos else 0.1):
            self.turn(self.draw.choice(turns))
        elif self.draw.random() < self.TOGETHER:
            self.together(self.draw.randint(0, self.LARGEST))
        else:
            self.draw_on()

    def draw_on(self):
        """Types an edit that is none of these two."""
        ids, draw = list(self.drawing.objects), self.draw
        tried = draw.choices(ids, k=9) if ids else []
        id = next((id for id in tried if self.drawing.shown(id)), None)
        if id is None or draw.random() < (0.3 if len(ids) < self.MOST else 0.03):
            self.create()
        elif draw.random() < 0.03:
            self.pair(id, draw.choice(ids))
        elif draw.random() < 0.06:
            self.join(id, draw.choice(ids))
        else:
            self.change(self.drawing.objects[id], self.drawing.shown(id))

    def pair(self, *ids):
        """Groups two objects that are in no group, where they are two."""
        seen = [self.drawing.shown(id) for id in ids]
        if ids[0] == ids[1] or not all(each and each[0] is None for each in seen):
            return self.create()
        # They are shown where they were: so the shift makes up for all that they were linked to.
        members = sorted((id, dx, dy) for id, (_, dx, dy) in zip(ids, seen))
        self.type(f"group {id_text(ids[0])} {id_text(ids[1])}", (GROUP, *members))

    def join(self, *ids):
        """Connects two objects that are two, and no connectors."""
        if ids[0] == ids[1] or not all(map(self.drawing.is_end, ids)):
            return self.create()
        label = self.draw.choice(LABELS)
        self.type(f"connect {id_text(ids[0])} {id_text(ids[1])}{label and ' '}{escaped(label)}", ("connect", *ids, label))

    def reconnect(self, it):
        """Gives a connector other ends, or turns it round where these don't do."""
        ends = tuple(self.draw.choices(list(self.drawing.objects), k=2))
        if ends[0] == ends[1] or not all(map(self.drawing.is_end, ends)):
            ends = it.ends[::-1]
        self.type(f"reconnect {id_text(it.id)} {id_text(ends[0])} {id_text(ends[1])}", ("reconnect", it.id, *ends))

    def look(self, it):
        """Sets some parts of a look, of which a lone one has a line of its own."""
        draw, word = self.draw, id_text(it.id)
        looks = {part: draw.choice(SOME_LOOKS[part]) for part in draw.sample(sorted(SOME_LOOKS), draw.choice([1, 1, 2, 9]))}
        pairs = [f"{part} {look_word(part, value)}" for part, value in looks.items()]
        (part, value), *more = looks.items()
        op = (part, it.id, value) if part in ("stroke", "fill", "width") and not more else ("style", it.id, looks)
        if more or draw.random() < 0.3:
            self.type(f"style {word} {' '.join(pairs)}", op)
        else:
            self.type(f"{part} {word} {look_word(part, value)}", op)

    def change(self, it, seen):
        draw, id, word = self.draw, it.id, id_text(it.id)
        if it.kind == CONNECTOR:
            names = ["raise", "lower", "text", "look", "look", "reconnect", "reconnect"] + ["delete"] * (draw.random() < self.SELDOM)
        elif it.kind == GROUP:
            names = ["move", "raise", "lower", "ungroup"] + ["delete"] * (draw.random() < self.SELDOM)
        else:
            names = ["move", "raise", "lower", "resize", "stroke", "fill", "width", "text", "look"]
            names += ["delete"] * (len(self.drawing.objects) > self.MOST)
        name = draw.choice(names)
        match name:
            case "move":
                x, y = draw.randint(-1000, 1000), draw.randint(-1000, 1000)
                self.type(f"move {word} {x} {y}", ("move", id, x - seen[1], y - seen[2]))
            case "resize":
                w, h = draw.randint(-99, 99), draw.randint(-99, 99)
                self.type(f"resize {word} {w} {h}", ("resize", id, w, h))
            case "stroke":
                colour = draw.randrange(1 << 24)
                self.type(f"stroke {word} {colour:06x}", ("stroke", id, colour))
            case "fill":
                colour = draw.choice([None, draw.randrange(1 << 24)])
                self.type(f"fill {word} {'none' if colour is None else f'{colour:06X}'}", ("fill", id, colour))
            case "width":
                width = draw.randint(1, 64)
                self.type(f"width {word} {width}", ("width", id, width))
            case "text":
                label = draw.choice(["", "b", "Käse", "two\nlines", "a\\n"])
                self.type(f"text {word}{label and ' '}{escaped(label)}", ("text", id, label))
            case "look":
                self.look(it)
            case "reconnect":
                self.reconnect(it)
            case _:
                self.type(f"{name} {word}", (name, id))
