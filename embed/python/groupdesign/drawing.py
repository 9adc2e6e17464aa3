"""What a member shows."""

import json
from collections.abc import Iterator
from dataclasses import dataclass, fields
from typing import Any


@dataclass(frozen=True, slots=True)
class Looks:
    """How a shape or a connector is drawn; None stands for what its kind has."""

    stroke: str
    fill: str | None
    width: int
    dash: str = "solid"
    heads: str = "none"
    round: int | None = None
    opacity: int = 100
    letters: int | None = None
    align: str | None = None


LOOKS = tuple(field.name for field in fields(Looks))


@dataclass(frozen=True, slots=True)
class Shape:
    """A `rect`, an `ellipse`, a `line` or a `text`; `inside` is the id of the group that it is in."""

    id: str
    kind: str
    inside: str | None
    at: tuple[int, int]
    size: tuple[int, int]
    looks: Looks
    label: str


@dataclass(frozen=True, slots=True)
class Connector:
    """A line from one object to another, whose ids are `start` and `end`."""

    id: str
    inside: str | None
    start: str
    end: str
    looks: Looks
    label: str


@dataclass(frozen=True, slots=True)
class Group:
    """A group; what is in it has its id for `inside`."""

    id: str
    inside: str | None
    at: tuple[int, int]


Item = Shape | Connector | Group


@dataclass(frozen=True, slots=True)
class Drawing:
    """The objects that are shown, from the lowest to the topmost one, and what they were read from."""

    items: tuple[Item, ...]
    json: str

    @classmethod
    def read(cls, text: str) -> "Drawing":
        """The drawing that a line of JSON has."""
        return cls(tuple(_item(each) for each in json.loads(text)), text)

    def __iter__(self) -> Iterator[Item]:
        return iter(self.items)

    def __len__(self) -> int:
        return len(self.items)

    def __contains__(self, id: object) -> bool:
        return any(item.id == id for item in self.items)

    def __getitem__(self, id: str) -> Item:
        """The object with this id. `KeyError` where it isn't shown."""
        for item in self.items:
            if item.id == id:
                return item
        raise KeyError(id)


def _pair(numbers: list[int]) -> tuple[int, int]:
    return numbers[0], numbers[1]


def _looks(given: dict[str, Any]) -> Looks:
    there = {name: given[name] for name in LOOKS if name in given}
    return Looks(**there)


def _item(given: dict[str, Any]) -> Item:
    id, kind, inside = given["id"], given["kind"], given["in"]
    if kind == "group":
        return Group(id, inside, _pair(given["at"]))
    if kind == "connector":
        return Connector(id, inside, given["from"], given["to"], _looks(given), given["label"])
    return Shape(id, kind, inside, _pair(given["at"]), _pair(given["size"]), _looks(given), given["label"])
