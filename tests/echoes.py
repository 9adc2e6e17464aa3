"""Echoes, and the operations in words with which they end, written from docs/LINES.md, section 6, alone."""

from tests.spelled import LOOKS


def id_text(id):
    return f"{id[0]}.{id[1]}"


def numbers(given):
    return "".join(f" {value}" for value in given)


def colour(value):
    return "none" if value is None else f"{value:06X}"


def escaped(text):
    """A label on a line."""
    return text.replace("\\", "\\\\").replace("\n", "\\n")


def behind(text):
    """A label behind the words of a line that asks for it."""
    return f" {escaped(text)}" if text else ""


def look(name, value):
    """A look, by its name, as a line sets it."""
    return f" {name} {colour(value) if name in ('stroke', 'fill') else 'none' if value is None else value}"


def marks(dash, heads, round, opacity, size, align):
    """The looks that aren't as they are made."""
    looks = {"dash": dash, "heads": heads, "round": round, "opacity": opacity, "size": size, "align": align}
    made = {"dash": "solid", "heads": "none", "opacity": 100}
    return "".join(f" {name} {value}" for name, value in looks.items() if value != made.get(name))


def link(to):
    return "in -" if to is None else f"in {id_text(to[0])}{numbers(to[1:])}"


def rank(given):
    return f"{given[0]} {id_text(given[1])}"


def ties(given):
    return "".join(f" tie {id_text(id)} {link(to)}" for id, to in given)


def whole(kind, x, y, w, h, stroke, fill, width, dash, heads, round, opacity, size, align, label, ends, to, is_dissolved, given):
    """All of an object but its id and its label."""
    between = "".join(f" {id_text(id)}" for id in ends or ())
    front = f" {kind}{between}{numbers((x, y, w, h))} {colour(stroke)} {colour(fill)} {width}"
    front += f"{marks(dash, heads, round, opacity, size, align)} {link(to)}"
    return f"{front}{' dissolved' if is_dissolved else ''} {rank(given)}"


def words(op):
    """An operation, which is a name and what it asks for, as in spelled.py."""
    name, *given = op
    match name:
        case "create":
            return f"create {given[0]}{numbers(given[1:5])}{behind(given[5])}"
        case "group":
            return "group" + "".join(f" {id_text(id)}{numbers(shift)}" for id, *shift in given)
        case "restore":
            label = escaped(given[1][14])
            return f"restore {id_text(given[0])}{whole(*given[1])}{ties(given[2:])}{f' text {label}' if label else ''}"
        case "connect" | "reconnect":
            ids = [each for each in given if isinstance(each, tuple)]
            return name + "".join(f" {id_text(id)}" for id in ids) + behind("".join(given[len(ids) :]))
        case "style":
            id, looks = id_text(given[0]), [look(each, given[1][each]) for each in LOOKS if each in given[1]]
            if len(looks) > 1:
                return f"style {id}{''.join(looks)}"
            set_look, value = looks[0].split()
            return f"{set_look} {id} {value}"
    line = f"{name} {id_text(given[0])}"
    match name:
        case "move" | "resize" | "width":
            return line + numbers(given[1:])
        case "stroke" | "fill":
            return f"{line} {colour(given[1])}"
        case "text":
            return line + behind(given[1])
        case "rerank":
            return f"{line} {rank(given[1])}"
        case "disband":
            return line + ties(given[1:])
        case _:
            return line


def applied(event):
    """The echo of an event that was applied: its stamp, its number, and its operation."""
    return f"echo {id_text(event[0])} applied {words(event[2])}"


def echoes(*events):
    """The lines of events that were applied, one after the other."""
    return "".join(f"{applied(event)}\n" for event in events)


def echoes_in(text):
    """The echoes among printed lines: each with the stamp of its event."""
    lines = [line.split(" ", 2) for line in text.splitlines() if line.startswith("echo ")]
    return [(tuple(int(part) for part in stamp.split(".")), rest) for _, stamp, rest in lines]


def is_of(rest, event):
    """Whether what an echo says behind the stamp ends with the operation of an event, behind what came of that."""
    front = rest.removesuffix(f" {words(event[2])}")
    return front == "applied" or front != rest and front.startswith(("dropped by ", "reworked ")) and front.count(" ") < 3
