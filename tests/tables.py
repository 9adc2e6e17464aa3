"""The tables of dialogues and sessions, as text files: see tables/."""

from dataclasses import dataclass, field
from pathlib import Path

TABLES = Path(__file__).resolve().parent / "tables"


@dataclass
class Table:
    """A dialogue or a session: what it shows, how many sites it has, what happens, and what each site prints."""

    name: str
    sites: int
    steps: list = field(default_factory=list)
    printed: list = field(default_factory=lambda: [""])


def tables_of(name):
    """The tables of a file. A line `= SITES NAME` begins one."""
    tables = []
    for line in (TABLES / name).read_text().splitlines():
        if line.startswith("= "):
            _, sites, shows = line.split(" ", 2)
            tables.append(Table(shows, int(sites)))
        else:
            yield_line(tables[-1], line)
    return tables


def yield_line(table, line):
    """A line that is typed begins with `>` or with a site and `>`, and `prints SITE` stands in front of what that one prints."""
    if line.startswith("prints "):
        table.printed.append("")
    elif line.startswith(("> ", "send ", "deliver ")) or line[1:3] == "> ":
        table.steps.append(line)
    else:
        table.printed[-1] += line + "\n"


def dialogues(name):
    """Of each dialogue: its name, its sites, what is typed, and what is printed."""
    for table in tables_of(name):
        yield table.name, table.sites, "".join(f"{step[2:]}\n" for step in table.steps), table.printed[0]
