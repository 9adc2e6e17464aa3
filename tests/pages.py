"""The examples of the Markdown pages: their blocks of text, and their tables."""

import re
from dataclasses import dataclass

from tests.program import ROOT

PAGES = ["README.md", *(f"{folder}/README.md" for folder in ("examples", "page", "carrier"))]
PAGES += sorted(f"docs/{path.name}" for path in (ROOT / "docs").glob("*.md"))
FENCE, INDENT = "```", "    "


def lines_of(page):
    return (ROOT / page).read_text().splitlines()


def blocks_of(page):
    """The blocks of a page, fenced ones and those that are indented, each as its lines."""
    blocks, is_fenced, was_blank = [], False, True
    for line in lines_of(page):
        if line.startswith(FENCE):
            is_fenced = not is_fenced
            blocks.append([]) if is_fenced else None
        elif is_fenced:
            blocks[-1].append(line)
        elif line.startswith(INDENT) and was_blank:
            blocks.append([line[4:]])
        elif line.startswith(INDENT) and blocks and not was_blank:
            blocks[-1].append(line[4:])
        was_blank = not line.strip()
    return blocks


def rows_of(page, *heads):
    """The rows of each table of a page whose first heads are these, as lists of cells."""
    tables, is_in = [], False
    for line in lines_of(page):
        cells = [cell.strip() for cell in re.split(r"(?<!\\)\|", line)[1:-1]] if line.startswith("|") else []
        if cells[: len(heads)] == list(heads):
            tables.append([])
            is_in = True
        elif not cells:
            is_in = False
        elif is_in and not set(line) <= set("|-: "):
            tables[-1].append(cells)
    return tables


def quoted(cell):
    """The words of a cell that stand in backticks."""
    return re.findall(r"`([^`]*)`", cell)


@dataclass
class Example:
    """A command of a page, and the lines behind it in its block."""

    page: str
    command: str
    behind: list


def examples():
    """Each command of a page that runs ./groupdesign, without what is said behind it. One with words in place of values is none."""
    for page in PAGES:
        for block in blocks_of(page):
            found = None
            for line in block:
                bare = re.sub(r"\s{2,}[#(].*$", "", line.removeprefix("$ "))
                is_command = re.match(r"\./|for .*\./groupdesign", bare) or line.startswith("$ ")
                if is_command and found:
                    yield found
                if is_command:
                    is_run = "./groupdesign " in bare and not re.search(r"\b(N|S|ADDR|NEW|LOG|LINES|PATH|PROGRAM)\b", bare)
                    found = Example(page, bare, []) if is_run else None
                elif found:
                    found.behind.append(line)
            if found:
                yield found


# What runs something, as a line of a block: a file of the checkout, the installed command, or one of the system.
COMMAND = re.compile(r"(\$ |\./|groupdesign |rt |sudo |for |[a-z]+/[a-z-]+(\.sh|\.py)?( |$))")


def bare(line):
    """A line of a block without its prompt, and without what is said behind its command."""
    return re.sub(r"\s{2,}\S.*$", "", line.removeprefix("$ "))


def commands():
    """Each command that stands in a block of a page, with the page. Of a dialogue it is what stands behind the prompt."""
    for page in PAGES:
        for block in blocks_of(page):
            lines = [line for line in block if line.startswith("$ ")] or [line for line in block if COMMAND.match(line)]
            yield from ((page, bare(line)) for line in lines)


def draws():
    """Each command that runs ./draw with its words, in a block or in backticks, with the page."""
    for page in PAGES:
        text = (ROOT / page).read_text()
        inline = [f"./draw {words}" for words in re.findall(r"`\./draw (--[^`]+)`", text)]
        blocks = [command for each, command in commands() if each == page and command.startswith("./draw ")]
        yield from ((page, command) for command in blocks + inline)
