#!/usr/bin/env python3
"""Random steps of three members in one process, judged by the program: it rehearses the same steps, and has to print the same.

    embed/tests/fuzz.py --program PROGRAM [--steps 100000] [--seed 1]

The steps are edits, gestures, undos and redos, notes, frames that are delivered late, twice, in disorder or never, altered bytes, and
members that end and go on from the bytes of their journals. A gesture is rehearsed as its edits, and its undo as theirs; altered
bytes have to be refused and to change nothing, so they aren't rehearsed; and behind a restart, of which a rehearsal knows none, the others
send a frame each, after which all but notes has to be as if nothing had happened. It prints each difference, and how many there were.
"""

import argparse
import subprocess
import sys
from collections import Counter
from dataclasses import dataclass, field
from pathlib import Path
from random import Random

if __package__ in (None, ""):
    sys.path.insert(0, str(Path(__file__).resolve().parent.parent / "out/python"))

from groupdesign import Member, Refused

SITES, SESSION = 3, 1
# So many steps are rehearsed in one run.
ROUND = 400
KINDS = ("rect", "ellipse", "line", "text")
LABELS = ("", "House", " a  b ", "Grüße", "\\n", "\\", "a\\\\b", "x" * 501, "🙂", "quote\"s")
LOOKS = ("stroke FF00FF", "fill none", "fill 00FF00", "width 7", "dash dotted", "heads both", "round 5", "opacity 50", "size 20", "align end",
         "width 65", "align left")


@dataclass
class Site:
    """A member, its journal, and of how many events its gestures were that can be undone and redone."""

    member: Member
    journal: bytes
    undos: list[int] = field(default_factory=list)
    redos: list[int] = field(default_factory=list)

    def keep(self) -> None:
        """Puts what is unwritten into the journal."""
        records = self.member.unwritten()
        if records.data:
            self.journal = self.journal[: records.place] + records.data
            self.member.written(records)


@dataclass(frozen=True)
class Mail:
    """A frame on its way."""

    to: int
    data: bytes


class Round:
    """Some steps, the lines that rehearse them, and what these have to print."""

    def __init__(self, seed: int) -> None:
        self.draw, self.typed, self.wanted, self.counts = Random(seed), [], [], Counter[str]()
        members = [Member(site, SITES, SESSION) for site in range(1, SITES + 1)]
        self.sites = {member.site: Site(member, member.journal_head()) for member in members}
        self.mail: list[Mail] = []
        # The ids of what was made, by any site.
        self.made = ["1.1"]
        self.differences: list[str] = []
        self.has_restarted = False

    # What is drawn by lot.

    def number(self) -> int:
        return self.draw.choice([0, 1, -5, 40, 77, 300, 1000, 1_000_001, 10**9])

    def id(self) -> str:
        """Mostly that of one of the last objects that were made, which not all sites may have yet."""
        if self.draw.random() < 0.9:
            return self.draw.choice(self.made[-12:])
        return f"{self.draw.randint(1, 400)}.{self.draw.randint(1, SITES)}"

    def note_made(self, line: str, reply: str) -> None:
        if line.startswith(("create", "connect", "group")) and reply.startswith("ok "):
            self.made.append(reply.removeprefix("ok "))

    def edit(self) -> str:
        """A line that may be an edit."""
        n, id, draw = self.number, self.id, self.draw
        label = draw.choice(LABELS)
        return draw.choice([
            lambda: f"create {draw.choice(KINDS)} {n()} {n()} 10 20 {label}",
            lambda: f"create {draw.choice(KINDS)} {draw.randint(0, 99)} 5 10 20",
            lambda: f"move {id()} {n()} {n()}",
            lambda: f"resize {id()} {n()} 7",
            lambda: f"{draw.choice(LOOKS).replace(' ', f' {id()} ')}",
            lambda: f"style {id()} {draw.choice(LOOKS)} {draw.choice(LOOKS)}",
            lambda: f"text {id()} {label}",
            lambda: f"connect {id()} {id()} {label}",
            lambda: f"reconnect {id()} {id()} {id()}",
            lambda: f"group {id()} {id()} {id()}",
            lambda: f"group {id()} {id()}",
            lambda: f"{draw.choice(['delete', 'ungroup', 'raise', 'lower'])} {id()}",
            lambda: self.spoiled(f"move {id()} {n()} {n()}"),
        ])()

    def spoiled(self, line: str) -> str:
        """A line with some characters exchanged, the first one left."""
        letters = list(line)
        for _ in range(self.draw.randint(1, 3)):
            letters[self.draw.randrange(1, len(letters))] = self.draw.choice("x 0.-\\é\tM")
        return "".join(letters)

    def altered(self, data: bytes) -> bytes:
        """Other bytes that were made of these."""
        changed, draw = bytearray(data), self.draw
        match draw.randrange(4):
            case 0:
                del changed[draw.randrange(len(changed)):]
            case 1:
                changed[draw.randrange(len(changed))] ^= 1 << draw.randrange(8)
            case 2:
                changed += bytes(draw.randrange(256) for _ in range(draw.randint(1, 40)))
            case _:
                start = draw.randrange(len(changed))
                changed[start : start + 40] = bytes(draw.randrange(256) for _ in range(draw.randint(0, 60)))
        return bytes(changed)

    # Steps.

    def rehearse(self, line: str, printed: list[str]) -> None:
        self.typed.append(line)
        self.wanted.extend(printed)

    def said(self, site: int, line: str) -> list[str]:
        """What a member says to a line, a refusal too."""
        try:
            return self.sites[site].member.line(line)
        except Refused as refusal:
            return [refusal.why]

    def accepted(self, site: int, count: int) -> None:
        if count:
            self.sites[site].undos.append(count)
            self.sites[site].redos.clear()

    def step_edit(self, site: int) -> None:
        line = self.edit()
        said = self.said(site, line)
        self.rehearse(f"at {site} {line}", said)
        self.note_made(line, said[0])
        self.accepted(site, int(said[0].startswith("ok ")))

    def step_gesture(self, site: int) -> None:
        lines = [self.edit() for _ in range(self.draw.randint(0, 5))]
        said = self.sites[site].member.gesture(lines)
        if len(said) != len(lines):
            self.differences.append(f"{len(said)} replies to a gesture of {len(lines)} lines")
        for line, reply in zip(lines, said):
            self.rehearse(f"at {site} {line}", [reply])
            self.note_made(line, reply)
        self.accepted(site, sum(reply.startswith("ok ") for reply in said))

    def step_turn(self, site: int) -> None:
        word = self.draw.choice(["undo", "undo", "redo"])
        here = self.sites[site]
        taken, given = (here.undos, here.redos) if word == "undo" else (here.redos, here.undos)
        said = self.said(site, word)
        wanted = taken.pop() if taken else 0
        if len(said) != wanted + 1 or said[-1] != (f"end {wanted}" if wanted else "refused: NothingBack"):
            self.differences.append(f"{word} of {wanted} events at {site}: {said}")
        if wanted:
            given.append(wanted)
        for reply in said[:-1]:
            self.rehearse(f"at {site} {word}", [reply, "end 1"])

    def step_note(self, site: int) -> None:
        if not self.has_restarted:
            line = self.draw.choice([f"name {self.draw.choice(['Ana', 'Ben', 'é'])}", f"focus {self.id()}", "focus -", "who"])
            self.rehearse(f"at {site} {line}", self.said(site, line))

    def step_status(self, site: int) -> None:
        self.rehearse(f"at {site} status", self.said(site, "status"))

    def step_show(self, site: int) -> None:
        self.rehearse(f"at {site} show", self.sites[site].member.text().splitlines())

    def step_keep(self, site: int) -> None:
        self.sites[site].keep()

    def step_send(self, site: int, to: int | None = None) -> None:
        to = to or self.draw.choice([other for other in self.sites if other != site])
        self.sites[site].keep()
        self.mail.append(Mail(to, self.sites[site].member.frame(to).data))
        self.rehearse(f"send {site} {to}", [f"mail {len(self.mail)}"])

    def step_deliver(self, site: int) -> None:
        if self.mail:
            self.deliver(self.draw.randrange(max(0, len(self.mail) - 12), len(self.mail)) if self.draw.random() < 0.8
                         else self.draw.randrange(len(self.mail)))

    def deliver(self, number: int) -> None:
        mail = self.mail[number]
        said = self.sites[mail.to].member.take(mail.data)
        self.rehearse(f"deliver {number + 1}", [*said, f"delivered {number + 1}"])

    def step_altered(self, site: int) -> None:
        if not self.mail:
            return
        mail = self.draw.choice(self.mail)
        data = self.altered(mail.data) if self.draw.random() < 0.8 or mail.to == site else mail.data
        member = self.sites[site].member
        before = member.status(), member.unwritten()
        try:
            said = member.take(data)
            if data != mail.data:
                self.differences.append(f"altered bytes were taken: {data.hex()} of {mail.data.hex()}: {said}")
        except Refused:
            self.counts["refused frames"] += 1
        if (member.status(), member.unwritten()) != before:
            self.differences.append(f"refused bytes changed something: {data.hex()}")

    def step_restart(self, site: int) -> None:
        """The member goes on from its journal, behind whose closing gate anything may stand, and hears of the others."""
        here = self.sites[site]
        here.keep()
        text, events = here.member.text(), here.member.events(here.journal)
        here.member.close()
        left = here.journal + bytes(self.draw.randrange(256) for _ in range(self.draw.choice([0, 0, 7, 100])))
        here.member = Member.open(left, site, SITES, SESSION)
        here.undos, here.redos, self.has_restarted = [], [], True
        if (here.member.text(), here.member.events(left)) != (text, events):
            self.differences.append(f"site {site} shows other things behind a restart")
        for other in self.sites:
            if other != site:
                self.step_send(other, site)
                self.deliver(len(self.mail) - 1)

    STEPS = {
        "edit": 30, "gesture": 8, "turn": 10, "note": 3, "status": 4, "show": 1, "keep": 5, "send": 18, "deliver": 24, "altered": 6, "restart": 1,
    }

    def step(self) -> None:
        name = self.draw.choices(list(self.STEPS), list(self.STEPS.values()))[0]
        self.counts[name] += 1
        getattr(self, f"step_{name}")(self.draw.choice(list(self.sites)))

    def settle(self) -> None:
        """Everybody hears all of everybody, and shows the same."""
        def held() -> list[int]:
            return [site.member.status().held for site in self.sites.values()]

        before = None
        while before != held():
            before = held()
            for site in self.sites:
                for to in self.sites:
                    if to != site:
                        self.step_send(site, to)
                        self.deliver(len(self.mail) - 1)
        for site in self.sites:
            self.step_show(site)
            self.step_status(site)
        if len({site.member.json() for site in self.sites.values()}) != 1:
            self.differences.append("members that hold the same show different drawings")

    def judge(self, program: str | Path) -> list[str]:
        """The differences, those to what the program prints among them."""
        typed = "".join(f"{line}\n" for line in self.typed).encode()
        done = subprocess.run([program, "rehearse", "--sites", str(SITES)], input=typed, capture_output=True, check=True)
        printed = done.stdout.decode().splitlines()
        for at, (found, wanted) in enumerate(zip(printed, self.wanted)):
            if found != wanted:
                self.differences.append(f"line {at + 1}: the member says {wanted!r}, and the program {found!r}")
                break
        if len(printed) != len(self.wanted):
            self.differences.append(f"{len(self.wanted)} lines, and {len(printed)} of the program")
        return self.differences


def fuzz(program: str | Path, steps: int, seed: int) -> tuple[list[str], Counter[str]]:
    """The differences in so many steps, and how many steps there were of each kind."""
    differences, counts = [], Counter[str]()
    for number in range(0, steps, ROUND):
        this = Round(seed * 1_000_003 + number)
        for _ in range(min(ROUND, steps - number)):
            this.step()
        this.settle()
        differences += [f"round {number // ROUND}: {line}" for line in this.judge(program)]
        counts += this.counts
    return differences, counts


def main() -> int:
    parser = argparse.ArgumentParser(description=__doc__.splitlines()[0])
    parser.add_argument("--program", required=True, type=Path)
    parser.add_argument("--steps", type=int, default=100_000)
    parser.add_argument("--seed", type=int, default=1)
    given = parser.parse_args()
    differences, counts = fuzz(given.program, given.steps, given.seed)
    print(*differences[:20], sep="\n")
    print(f"{given.steps} steps ({', '.join(f'{name} {count}' for name, count in counts.items())}): {len(differences)} differences")
    return 1 if differences else 0


if __name__ == "__main__":
    sys.exit(main())
