#!/usr/bin/env python3
"""Kills nodes that draw together, starts them again from their journals, and looks for lost events. See README.md."""

import argparse
import subprocess
import sys
import tempfile
import time
from collections import Counter, deque
from contextlib import contextmanager
from dataclasses import dataclass
from pathlib import Path
from random import Random
from statistics import median

sys.dont_write_bytecode = True
sys.path.insert(0, str(Path(__file__).resolve().parent))
from node_process import SESSION, Node, add_program, free_addresses, node_words
from node_process import poll_all, program_of, same_drawing

# A session has so many kills, so that journals of several restarts come up.
KILLS = 8
# So many edits and gestures are typed at once, with a poll behind each few of them. One edit in so many makes a shape. One in so many
# is a gesture, which makes so many shapes at most.
EDITS, POLL, NEW, GESTURE, LARGEST = 40, 4, 5, 4, 12
LONGEST_LABEL = 200
# A kill comes behind an answer that is drawn, by up to so many times the time that an answer took so far, or a first one may.
LATEST, FIRST = 2, 0.001
# The size of a small disk, that of the same with more room, and more edits than the small one takes.
SMALL, LARGE, MANY = "32k", "1m", 400
# What an edit of a shape that an edit before it has deleted is answered; no other one is refused.
GONE = "NoObject"
BAD_LOG, JOURNAL_FAULT, OTHER_JOURNAL = 3, 6, 11
# Another session than that of the nodes, and how many bytes are left of a journal that is cut.
OTHER_SESSION, CUT = 8, 40
BEHIND = ["behind 0", "1", "more"]
COUNTS = ["kills", "typed", "accepted", "refused", "printed", *BEHIND, "polls"]
HEADS = [*COUNTS, "least", "median", "greatest"]


@dataclass
class Edit:
    """An edit that was typed, what its event has beside stamp and number, the answer, where there was one, and whether the event is
    in the journal."""

    line: str
    event: dict
    answer: str | None = None
    is_there: bool = False

    def has_made(self, id, event, answers):
        """Whether this is its event. Of one without an answer nobody knows whether it was accepted."""
        is_its_id = self.answer == id or self.answer is None and id not in answers
        return is_its_id and self.event == {key: event[key] for key in event if key not in ("clock", "site", "seq")}


def new_shape(draw):
    """An edit that makes a shape, which is never refused."""
    x, y, label = draw.randrange(1000), draw.randrange(1000), "x" * draw.randrange(LONGEST_LABEL + 1)
    kind = draw.choice(["rect", "ellipse", "line", "text"])
    event = {"op": "create", "kind": kind, "x": x, "y": y, "w": 10, "h": 20, "label": label}
    return Edit(f"create {kind} {x} {y} 10 20 {label}", event)


def drawn_edit(draw, ids):
    """An edit of one of these shapes, or one that makes a shape."""
    if not ids or draw.randrange(NEW) == 0:
        return new_shape(draw)
    x, y, label = draw.randrange(1000), draw.randrange(1000), "x" * draw.randrange(LONGEST_LABEL + 1)
    of, colour, name = draw.choice(ids), f"{draw.randrange(1 << 24):06X}", draw.choice(["raise", "lower", "delete"])
    line, event = draw.choice([
        (f"move {of} {x} {y}", {"op": "move", "x": x, "y": y}),
        (f"resize {of} {x} {y}", {"op": "resize", "w": x, "h": y}),
        (f"stroke {of} {colour}", {"op": "restyle", "stroke": colour}),
        (f"text {of} {label}", {"op": "retext", "label": label}),
        (f"{name} {of}", {"op": name}),
    ])
    return Edit(line, event | {"id": of})


def drawn_gesture(draw, ids):
    """Edits that are typed as one: one alone, or several between `begin` and `end`."""
    if draw.randrange(GESTURE):
        return [drawn_edit(draw, ids)]
    return [new_shape(draw) for _ in range(2 + draw.randrange(LARGEST - 1))]


def typed_text(gesture):
    """The lines of a gesture."""
    lines = [edit.line for edit in gesture]
    return lines[0] if len(lines) == 1 else "\n".join(["begin", *lines, "end"])


class Member:
    """A site, over all runs of its node: what was typed at it, and the ids of the events that it told of."""

    def __init__(self, node):
        self.node, self.site, self.gestures, self.told = node, node.site, [], set()
        # The lines of this run whose answers nobody has read, a gesture as one, and the edits among them.
        self.lines, self.waiting = deque(), deque()

    @property
    def edits(self):
        return [edit for gesture in self.gestures for edit in gesture]

    def type(self, lines):
        self.node.type("\n".join(lines))
        self.lines += lines

    def type_edits(self, count, draw):
        """Types so many edits and gestures of what it shows, and polls between them, all at once."""
        ids = [line.split()[1] for line in self.node.ask("show")[:-1]]
        gestures = [drawn_gesture(draw, ids) for _ in range(count)]
        edits = [edit for gesture in gestures for edit in gesture]
        self.gestures += gestures
        self.waiting += edits
        self.type([line for at, gesture in enumerate(gestures, 1) for line in [typed_text(gesture)] + ["poll"] * (at % POLL == 0)])
        return edits

    def take(self, printed):
        """Takes down lines that the node printed."""
        for line in printed:
            what, _, rest = line.partition(" ")
            if what not in ("ok", "refused:", "echo", "polled", "end") or what == "refused:" and rest != GONE:
                sys.exit(f"site {self.site} printed {line!r}")
            if what in ("ok", "refused:"):
                self.waiting.popleft().answer = rest
            if what in ("ok", "echo"):
                self.told.add(rest.split()[0])

    def hear(self):
        """Reads the answer to one line."""
        self.take(self.node.answer(self.lines.popleft()))

    def hear_all(self):
        while self.lines:
            self.hear()

    def end(self, printed):
        """Takes down the last lines of a run."""
        self.take(printed)
        self.lines.clear()
        self.waiting.clear()


def kept_events(member, told, when):
    """The events that the site holds. All these have to be among them."""
    events = member.node.events()
    if lost := told - events.keys():
        sys.exit(f"{when} site {member.site} has lost {', '.join(sorted(lost))}")
    if (held := member.node.held()) != len(events):
        sys.exit(f"{when} site {member.site} holds {held} events, and its journal has {len(events)}")
    return events


def check_own(member, events, when):
    """Its own events are numbered without a gap, and are of lines that were typed, in the order of these."""
    own = deque((id, event) for id, event in events.items() if event["site"] == member.site)
    if (numbers := [event["seq"] for _, event in own]) != [*range(1, len(own) + 1)]:
        sys.exit(f"{when} site {member.site} numbers its own events {numbers}")
    answers = {edit.answer for edit in member.edits}
    for edit in member.edits:
        edit.is_there = bool(own) and edit.has_made(*own[0], answers)
        if edit.is_there:
            own.popleft()
    if own:
        sys.exit(f"{when} site {member.site} has {own[0]}, and no such line was typed there and accepted")
    for gesture in member.gestures:
        if len({edit.is_there for edit in gesture}) > 1:
            sys.exit(f"{when} site {member.site} has a part of a gesture: {gesture}")


def check_all(members, told, when):
    """All hold the same events, with these among them, and show the same drawing, and so does a replay of each journal."""
    first, *others = [kept_events(member, told, when) for member in members]
    if any(events != first for events in others):
        sys.exit(f"{when} the sites hold other events: {first} and {others}")
    for member in members:
        check_own(member, first, when)
        member.told |= first.keys()
    same_drawing([member.node for member in members])


def stream(drawer, other, draw):
    """Types lines at one site at once, and a poll at the other one behind each answer, up to a moment drawn by chance."""
    edits = drawer.type_edits(EDITS, draw)
    heard, start = draw.randrange(len(drawer.lines)), time.perf_counter()
    for _ in range(heard):
        drawer.hear()
        other.type(["poll"])
    each = (time.perf_counter() - start) / heard if heard else FIRST
    time.sleep(draw.random() * LATEST * each)
    return edits


def kill_once(members, draw, when):
    """Kills one of two sites in the midst of a stream, and resumes it. Says whether it was the one that was typed at, how
    many seconds it took until it was ready again, and the counts."""
    known = set(members[0].told)
    drawer, other = draw.sample(members, 2)
    victim, survivor = draw.sample(members, 2)
    edits = stream(drawer, other, draw)
    victim.end(victim.node.kill())
    # The other one takes what the killed one had sent: that has to be there afterwards, too.
    survivor.type(["poll"])
    survivor.hear_all()
    there = survivor.node.events()
    start = time.perf_counter()
    victim.node.resume()
    took = time.perf_counter() - start
    found = kept_events(victim, victim.told | {id for id in there if there[id]["site"] == victim.site}, when)
    everything = found.keys() | there.keys()
    rounds = poll_all([member.node for member in members], len(everything))
    counts = Counter(kills=1, typed=len(edits), accepted=len(everything - known), printed=len(victim.told - known), polls=rounds)
    counts["refused"] = sum(edit.answer == GONE for edit in edits)
    counts[BEHIND[min(len(found.keys() - victim.told), 2)]] = 1
    check_all(members, everything, when)
    return victim is drawer, took, counts


def run_session(program, kills, draw):
    """What came of each of these kills, of one session."""
    with tempfile.TemporaryDirectory() as room:
        addresses = free_addresses(2)
        members = [Member(Node(program, site, addresses, Path(room) / f"{site}.log")) for site in (1, 2)]
        for kill in kills:
            yield kill_once(members, draw, f"after kill {kill}")
        for member in members:
            member.node.quit()


def run_sessions(program, kills, draw):
    """Prints a row for each kind of site that is killed."""
    rows = []
    for first in range(1, kills + 1, KILLS):
        rows += run_session(program, range(first, min(first + KILLS, kills + 1)), draw)
    print("".join([f"{'killed is':20}", *(f"{head:>10}" for head in HEADS)]))
    for name, kinds in {"the one typed at": [True], "the other one": [False], "either": [True, False]}.items():
        of_kind = [row for row in rows if row[0] in kinds]
        counts = sum((counts for _, _, counts in of_kind), Counter())
        times = [took * 1e3 for _, took, _ in of_kind] or [0]
        figures = [*(str(counts[head]) for head in COUNTS), *(f"{of(times):.1f}" for of in (min, median, max))]
        print("".join([f"{name:20}", *(f"{figure:>10}" for figure in figures)]), flush=True)


@contextmanager
def small_disk(folder):
    """Puts a small disk into a folder, and says whether one can be had. Only root can have one."""
    command = ["mount", "-t", "tmpfs", "-o", f"size={SMALL}", "none", folder]
    try:
        is_there = not subprocess.run(command, stderr=subprocess.DEVNULL).returncode
    except OSError:
        is_there = False
    try:
        yield is_there
    finally:
        if is_there:
            subprocess.run(["umount", "--lazy", folder], check=True)


def fill_disk(member, folder, draw):
    """Types edits until the disk is full, and goes on once there is more room."""
    member.type_edits(MANY, draw)
    member.end(member.node.rest(JOURNAL_FAULT))
    printed = len(member.told)
    subprocess.run(["mount", "-o", f"remount,size={LARGE}", folder], check=True)
    member.node.resume()
    kept_events(member, member.told, "after a full disk")
    print(f"a full disk: ended with {JOURNAL_FAULT} behind {printed} edits, all of which it held once there was more room")


def refuse_others(node, cut):
    """What a node ends with whose journal is of another session, is cut, isn't there, or is there without --resume."""
    cut.write_bytes(node.journal.read_bytes()[:CUT])
    journal, none = node.journal, cut.with_name("none")
    before = journal.read_bytes()
    for what, (path, *flags), session, said, status in [
        ("another session", (journal, "--resume"), OTHER_SESSION, "other journal\n", OTHER_JOURNAL),
        (f"its first {CUT} bytes", (cut, "--resume"), SESSION, f"bad log at {CUT}: Short\n", BAD_LOG),
        ("no journal", (none, "--resume"), SESSION, "", JOURNAL_FAULT),
        ("not resumed", (journal,), SESSION, "", JOURNAL_FAULT),
    ]:
        words = node_words(node.site, node.addresses, path, *flags, session=session)
        done = subprocess.run([node.program, *words], stdin=subprocess.DEVNULL, capture_output=True, text=True)
        if (done.stdout, done.returncode) != (said, status):
            sys.exit(f"{what}: ended with {done.returncode}, and printed {done.stdout!r}")
        print(f"{what}: ended with {status}{', and printed ' if said else ''}{said.strip()}")
    if journal.read_bytes() != before:
        sys.exit("its journal is another one after that")


def run_alone(program, draw):
    """A node that is alone, on a full disk where one can be had, and how it is refused its journal."""
    with tempfile.TemporaryDirectory() as room, small_disk(room) as is_there:
        member = Member(Node(program, 1, free_addresses(1), Path(room) / "alone.log"))
        if is_there:
            fill_disk(member, room, draw)
        else:
            print("a full disk: none can be had here, so this was left out")
        member.type_edits(EDITS, draw)
        member.hear_all()
        check_all([member], member.told, "at the end")
        member.node.quit()
        refuse_others(member.node, Path(room) / "cut.log")


def asked():
    parser = argparse.ArgumentParser(prog="bench/kill_and_resume.py", description=__doc__)
    add_program(parser)
    parser.add_argument("--kills", metavar="N", type=int, default=200)
    parser.add_argument("--seed", metavar="N", type=int, default=7)
    return parser.parse_args()


def main():
    words = asked()
    program, draw = program_of(words), Random(words.seed)
    run_sessions(program, words.kills, draw)
    run_alone(program, draw)
    print(f"no event was lost in {words.kills} kills")


if __name__ == "__main__":
    main()
