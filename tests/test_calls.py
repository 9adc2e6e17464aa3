"""A fault, and a kill, at each system call of a short session of a node, by strace; and which calls a node makes."""

import itertools
import re
import shutil
import signal
import subprocess
from dataclasses import dataclass, replace

from tests.echoes import applied
from tests.nodes import Node, Peer, free_addresses, room
from tests.program import DONE, JOURNAL_FAULT, LINK_FAULT, LONGEST, PROGRAM, READ_FAULT, WRITE_FAULT, Case, at_a_time
from tests.read import events_of
from tests.spelled import frame, log, square
from tests.test_formats import cards
from tests.worked import TIE_SNAPSHOT

STRACE = shutil.which("strace")
CALLS = ["openat", "socket", "bind", "ioctl", "flock", "statx", "pwrite64", "pread64", "fsync", "fdatasync", "ftruncate"]
CALLS += ["read", "write", "recvfrom", "sendto"]
CALL = re.compile(r"(\w+)\((?:(\d+)|AT_FDCWD, \"([^\"]*)\")?")
# How a run ends in which that call fails. A frame that is lost is no fault, nor is a receive that failed.
ENDS = dict.fromkeys(CALLS, JOURNAL_FAULT) | dict.fromkeys(["socket", "bind", "ioctl"], LINK_FAULT)
ENDS |= {"read": READ_FAULT, "write": WRITE_FAULT, "sendto": DONE, "recvfrom": DONE}
# With these a program looks at its journal once more behind its run, to say what happened.
LOOKS = ["openat", "statx", "flock"]


@dataclass(frozen=True)
class Plan:
    """A short session of site 1 of two: its journal when it starts, if there is one, what is typed, the events of the other site that
    have come by then, in one frame, the events that the journal has in the end, as they are recorded together, what is printed
    where no call fails, each line with the number of the events that it tells of, and the other site's events in that journal."""

    contents: bytes | None
    typed: bytes
    theirs: list
    recorded: list
    lines: list
    before: tuple = ()

    @property
    def events(self):
        return [event for together in self.recorded for event in together]

    @property
    def printed(self):
        return [line for line, _ in self.lines]

    def told(self, lines):
        """How many events these lines tell of."""
        return max(told for line, told in self.lines if line in lines)

    def may_be_kept(self, lines):
        """How many events the journal may have where these lines were printed: those that they tell of, and perhaps all that are
        recorded together next. Never a part of these."""
        told, counts = self.told(lines), list(itertools.accumulate(map(len, self.recorded)))
        return {told, next((count for count in counts if count > told), told)}


OTHERS, RAISE = square((1, 2), 1), ((2, 2), 2, ("raise", (1, 2)))
NEW_EVENTS = [square((1, 1), 1), OTHERS, ((2, 1), 2, ("move", (1, 1), 5, 5))]
NEW = Plan(
    None,
    b"create rect 0 0 10 10\npoll\nmove 1.1 5 5\npoll\nquit\n",
    [OTHERS],
    [[event] for event in NEW_EVENTS],
    [("ready 1 of 2", 0), ("ok 1.1", 1), (applied(OTHERS), 2), ("polled 1", 2), ("ok 2.1", 3), ("polled 0", 3)],
)
KEPT = [square((1, 1), 1), OTHERS]
AGAIN = Plan(
    log(KEPT),
    b"create rect 0 0 10 10\npoll\nmove 2.1 5 5\npoll\nquit\n",
    [RAISE],
    [KEPT, [square((2, 1), 2)], [RAISE], [((3, 1), 3, ("move", (2, 1), 5, 5))]],
    [("ready 1 of 2", 2), ("ok 2.1", 3), (applied(RAISE), 4), ("polled 1", 4), ("ok 3.1", 5), ("polled 0", 5)],
    (OTHERS,),
)
# Several edits as one, a frame of several events, and an undo; and a gesture that never ends.
MADE = [square((1, 1), 1), square((2, 1), 2), ((3, 1), 3, ("fill", (1, 1), 0xFF00))]
CAME = [OTHERS, RAISE, ((3, 2), 3, ("move", (1, 2), 5, 5))]
UNDONE = [((4, 1), 4, ("fill", (1, 1), None)), ((5, 1), 5, ("delete", (2, 1))), ((6, 1), 6, ("delete", (1, 1)))]
TOGETHER = Plan(
    None,
    b"begin\ncreate rect 0 0 10 10\nmove 9.1 0 0\ncreate rect 0 0 10 10\nshow\nfill 1.1 00FF00\nend\npoll\nundo\npoll\nbegin\n"
    b"create rect 0 0 10 10\ncreate rect 0 0 10 10\nquit\n",
    CAME,
    [MADE, CAME, UNDONE],
    [
        ("ready 1 of 2", 0), ("ok 1.1", 3), ("refused: NoObject", 3), ("ok 2.1", 3), ("refused: InGesture", 3), ("ok 3.1", 3), ("end 5", 3),
        *((applied(event), 6) for event in CAME), ("polled 1", 6),
        ("ok 4.1", 9), ("ok 5.1", 9), ("ok 6.1", 9), ("end 3", 9), ("polled 0", 9),
    ],
)
PLANS = [NEW, AGAIN, TOGETHER]


@dataclass(frozen=True)
class Call:
    """A system call of the session: its name, which of that name it is from the program's start on, and its file."""

    name: str
    number: int
    file: str


@dataclass
class Session:
    """How a session of site 1 of two ended, what it printed, its journal, and what strace saw."""

    status: int
    lines: list
    journal: bytes | None
    trace: list


def session(plan, *strace):
    """That session under strace."""
    with room() as folder:
        peer, trace, flags = Peer(), folder / "trace", []
        if plan.contents is not None:
            (folder / "j").write_bytes(plan.contents)
            flags = ["--resume"]
        under = [STRACE, "-qq", "-o", trace, "-e", f"trace={','.join(CALLS)}", *strace]
        try:
            with Node(1, [*free_addresses(1), peer.address], folder / "j", *flags, under=under) as node:
                first = node.read_line()
                if first:
                    peer.send(node, frame(plan.theirs, before=plan.before))
                printed, status, _ = node.end(plan.typed)
        finally:
            peer.close()
        lines = f"{first}\n{printed}".splitlines() if first else []
        journal = (folder / "j").read_bytes() if (folder / "j").exists() else None
        return Session(status, lines, journal, trace.read_text().splitlines() if trace.exists() else [])


def calls_of(trace):
    """The calls of a session from the first one that is the program's own on, the socket's, up to the last one of its run: behind
    that it looks at its journal once more, to say what happened."""
    calls, counts, is_own = [], {}, False
    for line in trace:
        found = CALL.match(line)
        if found:
            name, descriptor, path = found.groups()
            counts[name] = counts.get(name, 0) + 1
            is_own = is_own or name == "socket"
            if is_own:
                calls.append(Call(name, counts[name], descriptor or path or ""))
    while calls and calls[-1].name in LOOKS:
        calls.pop()
    return calls


def may_trace():
    """Whether strace is there, and may trace."""
    return STRACE and not subprocess.run([STRACE, "-o", "/dev/null", "true"], capture_output=True).returncode


class Calls(Case):
    @classmethod
    def setUpClass(cls):
        cls.wholes = [(plan, session(plan)) for plan in PLANS] if may_trace() else []

    def setUp(self):
        if not self.wholes:
            self.skipTest("strace isn't there, or may not trace")

    def test_the_sessions_without_a_fault(self):
        for plan, whole in self.wholes:
            self.assertEqual((whole.status, whole.lines), (DONE, plan.printed))
            self.assertEqual(whole.journal, log(plan.events))

    # Before `ready` the file and its folder are synced, and before each answer its events and the open gate in front of them, in that
    # order: with two syncs, however many events these are.
    def test_what_is_told_was_synced(self):
        told = ("pwrite64", "fsync", "fdatasync", "write")
        for _, whole in self.wholes:
            names = [(call.name, call.file) for call in calls_of(whole.trace) if call.name in told]
            ready = next(at for at, (name, _) in enumerate(names) if name == "write")
            synced = {file for name, file in names[:ready] if name in ("fsync", "fdatasync")}
            journal = {file for name, file in names if name == "pwrite64"}
            self.assertEqual((len(journal), len(synced), journal < synced), (1, 2, True), names[:ready])
            kinds = ["sync" if "sync" in name else name for name, _ in names[ready + 1 :]]
            append = ["pwrite64", "sync", "pwrite64", "sync", "write"]
            self.assertEqual(kinds, append + append + ["write"] + append + ["write"])

    def each_call(self, injected, *names):
        """A session for each call of each plan, in which strace injects that there: the plan, the call, and how it ended. With names
        for each call of these alone."""
        for plan, whole in self.wholes:
            calls = [call for call in calls_of(whole.trace) if not names or call.name in names]
            rows = [(plan, "-e", f"inject={call.name}:{injected}:when={call.number}") for call in calls]
            yield from ((plan, call, ended) for call, ended in zip(calls, at_a_time(session, rows)))

    def expect_to_go_on(self, plan, call, ended):
        """The journal is a log of the plan's first events, and one can go on from it. Before a node is ready it leaves one as it was."""
        if not ended.lines:
            if plan.contents is not None:
                self.assertEqual(ended.journal, plan.contents, call)
            return []
        again = session(replace(plan, contents=ended.journal))
        self.assertEqual((again.status, again.lines[0]), (DONE, "ready 1 of 2"), call)
        events = events_of(ended.journal)
        self.assertEqual(ended.journal[: len(log(events)) - 1], log(events, closed=False), call)
        return events

    def expect_sound(self, plan, call, ended):
        """What was printed is a front of the lines, and the journal has the events that these tell of, and perhaps those that come
        together next."""
        self.assertEqual(ended.lines, plan.printed[: len(ended.lines)], call)
        events = self.expect_to_go_on(plan, call, ended)
        if ended.lines:
            self.assertEqual(events, plan.events[: len(events)], call)
            self.assertIn(len(events), plan.may_be_kept(ended.lines), call)

    # Where a receive failed the frame isn't there, or comes later. A frame that was lost changes nothing here.
    def test_each_call_fails_in_turn(self):
        for plan, call, ended in self.each_call("error=EIO"):
            self.assertEqual(ended.status, ENDS[call.name], (call, ended.lines))
            if call.name == "recvfrom":
                self.assertTrue(any(line.startswith("link fault after ") for line in ended.lines), (call, ended.lines))
                own = [event[0] for event in self.expect_to_go_on(plan, call, ended) if event[0][1] == 1]
                self.assertEqual(own, [event[0] for event in plan.events if event[0][1] == 1], call)
            else:
                self.expect_sound(plan, call, ended)
            if call.name == "sendto":
                self.assertEqual((ended.lines, ended.journal), (plan.printed, log(plan.events)), call)

    def test_it_is_killed_at_each_call(self):
        for plan, call, ended in self.each_call("signal=KILL"):
            self.assertIn(ended.status, (-signal.SIGKILL, 128 + signal.SIGKILL), call)
            self.expect_sound(plan, call, ended)

    # A write that the disk took in part is gone on with behind that part: it isn't called whole.
    def test_a_short_write_is_gone_on_with(self):
        for _, call, ended in self.each_call("retval=1", "pwrite64"):
            written = [line for line in ended.trace if line.startswith("pwrite64(")]
            size, at = map(int, re.search(r", (\d+), (\d+)\) += 1 \(INJECTED\)", written[call.number - 1]).groups())
            if size > 1:
                self.assertRegex(written[call.number], rf", {size - 1}, {at + 1}\) += {size - 1}$")


# Each command that reads, an input that takes it several reads, and what is printed where a read behind so many bytes fails:
# of a log nothing, of a view and a rehearsal a line for each whole item or line.
SQUARES = [square((clock, 1), clock) for clock in range(1, 6_001)]
CARD = b"\x01\x01\x00"
CARDS = cards([clock.to_bytes(6, "big") + b"\x01" + clock.to_bytes(2, "big") + CARD for clock in range(1, 15_001)])
STATUS, HELD = b"at 1 status\n", b"held 0 kept 0 line 0 clock 0\n"
SHORT, ITEM = b"frame refused: Short at 0\n", b"\0\0"
READS = [
    *((words.split(), log(SQUARES), lambda size: b"") for words in ("replay", "replay --format json", "upgrade", "snapshot")),
    (["board"], CARDS, lambda size: b""),
    (["view"], TIE_SNAPSHOT + ITEM * 70_000, lambda size: SHORT * (max(0, size - len(TIE_SNAPSHOT)) // len(ITEM))),
    (["rehearse", "--sites", "1"], STATUS * 12_000, lambda size: HELD * (size // len(STATUS))),
]
READ = re.compile(r"read\((\d+),.* = (\d+)$")


def read_in_pieces(words, given, *strace):
    """How a run under strace ends over a file of these bytes, what it prints, and its reads: of which file, and how many bytes."""
    with room() as folder:
        (folder / "given").write_bytes(given)
        command = [STRACE, "-qq", "-o", folder / "trace", "-e", "trace=read", *strace, PROGRAM, *words]
        with open(folder / "given", "rb") as file:
            ended = subprocess.run(command, stdin=file, capture_output=True, timeout=LONGEST)
        found = [READ.match(line) for line in (folder / "trace").read_text().splitlines()]
        return ended.returncode, ended.stdout, [tuple(map(int, each.groups())) if each else (-1, 0) for each in found]


class Reads(Case):
    def test_a_read_that_fails_behind_others(self):
        if not may_trace():
            self.skipTest("strace isn't there, or may not trace")
        for words, given, printed in READS:
            status, _, reads = read_in_pieces(words, given)
            own = [number for number, (file, _) in enumerate(reads, 1) if file == 0]
            self.assertTrue(status == DONE and len(own) > 2, (words, status, own))
            for number in (own[0], own[1], own[-1]):
                status, found, before = read_in_pieces(words, given, "-e", f"inject=read:error=EIO:when={number}")
                size = sum(count for file, count in before[: number - 1] if file == 0)
                self.assertEqual(status, READ_FAULT, (words, size))
                self.assertTrue(found == printed(size), (words, size, found[:100]))
