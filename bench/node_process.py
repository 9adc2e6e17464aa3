"""Nodes as processes of their own: what is typed at them and what they answer, and the program that they run."""

import json
import os
import signal
import socket
import subprocess
import time
from pathlib import Path

ROOT = Path(__file__).resolve().parent.parent
BUILT = ROOT / "crates/groupdesign/out/groupdesign"
SESSION = 7
# How the last line of an answer begins, by the first word of what was typed. An edit has one line, and a gesture is typed as a whole.
LAST = {"poll": ("polled ", "link fault "), "show": ("end ",), "who": ("end ",), "begin": ("end ",)}
LAST |= dict.fromkeys(("undo", "redo"), ("end ", "refused: "))
# The most rounds of polls until all hold all events. In a round each site polls once, and behind it come so many seconds,
# since a proxy between them may be slower than they are.
ROUNDS, PAUSE = 500, 0.005


def program_of(words):
    """The program that a script was given, or the one that ./groupdesign builds where that is needed."""
    if words.program:
        return words.program.resolve()
    with open(ROOT / "examples/empty.log", "rb") as given:
        subprocess.run([ROOT / "groupdesign", "replay"], stdin=given, stdout=subprocess.DEVNULL, check=True)
    return BUILT


def add_program(parser):
    parser.add_argument("--program", metavar="PROGRAM", type=Path, help="another built groupdesign")


def free_addresses(count):
    """Addresses on loopback that nobody has right now."""
    sockets = [socket.socket(socket.AF_INET, socket.SOCK_DGRAM) for _ in range(count)]
    for each in sockets:
        each.bind(("127.0.0.1", 0))
    ports = [each.getsockname()[1] for each in sockets]
    for each in sockets:
        each.close()
    return [f"127.0.0.1:{port}" for port in ports]


def node_words(site, addresses, journal, *flags, session=SESSION):
    """The words that a node is run with."""
    return ["node", *flags, "--session", str(session), "--site", str(site), "--journal", str(journal), *addresses]


class Node:
    """A running node. Its number is `site`, and `addresses` are where it finds each site, itself too."""

    def __init__(self, program, site, addresses, journal):
        self.program, self.site, self.addresses, self.journal = program, site, addresses, journal
        self.start()

    def start(self, *flags):
        """Starts its process, and waits until it is ready."""
        words = node_words(self.site, self.addresses, self.journal, *flags)
        self.pending = b""
        self.process = subprocess.Popen([self.program, *words], stdin=subprocess.PIPE, stdout=subprocess.PIPE, bufsize=0)
        first = self.read_line()
        if first != f"ready {self.site} of {len(self.addresses)}":
            raise SystemExit(f"site {self.site} began with {first!r} and status {self.process.wait()}")

    def resume(self):
        """Starts it again, to go on from its journal."""
        self.start("--resume")

    def read_line(self):
        while b"\n" not in self.pending:
            piece = os.read(self.process.stdout.fileno(), 65_536)
            if not piece:
                raise SystemExit(f"site {self.site} ended with {self.process.wait()}, after {self.pending!r}")
            self.pending += piece
        line, _, self.pending = self.pending.partition(b"\n")
        return line.decode()

    def type(self, lines):
        """Types lines, and waits for nothing. One that has ended gives no answer to them."""
        try:
            os.write(self.process.stdin.fileno(), lines.encode() + b"\n")
        except BrokenPipeError:
            pass

    def answer(self, line):
        """Waits for the whole answer to a line that was typed."""
        ends = LAST.get(line.split()[0], ("",))
        answer = [self.read_line()]
        while not answer[-1].startswith(ends):
            answer.append(self.read_line())
        return answer

    def ask(self, line):
        """Types a line, and waits for its whole answer."""
        self.type(line)
        return self.answer(line)

    def held(self):
        return int(self.ask("status")[0].split()[1])

    def poll(self):
        """Polls. No frame of the others may be refused, nor any event."""
        answer = self.ask("poll")
        wrong = [line for line in answer[:-1] if not line.startswith("echo ")]
        if wrong or not answer[-1].startswith("polled "):
            raise SystemExit(f"site {self.site} answered {wrong} and {answer[-1]!r} to a poll")

    def rest(self, status):
        """Waits for its end, with that status, and gives the whole lines that it printed and nobody has read."""
        printed = self.pending + self.process.stdout.read()
        ended = self.process.wait()
        if ended != status:
            raise SystemExit(f"site {self.site} ended with {ended} and not with {status}, and printed {printed!r} last")
        return [line.decode() for line in printed.split(b"\n")[:-1]]

    def kill(self):
        """Ends it at once, and gives the whole lines that it had printed and nobody has read."""
        self.process.kill()
        return self.rest(-signal.SIGKILL)

    def quit(self):
        self.type("quit")
        status = self.process.wait()
        rest = self.process.stdout.read()
        if status or self.pending or rest:
            raise SystemExit(f"site {self.site} ended with {status}, and printed {self.pending + rest!r} last")

    def replayed(self, *words):
        """What a replay of its journal prints."""
        with open(self.journal, "rb") as given:
            done = subprocess.run([self.program, "replay", *words], stdin=given, capture_output=True)
        if done.returncode:
            raise SystemExit(f"a replay of the journal of site {self.site} ended with {done.returncode}: {done.stdout!r}")
        return done.stdout.decode().splitlines()

    def events(self):
        """The events of its journal, by their ids."""
        events = json.loads(self.replayed("--format", "events")[0])
        return {f"{event['clock']}.{event['site']}": event for event in events}


def poll_all(nodes, events):
    """Polls until all hold so many events, and says how many rounds that took."""
    for rounds in range(ROUNDS):
        if all(node.held() == events for node in nodes):
            return rounds
        for node in nodes:
            node.poll()
        time.sleep(PAUSE)
    raise SystemExit(f"after {ROUNDS} rounds of polls the sites hold {[node.held() for node in nodes]} of {events} events")


def same_drawing(nodes):
    """The drawing that all show, and a replay of each journal too."""
    drawings = {f"site {node.site}": node.ask("show") for node in nodes}
    drawings |= {f"the journal of site {node.site}": node.replayed() for node in nodes}
    first, *others = drawings
    for who in others:
        if drawings[who] != drawings[first]:
            raise SystemExit(f"{who} shows another drawing than {first}: {drawings[who]} and {drawings[first]}")
    return drawings[first]
