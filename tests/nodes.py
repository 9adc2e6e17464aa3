"""Nodes of the built program: each a process with a journal on a file and a socket on loopback."""

import itertools
import os
import random
import shutil
import signal
import socket
import subprocess
import tempfile
import threading
from contextlib import ExitStack, contextmanager
from dataclasses import dataclass, field
from pathlib import Path

from tests.program import LONGEST, PROGRAM, run_program

SESSION = 7
HOST = "127.0.0.1"
# More than a datagram has at most.
MOST = 65_536
# How the last line of an answer begins, by the first word of what was typed. An edit has one line, and one that waits in a gesture
# none until its `end`: a gesture is typed as a whole.
LAST = {"poll": ("polled ", "link fault "), "show": ("end ",), "who": ("end ",), "begin": ("end ",)}
LAST |= dict.fromkeys(("undo", "redo"), ("end ", "refused: "))
# A folder in memory, where there is one: a journal there is synced at once.
MEMORY = Path("/dev/shm")


@contextmanager
def room(on_disk=False):
    """A folder for the files of a case, which is gone behind it."""
    within = MEMORY if not on_disk and os.access(MEMORY, os.W_OK) else None
    folder = tempfile.mkdtemp(prefix="groupdesign-", dir=within)
    try:
        yield Path(folder)
    finally:
        shutil.rmtree(folder, ignore_errors=True)


class Peer:
    """The address of another site: what a node sends there, and what it gets from there."""

    def __init__(self, host=HOST, port=0):
        self.socket = socket.socket(socket.AF_INET6 if ":" in host else socket.AF_INET, socket.SOCK_DGRAM)
        try:
            self.socket.bind((host, port))
        except OSError:
            self.socket.close()
            raise
        self.socket.setblocking(False)

    @property
    def address(self):
        host, port = self.socket.getsockname()[:2]
        return f"[{host}]:{port}" if ":" in host else f"{host}:{port}"

    def send(self, node, datagram):
        """Hands a datagram to a node. On loopback it is there when this returns."""
        host, _, port = node.address.rpartition(":")
        self.socket.sendto(datagram, (host.strip("[]"), int(port)))

    def received(self):
        """The datagrams that came since the last call."""
        datagrams = []
        while True:
            try:
                datagrams.append(self.socket.recv(MOST))
            except BlockingIOError:
                return datagrams

    def close(self):
        self.socket.close()


def spare_ports():
    """Ports that the system gives nobody who asks for any port."""
    low, high = map(int, Path("/proc/sys/net/ipv4/ip_local_port_range").read_text().split())
    return max(range(10_000, low), range(high + 1, 65_536), key=len) or range(10_000, 65_536)


# Each is handed out once, from one that is drawn on, so that nobody has it when its node binds it, however late that is.
PORTS = spare_ports()
TURNS = itertools.count(random.SystemRandom().randrange(len(PORTS)))


def free_addresses(count, host=HOST):
    """Addresses on loopback that nobody has right now, and that are handed out here alone."""
    addresses = []
    for turn in itertools.islice(TURNS, len(PORTS)):
        try:
            peer = Peer(host, PORTS[turn % len(PORTS)])
        except OSError:
            continue
        addresses.append(peer.address)
        peer.close()
        if len(addresses) == count:
            return addresses
    raise OSError("no ports are free")


def node_words(site, addresses, journal, *flags, session=SESSION):
    return ["node", *flags, "--session", str(session), "--site", str(site), "--journal", str(journal), *addresses]


class Node:
    """A running node. It is ended with the block that it was started by."""

    def __init__(self, site, addresses, journal, *flags, session=SESSION, under=(), **options):
        self.site, self.addresses, self.journal = site, addresses, Path(journal)
        self.pending = b""
        command = [*under, PROGRAM, *node_words(site, addresses, journal, *flags, session=session)]
        pipes = {"stdin": subprocess.PIPE, "stdout": subprocess.PIPE, "stderr": subprocess.PIPE, "bufsize": 0}
        self.process = subprocess.Popen(command, **pipes | {"start_new_session": True} | options)
        # One that hangs is ended with what it runs under, so that whoever waits for its answer sees its end.
        self.guard = threading.Timer(LONGEST, os.killpg, (self.process.pid, signal.SIGKILL))
        self.guard.daemon = True
        self.guard.start()

    def __enter__(self):
        return self

    def __exit__(self, *_):
        self.guard.cancel()
        self.process.kill()
        self.process.wait()
        for pipe in (self.process.stdin, self.process.stdout, self.process.stderr):
            if pipe:
                pipe.close()

    @property
    def address(self):
        return self.addresses[self.site - 1]

    def read_line(self):
        """The next line that it prints, or what it printed at its end."""
        while b"\n" not in self.pending:
            piece = os.read(self.process.stdout.fileno(), MOST)
            if not piece:
                return self.pending.decode()
            self.pending += piece
        line, _, self.pending = self.pending.partition(b"\n")
        return line.decode()

    def is_ready(self):
        """Waits for its first line, and says whether it is that of a node that is ready."""
        return self.read_line() == f"ready {self.site} of {len(self.addresses)}"

    def type(self, lines):
        """Types lines. One that has ended gives no answer to them."""
        try:
            self.process.stdin.write(lines if isinstance(lines, bytes) else lines.encode() + b"\n")
        except BrokenPipeError:
            pass

    def ask(self, line):
        """Types a line, and waits for the lines of its answer."""
        self.type(line)
        ends = LAST.get(line.split()[0], ("",))
        answer = [self.read_line()]
        while answer[-1] and not answer[-1].startswith(ends):
            answer.append(self.read_line())
        return answer

    def held(self):
        return int(self.ask("status")[0].split()[1])

    def end(self, lines=b""):
        """Types the last lines, ends its input, and gives the rest of what it printed, its status, and what it said."""
        printed, said = self.process.communicate(lines, timeout=LONGEST)
        printed, self.pending = self.pending + printed, b""
        return printed.decode(), self.process.returncode, said.decode()

    def kill(self):
        self.process.kill()
        self.process.wait()


@dataclass
class Answered:
    """What became of a node: its status, what it printed, its journal, and the frames that each other site was sent."""

    status: int
    text: str
    journal: bytes
    frames: dict = field(default_factory=dict)
    said: str = ""

    @property
    def sent(self):
        return sum(map(len, self.frames.values()))


@contextmanager
def started(seat, *flags, journal=None, session=SESSION, **options):
    """A node at a seat, a site and a number of sites, beside peers in the place of the others. Gives both."""
    site, sites = seat
    with ExitStack() as stack:
        folder = stack.enter_context(room())
        path = journal or folder / "j"
        peers = {other: Peer() for other in range(1, sites + 1) if other != site}
        for peer in peers.values():
            stack.callback(peer.close)
        own = free_addresses(1)[0]
        addresses = [peers[each].address if each in peers else own for each in range(1, sites + 1)]
        yield stack.enter_context(Node(site, addresses, path, *flags, session=session, **options)), peers


def answered(seat, lines, datagrams=(), sender=2, contents=None, session=SESSION):
    """A node that is typed these lines when these datagrams of a peer have come. With contents it goes on from them."""
    with room() as folder:
        journal, flags = folder / "j", []
        if contents is not None:
            journal.write_bytes(contents)
            flags = ["--resume"]
        with started(seat, *flags, journal=journal, session=session) as (node, peers):
            first = node.read_line()
            for datagram in datagrams:
                peers[sender].send(node, datagram)
            rest, status, said = node.end(lines.encode() if isinstance(lines, str) else lines)
            frames = {site: peer.received() for site, peer in peers.items()}
        text = f"{first}\n{rest}" if first else rest
        return Answered(status, text, journal.read_bytes() if journal.exists() else b"", frames, said)


def replayed(journal, *words):
    """What a replay of a journal's bytes prints."""
    return run_program(["replay", *words], journal).text
