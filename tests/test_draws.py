"""Each `./draw` of the pages, run as it stands there, at addresses of this machine: to its page, and to its end."""

import os
import re
import shlex
import shutil
import signal
import socket
import subprocess
import sys
import threading
from contextlib import ExitStack, contextmanager

from tests.nodes import HOST, free_addresses, room
from tests.pages import draws
from tests.program import BAD_LOG, DONE, LONGEST, PROGRAM, ROOT, USAGE, Case, guarded

PLACE = r"\d+\.\d+\.\d+\.\d+:\d+|[a-z.]+\.example:\d+|\bADDR\b|\bHOST:PORT\b"
MOSQUITTO = "/usr/sbin:/usr/local/sbin:/usr/bin:/usr/local/bin"


# The status of ./draw where it isn't the node that ended.
PAGE_FAULT = 1
# What is run at addresses or in a demonstration, and what over a broker.
ALONE, CARRIED = r" --(session|demo) ", r" --(found|invite|join|retire)\b|draw --journal"


def is_run(command):
    """Whether it is run here."""
    return command.startswith("./draw ") and bool(re.search(f"{ALONE}|{CARRIED}", command))


def at_home(command, link=None):
    """The words of a command behind ./draw, with free addresses in place of others', and a link in place of LINK."""
    found = re.findall(PLACE, command.replace("ADDR ..", "ADDR"))
    free = iter(free_addresses(len(found)) if found else [])
    words = shlex.split(re.sub(PLACE, lambda _: next(free), command.replace("ADDR ..", "ADDR")))[1:]
    return [link if word == "LINK" and link else word for word in words]


class Draws(Case):
    @classmethod
    def setUpClass(cls):
        tried = subprocess.run([ROOT / "draw", "--help"], capture_output=True, text=True, timeout=LONGEST)
        cls.why = tried.stderr.strip() if tried.returncode else None

    def setUp(self):
        if self.why:
            self.skipTest(self.why)

    @contextmanager
    def drawing(self, words, folder):
        """A run of ./draw, with the first line that it prints."""
        pipes = {"stdin": subprocess.DEVNULL, "stdout": subprocess.PIPE, "stderr": subprocess.PIPE}
        process = subprocess.Popen([ROOT / "draw", *words, "--program", PROGRAM], cwd=folder, text=True, **pipes)
        guard = threading.Timer(LONGEST, process.kill)
        guard.daemon = True
        guard.start()
        try:
            first = process.stdout.readline()
            self.assertRegex(first, r"^http://127\.0\.0\.1:\d+/", (words, process.stderr.read() if not first else ""))
            yield first
            process.send_signal(signal.SIGTERM)
            _, said = process.communicate(timeout=LONGEST)
            self.assertEqual(process.returncode, DONE, (words, said))
        finally:
            guard.cancel()
            if process.poll() is None:
                process.kill()
                process.communicate()

    def run_words(self, words, folder):
        """A run of ./draw that ends by itself, and what it prints."""
        words = [ROOT / "draw", *words]
        done = subprocess.run(words, cwd=folder, stdin=subprocess.DEVNULL, capture_output=True, text=True, timeout=LONGEST)
        self.assertEqual((done.returncode, done.stderr), (DONE, ""), words)
        return done.stdout

    def test_nodes_at_addresses_and_demonstrations(self):
        found = [command for _, command in draws() if re.search(ALONE, command)]
        self.assertGreaterEqual(len(found), 4)
        for command in found:
            with self.subTest(command), room() as folder:
                journal = folder / "mine.log"
                for _ in range(2 if "--journal" in command else 1):
                    with self.drawing(at_home(command), folder):
                        self.assertEqual(journal.exists(), "--journal" in command)

    def test_what_can_t_be_done_is_said_with_what_to_do(self):
        with room() as folder, socket.socket(type=socket.SOCK_DGRAM) as site, socket.create_server((HOST, 0)) as page:
            site.bind((HOST, 0))
            own, (other,), port = f"{HOST}:{site.getsockname()[1]}", free_addresses(1), page.getsockname()[1]
            node = ["--session", "7", "--site", "1", "--journal"]
            (folder / "none.log").write_bytes(b"notes of mine")
            rows = [
                ([*node, "mine.log", own, other], USAGE, f"{own.rpartition(':')[2]} of {HOST} is taken: does a node or ./draw run there"),
                ([*node, "away/mine.log", other, own], USAGE, "make it first (mkdir -p away)"),
                ([*node, "none.log", other, own], BAD_LOG, "Is none.log another file?"),
                (["--demo", "2", "--port", str(port)], PAGE_FAULT, f"port {port} can't be served: Address already in use. Take another"),
                (["--demo", "2", "--program", "/no/program"], PAGE_FAULT, "the program /no/program wasn't started: No such file"),
                (["--demo", "17"], USAGE, "17 is no number from 1 to 4"),
                ([*node, "mine.log"], USAGE, "For a first look: ./draw --demo 2 --open"),
            ]
            for words, status, said in rows:
                words = words if "--program" in words else [*words, "--program", PROGRAM]
                done = subprocess.run([ROOT / "draw", *words], cwd=folder, capture_output=True, text=True, timeout=LONGEST)
                self.assertEqual((done.returncode, done.stdout), (status, ""), (words, done.stderr))
                self.assertIn(said, done.stderr, words)

    def test_without_a_browser_it_goes_on_and_says_so(self):
        with room() as folder:
            (folder / "python3").symlink_to(sys.executable)
            words = [ROOT / "draw", "--demo", "2", "--open", "--program", PROGRAM]
            without = {"BROWSER": "no-browser", "DISPLAY": "", "WAYLAND_DISPLAY": "", "PATH": str(folder)}
            pipes = {"stdout": subprocess.PIPE, "stderr": subprocess.PIPE, "stdin": subprocess.DEVNULL}
            with subprocess.Popen(words, cwd=folder, text=True, env=os.environ | without, **pipes) as process, guarded(process):
                self.assertEqual(process.stderr.readline(), "draw: no browser was found: open the address above in one\n")
                self.assertRegex(process.stdout.readline(), r"^http://127\.0\.0\.1:\d+/")
                process.send_signal(signal.SIGTERM)
                self.assertEqual(process.wait(LONGEST), DONE)

    # Founded, invited, joined, ended, gone on with, and a seat retired, each by the words of the page.
    def test_a_session_over_a_broker(self):
        if not shutil.which("mosquitto", path=MOSQUITTO):
            self.skipTest("there is no mosquitto")
        for page in ("README.md", "page/README.md"):
            commands = [command for each, command in draws() if each == page and re.search(CARRIED, command)]
            with self.subTest(page), ExitStack() as stack:
                found, invite, join, later, *retired = commands
                ana, ben = (stack.enter_context(room()) for _ in range(2))
                with self.drawing(at_home(found), ana):
                    link = self.run_words(at_home(invite), ana).strip()
                    with self.drawing(at_home(join, link), ben):
                        pass
                with self.drawing(at_home(later), ana), self.drawing(at_home(later), ben):
                    pass
                for command in retired:
                    self.run_words(at_home(command.replace("SEAT", "2")), ana)
                self.assertTrue((ana / "mine.log").read_bytes().startswith(b"GDOL"))
                self.assertTrue((ben / "mine.log").read_bytes().startswith(b"GDOL"))
