"""The words of ./draw, whole runs of it over a stand-in, and what it says where something is wrong."""

import contextlib
import io
import json
import re
import signal
import socket
import subprocess
import sys
import urllib.error
import urllib.request
from pathlib import Path
from unittest import mock

from page import draw
from page.draw import ROOT, asked
from page.server import HERE
from page.tests.places import PATIENCE, STAND_IN, WithStandIn, wait_for

NODE = ["--session", "7", "--site", "1"]
ADDRESS = re.compile(rf"http://{re.escape(HERE)}:(\d+)/([\w-]+)/$")
# 192 bits in base64, six in a letter.
TOKEN_LETTERS = 32


def free_address():
    with socket.socket(socket.AF_INET, socket.SOCK_DGRAM) as tried:
        tried.bind((HERE, 0))
        return f"{HERE}:{tried.getsockname()[1]}"


def read(file):
    """What a file of the system says; nothing, where it has gone."""
    try:
        return file.read_text(errors="replace")
    except OSError:
        return ""


class Words(WithStandIn):
    def refused(self, *words):
        with self.assertRaises(SystemExit) as found, contextlib.redirect_stderr(io.StringIO()):
            asked(list(words))
        self.assertEqual(found.exception.code, 2)

    def test_what_is_asked_for(self):
        given = asked([*NODE, "--journal", "mine.log", "--port", "0", "A", "B"])
        self.assertEqual((given.session, given.site, given.addresses, given.demo, given.open), (7, 1, ["A", "B"], None, False))
        self.assertEqual(asked(["--demo", "3", "--open"]).demo, 3)
        self.assertEqual(asked(["--session", "4294967295", "--site", "16", "--journal", "x", "A"]).session, 2**32 - 1)

    def test_without_words_a_first_look_is_named(self):
        with self.assertRaises(SystemExit), contextlib.redirect_stderr(io.StringIO()) as said:
            asked([])
        self.assertIn("For a first look: ./draw --demo 2 --open", said.getvalue())

    def test_other_words_are_refused(self):
        self.refused()
        self.refused(*NODE, "A", "B")
        self.refused(*NODE, "--journal", "mine.log")
        for demo in ("0", "5", "x", "-1"):
            self.refused("--demo", demo)
        self.refused("--demo", "2", "--journal", "mine.log")
        self.refused("--demo", "2", "A")
        self.refused("--demo", "2", "--port", "65536")
        for session, site in (("x", "1"), ("4294967296", "1"), ("-1", "1"), ("7", "0"), ("7", "17"), ("7", "one"), ("", "1")):
            self.refused("--session", session, "--site", site, "--journal", "mine.log", "A", "B")


class WithRuns(WithStandIn):
    def run_draw(self, *words):
        words = [sys.executable, str(ROOT / "draw"), "--program", str(STAND_IN), *words]
        run = subprocess.Popen(words, stdout=subprocess.PIPE, stderr=subprocess.PIPE, text=True)
        for end in (run.stderr.close, run.stdout.close, run.wait, run.kill):
            self.addCleanup(end)
        return run

    def start(self, journal=None, session="7", **others):
        """A run that has printed its address, and that address."""
        options = [word for name, value in others.items() for word in (f"--{name}", str(value))]
        words = ["--session", session, "--site", "1", "--journal", str(journal or self.journal), *options]
        run = self.run_draw(*words, free_address(), free_address())
        return run, run.stdout.readline().strip()

    def end(self, run, sign=signal.SIGTERM):
        run.send_signal(sign)
        rest, said = run.communicate(timeout=PATIENCE)
        return run.returncode, rest, said

    def fails(self, *words):
        """The status and what is said by a run that doesn't begin."""
        run = self.run_draw(*words)
        printed, said = run.communicate(timeout=PATIENCE)
        self.assertEqual(printed, "")
        self.assertNotIn("Traceback", said)
        return run.returncode, said


class Runs(WithRuns):
    def test_a_run_from_its_address_to_its_end(self):
        for sign in (signal.SIGTERM, signal.SIGINT):
            run, address = self.start()
            self.assertRegex(address, ADDRESS)
            with urllib.request.urlopen(address, timeout=PATIENCE) as page:
                self.assertIn(b"<title>", page.read())
            self.assertEqual(self.end(run, sign), (0, "", ""))
            self.assertEqual(self.typed()[-1], "quit")

    def test_tokens_are_192_random_bits(self):
        with mock.patch("secrets.token_urlsafe", wraps=draw.secrets.token_urlsafe) as made:
            with mock.patch("page.draw.Server", side_effect=OSError(98, "taken")), contextlib.redirect_stderr(io.StringIO()):
                draw.main(["--demo", "1"])
        made.assert_called_once_with(24)
        with mock.patch("time.time", return_value=5.0), mock.patch("random.random", return_value=0.5):
            tokens = {draw.secrets.token_urlsafe(24) for _ in range(100)}
        self.assertEqual(len(tokens), 100)

    def test_each_run_has_a_token_of_its_own_also_at_the_same_port(self):
        run, address = self.start()
        port, token = ADDRESS.match(address).groups()
        self.assertEqual(len(token), TOKEN_LETTERS)
        self.end(run)
        run, other = self.start(port=port)
        self.assertEqual(ADDRESS.match(other)[1], port)
        self.assertNotEqual(ADDRESS.match(other)[2], token)
        with self.assertRaises(urllib.error.HTTPError) as said:
            urllib.request.urlopen(address, timeout=PATIENCE)
        self.assertEqual(said.exception.code, 403)
        self.assertIn(b"Open the address that it printed", said.exception.read())
        said.exception.close()
        self.end(run)

    def test_the_session_is_the_one_that_was_given(self):
        run, _ = self.start(session="4242")
        words = json.loads(self.beside("words").read_text())
        self.assertEqual(words[words.index("--session") + 1], "4242")
        self.end(run)

    def test_the_browser_is_opened_where_that_is_asked_for(self):
        for words, count in ((["--open"], 1), ([], 0)):
            given = asked(["--demo", "1", *words])
            server = mock.Mock(address="http://127.0.0.1:1/x/", desks={1: None})
            with mock.patch("page.draw.webbrowser.open") as opened, contextlib.redirect_stdout(io.StringIO()) as printed:
                draw.tell_addresses(server, given)
                wait_for(lambda: opened.call_count >= count)
            self.assertEqual(opened.call_count, count)
            first = [line.split()[0] for line in printed.getvalue().splitlines()]
            self.assertEqual(first, ["http://127.0.0.1:1/x/panes.html", "http://127.0.0.1:1/x/?desk=1"])

    def test_where_no_browser_is_found_that_is_said(self):
        with mock.patch("page.draw.webbrowser.open", return_value=False), contextlib.redirect_stderr(io.StringIO()) as said:
            draw.open_page("http://127.0.0.1:1/x/")
        self.assertEqual(said.getvalue(), "draw: no browser was found: open the address above in one\n")

    def test_a_node_doesn_t_outlive_its_run(self):
        run, _ = self.start()
        wait_for(lambda: self.typed())
        self.assertTrue(self.nodes())
        run.kill()
        # Its input is at its end then, as where someone types that.
        wait_for(lambda: not self.nodes())

    def nodes(self):
        """The processes of nodes over the journal."""
        words = "\0".join(["node", *NODE, "--journal", str(self.journal)])
        return [folder for folder in Path("/proc").glob("[0-9]*") if words in read(folder / "cmdline")]


class Wrong(WithRuns):
    def test_a_node_that_doesn_t_start(self):
        rows = (
            (11, "other journal", "Give the session, the site and all addresses"),
            (3, "bad log at 0: Magic", "another file"),
            (6, "", "disk full"),
        )
        for status, line, advice in rows:
            self.script(first=f"{line}\n" if line else "", status=status)
            code, said = self.fails(*NODE, "--journal", str(self.journal), free_address(), free_address())
            self.assertEqual(code, status)
            self.assertIn(line, said)
            self.assertIn(f"ended with status {status}: ", said)
            self.assertIn(advice, said)

    def test_what_is_wrong_with_addresses_is_said_before_a_node_starts(self):
        here = free_address()
        with socket.socket(socket.AF_INET, socket.SOCK_DGRAM) as taken:
            taken.bind((HERE, 0))
            rows = {
                ("192.0.2.1:7001", here): "192.0.2.1 is no address of this machine",
                (f"{HERE}:{taken.getsockname()[1]}", here): "is taken",
                (HERE, here): "has no port",
                ("nobody.invalid:7001", here): "isn't known here",
                ("[::1]:7001", here): "IPv6",
                (here,): "there is 1 address:",
                (here, here): "stands there twice",
            }
            for addresses, words in rows.items():
                code, said = self.fails(*NODE, "--journal", str(self.journal), *addresses)
                self.assertEqual((code, words in said), (2, True), said)
        self.assertFalse(self.beside("words").exists())

    def test_what_is_wrong_with_the_journal_is_said(self):
        for journal, words in ((self.folder, "is a folder"), (self.folder / "no/site.log", "mkdir -p"), ("", "name one, like mine.log")):
            code, said = self.fails(*NODE, "--journal", str(journal), free_address(), free_address())
            self.assertEqual((code, words in said), (2, True), said)

    def test_a_program_that_isn_t_there_is_said(self):
        words = [*NODE, "--journal", str(self.journal), free_address(), free_address(), "--program", "/nothing/there"]
        code, said = self.fails(*words)
        self.assertEqual((code, "wasn't started" in said), (1, True), said)

    def test_a_port_that_is_taken_is_said(self):
        with socket.socket() as taken:
            taken.bind((HERE, 0))
            taken.listen()
            port = str(taken.getsockname()[1])
            code, said = self.fails(*NODE, "--journal", str(self.journal), free_address(), free_address(), "--port", port)
        self.assertEqual((code, f"port {port} can't be served" in said), (1, True), said)
        self.assertEqual(self.typed()[-1], "quit")


# Runs ./draw where no Python has aiohttp.
BARE = """
import importlib.util, runpy, sys
importlib.util.find_spec = lambda name: None
sys.executable = "/usr/bin/python3"
runpy.run_path({path!r}, run_name="__main__")
"""


class Python(WithStandIn):
    def test_without_aiohttp_it_says_what_to_install(self):
        words = [sys.executable, "-c", BARE.format(path=str(ROOT / "draw"))]
        done = subprocess.run(words, capture_output=True, text=True, timeout=PATIENCE)
        self.assertEqual((done.returncode, done.stdout), (1, ""))
        self.assertIn("apt install python3-aiohttp", done.stderr)
