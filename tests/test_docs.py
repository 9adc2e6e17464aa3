"""Each example of the pages, run as it stands there, but for those of `./draw`."""

import re
import subprocess

from tests.launcher import checkout, launch
from tests.nodes import free_addresses
from tests.pages import PAGES, commands, draws, examples, quoted, rows_of
from tests.program import DONE, EXAMPLES, LONGEST, PROGRAM, ROOT, Case, run_program
from tests.test_draws import is_run
from tests.test_formats import VOTES
from tests.worked import FRAME, TIE

# The commands of docs/LINES.md, section 3: in a dialogue with a node a line is typed where it begins so, and printed else.
TYPED = "create delete move resize stroke fill width dash heads round opacity size align style text".split()
TYPED += "connect reconnect group ungroup raise lower undo redo".split()
TYPED += "show status name focus who poll quit".split()
SHAPE = re.compile(r"(rect|ellipse|line|text|group|connector) \d+\.\d+ in ")


def is_typed(line):
    return line.split(" ")[0] in TYPED and not SHAPE.match(line)


class Commands(Case):
    def run(self, result=None):
        with checkout() as self.folder:
            return super().run(result)

    def test_commands_of_the_pages(self):
        found = list(examples())
        self.assertGreater(len(found), 5)
        for example in found:
            with self.subTest(example.page, command=example.command):
                self.dialogue(example) if " node " in example.command else self.command(example)

    def command(self, example):
        """A command that is no node: it is carried out, and prints what stands behind it, if anything does."""
        command = example.command
        done = subprocess.run(["sh", "-c", command], cwd=self.folder, capture_output=True, text=True, timeout=LONGEST)
        self.assertEqual((done.returncode, done.stderr), (DONE, ""))
        printed = done.stdout.splitlines()
        if command.startswith("for "):
            self.assertEqual(printed, [f"examples/{path.name}: as expected" for path in sorted(EXAMPLES.glob("*.log"))])
        elif example.behind:
            self.assertEqual(printed, [line for line in example.behind if line])
        else:
            self.assertEqual(bool(printed), "cmp" not in command)

    def dialogue(self, example):
        """A node: what is typed and what is printed stand there in turn, or only what is typed."""
        old = re.findall(r"127\.0\.0\.1:\d+", example.command)
        command = example.command
        for address, free in zip(old, free_addresses(len(old))):
            command = command.replace(address, free)
        lines = [line for line in example.behind if line]
        typed = [line for line in lines if is_typed(line)]
        ended = launch(self.folder, command.split()[1:], "".join(f"{line}\n" for line in typed).encode())
        self.assertEqual(ended.status, DONE)
        if len(typed) < len(lines):
            self.assertEqual(ended.text.splitlines(), [line for line in lines if not is_typed(line)])
        else:
            self.assertNotIn("refused", ended.text)

    # What ./draw hands on to a node, of each member of README's session, at addresses of this machine.
    def test_words_of_draw(self):
        (given,) = re.findall(r"^    \./draw (--session .*)$", (ROOT / "README.md").read_text(), re.MULTILINE)
        address = re.compile(r"\d+\.\d+\.\d+\.\d+:\d+")
        self.assertEqual((given.count("--site 1 "), len(address.findall(given))), (1, 3))
        for site in (1, 2, 3):
            free = iter(free_addresses(3))
            words = address.sub(lambda _: next(free), given.replace("--site 1 ", f"--site {site} "))
            ended = run_program(["node", *words.split()], b"", cwd=self.folder)
            self.assertEqual((ended.text, ended.status), (f"ready {site} of 3\n", DONE), words)
            (self.folder / "mine.log").unlink()

    def test_two_sites_draw_together(self):
        done = subprocess.run([ROOT / "examples/two-sites.sh", PROGRAM], capture_output=True, text=True, timeout=LONGEST)
        self.assertEqual(done.returncode, DONE, done.stdout + done.stderr)
        self.assertEqual(done.stdout.splitlines()[-1], "both sites and both journals show the same drawing")


# The commands that aren't run by these tests, and why.
NOT_HERE = {
    "sudo apt install ./groupdesign_*.deb": "it installs, which packaging/test does in a fresh Debian root",
    "groupdesign draw --demo 2 --open": "it is the installed command, which packaging/test runs there, and from the archive",
    "./check": "it runs these tests",
    "./draw --keep 'LINK' --journal copy.log": "it has no page; carrier/tests/live_together.py runs it",
    "./draw --watch 'LINK'": "it needs a session that is drawn; carrier/tests/live_watch.py runs it",
    "./draw --host 3": "it opens a port to the network; page/tests/test_hosting.py runs it at one of this machine",
    "./draw --host 3 --at 192.168.1.20:8080 [--cert FILE --key FILE] [--journal PATH]": "page/tests/test_hosting.py runs it, with TLS",
    "./draw --host 3 --journal mine.log": "it asks for two links more; carrier/tests/live_host.py runs it",
}


class Run(Case):
    def test_each_command_of_a_page_is_run_or_it_is_said_why_not(self):
        here = {example.command for example in examples()} | {"examples/two-sites.sh"}
        found = {command for _, command in [*commands(), *draws()]}
        self.assertEqual({command for command in found - here if not is_run(command)}, set(NOT_HERE))


class Tables(Case):
    def test_the_logs_of_the_table(self):
        (table,) = rows_of("examples/README.md", "Log", "What it shows", "Status")
        self.assertEqual(sorted(quoted(row[0])[0] for row in table), sorted(path.stem for path in EXAMPLES.glob("*.log")))
        self.expect_all([
            (["replay"], (EXAMPLES / f"{name}.log").read_bytes(), int(status), (EXAMPLES / f"{name}.txt").read_bytes())
            for name, status in [(quoted(row[0])[0], row[2]) for row in table]
        ])

    def test_each_format_of_the_late_group(self):
        (table,) = rows_of("examples/README.md", "File", "Words")
        log, rows = (EXAMPLES / "late-group.log").read_bytes(), []
        for file, words in table:
            rows += [(each.split(), log, DONE, (EXAMPLES / quoted(file)[0]).read_bytes()) for each in quoted(words)]
        self.assertGreater(len(rows), 3)
        self.expect_all(rows)

    # A comma parts two lines in a cell.
    def test_rehearsals_of_the_tables(self):
        tables = rows_of("examples/README.md", "Line", "What is printed") + rows_of("README.md", "Typed", "Printed")
        self.assertGreater(len(tables), 0)
        for table in tables:
            typed = "".join(f"{line}\n" for row in table for line in quoted(row[0]))
            printed = "".join(f"{line}\n" for row in table for line in quoted(row[1]))
            self.expect(["rehearse", "--sites", "2"], typed.encode(), DONE, printed)

    def test_worked_bytes_of_the_formats(self):
        tables = rows_of("docs/FORMATS.md", "Place", "Bytes", "Meaning")
        found = [bytes.fromhex("".join(quoted(row[1])[0] for row in table)) for table in tables]
        for wanted in (TIE, FRAME):
            self.assertIn(wanted, found)
        cards = [each for each in found if each.startswith(VOTES[:4])]
        self.assertEqual(len(cards), 1)
        self.expect(["board", "--counts"], cards[0], DONE, "end 0\narrivals applied 2 dropped 1 reworked 0 undone 0\n")

    # Of each line of section 4 of LINES the faults in their order, with their examples.
    def test_faults_of_lines(self):
        rows = []
        for table in rows_of("docs/LINES.md", "Line", "Faults in their order"):
            for row in table:
                rows += re.findall(r"([A-Z]\w+)(?: of [^`;]*)? `([^`]*)`", row[1])
        self.assertGreater(len(rows), 20)
        typed = "".join(f"at 1 {line}\n" for _, line in rows if line.split()[0] != "poll")
        ended = run_program(["rehearse", "--sites", "1"], typed.encode())
        self.assertEqual(ended.text.splitlines(), [f"refused: {why}" for why, line in rows if line.split()[0] != "poll"])


# The pages that lead through the crates.
LEADING = ["ARCHITECTURE", "DECISIONS", "MODEL", "NEW-DOCUMENT", "PROVING"]


class Names(Case):
    def test_links_lead_somewhere(self):
        for page in [*PAGES, "tests/README.md", "bench/README.md", "packaging/README.md"]:
            for link in re.findall(r"\]\(([^)#]+)", (ROOT / page).read_text()):
                if not re.match(r"\w+:", link):
                    self.assertTrue(((ROOT / page).parent / link).exists(), (page, link))

    # Crates, files, and names in words that are joined by an underscore.
    def test_names_stand_in_the_crates(self):
        crates = ROOT / "crates"
        sources = [path for path in crates.glob("*/*/**/*") if path.suffix in (".rt", ".antt") and path.parts[-3] != "out"]
        files = {path.name for path in sources}
        words = {path.name for path in crates.iterdir()} | set(re.findall(r"\w+", " ".join(path.read_text() for path in sources)))
        for page in LEADING:
            text = (ROOT / f"docs/{page}.md").read_text()
            named = " ".join(re.findall(r"`([^`\n]+)`", text))
            self.assertEqual(set(re.findall(r"[A-Za-z_]+\.(?:antt|rt)\b", named)) - files, set(), page)
            self.assertEqual(set(re.findall(r"\b[a-z]+(?:_[a-z0-9]+)+\b", named)) - words, set(), page)
            self.assertEqual(set(re.findall(r"\bgd_[a-z]+\b", text)) - words, set(), page)
