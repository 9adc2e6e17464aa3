"""What a person does with the installed command, wherever it was installed: the tests are the same, and where it stands differs."""

import asyncio
import contextlib
import importlib.util
import re
import signal
import subprocess
from dataclasses import dataclass
from pathlib import Path

import aiohttp

from package_tests.packages import ROOT, VERSION, need
from page.tests.places import wait_for
from page.tests.serving import Socket
from tests.nodes import free_addresses
from tests.pages import examples
from tests.test_docs import is_typed

# Whoever waits longer than this, in seconds, waits for good. No run comes near it on a slow machine.
PATIENCE = 300
SESSION = ["--session", "7"]
SCREENSHOTS = ROOT / "packaging/out/screenshots"


@dataclass
class User:
    """Somebody who has the command: the words in front of its own, and the folder in which it runs, as seen from here."""

    words: list
    home: Path

    def start(self, *words, **options):
        options = {"stdin": subprocess.PIPE, "stdout": subprocess.PIPE, "stderr": subprocess.PIPE} | options
        return subprocess.Popen([*self.words, *words], cwd=self.home, text=True, **options)

    def run(self, *words, given=""):
        """The status, and what was printed and said."""
        process = self.start(*words)
        printed, said = process.communicate(given, timeout=PATIENCE)
        return process.returncode, printed, said


class Drawing:
    """A run of `groupdesign draw`, from its first address to its end."""

    def __init__(self, user, *words, addresses=1, given=None):
        self.process = user.start("draw", *words)
        if given:
            self.process.stdin.write(given)
            self.process.stdin.close()
            self.process.stdin = None
        self.addresses = [self.process.stdout.readline().partition(" ")[0].strip() for _ in range(addresses)]
        if not self.addresses[-1]:
            raise AssertionError(f"it printed no address: {self.process.communicate(timeout=PATIENCE)}")

    def end(self):
        self.process.send_signal(signal.SIGTERM)
        rest, said = self.process.communicate(timeout=PATIENCE)
        return self.process.returncode, rest, said

    def __enter__(self):
        return self

    def __exit__(self, *_):
        if self.process.poll() is None:
            self.process.kill()
            self.process.communicate()


def draw_shape(pane, kind, height):
    """Draws a shape as a person does: a click on its tool, and a drag over the paper."""
    from selenium.webdriver.common.action_chains import ActionChains

    pane.enter()
    pane.find(f"#tools [data-tool={kind}]").click()
    drag = ActionChains(pane.driver, duration=10).move_to_element_with_offset(pane.find("#board"), -80, height)
    drag.click_and_hold().move_by_offset(80, 40).move_by_offset(80, 40).release().perform()


class Page(Socket):
    """A page's socket, which waits as long as anything here."""

    async def next(self, wanted, seconds=PATIENCE):
        return await super().next(wanted, seconds)


class Installed:
    """Tests of a command that is installed; mixed into a case that has `ana` and `ben`, and knows whether there is a broker."""

    def expect(self, words, given, status, printed):
        done = self.ana.run(*words, given=given)
        self.assertEqual(done[:2], (status, printed), done)
        return done[2]

    def test_the_version(self):
        self.assertEqual(self.expect(["--version"], "", 0, f"groupdesign {VERSION}\n"), "")

    def test_the_first_example_of_the_readme(self):
        example = next(each for each in examples() if each.page == "README.md")
        command = example.command
        old = re.findall(r"127\.0\.0\.1:\d+", command)
        for address, free in zip(old, free_addresses(len(old))):
            command = command.replace(address, free)
        lines = [line for line in example.behind if line]
        typed = "".join(f"{line}\n" for line in lines if is_typed(line))
        printed = "".join(f"{line}\n" for line in lines if not is_typed(line))
        self.assertIn(" node ", command)
        self.assertIn("ok 1.1\n", printed)
        self.expect(command.split()[1:], typed, 0, printed)
        journal = command.split()[command.split().index("--journal") + 1]
        self.assertEqual((self.ana.home / journal).read_bytes()[:4], b"GDOL")

    def test_help_has_the_page_too(self):
        for words in (["--help"], ["-h"], ["help"]):
            status, printed, said = self.ana.run(*words)
            self.assertEqual((status, said), (0, ""))
            for command in ("node", "board", "draw"):
                self.assertRegex(printed, rf"(?m)^  {command} ")
            self.assertIn(", 70 ", printed)
        self.assertRegex(self.expect(["replay", "--counts", "--help"], "", 0, self.ana.run("help", "replay")[1]), "^$")
        for words in (["draw", "--help"], ["help", "draw"], ["draw", "-h"], ["--help", "draw"]):
            status, printed, said = self.ana.run(*words)
            self.assertEqual((status, said), (0, ""))
            self.assertRegex(printed, r"^usage: groupdesign draw ")

    def test_words_and_statuses_are_the_program_s(self):
        for words, hint in ((["replays"], r"is replay meant\?"), (["darw"], r"is draw meant\?"), ([""], "--help")):
            self.assertRegex(self.expect(words, "", 2, "usage: groupdesign COMMAND OPTIONS\n"), rf"^groupdesign: .*{hint}")
        self.expect(["replay"], "no log", 3, "bad log at 0: Magic\n")
        status, _, said = self.ana.run("draw", "--site", "1")
        self.assertEqual(status, 2)
        self.assertIn("groupdesign draw: error: ", said)

    def test_two_in_a_browser(self):
        need("chromium", "chromedriver")
        if not importlib.util.find_spec("selenium"):
            self.skipTest("there is no selenium for this Python")
        from page.tests.browse_demo import Pane
        from page.tests.browser import browser

        with Drawing(self.ana, "--demo", "2", addresses=3) as drawing:
            driver = browser()
            self.addCleanup(driver.quit)
            driver.get(drawing.addresses[0])
            wait_for(lambda: len(driver.find_elements("css selector", "iframe")) == 2, PATIENCE)
            panes = [Pane(driver, number) for number in (1, 2)]
            for pane, other, kind, height in (*panes, "rect", -150), (*reversed(panes), "ellipse", 50):
                draw_shape(pane, kind, height)
                wait_for(lambda: other.ids(kind), PATIENCE)
            wait_for(lambda: panes[0].shown() == panes[1].shown(), PATIENCE)
            self.assertEqual([line.split()[1].partition(".")[2] for line in panes[0].shown()], ["1", "2"])
            driver.switch_to.default_content()
            SCREENSHOTS.mkdir(parents=True, exist_ok=True)
            driver.save_screenshot(str(SCREENSHOTS / f"{type(self).__name__.lower()}.png"))
            self.assertEqual(drawing.end(), (0, "", ""))

    def test_two_users_draw_together(self):
        addresses = free_addresses(2)
        with contextlib.ExitStack() as runs:
            drawings = [
                runs.enter_context(Drawing(user, *SESSION, "--site", str(site), "--journal", "mine.log", *addresses))
                for site, user in ((1, self.ana), (2, self.ben))
            ]
            asyncio.run(self.draw_together([drawing.addresses[0] for drawing in drawings]))
            for drawing in drawings:
                self.assertEqual(drawing.end(), (0, "", ""))
        self.expect_same("mine.log")

    def test_one_founds_a_session_and_one_joins(self):
        if not self.has_broker:
            self.skipTest("there is no mosquitto")
        (address,) = free_addresses(1)
        journal = ["--journal", "oak.log"]
        with Drawing(self.ana, "--found", "Oak", "--listen", address, *journal) as one:
            status, link, _ = self.ana.run("draw", "--invite", *journal)
            self.assertEqual(status, 0)
            with Drawing(self.ben, "--join", "-", *journal, given=link) as two:
                asyncio.run(self.draw_together([one.addresses[0], two.addresses[0]]))
                self.assertEqual(two.end()[0], 0)
            self.assertEqual(one.end()[0], 0)
        self.expect_same("oak.log")

    def expect_same(self, name):
        """Both have the two shapes in their journals of this name."""
        one, other = (self.replayed(user, name) for user in (self.ana, self.ben))
        self.assertEqual(one, other)
        self.assertEqual([line.partition(" text ")[2] for line in sorted(one.splitlines())], ["", "House", "Tree"])

    def replayed(self, user, name):
        with open(user.home / name, "rb") as journal:
            process = user.start("replay", stdin=journal)
            printed, said = process.communicate(timeout=PATIENCE)
        self.assertEqual((process.returncode, said), (0, ""))
        return printed

    async def draw_together(self, addresses):
        """Each of two pages makes a shape, and is shown the other's."""
        async with aiohttp.ClientSession() as client:
            pages = []
            for address in addresses:
                origin = re.match(r"http://[^/]+", address)[0]
                pages.append(Page(await client.ws_connect(f"{address}socket", headers={"Origin": origin})))
            for site, page, label in zip((1, 2), pages, ("House", "Tree")):
                answer = await page.ask("batch", site, lines=[f"create rect 0 0 100 50 {label}"])
                self.assertRegex(answer["answers"][0], r"^ok \d+\.\d+$")
            for page, label in zip(pages, ("Tree", "House")):
                await self.shown(page, label)

    async def shown(self, page, label):
        """Waits until the page was told of a drawing that has the label."""
        is_shown = lambda told: told["is"] == "picture" and label in str(told["items"])
        if not any(map(is_shown, page.told)):
            await page.next(is_shown)
