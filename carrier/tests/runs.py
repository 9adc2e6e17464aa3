"""What tests of whole runs share: people who each run ./draw over the built program, and a broker that one of them runs."""

import asyncio
import json
import os
import re
import shutil
import signal
import socket
import sys
from pathlib import Path

import aiohttp

from carrier.mosquitto import PATH
from page.draw import ROOT
from page.tests.places import PATIENCE, WithFolder, until
from page.tests.serving import Socket

PROGRAM = os.environ.get("CARRIER_PROGRAM")
LINK = re.compile(r"groupdesign:#[\w-]+")


def why_not():
    """Why no whole run can be tried here, or nothing."""
    if not PROGRAM:
        return "no program was named"
    return None if shutil.which("mosquitto", path=PATH) else "there is no mosquitto"


def free_port():
    with socket.socket() as tried:
        tried.bind(("127.0.0.1", 0))
        return tried.getsockname()[1]


class Person:
    """Somebody with a journal, a run of ./draw over it, and a page of that."""

    def __init__(self, test, name):
        self.test, self.journal, self.run, self.page, self.said = test, test.folder / name, None, None, ""
        test.people.append(self)

    async def begin(self, *words):
        """Starts a run, and opens its page. It is a failure where none is served; what it says goes to a file."""
        self.page, self.address = None, (await self.tell(*words)).strip()
        if not self.address:
            raise AssertionError(f"no page: {self.last_said()}")
        self.page = Socket(await self.test.client.ws_connect(f"{self.address}socket", headers={"Origin": self.origin}))
        self.hello = await self.page.kind("hello")
        return self

    def place(self):
        """The words that say where the run keeps the drawing."""
        return ["--journal", str(self.journal)]

    async def tell(self, *words):
        """Starts a run, and gives the first line that it prints."""
        given = [str(ROOT / "draw"), *words, *self.place(), "--program", PROGRAM]
        self.said = self.test.folder / f"{self.journal.name}.said"
        with open(self.said, "wb") as said:
            made = asyncio.create_subprocess_exec(sys.executable, *given, stdout=asyncio.subprocess.PIPE, stderr=said)
            self.run = await made
        return (await asyncio.wait_for(self.run.stdout.readline(), PATIENCE)).decode()

    async def refused(self, *words):
        """What is said by a run that serves no page."""
        line = await self.tell(*words)
        self.test.assertEqual(line, "")
        await asyncio.wait_for(self.run.wait(), PATIENCE)
        self.test.assertNotEqual(self.run.returncode, 0)
        return self.last_said()

    def last_said(self):
        return self.said.read_text(errors="replace")

    @property
    def origin(self):
        return "/".join(self.address.split("/")[:3])

    @property
    def seat(self):
        return self.hello["desk"]

    async def draw(self, *lines):
        """Types lines, all of which are taken, and gives the answers."""
        answers = (await self.page.ask("batch", desk=self.seat, lines=list(lines)))["answers"]
        self.test.assertTrue(all(answer.startswith("ok ") for answer in answers), answers)
        return answers

    async def drawing(self):
        """The drawing as the program prints it of the journal."""
        return (await self.page.ask("save", desk=self.seat, form="json"))["result"]

    async def picture(self):
        """The objects of the drawing as a page that comes is told of them."""
        headers = {"Origin": self.origin}
        socket = Socket(await self.test.client.ws_connect(f"{self.address}socket", headers=headers))
        told = await socket.kind("picture")
        await socket.socket.close()
        return told["items"]

    async def labels(self):
        """The labels of the drawing, in their order from the bottom."""
        return re.findall(r'"label":"((?:[^"\\]|\\.)*)"', await self.drawing())

    async def end(self, sign=signal.SIGTERM):
        """Ends the run."""
        if self.run and self.run.returncode is None:
            self.run.send_signal(sign)
            await asyncio.wait_for(self.run.wait(), PATIENCE)
        if self.page:
            await self.page.socket.close()
            self.page = None
        return self.run.returncode if self.run else None


class Looker(Person):
    """Somebody who only looks on, and keeps nothing."""

    def place(self):
        return []


class WithPeople(WithFolder):
    """A test with people who draw together over a broker that the first of them runs."""

    def setUp(self):
        super().setUp()
        why = why_not()
        if why:
            self.skipTest(why)
        self.people = []

    async def asyncSetUp(self):
        await super().asyncSetUp()
        self.client = aiohttp.ClientSession()
        self.addAsyncCleanup(self.client.close)
        self.addAsyncCleanup(self.end_all)

    async def end_all(self):
        for person in self.people[::-1]:
            await person.end()

    async def found(self, name="ana.log"):
        """The founder, whose broker listens on this machine."""
        self.broker = f"127.0.0.1:{free_port()}"
        return await Person(self, name).begin("--found", "Oak", "--listen", self.broker)

    async def link(self, founder, *more):
        """A link for one person, or with `--watch` for all who only look on."""
        words = [sys.executable, str(ROOT / "draw"), "--invite", *more, "--journal", str(founder.journal)]
        run = await asyncio.create_subprocess_exec(*words, stdout=asyncio.subprocess.PIPE)
        printed, _ = await asyncio.wait_for(run.communicate(), PATIENCE)
        text = printed.decode()
        self.assertRegex(text, rf"^{LINK.pattern}\n$")
        return text.strip()

    async def join(self, founder, name):
        """One more person, who was invited."""
        return await Person(self, name).begin("--join", await self.link(founder))

    async def all_see(self, people, count):
        """Waits until all see the same drawing of so many objects, and gives its labels."""
        async def same():
            drawings = {await person.drawing() for person in people}
            found = {len(json.loads(each)) for each in drawings}
            return len(drawings) == 1 and found == {count}

        for _ in range(PATIENCE * 5):
            if await same():
                return sorted(await people[0].labels())
            await asyncio.sleep(0.2)
        raise AssertionError(f"not all see the same {count}: {[await person.labels() for person in people]}")

    async def same_picture(self, looker, person, count):
        """Waits until who looks on sees what a person sees, of so many objects, and gives the labels."""
        shown = []
        for _ in range(PATIENCE * 5):
            shown = await looker.picture()
            if len(shown) == count and shown == await person.picture():
                return [each["label"] for each in shown]
            await asyncio.sleep(0.2)
        raise AssertionError(f"who looks on sees {shown}")

    def broker_process(self, person):
        """The number of the process of a person's broker, or nothing."""
        words = f"{person.journal}.broker/mosquitto.conf"
        for folder in Path("/proc").glob("[0-9]*"):
            try:
                if words in (folder / "cmdline").read_text():
                    return int(folder.name)
            except OSError:
                continue
        return None

    async def until_broker(self, person):
        return await until(lambda: self.broker_process(person), what="the broker")
