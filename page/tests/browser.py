"""What the tests in a browser share: pages in a real browser, over nodes of the program, with a proxy between them."""

import json
import os
import shutil
import signal
import subprocess
import sys
import tempfile
import time
import unittest
from pathlib import Path

from selenium import webdriver
from selenium.common.exceptions import WebDriverException
from selenium.webdriver.chrome.service import Service
from selenium.webdriver.common.action_chains import ActionChains
from selenium.webdriver.common.actions.action_builder import ActionBuilder
from selenium.webdriver.common.keys import Keys

from page.audience import Audience
from page.demo import Proxy
from page.draw import ROOT
from page.tests.places import PATIENCE, wait_for

PROGRAM = os.environ.get("PAGE_PROGRAM", "")
SCREENSHOTS = ROOT / "page/out/screenshots"
SESSION = 7
ATTEMPTS = 3
TAPS = 10
PHONE = (390, 844)
CONTROLS = {"ctrl": Keys.CONTROL, "shift": Keys.SHIFT, "alt": Keys.ALT}
# A browser that does nothing of its own, and isn't ended by its own watchdogs where the machine is slow.
FLAGS = """--headless=new --no-sandbox --disable-dev-shm-usage --window-size=1440,900 --disable-gpu --disable-gpu-watchdog
--disable-hang-monitor --disable-extensions --disable-sync --disable-background-networking --disable-component-update
--disable-default-apps --no-first-run --disable-breakpad --disable-background-timer-throttling
--disable-backgrounding-occluded-windows --disable-renderer-backgrounding""".split()
# On a slow machine a finger may seem to rest where it only comes to its next place late, so that is no long press; and what
# is said for a while may be read late.
UNHURRIED = "window.holdAfter ??= ed.gestures.holdAfter; ed.gestures.holdAfter = 3_600_000; ed.patience = 300"
# What the board shows of each object, from bottom to top, as `show` prints it.
SHOWN = """
return ed.model.items.map((i) => i.kind === 'group' ? `group ${i.id} in ${i.parent ?? '-'} at ${i.x} ${i.y}` :
  `${i.kind} ${i.id} in ${i.parent ?? '-'} ${i.from ? `from ${i.from} to ${i.to}` : `at ${i.x} ${i.y} size ${i.w} ${i.h}`} stroke ${i.stroke} fill ${i.fill ?? 'none'} width ${i.width}` +
  (i.label && ` text ${i.label}`));
"""


def browser(*flags):
    """A browser without a window."""
    options = webdriver.ChromeOptions()
    options.binary_location = shutil.which("chromium")
    for flag in (*FLAGS, *flags):
        options.add_argument(flag)
    options.set_capability("goog:loggingPrefs", {"browser": "ALL"})
    for left in reversed(range(ATTEMPTS)):
        try:
            made = webdriver.Chrome(options=options, service=Service(shutil.which("chromedriver")))
            made.set_script_timeout(PATIENCE)
            return made
        except WebDriverException:
            # On a busy machine it may not start in the minute that its driver waits.
            if not left:
                raise


class Run:
    """A run of ./draw. Its addresses are all that it printed when it began."""

    def __init__(self, *words, addresses=1):
        command = [sys.executable, str(ROOT / "draw"), "--program", PROGRAM, *words]
        self.process = subprocess.Popen(command, stdout=subprocess.PIPE, text=True)
        self.addresses = [self.process.stdout.readline().split()[0] for _ in range(addresses)]
        self.address = self.addresses[0]

    def end(self):
        self.process.send_signal(signal.SIGTERM)
        self.process.communicate(timeout=PATIENCE)
        return self.process.returncode


class Page:
    """A page in a browser's window, by what a person does in it and sees. Places are of the board, which is shown at 100 %
    with its place 0 0 at the window's top left, unless the view was moved."""

    # When the last event of fingers was, by its own time.
    touched_at = 0

    def __init__(self, driver):
        self.driver = driver
        self.come()
        self.home()

    def come(self):
        """Waits until the drawing is there. A page on a slow machine that missed a file loads itself again."""
        wait_for(lambda: self.ask("document.body?.dataset.ready"))
        self.do(UNHURRIED)

    def ask(self, expression, *given):
        return self.driver.execute_script(f"return {expression}", *given)

    def do(self, script, *given):
        return self.driver.execute_script(script, *given)

    def find(self, selector):
        return self.driver.find_element("css selector", selector)

    def all(self, selector):
        return self.driver.find_elements("css selector", selector)

    def text(self, selector):
        return self.ask("document.querySelector(arguments[0])?.textContent ?? ''", selector)

    # What is done.

    def home(self, zoom=1):
        """Shows the board's place 0 0 at the top left."""
        self.do("ed.camera.set(0, 0, arguments[0])", zoom)

    def at(self, place):
        """The place in the window of a place of the board, in whole pixels."""
        x, y = self.ask("ed.camera.toWindow(arguments[0], arguments[1])", *place)
        return round(x), round(y)

    def hold(self, *keys):
        """Keys that are held down."""
        actions = ActionChains(self.driver, duration=0)
        for each in keys:
            actions.key_down(CONTROLS.get(each, each))
        actions.perform()

    def let_go(self, *keys):
        actions = ActionChains(self.driver, duration=0)
        for each in keys:
            actions.key_up(CONTROLS.get(each, each))
        actions.perform()

    def pointer(self):
        return ActionChains(self.driver, duration=10)

    def press_at(self, place, *way):
        """Presses, and moves over places, without letting go."""
        self.pressing(place, *way).perform()

    def pressing(self, place, *way, button=0):
        actions = self.pointer()
        pointer = actions.w3c_actions.pointer_action
        pointer.move_to_location(*self.at(place))
        pointer.pointer_down(button=button)
        for each in way:
            pointer.move_to_location(*self.at(each))
        return actions

    def move_to(self, *way):
        actions = self.pointer()
        for each in way:
            actions.w3c_actions.pointer_action.move_to_location(*self.at(each))
        actions.perform()

    def release(self):
        actions = self.pointer()
        actions.w3c_actions.pointer_action.pointer_up(button=0)
        actions.perform()

    def drag(self, begin, *way, hold=(), button=0):
        """Drags from one place over others, with keys held down or none."""
        half = ((begin[0] + way[0][0]) / 2, (begin[1] + way[0][1]) / 2)
        self.hold(*hold)
        actions = self.pressing(begin, half, *way, button=button)
        actions.w3c_actions.pointer_action.pointer_up(button=button)
        actions.perform()
        self.let_go(*hold)

    def draw(self, key, begin, end, hold=("ctrl",)):
        """Draws with the tool of a key; Ctrl, so that it doesn't snap."""
        self.press(key)
        self.drag(begin, end, hold=hold)

    def click(self, place, hold=(), button=0):
        self.hold(*hold)
        actions = self.pointer()
        pointer = actions.w3c_actions.pointer_action
        pointer.move_to_location(*self.at(place))
        pointer.pointer_down(button=button)
        pointer.pointer_up(button=button)
        actions.perform()
        self.let_go(*hold)

    def click_twice(self, place):
        self.click_twice_at(*self.at(place))

    def click_twice_at(self, x, y):
        """A double click: two clicks 100 ms apart by their own times, however long the browser takes for them."""
        began = time.time()
        for count in (1, 2):
            self.click_by_time(x, y, began + 0.1 * count, count)

    def click_by_time(self, x, y, moment, count=1):
        """A click with a time of its own, in seconds since 1970; the how-many-th of a row of clicks it is."""
        for kind in ("mousePressed", "mouseReleased"):
            event = {"type": kind, "x": x, "y": y, "button": "left", "clickCount": count, "timestamp": moment}
            self.driver.execute_cdp_cmd("Input.dispatchMouseEvent", event)

    def press(self, *keys, hold=()):
        """Presses keys, wherever the focus is."""
        actions = ActionChains(self.driver, duration=0)
        for each in hold:
            actions.key_down(CONTROLS[each])
        for each in keys:
            actions.send_keys(each)
        for each in reversed(hold):
            actions.key_up(CONTROLS[each])
        actions.perform()

    def write(self, text):
        self.driver.switch_to.active_element.send_keys(text)

    def fingers(self, *ways):
        """Fingers that go over places of the window all at once, each by its own way."""
        actions = ActionBuilder(self.driver)
        for index, way in enumerate(ways):
            finger = actions.add_pointer_input("touch", f"finger {index}")
            finger.create_pointer_move(duration=0, x=way[0][0], y=way[0][1])
            finger.create_pointer_down(button=0)
            for x, y in way[1:]:
                finger.create_pointer_move(duration=20, x=x, y=y)
            finger.create_pointer_up(0)
        actions.perform()

    def second_finger(self, way, place):
        """A finger that goes its way, and then a second one that comes down at a place, before both go up."""
        actions = ActionBuilder(self.driver)
        first, second = (actions.add_pointer_input("touch", f"finger {index}") for index in range(2))
        first.create_pointer_move(duration=0, x=way[0][0], y=way[0][1])
        first.create_pointer_down(button=0)
        for x, y in way[1:]:
            first.create_pointer_move(duration=20, x=x, y=y)
        for _ in range(len(way) + 1):
            second.create_pause(0)
        second.create_pointer_move(duration=0, x=place[0], y=place[1])
        second.create_pointer_down(button=0)
        first.create_pause(0)
        first.create_pause(0)
        for finger in (first, second):
            finger.create_pointer_up(0)
        actions.perform()

    def touch(self, kind, *places, after=None):
        """One event of fingers, which are at places of the window, so many seconds behind the last one by its own time, or now."""
        points = [{"x": x, "y": y, "id": number} for number, (x, y) in enumerate(places)]
        self.touched_at = max(time.time(), self.touched_at + 0.01) if after is None else self.touched_at + after
        event = {"type": kind, "touchPoints": points, "timestamp": self.touched_at}
        self.driver.execute_cdp_cmd("Input.dispatchTouchEvent", event)

    def swipe(self, *way):
        """A finger that goes over places of the window; a tap where there is one alone. It comes to rest before it goes up: a
        browser takes a tap behind a fling as what stops that."""
        self.touch("touchStart", way[0])
        for place in way[1:]:
            self.touch("touchMove", place, after=0.03)
        if way[1:]:
            self.touch("touchMove", way[-1], after=0.3)
        self.touch("touchEnd", after=0.02)

    def tap_twice(self, place):
        """Two taps 100 ms apart by their own times, however long the browser takes for them."""
        self.swipe(place)
        self.touch("touchStart", place, after=0.08)
        self.touch("touchEnd", after=0.02)

    def tap_on(self, selector):
        """A tap on an element, which is brought into view. The browser makes a click of it some time behind."""
        place = self.do("""
            const element = document.querySelector(arguments[0]);
            element.scrollIntoView({ block: 'nearest' });
            window.wasTapped = false;
            addEventListener('click', () => setTimeout(() => { window.wasTapped = true; }), { capture: true, once: true });
            const { left, top, width, height } = element.getBoundingClientRect();
            return [Math.round(left + width / 2), Math.round(top + height / 2)];
        """, selector)
        # Where the finger goes up late on a slow machine the browser takes that for a long press, and makes no click of it.
        for left in reversed(range(TAPS)):
            self.swipe(tuple(place))
            try:
                wait_for(lambda: self.ask("window.wasTapped"), PATIENCE / TAPS)
                return
            except AssertionError:
                if not left:
                    raise

    def long_press(self, place, until, stays=0):
        """A finger that stays until something has come, and then for so many seconds."""
        self.do("ed.gestures.holdAfter = window.holdAfter")
        self.touch("touchStart", place)
        wait_for(until)
        time.sleep(stays)
        self.touch("touchEnd")
        self.do(UNHURRIED)

    def keys_at_once(self, *keys):
        """Keys that are pressed in a row without any time between them. A word `Shift+` in front holds that down."""
        script = """
        for (const word of arguments[0]) {
          const key = word.split('+').at(-1);
          const event = { key, code: key, shiftKey: word.startsWith('Shift+'), bubbles: true, cancelable: true };
          document.activeElement.dispatchEvent(new KeyboardEvent('keydown', event));
        }"""
        self.do(script, list(keys))

    # What is seen.

    def shown(self):
        return self.do(SHOWN)

    def ids(self, kind=None):
        return self.ask("ed.model.items.filter((i) => !arguments[0] || i.kind === arguments[0]).map((i) => i.id)", kind)

    def item(self, name):
        """An object of the board, or none."""
        fields = "({id, kind, parent, x, y, w, h, stroke, fill, width, label, font, z})"
        return self.ask(f"(i => i && (({fields[1:-1]}) => {fields})(i))(ed.model.byId.get(arguments[0]))", name)

    def selected(self):
        return self.ask("[...ed.selection.ids]")

    def bubble(self):
        return self.text("#bubbles")

    def banners(self):
        return self.text("#banners")

    def said(self):
        return self.text("#said")

    def is_settled(self):
        """Whether the node has shown all that was typed here."""
        return self.ask("ed.edits.pending.layers.length === 0 && !ed.model.over.size")

    def rest(self):
        """Waits until nothing moves, and what is shown was laid out and painted."""
        script = """
        const done = arguments[0];
        document.getAnimations().forEach((each) => each.finish());
        requestIdleCallback(() => requestAnimationFrame(() => requestAnimationFrame(() => done())), { timeout: 1000 });
        """
        self.driver.execute_async_script(script)

    def errors(self):
        return [entry["message"] for entry in self.driver.get_log("browser") if entry["level"] == "SEVERE"]

    def picture(self, name):
        SCREENSHOTS.mkdir(parents=True, exist_ok=True)
        self.driver.save_screenshot(str(SCREENSHOTS / f"{name}.png"))


def processor_time(driver):
    """The processor time of all processes of a browser until now, in milliseconds."""
    rows = subprocess.run(["ps", "-eo", "pid,ppid"], capture_output=True, text=True, check=True).stdout.split("\n")[1:-1]
    parents = [tuple(map(int, row.split())) for row in rows]
    mine = {driver.service.process.pid}
    for _ in range(6):
        mine |= {pid for pid, parent in parents if parent in mine}
    return sum(map(ticks_of, mine)) * 1000 / os.sysconf("SC_CLK_TCK")


def ticks_of(pid):
    """What Linux has counted of a process; nothing of one that has ended."""
    try:
        fields = Path(f"/proc/{pid}/stat").read_text().rsplit(")", 1)[1].split()
    except OSError:
        return 0
    return int(fields[11]) + int(fields[12])


def replayed(journal):
    with open(journal, "rb") as given:
        return subprocess.run([PROGRAM, "replay"], stdin=given, capture_output=True, check=True, text=True).stdout


def own_events(journal, site):
    """The events that a site made, from its journal."""
    with open(journal, "rb") as given:
        done = subprocess.run([PROGRAM, "replay", "--format", "events"], stdin=given, capture_output=True, check=True)
    return [event for event in json.loads(done.stdout) if event["site"] == site]


# The parts of a look, and those that a line calls otherwise.
LOOKS = ("stroke", "fill", "width", "dash", "heads", "round", "opacity", "letters", "align")
LINE_WORDS = {"letters": "size"}


def line_of(event):
    """An event in the words of its line."""
    op = event["op"]
    if op == "create":
        words = [event[key] for key in ("kind", "x", "y", "w", "h")] + ([event["label"]] if event["label"] else [])
    elif op == "group":
        words = [member["id"] for member in event["members"]]
    elif op == "restyle":
        looks = [(LINE_WORDS.get(part, part), event[part]) for part in LOOKS if part in event]
        pairs = [word for name, value in looks for word in (name, "none" if value is None else value)]
        op, words = ("style", [event["id"], *pairs]) if len(looks) > 1 else (pairs[0], [event["id"], pairs[1]])
    elif op in ("connect", "reconnect"):
        words = [event[key] for key in ("id", "from", "to", "label") if event.get(key)]
    elif op == "retext":
        op, words = "text", [event["id"], event["label"]]
    else:
        words = [event["id"], *(event[key] for key in ("x", "y", "w", "h") if key in event)]
    return " ".join(map(str, [op, *words]))


class WithTwoPages(unittest.TestCase):
    """Two runs of ./draw, each over a node of its own, with a proxy between them, and a browser's window at each."""

    @classmethod
    def setUpClass(cls):
        cls.room = Path(tempfile.mkdtemp(prefix="page-test-"))
        cls.addClassCleanup(shutil.rmtree, cls.room)
        cls.proxy = Proxy(2, Audience())
        cls.proxy.start()
        cls.addClassCleanup(cls.proxy.close)
        cls.journals = [cls.room / f"site-{site}.log" for site in (1, 2)]
        cls.prepare()
        cls.runs = [cls.start(site) for site in (1, 2)]
        cls.drivers = [browser() for _ in cls.runs]
        for driver, run in zip(cls.drivers, cls.runs):
            cls.addClassCleanup(driver.quit)
            driver.get(run.address)
        cls.one, cls.two = cls.pages = [Page(driver) for driver in cls.drivers]

    @classmethod
    def prepare(cls):
        """What is to be there before the nodes start."""

    @classmethod
    def start(cls, site):
        words = ["--session", str(SESSION), "--site", str(site), "--journal", str(cls.journals[site - 1])]
        run = Run(*words, *cls.proxy.addresses(site))
        cls.addClassCleanup(run.end)
        return run

    def cut(self, *sites):
        self.proxy.set({"cut": list(sites)})

    def wait_until_same(self):
        """Waits until both pages show the same, with nothing still to come, and gives that."""

        def is_same():
            held = [page.ask("ed.node.standing.held") for page in self.pages]
            is_settled = all(page.is_settled() for page in self.pages)
            return is_settled and held[0] == held[1] and self.one.shown() == self.two.shown()

        wait_for(is_same)
        return self.one.shown()

    def settled(self, page):
        """Waits until the node has shown all that was typed at a page."""
        wait_for(page.is_settled)

    def typed_by(self, page, act):
        """The lines that an act at a page had the node take, as its journal has them: places are those within groups. What an
        undo makes stands there as what it is, with the id of its object alone where no line says so: `restore 1.1`."""
        site = self.pages.index(page) + 1
        before = len(own_events(self.journals[site - 1], site))
        act()
        self.settled(page)
        return [line_of(event) for event in own_events(self.journals[site - 1], site)[before:]]

    def clear(self):
        """Deletes all there is, and shows the board's place 0 0 at the top left."""
        self.cut()
        for page in self.pages:
            page.do("ed.history.toNow(); ed.setTool('select'); ed.escape(); ed.camera.set(0, 0, 1)")
        self.wait_until_same()
        self.one.do("ed.edits.do('clear', ed.model.items.filter((i) => !i.parent).map((i) => `delete ${i.id}`))")
        wait_for(lambda: not any(page.ids() for page in self.pages))
        for page in self.pages:
            page.do("ed.selection.clear(); ed.banner(null); ed.focusBoard(); document.getElementById('bubbles').replaceChildren()")
