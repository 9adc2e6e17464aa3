#!/usr/bin/python3
"""Measures the board in chromium, over a node of the program, and prints a table.

    page/bench/measure_page.py [--program PROGRAM] [--objects N ..] [--minutes M] [--events E]

Times of frames are processor time of all processes of the browser, as Linux counts it, a frame; the rest is time by the clock.
M is for how long another site makes 1,000 edits a minute. It needs what the tests in a browser need.
"""

import argparse
import os
import shutil
import socket
import statistics
import subprocess
import sys
import tempfile
import time
from contextlib import ExitStack
from pathlib import Path

ROOT = Path(__file__).resolve().parent.parent.parent
sys.dont_write_bytecode = True
sys.path[:0] = [str(ROOT), str(ROOT / "examples")]

from make_examples import STROKE, FILL, create, log, move, restyle

SESSION = 7
FRAMES = 120
EDITS = 20
A_MINUTE = 1000
COLOURS = [0x000000, 0x2563EB, 0x258750, 0xD92D20, 0x7C3AED, 0x0B7F8C]
FILLS = [0xDAE6FF, 0xD3F2DB, 0xFFDFD9, 0xE9DFFF, 0xCBEFF3, 0xFFF2AE]
# Of seven objects four are rects, and one each an ellipse, a line and a text.
KINDS = [1, 1, 2, 1, 3, 4, 1]
MOST_OF_SITE = 65_535

# Moves the camera in each frame for so many frames, and gives how long the page's own drawing took.
FLY = """
const [how, frames, done] = arguments;
const { camera, model } = ed;
const all = model.all();
const fit = Math.min(innerWidth / (all.x1 - all.x0), innerHeight / (all.y1 - all.y0), 1);
const [x, y] = how.startsWith('all') ? [all.x0, all.y0] : [(all.x0 + all.x1) / 2, (all.y0 + all.y1) / 2];
const zoom = how.startsWith('all') ? fit : 1;
camera.put(x, y, zoom);
let count = 0;
const begin = () => {
  ed.stats.draws.length = 0;
  requestAnimationFrame(step);
};
const step = () => {
  count += 1;
  if (how.endsWith('zoom')) camera.zoomAt(innerWidth / 2, innerHeight / 2, count % 40 < 20 ? 1.04 : 1 / 1.04);
  else camera.put(x + (Math.sin(count / 20) * 300) / zoom, y + (Math.sin(count / 10) * 60) / zoom, zoom);
  if (count < frames) requestAnimationFrame(step);
  else setTimeout(() => done([...ed.stats.draws]), 50);
};
setTimeout(begin, 600);
"""
# Does edits one after the other, and gives for each when it was on the screen, and when the node had shown it.
EDIT = """
const [count, done] = arguments;
const item = ed.model.items.find((each) => each.kind === 'rect');
const box = ed.camera.box();
const times = [];
const frame = () => new Promise((seen) => requestAnimationFrame(() => setTimeout(() => seen(performance.now()))));
const confirmed = async () => {
  while (ed.edits.pending.layers.length) await new Promise((later) => setTimeout(later));
  return performance.now();
};
(async () => {
  for (let turn = 0; turn < count; turn += 1) {
    const now = ed.model.byId.get(item.id);
    const start = performance.now();
    ed.edits.do('Moved', [`move ${item.id} ${now.x + 3} ${now.y}`]);
    times.push(await Promise.all([frame(), confirmed()]).then((both) => both.map((each) => each - start)));
    await new Promise((later) => setTimeout(later, 60));
  }
  done(times);
})();
"""
MANY = """
const [op, done] = arguments;
const items = ed.model.items.filter((each) => each.kind === 'rect').slice(0, 500);
const start = performance.now();
const lines = items.map((each) => (op === 'move' ? `move ${each.id} ${each.x + 5} ${each.y}` : `stroke ${each.id} ${op}`));
ed.edits.do(op, lines);
const shown = performance.now() - start;
const look = () => (ed.edits.pending.layers.length ? setTimeout(look) : done([items.length, shown, performance.now() - start]));
look();
"""
SLIDE = """
const [done] = arguments;
const { length } = ed.node.events;
const times = [];
const take = (goal) => { const start = performance.now(); ed.history.go(goal); times.push(performance.now() - start); };
take(Math.floor(length / 2));
for (let turn = 0; turn < 40; turn += 1) take(Math.floor((length * ((turn * 37) % 40)) / 40));
for (let turn = 0; turn < 40; turn += 1) take(Math.floor(length / 2) + turn);
ed.history.toNow();
done(times);
"""


def journal(objects, events, site):
    """The log of site 1 with so many objects of all kinds, and then moves until there are so many events."""
    made, clock = [], 0
    side = max(1, round(objects**0.5))
    for index in range(objects):
        clock += 1
        kind = KINDS[index % 7]
        place = (index % side * 150 + index * 37 % 20, index // side * 110 + index * 53 % 20)
        size = {3: (100, 60), 4: (110, 26)}.get(kind, (110, 70))
        made.append((clock, 1, create(kind, *place, *size, "" if kind == 3 else f"Object {index + 1}")))
        name = clock
        if kind != 4:
            clock += 1
            made.append((clock, 1, restyle(name, 1, STROKE, COLOURS[index % 6])))
        if index % 3 == 0 and kind < 3:
            clock += 1
            made.append((clock, 1, restyle(name, 1, FILL, FILLS[index % 6])))
    while clock < min(events, MOST_OF_SITE):
        clock += 1
        made.append((clock, 1, move(1, 1, clock % 500, clock % 300)))
    return log(SESSION, site, 2, made, 2)


def free_addresses():
    taken = [socket.socket(socket.AF_INET, socket.SOCK_DGRAM) for _ in range(2)]
    for each in taken:
        each.bind(("127.0.0.1", 0))
    names = [f"127.0.0.1:{each.getsockname()[1]}" for each in taken]
    for each in taken:
        each.close()
    return names


class Other:
    """The node of site 2, at which lines are typed."""

    def __init__(self, program, path, addresses):
        words = ["node", "--resume", "--session", str(SESSION), "--site", "2", "--journal", str(path), *addresses]
        self.process = subprocess.Popen([program, *words], stdin=subprocess.PIPE, stdout=subprocess.DEVNULL, text=True)

    def type(self, *lines):
        self.process.stdin.write("".join(f"{line}\n" for line in lines))
        self.process.stdin.flush()

    def end(self):
        self.process.stdin.close()
        self.process.wait()


class Board:
    """A page in a browser over `./draw`, and the processor time of that browser."""

    def __init__(self, program, objects, events=0):
        from page.tests.browser import Run, browser

        self.room = Path(tempfile.mkdtemp(prefix="page-bench-"))
        paths = [self.room / f"site-{site}.log" for site in (1, 2)]
        for site, path in enumerate(paths, 1):
            path.write_bytes(journal(objects, events, site))
        addresses = free_addresses()
        self.stack = ExitStack()
        self.stack.callback(shutil.rmtree, self.room)
        self.other = Other(program, paths[1], addresses)
        self.stack.callback(self.other.end)
        run = Run("--session", str(SESSION), "--site", "1", "--journal", str(paths[0]), *addresses)
        self.stack.callback(run.end)
        self.driver = browser("--window-size=1440,900", "--enable-precise-memory-info", "--js-flags=--expose-gc")
        self.stack.callback(self.driver.quit)
        self.driver.set_script_timeout(300)
        self.address = run.address

    def load(self):
        """Loads the page, and says after how many milliseconds its drawing was shown."""
        self.driver.get(self.address)
        while not self.driver.execute_script("return performance.getEntriesByName('shown').length"):
            time.sleep(0.02)
        return self.driver.execute_script("return performance.getEntriesByName('shown')[0].startTime")

    def do(self, script, *given):
        return self.driver.execute_async_script(script, *given)

    def ask(self, script):
        return self.driver.execute_script(f"return {script}")

    def processor(self):
        """The processor time of all processes of the browser until now, in milliseconds."""
        from page.tests.browser import processor_time

        return processor_time(self.driver)


def middle(values):
    return statistics.median(values)


def row(what, value, bar=""):
    print(f"| {what} | {value} | {bar} |", flush=True)


def fly(board):
    for how, words in (("all-pan", "all in view, pan"), ("all-zoom", "all in view, zoom"), ("near-pan", "100 %, pan"), ("near-zoom", "100 %, zoom")):
        board.do(FLY, how, 20)
        before = board.processor()
        draws = board.do(FLY, how, FRAMES)
        spent = (board.processor() - before) / FRAMES
        row(words, f"{spent:.1f} ms a frame, of these the page's script {middle(draws):.1f} (most {max(draws):.0f})", "16 ms")


def edit(board):
    times = board.do(EDIT, EDITS)
    for at, (what, bar) in enumerate((("own edit, on the screen", "20 ms"), ("own edit, shown by the node", "100 ms"))):
        each = [pair[at] for pair in times]
        row(what, f"{middle(each):.0f} ms (most {max(each):.0f})", bar)
    for op, what in (("D92D20", "500 restyled"), ("move", "500 moved")):
        count, shown, took = board.do(MANY, op)
        assert count == min(500, count), count
        row(f"{what}, shown by the node", f"{took:.0f} ms (previewed in {shown:.0f})", "1,000 ms")


def live(board, minutes):
    """Another site edits, and the page takes it all. Looks whether it grows."""
    heap = "(gc(), performance.memory.usedJSHeapSize / 1e6)"
    first, spent, began = board.ask(heap), board.processor(), time.monotonic()
    for number in range(round(A_MINUTE * minutes)):
        board.other.type(f"move {1 + number % 3}.1 {number % 700} {number % 500}", "poll")
        time.sleep(max(0, began + (number + 1) * 60 / A_MINUTE - time.monotonic()))
    time.sleep(1)
    share = (board.processor() - spent) / (time.monotonic() - began) / 10
    events = board.ask("ed.node.events.length")
    row(f"{minutes} min of {A_MINUTE:,} edits a minute", f"heap {first:.1f} to {board.ask(heap):.1f} MB, {share:.0f} % of one processor, {events:,} events", "no growth")


def slide(board):
    deadline = time.monotonic() + 120
    while board.ask("ed.node.events.length") < MOST_OF_SITE and time.monotonic() < deadline:
        time.sleep(0.2)
    times = board.do(SLIDE)
    events = board.ask("ed.node.events.length")
    row(f"history of {events:,} events, a far step", f"{middle(times[1:41]):.0f} ms (most {max(times[1:41]):.0f}, the first {times[0]:.0f})", "30 ms")
    row(f"history of {events:,} events, the next step", f"{middle(times[41:]):.0f} ms", "30 ms")


def load_of(board, what):
    times = [board.load() for _ in range(3)]
    row(f"{what}: load", f"{middle(times):.0f} ms (most {max(times):.0f})", "1,500 ms")


def main():
    parser = argparse.ArgumentParser()
    parser.add_argument("--program", default=str(ROOT / "crates/groupdesign/out/groupdesign"))
    parser.add_argument("--objects", type=int, nargs="*", default=[10_000])
    parser.add_argument("--minutes", type=float, default=1)
    parser.add_argument("--events", type=int, default=MOST_OF_SITE)
    given = parser.parse_args()
    os.environ["PAGE_PROGRAM"] = given.program
    print(f"load of the machine {os.getloadavg()[0]:.1f}, {os.cpu_count()} processors\n\n| What | Measured | Bar |\n|---|---|---|", flush=True)
    for objects in given.objects:
        board = Board(given.program, objects)
        with board.stack:
            load_of(board, f"{objects:,} objects")
            fly(board)
            edit(board)
            if given.minutes:
                live(board, given.minutes)
    if given.events:
        board = Board(given.program, 2000, given.events)
        with board.stack:
            load_of(board, f"{given.events:,} events")
            slide(board)
    print(f"\nload of the machine {os.getloadavg()[0]:.1f}")


if __name__ == "__main__":
    main()
