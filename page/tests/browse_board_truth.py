"""What the board says and keeps where something goes otherwise: refusals, objects that another one moves or deletes meanwhile,
a site that is cut off, a node that has ended, a connection that was lost."""

import os
import signal
import subprocess

from selenium.webdriver.common.keys import Keys

from page.tests.browse_board import WithBoard
from page.tests.browser import replayed
from page.tests.places import wait_for


class Refusals(WithBoard):
    def test_each_refusal_is_said_at_the_object_and_leaves_the_preview(self):
        rect, inner, other, group = self.make(self.one, "create rect 300 200 100 60", "create rect 500 200 50 50", "create rect 600 200 50 50", "group @2 @3")
        rows = [
            (f"move 99.1 5 5", "someone deleted it"), (f"move {rect} 1000000001 5", "out of range"), (f"text {rect} {'x' * 501}", "500 bytes"),
            (f"width {rect} 65", "out of range"), (f"stroke {group} FF0000", "a group has no style"), (f"ungroup {rect}", "that is no group"),
            (f"group {rect} {rect}", "there twice"), (f"group {rect} {inner}", "in a group"), (f"group {rect}", "2 to 32"),
            (f"group {' '.join([rect] * 33)}", "2 to 32"),
        ]
        before = self.wait_until_same()
        for line, words in rows:
            with self.subTest(line=line[:40]):
                self.assert_typed(self.one, lambda: self.one.do("ed.edits.do('tried', [arguments[0]])", line))
                wait_for(lambda: words in self.one.bubble())
                self.assertEqual(self.one.shown(), before)
                self.one.do("document.getElementById('bubbles').replaceChildren()")
        self.assertEqual(self.one.ask("ed.node.turns.undo.name"), "made")
        self.assertNotIn(other, self.one.selected())

    def test_of_several_lines_those_are_done_that_can_be(self):
        first, second = self.make(self.one, "create rect 300 200 100 60", "create rect 500 200 100 60")
        lines = f"['move {first} 310 210', 'move 99.1 0 0', 'move {second} 510 210']"
        self.assert_typed(self.one, lambda: self.one.do(f"ed.edits.do('moved', {lines})"), f"move {first} 310 210", f"move {second} 510 210")
        self.assertIn("Not done", self.one.bubble())
        self.one.picture("board-refused")

    def test_nothing_is_drawn_where_one_looks_at_the_past(self):
        (rect,) = self.make(self.one, "create rect 300 200 100 60", "fill @1 DAE6FF", "move @1 350 200")
        self.one.do("ed.history.go(ed.node.events.length - 1)")
        self.assertEqual(self.one.item(rect)["x"], 300)
        self.assert_typed(self.one, lambda: self.one.drag((350, 230), (390, 260)))
        self.typed_by(self.two, lambda: self.two.do("ed.edits.do('m', [`move ${arguments[0]} 400 400`])", rect))
        wait_for(lambda: self.one.ask("ed.node.events.at(-1).site") == 2)
        self.assertEqual(self.one.item(rect)["x"], 300)
        self.one.do("ed.history.toNow()")
        self.assert_seen(rect, x=400, y=400)


class Meanwhile(WithBoard):
    def test_what_is_dragged_and_deleted_by_the_other_one_is_said_and_leaves_no_ghost(self):
        (rect,) = self.make(self.one, "create rect 300 200 100 60", "fill @1 DAE6FF")
        self.one.press_at((350, 230), (380, 260), (400, 280))
        self.two.do("ed.edits.do('d', [`delete ${arguments[0]}`])", rect)
        wait_for(lambda: not self.one.ids())
        self.assert_typed(self.one, self.one.release)
        wait_for(lambda: self.one.bubble() in ("Not done: Person 2 deleted it", "Not done: it is gone, someone deleted it"))
        self.assertEqual(self.one.ask("[ed.model.over.size, ed.model.shadow.size, ed.selection.ids.size]"), [0, 0, 0])

    def test_what_is_dragged_and_moved_by_the_other_one_goes_where_it_is_dropped(self):
        (rect,) = self.make(self.one, "create rect 300 200 100 60", "fill @1 DAE6FF")
        self.one.hold("ctrl")
        self.one.press_at((350, 230), (380, 260), (400, 280))
        self.two.do("ed.edits.do('m', [`move ${arguments[0]} 700 500`])", rect)
        wait_for(lambda: self.one.item(rect)["x"] == 700)
        # What is seen is the drag.
        self.assertEqual(self.one.ask("ed.model.at(arguments[0]).x", rect), 350)
        self.assert_typed(self.one, self.one.release, f"move {rect} 350 250")
        self.one.let_go("ctrl")
        self.assert_seen(rect, x=350, y=250)

    def test_what_is_resized_while_it_is_styled_keeps_both(self):
        (rect,) = self.make(self.one, "create rect 300 200 100 60", select=True)
        self.one.hold("ctrl")
        self.one.press_at((405, 265), (415, 275), (425, 285))
        self.two.do("ed.edits.do('f', [`fill ${arguments[0]} FFF2AE`])", rect)
        wait_for(lambda: self.one.item(rect)["fill"] == "FFF2AE")
        self.assert_typed(self.one, self.one.release, f"resize {rect} 120 80")
        self.one.let_go("ctrl")
        self.assert_seen(rect, w=120, fill="FFF2AE")

    def begin_text(self, *lines, words):
        (name,) = self.make(self.one, *lines, select=True)
        self.one.press(Keys.ENTER)
        wait_for(lambda: self.one.ask("!document.querySelector('.label-field').hidden"))
        if words:
            self.one.write(words)
        return name

    def test_a_field_goes_along_with_a_shape_that_the_other_one_moves_and_resizes(self):
        rect = self.begin_text("create rect 300 200 160 80", words="While you")
        self.two.do("ed.edits.do('m', ['move', 'resize'].map((op, at) => `${op} ${arguments[0]} ${arguments[1][at]}`))", rect, ["600 400", "240 120"])
        middle = """(({left, width, top, height}) => [left + width / 2, top + height / 2].map(Math.round))(
            document.querySelector('.label-field').getBoundingClientRect())"""
        wait_for(lambda: all(abs(found - wanted) <= 2 for found, wanted in zip(self.one.ask(middle), (720, 460))))
        # One goes on writing, and the shape has the place and size that the other one gave it.
        self.one.write(" moved it")
        self.one.picture("board-text-moved")
        self.assert_typed(self.one, lambda: self.one.press(Keys.ENTER, hold=["ctrl"]), f"text {rect} While you moved it")
        self.assert_seen(rect, x=600, y=400, w=240, h=120, label="While you moved it")

    def test_words_in_a_shape_that_the_other_one_deletes_are_told_of_at_once_and_stay(self):
        rect = self.begin_text("create rect 300 200 160 80 Old", words="New words")
        self.two.do("ed.edits.do('d', [`delete ${arguments[0]}`])", rect)
        wait_for(lambda: self.one.find(".label-note").is_displayed())
        self.assertIn("Person 2 deleted “Old”. Your words become a text of their own", self.one.text(".label-note"))
        self.one.picture("board-text-deleted")
        self.assertEqual(self.one.ask("document.activeElement.className"), "label-field")
        (create, *_) = self.typed_by(self.one, lambda: self.one.press(Keys.ESCAPE))
        self.assertRegex(create, r"^create text \d+ \d+ \d+ \d+ New words$")
        self.assertFalse(self.one.ask("document.querySelector('.label-note').checkVisibility()"))

    def test_a_field_without_new_words_closes_where_the_other_one_deletes_its_shape(self):
        rect = self.begin_text("create rect 300 200 160 80 Old", words="")
        self.two.do("ed.edits.do('d', [`delete ${arguments[0]}`])", rect)
        wait_for(lambda: self.one.ask("document.querySelector('.label-field').hidden"))
        self.assertEqual(self.one.bubble(), "Person 2 deleted “Old”")
        self.assertEqual(self.one.ask("document.activeElement.id"), "board")

    def test_words_that_the_other_one_writes_meanwhile_are_seen_or_told_of(self):
        rect = self.begin_text("create rect 300 200 160 80 Old", words="")
        self.two.do("ed.edits.do('t', [`text ${arguments[0]} Theirs`])", rect)
        wait_for(lambda: self.one.ask("document.querySelector('.label-field').value") == "Theirs")
        self.one.press(Keys.END)
        self.one.write(" and mine")
        self.two.do("ed.edits.do('t', [`text ${arguments[0]} Again theirs`])", rect)
        wait_for(lambda: self.one.find(".label-note").is_displayed())
        self.assertEqual(self.one.text(".label-note"), "Person 2 wrote something else here meanwhile: yours replaces it")
        (text, *_) = self.typed_by(self.one, lambda: self.one.press(Keys.ESCAPE))
        self.assertEqual(text, f"text {rect} Theirs and mine")

    def test_a_selection_loses_what_the_other_one_deletes(self):
        first, second = self.make(self.one, "create rect 300 200 100 60", "create rect 500 200 100 60", select=True)
        self.two.do("ed.edits.do('d', [`delete ${arguments[0]}`])", first)
        wait_for(lambda: self.one.selected() == [second])


class CutOff(WithBoard):
    def test_30_edits_wait_and_come_together(self):
        (rect,) = self.make(self.one, "create rect 300 200 100 60", "fill @1 DAE6FF")
        self.wait_until_same()
        self.cut(1)
        for index in range(30):
            self.one.do("ed.edits.do('m', [`move ${arguments[0]} ${arguments[1]} 200`])", rect, 301 + index)
        self.settled(self.one)
        for index in range(12):
            self.two.do("ed.edits.do('m', [`${arguments[1] % 2 ? 'fill' : 'stroke'} ${arguments[0]} 0000${10 + arguments[1]}`])", rect, index)
            self.two.do("ed.edits.do('m', [`move ${arguments[0]} 5 ${arguments[1]}`])", rect, index)
        self.settled(self.two)
        wait_for(lambda: self.one.ask("ed.node.waiting") == 30)
        self.one.picture("board-cut-off")
        self.assertEqual(self.one.item(rect)["x"], 330)
        self.assertEqual(self.two.item(rect)["x"], 5)
        self.cut()
        self.wait_until_same()
        wait_for(lambda: all(page.ask("ed.node.waiting") == 0 for page in self.pages))
        # Both have the same events in one order, and each says of the other's which came late and what was done.
        stamps = [page.ask("ed.node.events.map((event) => event.stamp)") for page in self.pages]
        wait_for(lambda: len({tuple(page.ask("ed.node.events.map((event) => event.stamp)")) for page in self.pages}) == 1)
        self.assertGreater(len(stamps[0]), 50)
        wait_for(lambda: self.one.ask("ed.node.events.filter((event) => event.site === 2 && event.late).length") > 10)
        self.assertEqual("".join(f"{line}\n" for line in self.one.shown()), replayed(self.journals[0]).rpartition("end ")[0])
        self.one.picture("board-back")

    def test_an_undo_behind_a_time_apart_takes_all_back_and_says_whose_goes_with_it(self):
        first, second = self.make(self.one, "create rect 300 200 100 60", "create rect 500 200 100 60", select=True)
        self.wait_until_same()
        self.cut(1)
        self.typed_by(self.one, lambda: self.one.do("ed.edits.do('m', arguments[0])", [f"move {first} 310 200", f"move {second} 510 200"]))
        # The other one's clock is behind, so that its first edit lies before, and its last one behind.
        for index in range(4):
            self.typed_by(self.two, lambda: self.two.do("ed.edits.do('m', [arguments[0]])", f"move {first} {700 + index} 500"))
        self.cut()
        self.wait_until_same()
        self.assertEqual(self.one.item(first)["x"], 703)
        undone = [f"move {second} 500 200", f"move {first} 300 200"]
        self.assert_typed(self.one, lambda: self.one.press("z", hold=["ctrl"]), *undone)
        wait_for(lambda: self.one.banners() == "Undone, without what Person 2 changed there since")
        self.assertEqual(self.one.item(first)["x"], 300)
        self.assert_typed(self.one, lambda: self.one.press("y", hold=["ctrl"]), f"move {first} 703 500", f"move {second} 510 200")


class Broken(WithBoard):
    def node_of(self, site):
        """The process id of a site's node."""
        found = subprocess.run(["pgrep", "-P", str(self.runs[site - 1].process.pid)], capture_output=True, text=True)
        return int(found.stdout.split()[0])

    def test_a_node_that_has_ended_is_said_and_goes_on_from_its_journal(self):
        (rect,) = self.make(self.one, "create rect 300 200 100 60", "fill @1 DAE6FF")
        os.kill(self.node_of(1), signal.SIGKILL)
        wait_for(lambda: self.one.ask("ed.node.ended !== null"))
        before = self.one.shown()
        self.one.do("ed.setReadOnly(null); ed.edits.do('m', [`move ${arguments[0]} 5 5`])", rect)
        wait_for(lambda: "has ended" in self.one.bubble())
        self.assertEqual(self.one.shown(), before)
        self.one.do("ed.node.restart()")
        wait_for(lambda: self.one.ask("ed.node.ended === null"))
        self.typed_by(self.one, lambda: self.one.do("ed.setReadOnly(null); ed.edits.do('m', [`move ${arguments[0]} 40 50`])", rect))
        self.assert_seen(rect, x=40, y=50)

    def test_a_lost_connection_is_opened_again_and_nothing_is_lost_or_doubled(self):
        (rect,) = self.make(self.one, "create rect 300 200 100 60", "fill @1 DAE6FF")
        # No connection is opened for as long as this page has none.
        self.one.do("window.Was = WebSocket; window.WebSocket = class extends EventTarget {}; ed.node.wire.socket.close()")
        wait_for(lambda: not self.one.ask("ed.node.connected"))
        self.one.do("ed.setReadOnly(null); ed.edits.do('m', [`move ${arguments[0]} 5 5`])", rect)
        wait_for(lambda: "no connection" in self.one.bubble())
        self.assertEqual(self.one.item(rect)["x"], 300)
        self.two.do("ed.edits.do('m', [`move ${arguments[0]} 60 70`])", rect)
        self.one.do("window.WebSocket = window.Was; ed.node.wire.again()")
        wait_for(lambda: self.one.ask("ed.node.connected"))
        self.assert_seen(rect, x=60, y=70)
        counts = [page.ask("ed.node.events.length") for page in self.pages]
        self.assertEqual(counts[0], counts[1])
        self.typed_by(self.one, lambda: self.one.do("ed.setReadOnly(null); ed.edits.do('m', [`move ${arguments[0]} 80 90`])", rect))
        self.assert_seen(rect, x=80, y=90)

    def test_no_script_has_failed(self):
        for page in self.pages:
            self.assertEqual([each for each in page.errors() if "socket" not in each], [])
