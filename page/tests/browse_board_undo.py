"""Taking back what was done, and doing it again, by keys and buttons: the lines that the node took, and what both see then."""

from selenium.webdriver.common.keys import Keys

from page.tests.browse_board import WithBoard
from page.tests.places import wait_for


class WithUndo(WithBoard):
    def tearDown(self):
        for page in self.pages:
            self.assertEqual([each for each in page.errors() if "socket" not in each], [])

    def undo(self):
        self.one.press("z", hold=["ctrl"])

    def redo(self):
        self.one.press("z", hold=["ctrl", "shift"])

    def is_on(self, which):
        return self.one.find(f"#zoom [data-run={which}]").is_enabled()

    def assert_turns(self, act, done, undone, redone):
        """An act is done, taken back, done again and taken back, by the lines that are given for each; what is shown then is what
        was shown before it, and behind it, at both pages, and in the same order."""
        before = self.wait_until_same()
        self.assert_typed(self.one, act, *done)
        after = self.wait_until_same()
        self.assertNotEqual(before, after)
        for turn, lines, shown in ((self.undo, undone, before), (self.redo, redone, after), (self.undo, undone, before)):
            self.assert_typed(self.one, turn, *lines)
            self.assertEqual(self.wait_until_same(), shown)


class Taking(WithUndo):
    def grouped(self):
        """Two shapes in a group, one below it and one above it; the group and the four shapes."""
        below, one, two, group, above = self.make(
            self.one, "create rect 300 200 100 60 Below", "create rect 360 230 100 60 One", "fill @2 FFF2AE",
            "create ellipse 420 250 90 60 Two", "group @2 @4", "create rect 480 280 100 60 Above", "lower @2",
        )
        self.assertEqual(self.one.ids(), [below, group, one, two, above])
        return group, below, one, two, above

    def test_a_group_that_was_deleted_is_back_with_its_members_at_their_places_in_their_order(self):
        group, below, one, two, above = self.grouped()
        self.one.click((380, 260))
        self.assertEqual(self.one.selected(), [group])
        before = self.wait_until_same()
        self.assert_typed(self.one, lambda: self.one.press(Keys.DELETE), f"delete {group}")
        wait_for(lambda: self.two.ids() == [below, above])
        self.assert_typed(self.one, self.undo, f"restore {group}")
        self.assertEqual(self.wait_until_same(), before)
        self.assertEqual((self.one.ids(), self.one.selected()), ([below, group, one, two, above], [group]))
        self.one.picture("board-undone")
        self.assert_typed(self.one, self.redo, f"delete {group}")
        wait_for(lambda: self.two.ids() == [below, above])
        self.assertEqual(self.one.selected(), [])
        self.assert_typed(self.one, self.undo, f"restore {group}")
        # It is the same group as before: what is done then is done to it.
        self.assertEqual(self.wait_until_same(), before)
        self.assert_typed(self.one, lambda: self.one.drag((380, 260), (400, 290), hold=["ctrl"]), f"move {group} 20 30")
        self.assert_seen(two, x=440, y=280)

    def test_several_that_were_deleted_at_once(self):
        group, below, _, _, above = self.grouped()
        self.one.do("ed.selection.set(arguments[0], null)", [group, below])
        gone, back = [f"delete {below}", f"delete {group}"], [f"restore {group}", f"restore {below}"]
        self.assert_turns(lambda: self.one.press(Keys.BACKSPACE), gone, back, gone)
        self.assertEqual(set(self.one.selected()), {group, below})
        self.assertNotIn(above, self.one.selected())

    def test_the_end_of_a_group(self):
        group, *_ = self.grouped()
        self.one.click((380, 260))
        ends = [f"ungroup {group}"]
        self.assert_turns(lambda: self.one.press("g", hold=["ctrl", "shift"]), ends, [f"reopen {group}"], ends)
        self.assertEqual(self.one.selected(), [group])

    def test_a_group_of_groups(self):
        group, below, *_ = self.grouped()
        self.one.do("ed.selection.set(arguments[0], null)", [group, below])
        before = self.wait_until_same()
        (made,) = self.typed_by(self.one, lambda: self.one.press("g", hold=["ctrl"]))
        (outer,) = self.one.selected()
        self.assertEqual(made, f"group {below} {group}")
        after = self.wait_until_same()
        self.assert_typed(self.one, self.undo, f"disband {outer}")
        self.assertEqual(self.wait_until_same(), before)
        self.assertEqual(set(self.one.selected()), {group, below})
        self.assert_typed(self.one, self.redo, f"restore {outer}")
        self.assertEqual((self.wait_until_same(), self.one.selected()), (after, [outer]))
        # A group that it was taken from by another one gets it back.
        self.one.do("ed.selection.enter(arguments[0]); ed.selection.set([arguments[1]])", outer, group)
        ends = [f"ungroup {group}"]
        self.assert_turns(lambda: self.one.press("g", hold=["ctrl", "shift"]), ends, [f"reopen {group}"], ends)

    def test_what_was_brought_to_the_front_or_the_back_lies_where_it_lay(self):
        group, below, _, _, above = self.grouped()
        self.one.do("ed.selection.set([arguments[0]], null)", below)
        self.assert_turns(lambda: self.one.press("]"), [f"raise {below}"], [f"rerank {below}"], [f"rerank {below}"])
        self.one.do("ed.selection.set(arguments[0], null)", [group, above])
        down, back = [f"lower {above}", f"lower {group}"], [f"rerank {group}", f"rerank {above}"]
        self.assert_turns(lambda: self.one.press("["), down, back, back[::-1])

    def test_a_drag_of_several_shapes(self):
        group, below, _, _, above = self.grouped()
        self.one.do("ed.selection.set(arguments[0], null)", [group, below, above])
        went = [f"move {below} 340 250", f"move {group} 40 50", f"move {above} 520 330"]
        back = [f"move {above} 480 280", f"move {group} 0 0", f"move {below} 300 200"]
        self.assert_turns(lambda: self.one.drag((520, 320), (560, 370), hold=["ctrl"]), went, back, went)

    def test_a_move_of_40_is_taken_back_in_one_step(self):
        places = [(200 + 20 * (at % 20), 200 + 30 * (at // 20)) for at in range(40)]
        names = self.make(self.one, *(f"create rect {x} {y} 10 10" for x, y in places), select=True)
        went = [f"move {name} {x + 100} {y + 100}" for name, (x, y) in zip(names, places)]
        back = [f"move {name} {x} {y}" for name, (x, y) in zip(names, places)][::-1]
        self.assert_turns(lambda: self.one.drag((295, 215), (395, 315), hold=["ctrl"]), went, back, went)
        self.assertEqual(set(self.one.selected()), set(names))
        # It is one line at the node, and one gesture there.
        self.assertEqual(self.one.ask("ed.node.turns.redo.lines"), 1)
        self.one.picture("board-forty-back")
        self.redo()
        wait_for(lambda: self.one.item(names[0])["x"] == 300)
        self.one.picture("board-forty-moved")

    def test_a_text_and_the_size_that_it_needed(self):
        (name,) = self.make(self.one, "create rect 300 200 160 80 Old words", select=True)

        def write():
            self.one.press(Keys.ENTER)
            wait_for(lambda: self.one.ask("ed.editing"))
            self.one.press("a", hold=["ctrl"])
            self.one.write("New words")
            self.one.press(Keys.ENTER, hold=["ctrl"])

        new, old = [f"text {name} New words"], [f"text {name} Old words"]
        self.assert_turns(write, new, old, new)
        self.assert_seen(name, label="Old words")

    def test_what_was_made_has_its_id_and_its_look_again(self):
        self.typed_by(self.one, lambda: self.one.draw("r", (300, 200), (400, 300)))
        (name,) = self.one.selected()
        self.typed_by(self.one, lambda: self.one.press(Keys.ARROW_RIGHT))
        self.assert_typed(self.one, self.undo, f"move {name} 300 200")
        # Its width was set behind its making, in the same gesture.
        self.assert_typed(self.one, self.undo, f"width {name} 1", f"delete {name}")
        wait_for(lambda: not self.two.ids())
        self.assert_typed(self.one, lambda: self.one.press("y", hold=["ctrl"]), f"restore {name}", f"width {name} 2")
        self.assert_typed(self.one, lambda: self.one.press("y", hold=["ctrl"]), f"move {name} 301 200")
        self.assert_seen(name, x=301, y=200, width=2)
        self.assertEqual(self.one.selected(), [name])

    def test_a_copy_of_a_group(self):
        group, *_ = self.grouped()
        self.one.click((380, 260))
        before = self.wait_until_same()
        made = self.typed_by(self.one, lambda: self.one.press("d", hold=["ctrl"]))
        after = self.wait_until_same()
        self.assertEqual(len(self.typed_by(self.one, self.undo)), len(made))
        self.assertEqual(self.wait_until_same(), before)
        self.assertEqual(len(self.typed_by(self.one, self.redo)), len(made))
        self.assertEqual(self.wait_until_same(), after)
        self.assertNotEqual(self.one.selected(), [group])


class Again(WithUndo):
    def test_a_new_edit_forgets_what_could_be_done_again(self):
        (name,) = self.make(self.one, "create rect 300 200 100 60", "fill @1 DAE6FF", select=True)
        self.typed_by(self.one, lambda: self.one.press(Keys.DELETE))
        self.assertFalse(self.is_on("redo"))
        self.assert_typed(self.one, self.undo, f"restore {name}")
        wait_for(lambda: self.is_on("redo"))
        self.assert_typed(self.one, lambda: self.one.drag((350, 230), (380, 250), hold=["ctrl"]), f"move {name} 330 220")
        self.assertFalse(self.is_on("redo"))
        self.assert_typed(self.one, self.redo)
        self.assert_typed(self.one, lambda: self.one.press("y", hold=["ctrl"]))
        self.assert_seen(name, x=330, y=220)

    def test_what_the_other_one_does_forgets_nothing(self):
        first, second = self.make(self.one, "create rect 300 200 100 60", "create rect 500 200 100 60", select=True)
        self.typed_by(self.one, lambda: self.one.drag((350, 200), (360, 230), hold=["ctrl"]))
        self.assert_typed(self.one, self.undo, f"move {second} 500 200", f"move {first} 300 200")
        (theirs,) = self.make(self.two, "create ellipse 300 400 90 60")
        self.typed_by(self.two, lambda: self.two.do("ed.edits.do('m', [`move ${arguments[0]} 700 500`])", theirs))
        self.assert_seen(theirs, x=700)
        self.assertTrue(self.is_on("redo"))
        self.assert_typed(self.one, self.redo, f"move {first} 310 230", f"move {second} 510 230")
        self.assert_seen(theirs, x=700)

    def test_many_in_a_row_as_fast_as_one_can(self):
        (name,) = self.make(self.one, "create rect 300 200 100 60", select=True)
        before = self.wait_until_same()
        for x in range(10):
            self.one.do("ed.edits.do('m', [`move ${arguments[0]} ${arguments[1]} 200`, `fill ${arguments[0]} 0000${arguments[2]}`])", name, 310 + x, f"{x:02}")
        after = self.wait_until_same()
        keys = "'z'.repeat(arguments[0]).split('').forEach((key) => dispatchEvent(new KeyboardEvent('keydown', {key, code: 'KeyZ', ctrlKey: true, shiftKey: arguments[1], bubbles: true})))"
        keys = keys.replace("dispatchEvent", "document.activeElement.dispatchEvent")
        self.assertEqual(len(self.typed_by(self.one, lambda: self.one.do(keys, 10, False))), 20)
        self.assertEqual(self.wait_until_same(), before)
        self.assertEqual(len(self.typed_by(self.one, lambda: self.one.do(keys, 10, True))), 20)
        self.assertEqual(self.wait_until_same(), after)
        self.assert_typed(self.one, lambda: self.one.do(keys, 1, True))

    def test_behind_a_reload_the_last_gesture_can_still_be_taken_back(self):
        (name,) = self.make(self.one, "create rect 300 200 100 60", "fill @1 DAE6FF", select=True)
        self.typed_by(self.one, lambda: self.one.press(Keys.DELETE))
        self.one.driver.refresh()
        self.one.come()
        self.one.home()
        self.assertIn("Deleted", self.one.find("#zoom [data-run=undo]").get_attribute("data-tip"))
        self.assert_typed(self.one, self.undo, f"restore {name}")
        self.assert_seen(name, fill="DAE6FF")


class Offered(WithUndo):
    def test_a_delete_is_offered_to_be_taken_back(self):
        first, second = self.make(self.one, "create rect 300 200 100 60 Start", "fill @1 FFF2AE", "create ellipse 500 200 90 60", select=True)
        before = self.wait_until_same()
        self.typed_by(self.one, lambda: self.one.press(Keys.DELETE))
        wait_for(lambda: self.one.banners() == "Deleted 2 objects for everybodyUndoCtrl+Z")
        self.assert_typed(self.one, self.one.find(".banner .quiet").click, f"restore {second}", f"restore {first}")
        self.assertEqual(self.wait_until_same(), before)
        self.assertEqual(self.one.selected(), [second, first])
        self.assertEqual(self.one.banners(), "")

    def test_the_offer_goes_with_the_next_thing_that_is_done(self):
        one, two = self.make(self.one, "create rect 300 200 100 60", "create rect 500 200 100 60")
        for act in (lambda: self.one.press(Keys.ARROW_RIGHT), self.undo):
            self.one.do("ed.selection.set([arguments[0]], null)", one)
            self.typed_by(self.one, lambda: self.one.press(Keys.BACKSPACE))
            wait_for(lambda: "UndoCtrl+Z" in self.one.banners())
            self.one.do("ed.selection.set([arguments[0]], null)", two)
            self.typed_by(self.one, act)
            self.assertNotIn("Undo", self.one.banners())
            if act != self.undo:
                self.assert_typed(self.one, self.undo, f"move {two} 500 200")
                self.assert_typed(self.one, self.undo, f"restore {one}")

    def test_it_is_done_by_the_buttons_and_by_the_menu(self):
        (name,) = self.make(self.one, "create rect 300 200 100 60", "fill @1 DAE6FF", select=True)
        self.typed_by(self.one, lambda: self.one.press("]"))
        self.assertIn("Undo: Brought to front", self.one.find("#zoom [data-run=undo]").get_attribute("data-tip"))
        self.assert_typed(self.one, self.one.find("#zoom [data-run=undo]").click, f"rerank {name}")
        self.assertIn("Redo: Brought to front", self.one.find("#zoom [data-run=redo]").get_attribute("data-tip"))
        self.one.do("ed.selection.clear()")
        for title, line in (("Redo", f"rerank {name}"), ("Undo", f"rerank {name}")):
            self.one.click((800, 600), button=2)
            row = "[...document.querySelectorAll('.menu:not([hidden]) [role=menuitem]')].find((each) => each.querySelector('span').textContent === arguments[0])"
            wait_for(lambda: self.one.ask(f"Boolean({row})", title))
            self.assert_typed(self.one, lambda: self.one.ask(row, title).click(), line)
            self.one.do("ed.selection.clear()")


class Others(WithUndo):
    def test_what_the_other_one_set_since_goes_with_it_which_is_said_and_comes_back_with_a_redo(self):
        first, second = self.make(self.one, "create rect 300 200 100 60", "create rect 500 200 100 60", select=True)
        self.typed_by(self.one, lambda: self.one.drag((350, 200), (360, 230), hold=["ctrl"]))
        self.assert_seen(second, x=510, y=230)
        self.typed_by(self.two, lambda: self.two.do("ed.edits.do('m', [`move ${arguments[0]} 700 500`])", first))
        self.assert_seen(first, x=700)
        wait_for(lambda: self.one.ask("ed.node.events.at(-1).site") == 2)
        self.assert_typed(self.one, self.undo, f"move {second} 500 200", f"move {first} 300 200")
        wait_for(lambda: self.one.banners() == "Undone, without what Person 2 changed there since")
        self.assert_seen(first, x=300, y=200)
        self.one.picture("board-undone-of-two")
        self.assert_typed(self.one, self.redo, f"move {first} 700 500", f"move {second} 510 230")
        self.assert_seen(first, x=700, y=500)

    def test_what_was_deleted_is_back_without_what_the_other_one_did_to_it_meanwhile(self):
        (name,) = self.make(self.one, "create rect 300 200 100 60", select=True)
        self.cut(1)
        self.typed_by(self.one, lambda: self.one.press(Keys.DELETE))
        self.typed_by(self.two, lambda: self.two.do("ed.edits.do('m', [`move ${arguments[0]} 700 500`])", name))
        self.cut()
        wait_for(lambda: self.one.ask("ed.node.events.some((each) => each.site === 2 && each.id === arguments[0])", name))
        self.assert_typed(self.one, self.undo, f"restore {name}")
        wait_for(lambda: self.one.banners() == "Undone, without what Person 2 changed there since")
        (again,) = self.wait_until_same()
        self.assertIn(f"rect {name} in - at 300 200 size 100 60", again)

    def test_the_past_shows_what_was_taken_back(self):
        (name,) = self.make(self.one, "create rect 300 200 100 60 Word", "fill @1 DAE6FF", select=True)
        self.typed_by(self.one, lambda: self.one.press(Keys.DELETE))
        self.assert_typed(self.one, self.undo, f"restore {name}")
        self.wait_until_same()
        wait_for(lambda: self.two.ask("ed.node.events.at(-1).op") == "restore")
        self.two.do("ed.history.go(ed.node.events.length)")
        self.assertIn("Person 1 put back “Word”", self.two.text(".hist-card"))
        self.assertEqual(self.two.ids(), [name])
        self.two.do("ed.history.step(-1)")
        self.assertEqual(self.two.ids(), [])
        self.two.do("ed.history.step(-1)")
        self.assertEqual(self.two.item(name)["fill"], "DAE6FF")
        self.two.do("ed.history.toNow()")
