"""Connectors over two nodes: drawn from a dot of what is selected, led elsewhere by their ends, following what they connect, and copied."""

from page.tests.browse_board import WithBoard
from page.tests.places import wait_for

# The places of the window from which a connector of the one selected object is drawn.
DOTS = "const at = ed.overlay.dots?.() ?? []; return at.map(([x, y]) => [Math.round(x), Math.round(y)])"
ENDS = "return ed.model.byId.get(arguments[0])?.ends.map(Math.round)"


class Connectors(WithBoard):
    def three(self):
        """Three squares in a row, of which the first is selected."""
        squares = self.make(self.one, *(f"create rect {x} 300 80 80" for x in (200, 450, 700)))
        self.one.do("ed.selection.set([arguments[0]], null); ed.focusBoard()", squares[0])
        self.settled(self.one)
        return squares

    def connected(self):
        """The same with a connector between the first two, which is selected: the squares, and the connector."""
        squares = self.three()
        (x, y) = self.one.do(DOTS)[1]
        typed = self.typed_by(self.one, lambda: self.one.drag((x, y), (490, 340)))
        (name,) = self.one.selected()
        self.assertEqual(typed, [f"connect {squares[0]} {squares[1]}", f"width {name} 2"])
        return squares, name

    def test_one_is_drawn_to_another_object_and_follows_both(self):
        squares, name = self.connected()
        for page in self.pages:
            wait_for(lambda: name in page.ids())
            self.assertEqual(page.do(ENDS, name), [284, 340, 446, 340])
        self.one.picture("connector-drawn")
        self.one.do("ed.edits.do('moved', [arguments[0]])", f"move {squares[1]} 450 500")
        for page in self.pages:
            wait_for(lambda: page.do(ENDS, name) != [284, 340, 446, 340])
        first = self.one.do(ENDS, name)
        self.assertTrue(first[1] > 340 and first[3] < 540, first)
        self.one.picture("connector-followed")

    def test_an_end_is_led_to_another_object_or_stays(self):
        squares, name = self.connected()
        typed = self.typed_by(self.one, lambda: self.one.drag((446, 340), (740, 340)))
        self.assertEqual(typed, [f"reconnect {name} {squares[0]} {squares[2]}"])
        wait_for(lambda: self.two.do(ENDS, name) == [284, 340, 696, 340])
        self.one.picture("connector-led")
        self.assertEqual(self.typed_by(self.one, lambda: self.one.drag((696, 340), (740, 600))), [])
        self.assertEqual(self.one.do(ENDS, name), [284, 340, 696, 340])
        self.typed_by(self.one, lambda: self.one.press("z", hold=["ctrl"]))
        wait_for(lambda: self.two.do(ENDS, name) == [284, 340, 446, 340])

    def test_it_is_hidden_while_an_end_is_deleted(self):
        squares, name = self.connected()
        self.one.do("ed.edits.do('deleted', [arguments[0]])", f"delete {squares[1]}")
        for page in self.pages:
            wait_for(lambda: name not in page.ids())
        self.one.press("z", hold=["ctrl"])
        for page in self.pages:
            wait_for(lambda: name in page.ids())

    def test_a_key_connects_two_in_the_order_of_their_selection(self):
        squares = self.three()
        self.one.do("ed.selection.set([arguments[0], arguments[1]], null); ed.focusBoard()", squares[2], squares[0])
        typed = self.typed_by(self.one, lambda: self.one.press("c"))
        (name,) = self.one.selected()
        self.assertEqual(typed, [f"connect {squares[2]} {squares[0]}", f"width {name} 2"])
        # What is selected now is one connector, which leads nowhere further.
        self.assertEqual(self.typed_by(self.one, lambda: self.one.press("c")), [])

    def test_two_who_were_cut_off_see_the_same_once_they_are_joined(self):
        squares, name = self.connected()
        wait_for(lambda: name in self.two.ids())
        self.wait_until_same()
        self.cut(1)
        # One deletes an end, and leads a second connector to what the other one moves; the other one connects what is deleted.
        self.typed_by(self.one, lambda: self.one.do("ed.edits.do('deleted', [arguments[0]])", f"delete {squares[1]}"))
        self.typed_by(self.one, lambda: self.one.do("ed.edits.do('joined', [arguments[0]])", f"connect {squares[0]} {squares[2]} way"))
        self.typed_by(self.two, lambda: self.two.do("ed.edits.do('moved', arguments[0])", [f"move {squares[1]} 450 500", f"move {squares[2]} 700 600"]))
        self.typed_by(self.two, lambda: self.two.do("ed.edits.do('joined', [arguments[0]])", f"connect {squares[2]} {squares[1]}"))
        self.assertNotIn(name, self.one.ids())
        self.assertEqual(len(self.two.ids("connector")), 2)
        self.two.picture("connector-apart")
        self.cut()
        self.wait_until_same()
        for page in self.pages:
            wait_for(lambda: len(page.ids("connector")) == 1)
        (joined,) = self.one.ids("connector")
        ends = [page.do(ENDS, joined) for page in self.pages]
        self.assertEqual(ends[0], ends[1])
        self.assertGreater(ends[0][3], 500)
        self.one.picture("connector-joined")
        # With the end its connectors come back, also the one that was led to it meanwhile.
        self.typed_by(self.one, lambda: [self.one.press("z", hold=["ctrl"]) for _ in range(2)])
        for page in self.pages:
            wait_for(lambda: len(page.ids("connector")) == 2 and name in page.ids())
        self.wait_until_same()

    def test_a_copied_pair_takes_it_along(self):
        squares, name = self.connected()
        self.one.do("ed.selection.set([arguments[0], arguments[1]], null)", squares[0], squares[1])
        text = self.one.ask("ed.clipboard.text()")
        self.assertIn(f"connector {name} in - from {squares[0]} to {squares[1]} ", text)
        self.two.do("ed.clipboard.put(arguments[0])", text)
        for page in self.pages:
            wait_for(lambda: len(page.ids("connector")) == 2)
        copy = next(each for each in self.two.ids("connector") if each != name)
        ends = self.two.do("const { from, to } = ed.model.byId.get(arguments[0]); return [from, to]", copy)
        self.assertFalse(set(ends) & set(squares))
        self.two.picture("connector-copied")

    def test_pictures_have_heads_and_dashes(self):
        _, name = self.connected()
        self.one.do("ed.edits.do('looks', [arguments[0]])", f"style {name} dash dashed heads both opacity 50")
        wait_for(lambda: self.two.do("return ed.model.byId.get(arguments[0])?.looks", name) == {"dash": "dashed", "heads": "both", "opacity": 50})
        self.settled(self.one)
        self.one.do("ed.selection.clear()")
        picture = self.one.ask("ed.exporting.svgText()")
        self.assertEqual(picture.count('class="head"'), 2)
        self.assertIn('stroke-dasharray="8 6"', picture)
        self.assertIn('opacity="0.5"', picture)
        self.one.picture("connector-looks")
