"""What people do on the board by touch: one finger draws, selects and drags, two fingers move the view."""

from page.tests.browse_board import WithBoard
from page.tests.places import wait_for

STEPS = 6


def way(begin, end):
    """The places of a finger from one place to another."""
    return [(round(begin[0] + (end[0] - begin[0]) * step / STEPS), round(begin[1] + (end[1] - begin[1]) * step / STEPS)) for step in range(STEPS + 1)]


class Touch(WithBoard):
    def view(self):
        return self.one.ask("[ed.camera.x, ed.camera.y, ed.camera.zoom]")

    def test_one_finger_draws_and_drags(self):
        self.one.press("r")
        (create, _) = self.typed_by(self.one, lambda: self.one.fingers(way((300, 300), (420, 380))))
        self.assertEqual(create, "create rect 300 300 120 80")
        (name,) = self.one.selected()
        self.typed_by(self.one, lambda: self.one.do("ed.edits.do('f', [`fill ${arguments[0]} DAE6FF`])", name))
        (move,) = self.typed_by(self.one, lambda: self.one.fingers(way((360, 340), (460, 440))))
        self.assertEqual(move.split()[:2], ["move", name])
        wait_for(lambda: abs(self.two.item(name)["x"] - 400) <= 8)
        self.assert_typed(self.one, lambda: self.one.fingers(way((900, 600), (900, 600))))
        self.assertEqual(self.one.selected(), [])
        self.one.fingers([(460, 440)])
        self.assertEqual(self.one.selected(), [name])

    def test_two_fingers_pan_and_zoom_and_draw_nothing(self):
        (rect,) = self.make(self.one, "create rect 300 200 300 200", "fill @1 DAE6FF")
        for tool in ("v", "r"):
            self.one.home()
            self.one.press(tool)
            act = lambda: self.one.fingers(way((400, 300), (340, 260)), way((500, 300), (440, 260)))
            self.assert_typed(self.one, act)
            x, y, zoom = self.view()
            self.assertAlmostEqual(x, 60, delta=1)
            self.assertAlmostEqual(y, 40, delta=1)
            self.assertAlmostEqual(zoom, 1, delta=0.01)
            self.one.home()
            self.assert_typed(self.one, lambda: self.one.fingers(way((400, 300), (350, 300)), way((500, 300), (550, 300))))
            x, y, zoom = self.view()
            self.assertAlmostEqual(zoom, 2, delta=0.05)
            # What lay between the fingers still does.
            self.assertAlmostEqual(x + 450 / zoom, 450, delta=3)
        self.one.press("v")
        self.assertEqual(self.one.ids(), [rect])

    def test_a_second_finger_calls_a_drag_off(self):
        (rect,) = self.make(self.one, "create rect 300 200 300 200", "fill @1 DAE6FF")
        self.assert_typed(self.one, lambda: self.one.second_finger(way((400, 300), (460, 360)), (700, 500)))
        self.assertEqual(self.one.ask("[ed.model.over.size, ed.busy]"), [0, None])
        self.assert_seen(rect, x=300, y=200)

    def test_a_long_press_opens_the_menu(self):
        (rect,) = self.make(self.one, "create rect 300 200 300 200", "fill @1 DAE6FF")
        is_open = lambda: self.one.ask("document.querySelector('[role=menu]:not([hidden])') !== null")
        self.assert_typed(self.one, lambda: self.one.long_press((400, 300), is_open))
        self.assertTrue(is_open())
        self.assertEqual(self.one.selected(), [rect])
        self.one.picture("board-long-press")
