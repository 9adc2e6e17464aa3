"""Differences between pictures: what they say, and that they lead from one picture to the next."""

import unittest
from random import Random

from page.picture import Picture


def shown(*items):
    """The answer to `show` with these ids, each at its x."""
    rows = [f"rect {name} in - at {x} 0 size 1 1 stroke 000000 fill none width 1".encode() for name, x in items]
    return [*rows, b"end %d" % len(rows)]


def applied(order, difference):
    """The order that a page has once it took a difference."""
    order = [name for name in order if name not in difference["gone"]]
    for name, behind in difference["order"]:
        order = [each for each in order if each != name]
        order.insert(0 if behind is None else order.index(behind) + 1, name)
    return order


class Differences(unittest.TestCase):
    def test_what_is_new_changed_and_gone(self):
        picture = Picture()
        picture.take(shown(("1.1", 0), ("2.1", 0), ("3.1", 0)))
        difference = picture.take(shown(("1.1", 0), ("3.1", 5), ("4.1", 0)))
        self.assertEqual([(item["id"], item["at"]) for item in difference["items"]], [("3.1", [5, 0]), ("4.1", [0, 0])])
        self.assertEqual(difference["gone"], ["2.1"])
        self.assertEqual(difference["order"], [["4.1", "3.1"]])

    def test_nothing_is_different(self):
        picture = Picture()
        picture.take(shown(("1.1", 0), ("2.1", 0)))
        nothing = {"items": [], "gone": [], "order": []}
        self.assertEqual(picture.take(shown(("1.1", 0), ("2.1", 0))), nothing)
        self.assertEqual(Picture().take(shown()), nothing)

    def test_a_raise_and_a_lower_place_one(self):
        picture = Picture()
        names = [f"{clock}.1" for clock in range(1, 1001)]
        picture.take(shown(*[(name, 0) for name in names]))
        raised = [*names[1:], "1.1"]
        self.assertEqual(picture.take(shown(*[(name, 0) for name in raised]))["order"], [["1.1", "1000.1"]])
        lowered = ["500.1", *[name for name in raised if name != "500.1"]]
        self.assertEqual(picture.take(shown(*[(name, 0) for name in lowered]))["order"], [["500.1", None]])

    def test_only_what_changed_is_told_of_many(self):
        picture = Picture()
        items = [(f"{clock}.1", clock) for clock in range(1, 1001)]
        picture.take(shown(*items))
        items[500] = ("501.1", 0)
        items[200] = ("201.1", 7)
        difference = picture.take(shown(*items))
        self.assertEqual([item["id"] for item in difference["items"]], ["201.1", "501.1"])
        self.assertEqual((difference["gone"], difference["order"]), ([], []))

    def test_a_new_page_is_told_all(self):
        picture = Picture()
        picture.take(shown(("2.1", 3), ("1.1", 4)))
        whole = picture.whole()
        self.assertEqual([item["id"] for item in whole["items"]], ["2.1", "1.1"])
        self.assertEqual((whole["gone"], whole["order"]), ([], []))

    def test_labels_and_fills_are_told_as_they_are(self):
        picture = Picture()
        look = 'rect 1.1 in 9.1 at -5 0 size 1 -2 stroke 00FFAA fill FFCC00 width 3 text  \u05d0 "b" <i> end 2 '
        group = "group 9.1 in - at 0 0"
        items = picture.take([group.encode(), look.encode(), b"end 2"])["items"]
        self.assertEqual(items[0], {"kind": "group", "id": "9.1", "in": None, "at": [0, 0]})
        wanted = {"kind": "rect", "id": "1.1", "in": "9.1", "at": [-5, 0], "size": [1, -2], "stroke": "00FFAA", "fill": "FFCC00"}
        self.assertEqual(items[1], {**wanted, "width": 3, "label": ' \u05d0 "b" <i> end 2 '})

    def test_differences_lead_from_each_picture_to_the_next(self):
        draw = Random(7)
        picture, order, places = Picture(), [], {}
        for _ in range(400):
            names = draw.sample([f"{clock}.1" for clock in range(1, 13)], draw.randrange(13))
            items = [(name, draw.randrange(2)) for name in names]
            self.check(picture, order, places, items)
            order = [name for name, _ in items]

    def test_small_steps_lead_there_too(self):
        draw = Random(8)
        picture, items, places = Picture(), [(f"{clock}.1", 0) for clock in range(1, 30)], {}
        self.check(picture, [], places, items)
        for clock in range(30, 400):
            order = [name for name, _ in items]
            moved = items.pop(draw.randrange(len(items)))
            items.insert(draw.randrange(len(items) + 1), draw.choice([moved, (moved[0], clock), (f"{clock}.1", 0)]))
            self.check(picture, order, places, items)

    def check(self, picture, order, places, items):
        difference = picture.take(shown(*items))
        places.update((item["id"], item["at"][0]) for item in difference["items"])
        self.assertEqual([(name, places[name]) for name in applied(order, difference)], items)
