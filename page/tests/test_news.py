"""The list of what happened, in which repeats are counted."""

import unittest

from page.news import MOST_NEWS, SAY_EVERY, News


def said(line):
    return {"what": "said", "line": line}


class Repeats(unittest.TestCase):
    def test_a_flood_is_told_once_and_then_with_its_count(self):
        news = News()
        own = {"what": "own", "event": "1.1", "line": "undo"}
        news.take([own], 0)
        first = news.take([said("frame refused: Session")], 0)
        self.assertEqual(first, [{**said("frame refused: Session"), "count": 1}])
        told = [each for now in range(1, SAY_EVERY) for each in news.take([said("frame refused: Session")] * 100, now)]
        self.assertEqual((told, news.due(SAY_EVERY - 1)), ([], []))
        count = 1 + 100 * (SAY_EVERY - 1)
        wanted = [{**said("frame refused: Session"), "count": count, "again": True}]
        self.assertEqual(news.due(SAY_EVERY), wanted)
        self.assertEqual(news.due(SAY_EVERY + 100), [])
        self.assertEqual(list(news.entries), [own, {**said("frame refused: Session"), "count": count}])

    def test_the_same_with_other_numbers_is_the_same(self):
        news = News()
        for index in range(1000):
            news.take([said(f"frame refused: Field at {index}"), said(f"frame refused: Short at {index}")], 0)
        self.assertEqual([each["count"] for each in news.entries], [1000, 1000])
        self.assertEqual(news.entries[0]["line"], "frame refused: Field at 999")

    def test_edits_and_echoes_are_each_told(self):
        news = News()
        echoes = [{"what": "applied", "event": f"{clock}.2"} for clock in range(MOST_NEWS + 50)]
        self.assertEqual(news.take(echoes, 0), echoes)
        self.assertEqual(list(news.entries), echoes[50:])
