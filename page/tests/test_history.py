"""The history of a desk: its order, the times, and what came of each event."""

import json
import stat
import time

from page.history import PART, History
from page.tests.logs import create, header, log
from page.tests.places import WithFolder


def made(*names):
    """Records that make a rect each."""
    return [create(name, number, "rect", 0, 0, 1, 1) for number, name in enumerate(names, 1)]


class Events(WithFolder):
    def write(self, *names):
        self.journal.write_bytes(log(header(), *made(*names)))

    def begun(self):
        self.came = []
        history = History(self.journal, lambda place, event, is_new: self.came.append((place, event["id"], is_new)))
        history.begin()
        return history

    def told(self, history, first=0, end=None):
        return [json.loads(text) for text in history.messages(3, first, len(history.events) if end is None else end)]

    def seen(self, history):
        return {event["id"]: event["seen"] for each in self.told(history) for event in each["events"]}

    def test_what_was_there_has_no_time_and_what_comes_has_one(self):
        self.write("1.1", "2.1")
        history, before = self.begun(), int(time.time() * 1000)
        self.write("1.1", "2.1", "1.2")
        history.go_on()
        seen = self.seen(history)
        self.assertEqual((seen["1.1"], seen["2.1"]), (None, None))
        self.assertTrue(before <= seen["1.2"] <= int(time.time() * 1000))
        self.assertEqual(self.came, [(0, "1.1", False), (1, "2.1", False), (2, "1.2", True)])

    def test_times_outlive_a_start(self):
        self.write("1.1")
        history = self.begun()
        self.write("1.1", "2.1")
        history.go_on()
        again = self.begun()
        self.assertEqual(self.seen(again), self.seen(history))
        self.assertIsNotNone(self.seen(again)["2.1"])
        self.assertEqual(stat.S_IMODE(self.beside("times").stat().st_mode), 0o600)

    def test_lines_of_times_that_are_none_are_passed_over(self):
        self.write("1.1", "2.1", "3.1")
        self.beside("times").write_bytes(b"1.1 5\n\n2.1\n\xff\xfe 7\n2.1 -1\n3.1 1234567890123456\n3.1 7\ncut 12")
        history = self.begun()
        self.assertEqual(self.seen(history), {"1.1": 5, "2.1": None, "3.1": 7})

    def test_a_line_behind_a_cut_one_is_whole(self):
        self.write("1.1")
        history = self.begun()
        self.beside("times").write_bytes(b"1.1 12")
        self.write("1.1", "2.1")
        history.go_on()
        lines = self.beside("times").read_text().split("\n")
        self.assertEqual((lines[0], lines[1][:4], lines[2]), ("1.1 12", "2.1 ", ""))

    def test_what_came_of_events_of_others(self):
        history = self.begun()
        history.came({"what": "applied", "event": "1.2"})
        history.came({"what": "dropped", "event": "2.2", "by": "9.1"})
        history.came({"what": "reworked", "event": "3.2", "count": 4})
        self.write("1.2", "2.2", "3.2", "4.1")
        history.go_on()
        ((told,), parts) = self.told(history), [("came", "by", "count")]
        found = [{key: event[key] for key in parts[0] if key in event} for event in told["events"]]
        wanted = [{"came": "applied"}, {"came": "dropped", "by": "9.1"}, {"came": "reworked", "count": 4}, {}]
        self.assertEqual(found, wanted)

    def test_messages_go_on_where_the_last_one_ended(self):
        history = self.begun()
        self.assertEqual(self.told(history), [{"is": "history", "desk": 3, "from": 0, "events": []}])
        self.write(*[f"{clock}.1" for clock in range(1, PART + 3)])
        history.go_on()
        told = self.told(history)
        self.assertEqual([(each["from"], len(each["events"])) for each in told], [(0, PART), (PART, 2)])
        (last,) = self.told(history, PART + 1)
        self.assertEqual((last["from"], [event["id"] for event in last["events"]]), (PART + 1, [f"{PART + 2}.1"]))
        counts = {end: [len(each["events"]) for each in self.told(history, 3, end)] for end in (3, 5, PART + 1)}
        self.assertEqual(counts, {3: [0], 5: [2], PART + 1: [PART - 2]})

    def test_a_journal_that_is_none_is_said_and_stops_nothing(self):
        self.journal.write_bytes(b"no log at all")
        history = self.begun()
        history.go_on()
        self.assertEqual(history.events, [])
        self.assertIn("no log", history.fault)
