"""Sites that draw together: each is a node, whose frames come to the other nodes when a row says so; and who looks on."""

from contextlib import ExitStack

from tests.echoes import echoes_in, is_of
from tests.nodes import replayed, started
from tests.program import DONE, Case, at_a_time, run_program
from tests.read import events_of
from tests.spelled import item
from tests.tables import tables_of


class Session:
    """Sites, the frames that were kept, each with the site that it is for, and the journal of site 1 at each moment."""

    def __init__(self, stack, sites):
        self.nodes, self.peers, self.frames, self.moments, self.gesture = {}, {}, [], [], []
        for site in range(1, sites + 1):
            self.nodes[site], self.peers[site] = stack.enter_context(started((site, sites)))
        self.printed = {site: f"{node.read_line()}\n" for site, node in self.nodes.items()}
        self.remember()

    def remember(self):
        self.moments.append(self.nodes[1].journal.read_bytes())

    def type(self, site, line):
        """Types a line, or keeps it for the end of its gesture."""
        if line == "begin" or self.gesture and line != "end":
            self.gesture.append(line)
            return
        line, self.gesture = "\n".join([*self.gesture, line]), []
        self.printed[site] += "".join(f"{each}\n" for each in self.nodes[site].ask(line))

    def send(self, site, to):
        """The site polls, and the frame that it sends to the other one is kept. These are counted from 0."""
        self.type(site, "poll")
        self.frames.append((to, self.peers[site][to].received()[-1], site))

    def deliver(self, kept):
        """The kept frame of that number comes to the site that it is for, which polls."""
        to, datagram, site = self.frames[kept]
        self.peers[to][site].send(self.nodes[to], datagram)
        self.type(to, "poll")

    def step(self, step):
        if step[1:3] == "> ":
            self.type(int(step[0]), step[3:])
        else:
            name, *numbers = step.split()
            getattr(self, name)(*map(int, numbers))
        self.remember()


def orders(frames):
    """The frames of a session as they were sent; each twice; and the last one first, and then as they were sent."""
    return [frames, [frame for frame in frames for _ in range(2)], frames[::-1] + frames]


class Together(Case):
    # Each site shows its drawing last, and its journal is a log of that. Of six sessions all sites hear all in the end.
    def test_sites_draw_together(self):
        looked_on = 0
        for table in tables_of("sessions.txt"):
            with self.subTest(table.name), ExitStack() as stack:
                session = Session(stack, table.sites)
                for step in table.steps:
                    session.step(step)
                journals = [node.journal.read_bytes() for node in session.nodes.values()]
                drawings = [replayed(journal) for journal in journals]
                for text, journal in zip(table.printed[1:], journals):
                    self.expect_words(text, journal)
                self.assertEqual(list(session.printed.values()), table.printed[1:])
                for text, drawing in zip(table.printed[1:], drawings):
                    self.assertTrue(text.endswith(drawing), drawing)
                if len(set(drawings)) == 1:
                    self.look_on(session)
                    looked_on += 1
        self.assertEqual(looked_on, 6)

    def expect_words(self, text, journal):
        """Each echo ends with the operation of its event, as the journal has it."""
        events = {event[0]: event for event in events_of(journal)}
        for stamp, rest in echoes_in(text):
            self.assertTrue(is_of(rest, events[stamp]), (stamp, rest))

    def look_on(self, session):
        """Looks on at a session from each of its moments on, with its frames in each order. Nothing is refused, and the drawing
        is that of a member in the end."""
        drawing = replayed(session.moments[-1])
        moments = sorted(set(session.moments), key=len)
        snapshots = [ended.printed for ended in at_a_time(run_program, [(["snapshot"], moment) for moment in moments])]
        items = [b"".join(item(datagram) for _, datagram, _ in order) for order in orders(session.frames)]
        views = [(["view"], snapshot + each) for snapshot in snapshots for each in items]
        for ended in at_a_time(run_program, views):
            self.assertEqual(ended.status, DONE)
            self.assertTrue(ended.text.endswith(drawing) and "refused" not in ended.text, ended.text)
