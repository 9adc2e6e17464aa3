"""Two to five nodes over loopback, with a link between them that loses, doubles and reorders, until all show the same."""

from contextlib import ExitStack
from random import Random

from tests.drawing import Drawing
from tests.nodes import Node, Peer, free_addresses, replayed, room
from tests.program import Case
from tests.read import events_of

# Sites, edits of each, and the rates at which a datagram is lost, doubled, and held back behind others; whether a site is killed.
SESSIONS = [
    (2, 40, (0, 0, 0), False),
    (2, 40, (0.5, 0.5, 0.5), True),
    (3, 30, (0.3, 0.3, 0.3), False),
    (3, 20, (0.7, 0, 0), True),
    (4, 20, (0.2, 0.5, 0.5), True),
    (5, 15, (0.3, 0.3, 0.3), False),
]
POLL, ROUNDS = 3, 300


class Link:
    """A way between each two of some nodes. Each node finds the others at addresses of its own, so that all differ."""

    def __init__(self, stack, sites, rates, draw):
        self.rates, self.draw, self.held = rates, draw, []
        self.ways = {(a, b): Peer() for a in range(1, sites + 1) for b in range(1, sites + 1) if a != b}
        for peer in self.ways.values():
            stack.callback(peer.close)
        self.own = dict(enumerate(free_addresses(sites), 1))

    def addresses(self, site):
        """Where a site finds each site."""
        return [self.own[each] if each == site else self.ways[site, each].address for each in self.own]

    def pump(self, nodes):
        """Hands on what came, but for what is lost or held back."""
        for (source, to), peer in self.ways.items():
            for datagram in peer.received():
                lost, doubled, _ = (self.draw.random() < rate for rate in self.rates)
                self.held += [(source, to, datagram)] * (0 if lost else 2 if doubled else 1)
        self.draw.shuffle(self.held) if self.rates[2] else None
        later = [each for each in self.held if self.draw.random() < self.rates[2]]
        for source, to, datagram in self.held:
            if (source, to, datagram) not in later:
                self.ways[to, source].send(nodes[to], datagram)
        self.held = later


def line_of(draw, node, site):
    """An edit of what the site shows, which may well be refused."""
    ids = [line.split()[1] for line in node.ask("show")[:-1]]
    x, y = draw.randrange(1000), draw.randrange(1000)
    if not ids or draw.random() < 0.2:
        return f"create {draw.choice(['rect', 'ellipse', 'line', 'text'])} {x} {y} 10 10 of {site}"
    id = draw.choice(ids)
    lines = [f"move {id} {x} {y}"] * 3 + [f"fill {id} none", f"stroke {id} {x:06X}", f"text {id} {x}", f"width {id} {1 + x % 64}"]
    lines += [f"resize {id} {x} {y}", f"raise {id}", f"lower {id}", f"delete {id}", f"ungroup {id}"]
    lines += ["undo"] * 3 + ["redo"] * 2
    return draw.choice(lines + [f"group {id} {draw.choice(ids)}"] * 3)


def gesture_of(draw, node, site):
    """Such an edit, or several of them as one."""
    line = line_of(draw, node, site)
    if draw.random() < 0.8 or line in ("undo", "redo"):
        return line
    others = [line_of(draw, node, site) for _ in range(draw.randrange(12))]
    return "\n".join(["begin", line, *others, "end"])


class Lossy(Case):
    def test_all_come_to_show_the_same(self):
        for seed, (sites, edits, rates, is_killed) in enumerate(SESSIONS, 1):
            with self.subTest(sites=sites, rates=rates), ExitStack() as stack:
                self.play(stack, Random(seed), sites, edits, rates, is_killed)

    def start(self, stack, site, *flags):
        node = stack.enter_context(Node(site, self.link.addresses(site), self.folder / str(site), *flags))
        self.assertTrue(node.is_ready())
        return node

    def play(self, stack, draw, sites, edits, rates, is_killed):
        self.folder = stack.enter_context(room())
        self.link = Link(stack, sites, rates, draw)
        nodes = {site: self.start(stack, site) for site in range(1, sites + 1)}
        accepted = 0
        for turn in range(edits):
            for site, node in nodes.items():
                answer = node.ask(gesture_of(draw, node, site))
                self.assertTrue(answer[0].startswith(("ok ", "refused: ")), answer)
                accepted += sum(line.startswith("ok ") for line in answer)
                if turn % POLL == POLL - 1:
                    self.poll(node)
                self.link.pump(nodes)
            if is_killed and turn == edits // 2:
                nodes[1].kill()
                nodes[1] = self.start(stack, 1, "--resume")
        self.expect_same(nodes, accepted)

    def poll(self, node):
        answer = node.ask("poll")
        self.assertTrue(answer[-1].startswith("polled "), answer)
        self.assertEqual([line for line in answer[:-1] if not line.startswith("echo ")], [])

    def expect_same(self, nodes, accepted):
        """Polls until all hold all events, and looks at what all show, at their journals, and at what these events make."""
        for _ in range(ROUNDS):
            if all(node.held() == accepted for node in nodes.values()):
                break
            for node in nodes.values():
                self.poll(node)
                self.link.pump(nodes)
        journals = [node.journal.read_bytes() for node in nodes.values()]
        events = [sorted(events_of(journal)) for journal in journals]
        self.assertEqual([len(each) for each in events], [accepted] * len(nodes))
        self.assertTrue(all(each == events[0] for each in events))
        drawing = Drawing()
        for stamp, _, op in events[0]:
            drawing.apply(stamp, op)
        shown = ["".join(f"{line}\n" for line in node.ask("show")) for node in nodes.values()]
        self.assertEqual(set(shown + [replayed(journal) for journal in journals]), {drawing.text()})


class Ways(Case):
    # Each of five sites has an address of its own: an edit goes to each of the others, and to none twice.
    def test_each_site_is_sent_its_own_frame(self):
        with ExitStack() as stack, room() as folder:
            link = Link(stack, 5, (0, 0, 0), Random(1))
            for site in (1, 3, 5):
                node = stack.enter_context(Node(site, link.addresses(site), folder / str(site)))
                self.assertTrue(node.is_ready())
                self.assertEqual(node.ask("create rect 0 0 10 10"), [f"ok 1.{site}"])
                # It sends behind its answer, and in front of the next one.
                node.ask("status")
                sent = {to: peer.received() for (source, to), peer in link.ways.items() if source == site}
                goals = {to: [each[10] for each in datagrams] for to, datagrams in sent.items()}
                self.assertEqual(goals, {to: [to] for to in sent})
