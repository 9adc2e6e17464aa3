"""Two people at home, each behind a router that lets nobody in, draw together with one whom all can reach.

The networks are made here, as namespaces of the system: INTERNET with the broker, and for each home a router with NAT and a machine
behind it. Both machines have the same private address.
"""

import os
import shutil
import subprocess
import sys

from carrier.tests.runs import PROGRAM, why_not
from page.draw import ROOT
from page.tests.places import PATIENCE, WithFolder

BROKER = "198.51.100.1:8883"
# Has a network hand on what isn't for itself.
FORWARDS = ["sh", "-c", "echo 1 >/proc/sys/net/ipv4/ip_forward"]
# Lets a router send out what comes from inside, as from itself, and let in what answers that, and nothing else.
NAT = """
add table ip home
add chain ip home out { type nat hook postrouting priority 100 ; }
add rule ip home out oifname "out" masquerade
add chain ip home through { type filter hook forward priority 0 ; policy drop ; }
add rule ip home through iifname "in" accept
add rule ip home through ct state established,related accept
"""


def call(*words, **more):
    return subprocess.run(words, check=True, capture_output=True, text=True, timeout=PATIENCE * 2, **more).stdout


def why_no_network():
    """Why no networks can be made here, or nothing."""
    missing = [name for name in ("ip", "nft") if not shutil.which(name)]
    if missing:
        return f"there is no {' and no '.join(missing)}"
    name = f"gd{os.getpid()}try"
    try:
        call("ip", "netns", "add", name)
        call("ip", "netns", "exec", name, "nft", "-f", "-", input=NAT)
        call("ip", "netns", "exec", name, *FORWARDS)
        call("ip", "link", "add", "one", "netns", name, "type", "veth", "peer", "name", "other", "netns", name)
    except subprocess.CalledProcessError as fault:
        return f"no networks can be made: {fault.stderr.strip()}"
    finally:
        subprocess.run(["ip", "netns", "del", name], capture_output=True)
    return None


class Homes(WithFolder):
    def setUp(self):
        super().setUp()
        why = why_not() or why_no_network()
        if why:
            self.skipTest(why)
        self.internet = self.network("net")
        self.inside(self.internet, "ip", "address", "add", "198.51.100.1/32", "dev", "lo")
        self.inside(self.internet, *FORWARDS)

    def network(self, name):
        """A network of its own, with a loopback."""
        name = f"gd{os.getpid()}{name}"
        call("ip", "netns", "add", name)
        self.addCleanup(subprocess.run, ["ip", "netns", "del", name], capture_output=True)
        self.inside(name, "ip", "link", "set", "lo", "up")
        return name

    def inside(self, network, *words, **more):
        return call("ip", "netns", "exec", network, *words, **more)

    def join(self, one, first, own, other, second, opposite):
        """A cable between two networks, with the names of its ends and the addresses there."""
        call("ip", "link", "add", first, "netns", one, "type", "veth", "peer", "name", second, "netns", other)
        for network, end, address in ((one, first, own), (other, second, opposite)):
            self.inside(network, "ip", "address", "add", address, "dev", end)
            self.inside(network, "ip", "link", "set", end, "up")

    def home(self, number):
        """A machine behind a router of its own."""
        router, machine, at = self.network(f"router{number}"), self.network(f"home{number}"), 4 * number
        self.join(self.internet, f"to{number}", f"203.0.113.{at + 1}/30", router, "out", f"203.0.113.{at + 2}/30")
        self.join(router, "in", "192.168.1.1/24", machine, "eth", "192.168.1.2/24")
        self.inside(router, *FORWARDS)
        self.inside(router, "nft", "-f", "-", input=NAT)
        self.inside(router, "ip", "route", "add", "default", "via", f"203.0.113.{at + 1}")
        self.inside(machine, "ip", "route", "add", "default", "via", "192.168.1.1")
        return machine

    def begin(self, network, name, *words):
        """A run of ./draw in a network, and the address of its page."""
        command = [sys.executable, str(ROOT / "draw"), *words, "--journal", str(self.folder / name), "--program", PROGRAM]
        run = subprocess.Popen(["ip", "netns", "exec", network, *command], stdout=subprocess.PIPE, text=True)
        for end in (run.stdout.close, run.wait, run.terminate):
            self.addCleanup(end)
        return run.stdout.readline().strip()

    def page(self, network, address, *words):
        """What a page's drawing is, behind lines that are typed there."""
        return self.inside(network, sys.executable, "-m", "carrier.tests.page_client", address, *words, cwd=ROOT)

    def test_two_behind_routers_draw_together(self):
        ana = self.begin(self.internet, "ana.log", "--found", "Oak", "--listen", BROKER)
        self.assertTrue(ana)
        people = []
        for number, name in ((1, "ben"), (2, "cem")):
            machine = self.home(number)
            link = call(sys.executable, str(ROOT / "draw"), "--invite", "--journal", str(self.folder / "ana.log")).strip()
            people.append((machine, self.begin(machine, f"{name}.log", "--join", link), f"create rect 0 0 9 9 by {name}"))
        # Nobody reaches them: what is behind a router has no address out there.
        out = subprocess.run(["ip", "netns", "exec", self.internet, "ip", "route", "get", "192.168.1.2"], capture_output=True)
        self.assertNotEqual(out.returncode, 0)
        for machine, address, line in people:
            self.page(machine, address, "1", line)
        drawings = {self.page(machine, address, "2") for machine, address, _ in [*people, (self.internet, ana, "")]}
        self.assertEqual(len(drawings), 1)
        (drawing,) = drawings
        self.assertIn("by ben", drawing)
        self.assertIn("by cem", drawing)
