"""What a desk knows of the other sites, and of how far its own edits got."""

import time
from bisect import bisect_right

# How many seconds without a sign make it unsure whether anybody is there, a site one that is away, and a node one that is silent.
UNSURE, AWAY, SILENT = 1, 3, 5


class Peers:
    """The other sites of a session, by their numbers."""

    def __init__(self, site, sites):
        now = time.monotonic()
        self.site, self.others = site, [each for each in range(1, sites + 1) if each != site]
        self.heard, self.clocks = dict.fromkeys(self.others), dict.fromkeys(self.others, 0)
        # The clocks of this site's own events, which rise.
        self.own = []
        self.datagram_at, self.line, self.line_at, self.is_behind = now, 0, now, False
        # Where a carrier knows it: the others whose seats somebody has, and whether each of them is there.
        self.seats = None

    def event(self, clock, site, is_new):
        """An event stands in the journal; `is_new` where it came in this run."""
        if site == self.site:
            self.own.append(clock)
        elif site in self.clocks:
            self.clocks[site] = max(self.clocks[site], clock)
            if is_new:
                self.heard[site] = time.monotonic()

    def note(self, site):
        """A site said something else of itself."""
        if site in self.heard:
            self.heard[site] = time.monotonic()

    def datagrams(self):
        """Some datagrams came, of whomever."""
        self.datagram_at = time.monotonic()

    def stand(self, standing):
        """The answer to `status`."""
        is_behind = standing["kept"] > 0
        if standing["line"] != self.line or not self.is_behind:
            self.line, self.line_at = standing["line"], time.monotonic()
        self.is_behind = is_behind

    def waiting(self):
        """How many own events aren't known to be everywhere."""
        return len(self.own) - bisect_right(self.own, self.line)

    def late(self, now):
        """The sites that may be those that say nothing, and whether each of them surely is."""
        if self.seats is not None:
            return [site for site, is_here in self.seats.items() if not is_here], True
        if now - self.datagram_at >= AWAY:
            return self.others, True
        if self.is_behind and now - self.line_at >= AWAY:
            # The line stands where the site stands that is sure of least: none whose event lies above it.
            late = [site for site in self.others if self.clocks[site] <= self.line]
            return late, len(late) == 1
        return [], False

    def is_quiet(self):
        """Whether nothing came for so long that it isn't sure that anything still comes."""
        return time.monotonic() - self.datagram_at >= UNSURE

    def told(self, names, silence):
        """What a page is told. While the node itself says nothing nobody is called away."""
        now = time.monotonic()
        is_silent = silence >= SILENT
        late, is_sure = ([], False) if silence >= AWAY / 2 else self.late(now)
        peers = [
            {
                "site": site,
                "name": names.get(site),
                "heard": None if self.heard[site] is None else round(now - self.heard[site]),
                "away": is_sure and site in late,
                "perhaps": not is_sure and site in late,
            }
            for site in (self.others if self.seats is None else self.seats)
        ]
        return {"peers": peers, "waiting": self.waiting(), "quiet": self.is_quiet(), "silent": is_silent}

    def resume(self):
        """The node starts again, or answers again behind a silence: the time before tells nothing of others."""
        self.datagram_at = self.line_at = time.monotonic()
