"""What tests of desks share: a desk over a stand-in, and what it tells."""

import json

from page.audience import Audience
from page.desk import Desk
from page.tests.places import WithStandIn, until

ROW = "rect 1.1 in - at 0 0 size 1 1 stroke 000000 fill none width 1"


class WithDesk(WithStandIn):
    async def desk(self, poll_every=0.02, command=None, **script):
        """A desk that has started. What it tells comes to `self.listener`."""
        self.script(**script)
        self.audience = Audience()
        desk = Desk(1, command or self.command(), self.journal, self.audience, 7, poll_every)
        self.listener, self.told = self.audience.join(1), []
        # What there was before it started is of no use here.
        self.listener.waiting.clear()
        await desk.start()
        self.addAsyncCleanup(desk.stop)
        return desk

    def heard(self, kind):
        """All that was told of a kind so far."""
        while self.listener.waiting:
            self.told.append(json.loads(self.listener.waiting.popleft()))
        return [each for each in self.told if each["is"] == kind]

    def opened(self, desk):
        """What a page that comes now is told, by its kinds."""
        return {each["is"]: each for each in map(json.loads, desk.opening())}

    async def wait_for_polls(self, count):
        """Waits for so many polls from now on."""
        before = self.typed().count("poll")
        await until(lambda: self.typed().count("poll") >= before + count)
