"""Hosting over a broker: several seats of a session on this machine, each with a carrier of its own, behind one server."""

import argparse
import asyncio
import sys

from carrier import commands
from carrier.files import Founder, Seat
from carrier.running import over_own_broker, seat_of, sit
from page.addresses import BadAddress
from page.audience import Audience
from page.draw import BROKEN, FAILED, USAGE, check_journal, say
from page.hosting import journals, place_of, served


def seat_by_link(journal, first):
    """A seat by a link that is read from standard input. Raises `Wrong`."""
    say(f"a link for the seat of {journal}, on a line of its own:")
    link, roster, certificate = commands.reached("-")
    if roster.digest != first.roster.digest:
        raise commands.Wrong("this link is for another session than the one of the first seat")
    return Seat(link.seat, link.seed, roster, link.broker, link.trust, certificate, account=link.account)


def new_seat(given, journal, first):
    """A seat beside the first one: the founder takes one that nobody was handed, and others have a link for it. Raises `Wrong`."""
    if not Founder.path(given.journal).exists():
        return seat_by_link(journal, first)
    taken = Founder.take(given.journal)
    if taken is None:
        raise commands.Wrong("all seats of this session were handed out: host fewer")
    return Seat(*taken, first.roster, first.broker, first.trust, first.certificate, account=first.account)


def seats_of(given):
    """The journals and the seats that are hosted. Raises `Wrong`."""
    wrong, first = check_journal(given.journal), seat_of(given.journal)
    if wrong:
        raise commands.Wrong(wrong)
    for journal in journals(given)[1:]:
        if not Seat.path(journal).exists():
            commands.check_new(journal)
            new_seat(given, journal, first).write(journal)
    found = [(journal, seat_of(journal)) for journal in journals(given)]
    if len({seat.roster.digest for _, seat in found}) != 1 or len({seat.seat for _, seat in found}) != len(found):
        raise commands.Wrong("the seats beside the journals aren't different seats of one session")
    return found


class Hall:
    """Seats that come one after the other, and go together."""

    def __init__(self, count):
        self.count, self.desks, self.ready, self.over = count, [], asyncio.Event(), asyncio.Event()

    async def use(self, desk):
        """Takes a desk whose node runs, until all go. Gives the status."""
        self.desks.append(desk)
        if len(self.desks) == self.count:
            self.ready.set()
        await self.over.wait()
        return 0


async def host(given, found, place, port):
    """Runs the seats, and serves their pages once all of them run. Gives the status."""
    hall, audience = Hall(len(found)), Audience()

    def one(journal, seat):
        own = argparse.Namespace(program=given.program, journal=journal)
        return asyncio.get_running_loop().create_task(sit(own, seat, hall.use, audience))

    sitting, status = [one(*each) for each in found], FAILED
    ready = asyncio.get_running_loop().create_task(hall.ready.wait())
    try:
        await asyncio.wait([ready, *sitting], return_when=asyncio.FIRST_COMPLETED)
        if hall.ready.is_set():
            desks = sorted(hall.desks, key=lambda desk: desk.number)
            status = await served(desks, audience, place, port, given)
    finally:
        ready.cancel()
        hall.over.set()
        ended = await asyncio.gather(*sitting, return_exceptions=True)
    return next((each for each in ended if isinstance(each, int) and each), status)


def main(given):
    """Does what `--host` asks for where the first seat is one of a session over a broker, and gives the status."""
    try:
        (place, port), found = place_of(given), seats_of(given)
        return asyncio.run(over_own_broker(given, found[0][1], lambda: host(given, found, place, port)))
    except (commands.Wrong, BadAddress) as why:
        say(str(why))
        return USAGE
    except KeyboardInterrupt:
        return BROKEN
    except OSError as fault:
        print(f"draw: the files of the seats can't be written: {fault}", file=sys.stderr)
        return FAILED
