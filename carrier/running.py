"""A run of a carried seat: its broker where that is here, its carrier, its node, and the page."""

import asyncio
import os
import secrets
import signal
import sys

from carrier import commands, watching
from carrier.broker import topic
from carrier.carrier import Carrier
from carrier.files import BadFile, Seat
from carrier.mosquitto import NoBroker, OwnBroker
from carrier.presence import BETWEEN, Presence
from carrier.retiring import Retiring
from carrier.sealing import PRESENCE
from carrier.standing import Standing
from carrier.table import Table
from carrier.watched import Watched
from carrier.words import asked, without_link
from page.audience import Audience
from page.desk import Desk
from page.draw import ANOTHER_PORT, BROKEN, FAILED, PROGRAM, ROOT, USAGE, check_journal, node_command, say, say_unserved, serve, start
from page.placed import CALLED
from page.server import Server

# What comes has the node polled at once. For what doesn't come it is polled so seldom.
BEAT = 1.0
# So many seconds the broker has at the start. A seat that doesn't reach it goes on alone, and reaches it later.
PATIENCE, FIRST_PATIENCE = 8, 40


def main(words):
    """Does what words of a session over a broker ask for, and gives the status."""
    given = asked(words, PROGRAM)
    try:
        if given.invite or given.retire:
            commands.invite(given) if given.invite else commands.retire(given)
            return 0
        if given.watch is not None:
            return watching.main(given, words)
        wrong = check_journal(given.journal)
        if wrong:
            raise commands.Wrong(wrong)
        if given.found is not None:
            for line in commands.told_when_founded(given, commands.found(given)):
                say(line)
        if given.join is not None or given.keep is not None:
            commands.join(given)
            # Others on this machine can read the words of a program, so the link may stand among them for no longer.
            os.execv(sys.executable, [sys.executable, str(ROOT / "draw"), *without_link(words)])
        return asyncio.run(run(given, seat_of(given.journal)))
    except commands.Wrong as why:
        say(str(why))
        return USAGE
    except KeyboardInterrupt:
        return BROKEN


def seat_of(journal):
    """The seat beside a journal. Raises `Wrong` where there is none to go on with."""
    try:
        seat = Seat.read(journal)
    except FileNotFoundError:
        raise commands.Wrong(
            f"there is no seat beside {journal}: sit down at one with --join LINK, found a session with --found NAME, or give "
            "--session, --site and the addresses of all"
        ) from None
    except (BadFile, OSError) as why:
        raise commands.Wrong(str(why)) from None
    if seat.begun and not journal.exists():
        raise commands.Wrong(
            f"the journal {journal} of this seat is gone, and the others have what stood in it: this seat can't begin anew. "
            "Put back the newest copy that you have; where there is none, ask for a link to another seat"
        )
    return seat


async def run(given, seat):
    """Runs a seat until this program is told to end, and gives the status."""
    use = (lambda desk: keep(given)) if seat.keep else (lambda desk: show(desk, given))
    return await over_own_broker(given, seat, lambda: sit(given, seat, use, Audience()))


async def over_own_broker(given, seat, goes_on):
    """Does what `goes_on` does while the broker of a seat runs, where that is here, and gives its status."""
    if not seat.listen:
        return await goes_on()
    loop, own = asyncio.get_running_loop(), OwnBroker(given.journal, seat.broker)
    try:
        await loop.run_in_executor(None, own.start)
    except (NoBroker, OSError) as why:
        say(f"the broker of this session doesn't run: {why}")
        return FAILED
    watching = loop.create_task(own.watch())
    try:
        return await goes_on()
    finally:
        watching.cancel()
        await asyncio.gather(watching, return_exceptions=True)
        await loop.run_in_executor(None, own.stop)


async def sit(given, seat, use, audience):
    """Runs a seat whose broker is where it is, as long as what `use` does with its desk, and gives the status of that."""
    carrier = Carrier(seat)
    standing = Standing(carrier, given.journal)
    retiring, watched = Retiring(carrier, standing, given.journal), Watched(carrier, standing, given.journal)
    try:
        begin(carrier, seat)
        is_new = not seat.begun and seat.seat != commands.FIRST
        if not await carrier.settle(FIRST_PATIENCE if is_new else PATIENCE):
            why = f"the broker at {seat.broker} isn't reached: {carrier.broker.fault or 'it does not answer'}."
            if is_new:
                # Only the broker knows whether the link was used before.
                say(f"{why} Try again later: {CALLED} --journal {given.journal}")
                return FAILED
            say(f"{why} You can draw all the same: it is tried again")
        older = standing.begin()
        wrong = used_before(seat, standing) or older or (retiring.why if retiring.is_own else None)
        if wrong:
            say(wrong)
            return FAILED
        desk = desk_of(given, seat, carrier, audience)
        return await drawn(given, seat, carrier, standing, retiring, watched, desk, use)
    finally:
        await standing.stop()
        await carrier.stop()


def used_before(seat, standing):
    """Why a link can't be used, where the seat was used before it came here; or nothing."""
    if seat.begun or seat.seat not in standing.heads.newest:
        return None
    return f"seat {seat.seat} is taken: a link is for one person, once. Ask for a link of your own"


def begin(carrier, seat):
    """Connects; the founder leaves the roster with the broker for those who join."""

    def keep_roster(up, fault):
        if up and seat.seat == commands.FIRST:
            carrier.broker.publish(topic(carrier.session, "roster"), seat.roster.data, keep=True)

    carrier.changes.append(keep_roster)
    carrier.start()


def desk_of(given, seat, carrier, audience):
    """The desk of the node, which is polled whenever something comes for it."""
    command = node_command(given.program.resolve(), seat.roster.number, seat.seat, given.journal, carrier.addresses)
    desk = Desk(seat.seat, command, given.journal, audience, seat.roster.number, BEAT)

    def wake():
        if desk.rounds:
            desk.rounds.expect(frozenset())

    def tell(line):
        desk.tell_news([{"what": "said", "line": line}])

    desk.is_woken = True
    carrier.wake, carrier.runs, carrier.say = wake, lambda: desk.node is not None and desk.node.status is None, tell
    return desk


def presence_of(given, carrier, desk):
    """What seats say of themselves, between the pages of a desk and the others."""
    presence = Presence(carrier.send, desk.tell)

    def take(sender, content):
        if presence.take(sender, content):
            carrier.paces[sender].leave()

    async def asked(words):
        if words.get("what") == "invite":
            return commands.invitation(given.journal)
        if words.get("what") == "watch":
            return commands.invitation(given.journal, commands.watching)
        if words.get("what") == "point":
            return presence.take_page(words)
        raise ValueError("what a page asks of a session over a broker is to invite, to let others look on, or to point")

    carrier.takers[PRESENCE] = take
    carrier.comings.append(presence.come)
    desk.carried, desk.whole_names = asked, presence.names
    desk.audience.openings.append((desk.number, lambda: presence.opening(desk.number)))
    return presence


async def say_presence(presence, carrier, desk):
    """Says where this seat points, for as long as nobody cancels this; then it says goodbye."""
    try:
        while True:
            presence.look(carrier.here(), desk.name)
            await asyncio.sleep(BETWEEN)
    finally:
        presence.leave(carrier.here())


async def show(desk, given):
    """Serves the page until this program is told to end, and gives the status."""
    server = Server(secrets.token_urlsafe(24), [desk], desk.audience)
    try:
        await server.start(given.port)
    except OSError as fault:
        say_unserved(f"port {given.port}", fault, ANOTHER_PORT)
        return FAILED
    await serve(server, given)
    return 0


async def keep(given):
    """Keeps a copy, and hands on what others miss, until this program is told to end. Gives the status."""
    told = asyncio.Event()
    for each in (signal.SIGINT, signal.SIGTERM, signal.SIGHUP):
        asyncio.get_running_loop().add_signal_handler(each, told.set)
    print(f"keeping a copy in {given.journal}", flush=True)
    await told.wait()
    return 0


async def drawn(given, seat, carrier, standing, retiring, watched, desk, use):
    """Starts the node, and gives the status of what `use` does with the desk."""
    saying = None
    try:
        status = await start([desk])
        if not status:
            if not seat.begun:
                seat.begun = True
                seat.write(given.journal)
            watched.name = lambda: desk.name
            Table(carrier, standing, retiring, watched, desk, lambda: commands.free_seats(given.journal))
            presence = presence_of(given, carrier, desk)
            standing.start(lambda: desk.edits)
            saying = asyncio.get_running_loop().create_task(say_presence(presence, carrier, desk))
            status = await use(desk)
        return status
    except OSError as fault:
        say(f"the file of the seat can't be written: {fault.strerror}")
        return FAILED
    finally:
        if saying:
            saying.cancel()
            await asyncio.gather(saying, return_exceptions=True)
        if desk.node:
            await desk.stop()
