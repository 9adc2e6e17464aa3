"""What the words of a session over a broker do before a node runs: founding, inviting, joining."""

import asyncio
import getpass
import os
import sys
from pathlib import Path

from carrier import trust
from carrier.broker import Account, Broker, login_of, topic
from carrier.files import BadFile, Founder, Seat, write_private
from carrier.keys import Keys, new_seed, public_bytes
from carrier.link import BadLink, Link, link_of
from carrier.mosquitto import NoBroker, OwnBroker
from carrier.retiring import leaving_file
from carrier.roster import SEATS, SESSION, BadRoster, Roster, roster_of
from carrier.sealing import WATCHERS
from carrier.showing import modules_of, show_code
from page.addresses import BadAddress, parts_of
from page.placed import CALLED

PATIENCE = 20
FIRST = 1
A_SEAT = f"a seat: {CALLED} --join LINK --journal FILE sits down at it"
LOOKING_ON = f"those who only look on: {CALLED} --watch LINK shows the drawing"


class Wrong(Exception):
    """A command isn't done. The text says why, and what to do."""


def check_new(journal):
    """Raises `Wrong` where something of a seat lies there already."""
    for path in (Path(journal), Seat.path(journal), Founder.path(journal), Path(f"{journal}.broker")):
        if path.exists():
            raise Wrong(f"{path} is there already: `{CALLED} --journal {journal}` goes on with it, or name another file")


def account_of(place):
    """The account at a broker that all members share: two lines of a file, the user and the password, or asked for at the terminal
    where the file is -. Nothing where no place is named. Raises `Wrong`."""
    if place is None:
        return None
    try:
        if str(place) == "-":
            return Account(input("user at the broker: "), getpass.getpass("password: "))
        lines = place.read_text().splitlines()
        if len(lines) != 2:
            raise ValueError("the file behind --account has two lines: the user, and the password")
        return Account(*lines)
    except (OSError, EOFError, ValueError) as why:
        raise Wrong(f"no user and password at the broker: {why}") from None


def found(given):
    """Makes a session and its files; the founder sits at its first seat. Raises `Wrong`."""
    journal, account = given.journal, account_of(given.account)
    check_new(journal)
    seeds, own, watch = {seat: new_seed() for seat in range(FIRST, SEATS + 1)}, new_seed(), new_seed()
    keys = {seat: Keys(seed) for seat, seed in seeds.items()}
    try:
        publics = tuple(each.public for each in keys.values())
        roster = Roster(os.urandom(SESSION), given.found.strip(), public_bytes(Keys(own).signing), publics)
    except BadRoster as why:
        raise Wrong(str(why)) from None
    passwords = {seat: each.password for seat, each in {**keys, WATCHERS: Keys(watch)}.items()}
    address = given.listen or given.broker
    try:
        if given.listen:
            certificate = OwnBroker(journal, address).make(roster, passwords)
            trusted = trust.exact(certificate)
        else:
            trusted = trust.authority(given.ca.read_text()) if given.ca else trust.Trust(trust.SYSTEM)
            certificate = trusted.data
            if account is None:
                OwnBroker(journal, address).make_rules(roster, passwords)
        Founder(own, {seat: seed for seat, seed in seeds.items() if seat != FIRST}, watch=watch).write(journal)
        listen = bool(given.listen)
        Seat(FIRST, seeds[FIRST], roster, address, trusted, certificate, listen=listen, account=account).write(journal)
    except (NoBroker, trust.BadTrust) as why:
        raise Wrong(str(why)) from None
    except (OSError, UnicodeDecodeError) as fault:
        raise Wrong(f"the files beside {journal} weren't made: {fault}") from None
    return roster


def told_when_founded(given, roster):
    """What the founder is told to do next."""
    lines = [f"{roster.name} is founded. `{CALLED} --invite --journal {given.journal}` prints a link for one person"]
    if given.broker and not given.account:
        lines.append(f"the rules and passwords for the broker are in {given.journal}.broker: who runs it takes them in there")
    return lines


def founders_journal(journal):
    """The journal whose session somebody is invited to: the one that was named, or the only one here."""
    if journal:
        return journal
    here = sorted(Path().glob("*.founder"))
    if len(here) != 1:
        raise Wrong(f"name the founder's journal: {CALLED} --invite --journal PATH")
    return Path(str(here[0]).removesuffix(".founder"))


def founded(journal, may, take):
    """The founder's seat, and what `take` gives of the founder's file. `may` says what only they do. Raises `Wrong`."""
    try:
        return Seat.read(journal), take(journal)
    except FileNotFoundError:
        raise Wrong(f"who founded the session {may}: there is no {Founder.path(journal)}") from None
    except (BadFile, OSError) as why:
        raise Wrong(str(why)) from None


def link_to(seat, number, seed):
    """A link into the session of a seat."""
    return Link(number, seat.roster.session, seed, seat.roster.digest, seat.trust, seat.broker, seat.account)


def invited(journal):
    """A link for a seat that nobody was handed yet. Raises `Wrong`."""
    seat, taken = founded(journal, "invites", Founder.take)
    if taken is None:
        raise Wrong(f"all {SEATS} seats were handed out")
    return link_to(seat, *taken)


def watching(journal):
    """The link for those who only look on. Raises `Wrong`."""
    seat, seed = founded(journal, "lets others look on", Founder.let_watch)
    if not seed:
        raise Wrong("this session was founded before there were links for those who only look on")
    return link_to(seat, WATCHERS, seed)


def free_seats(journal):
    """How many more people can be invited with the files beside a journal."""
    try:
        return len(Founder.read(journal).free)
    except (BadFile, OSError):
        return 0


def invitation(journal, make=invited):
    """What a page shows of a link that `make` gives: its text, and the modules of its code where that can be made. Raises
    `ValueError`."""
    try:
        link = make(journal)
    except Wrong as why:
        raise ValueError(str(why)) from None
    rows = modules_of(link.text)
    return {"link": link.text, "code": rows and ["".join("1" if each else "0" for each in row) for row in rows]}


def invite(given):
    """Prints a link, for one person or for those who only look on, and in a terminal also its code for a camera. Raises `Wrong`."""
    link = (watching if given.watch is not None else invited)(founders_journal(given.journal))
    print(link.text, flush=True)
    if sys.stdout.isatty():
        show_code(link.text)
    return link


def is_own_seat(given):
    """Whether the seat that is to be retired is the one beside the journal that was named, and not the founder's."""
    if given.journal is None or Founder.path(given.journal).exists() or not Seat.path(given.journal).exists():
        return False
    try:
        return Seat.read(given.journal).seat == given.retire
    except (BadFile, OSError) as why:
        raise Wrong(str(why)) from None


def leave(given):
    """Puts down that the own seat leaves for good. Raises `Wrong`."""
    try:
        write_private(leaving_file(given.journal), "")
    except OSError as fault:
        raise Wrong(f"{leaving_file(given.journal)} can't be written: {fault.strerror}") from None
    print(f"seat {given.retire} is retired as soon as {CALLED} --journal {given.journal} runs and has signed all that it drew", flush=True)


def retire(given):
    """Puts down that a seat was left for good: the own one, or as the founder any. The running `./draw`, or the next one, tells
    all. Raises `Wrong`."""
    if is_own_seat(given):
        leave(given)
        return
    journal = founders_journal(given.journal)
    if given.retire == FIRST:
        raise Wrong("the founder's own seat isn't retired")
    try:
        Founder.note_retired(journal, given.retire)
    except FileNotFoundError:
        raise Wrong(f"who founded the session retires seats: there is no {Founder.path(journal)}") from None
    except (BadFile, OSError) as why:
        raise Wrong(str(why)) from None
    print(f"seat {given.retire} is retired as soon as {CALLED} --journal {journal} runs and has all that it signed", flush=True)


def join(given):
    """Makes the file of a seat from its link. Raises `Wrong`."""
    check_new(given.journal)
    link, roster, certificate = reached(given.join or given.keep)
    keep = given.keep is not None
    seat = Seat(link.seat, link.seed, roster, link.broker, link.trust, certificate, keep=keep, account=link.account)
    try:
        seat.write(given.journal)
    except OSError as fault:
        raise Wrong(f"the file of the seat can't be written: {fault.strerror}") from None
    return roster


def reached(text, is_watching=False):
    """A link, or the one on standard input where it is -, the roster that its broker keeps for it, and the certificate by which
    the broker is known. `is_watching` says whether it is to be one for those who only look on. Raises `Wrong`."""
    try:
        link = link_of(sys.stdin.readline() if text == "-" else text)
        if is_watching != (link.seat == WATCHERS):
            raise Wrong(f"this link is for {A_SEAT if is_watching else LOOKING_ON}")
        certificate = trust.fetched(link.trust, *parts_of(link.broker))
        return link, asyncio.run(fetched_roster(link, certificate)), certificate
    except (BadLink, BadAddress, trust.BadTrust) as why:
        raise Wrong(str(why)) from None
    except OSError as fault:
        why = trust.meaning_of(fault)
        raise Wrong(f"the broker at {link.broker} isn't reached: {why}. Does it run, and is its port open?") from None


async def fetched_roster(link, certificate):
    """The roster that a broker keeps for a link. Raises `Wrong`."""
    found, keys = asyncio.get_running_loop().create_future(), Keys(link.seed)

    def came(name, data, was_kept):
        if not found.done():
            found.set_result(data)

    login = login_of(link.account, link.session, link.seat, keys)
    broker = Broker(parts_of(link.broker), login, link.trust, certificate, came)
    broker.start([topic(link.session, "roster")])
    try:
        roster = roster_of(await wait_for(found, broker))
    except asyncio.TimeoutError:
        why = broker.fault or f"it has no roster of this session: has the founder started {CALLED} since?"
        raise Wrong(f"the broker at {link.broker} doesn't let this seat in: {why}") from None
    except BadRoster as why:
        raise Wrong(str(why)) from None
    finally:
        await broker.stop()
    is_other = link.seat != WATCHERS and roster.seats[link.seat - 1] != keys.public
    if roster.digest != link.digest or is_other:
        raise Wrong("the broker keeps another roster than the one that the link names: ask for a new link")
    return roster


async def wait_for(found, broker):
    """Waits for what a broker keeps. Raises `asyncio.TimeoutError` where it doesn't come in time, or it lets nobody in."""
    for _ in range(PATIENCE * 10):
        if broker.is_refused:
            break
        try:
            return await asyncio.wait_for(asyncio.shield(found), 0.1)
        except asyncio.TimeoutError:
            pass
    raise asyncio.TimeoutError
