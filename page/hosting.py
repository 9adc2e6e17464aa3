"""Hosting: seats on this machine for guests who have a browser alone. Each of them has a link of its own, for one person at a time."""

import argparse
import asyncio
import secrets
import socket
import ssl
import sys
from pathlib import Path

from carrier import words as carried
from carrier.showing import show_code
from page.addresses import BadAddress, parts_of
from page.audience import Audience
from page.desk import Desk
from page.draw import BROKEN, FAILED, USAGE, check_journal, node_command, number_in, open_later, say, say_unserved, serve, start
from page.placed import CALLED, PROGRAM
from page.server import HERE, Place, Server

MOST_SEATS = 16
JOURNAL = Path("hosted.log")
# A page is asked so often whether it is still there, and has half of that to answer: a phone goes without a goodbye.
HEARTBEAT = 20.0
# Where a log says which session it is of, and how many sites that has.
SESSION, SITES, HEADER = slice(5, 9), 10, 11
OPENLY = (
    "the pages aren't encrypted: who is on the network between here and a guest can read along, and draw in the guest's place. "
    "--cert FILE --key FILE, with a certificate that the guests' browsers trust, encrypts them"
)


class HostServer(Server):
    """A server with a token for each desk."""

    is_single = True

    def __init__(self, desks, audience, place):
        tokens = [secrets.token_urlsafe(24) for _ in desks]
        super().__init__(tokens[0], desks, audience, place=place)
        self.doors = {token: {desk.number: desk} for token, desk in zip(tokens, desks)}
        for desk in desks:
            desk.desks, desk.is_openly = [desk.number], is_open(place)


def is_open(place):
    """Whether a network can read along."""
    return place.tls is None and place.bound != HERE


def asked(words):
    """What the command line asks for."""
    parser = argparse.ArgumentParser(prog=CALLED, description="Hosts seats for guests who have a browser alone.")
    add = parser.add_argument
    add("--host", metavar="N", type=number_in(1, MOST_SEATS), required=True, help="so many seats run here, 1 to 16")
    add("--at", metavar="ADDR:PORT", help="the address of this machine that the guests' browsers reach, and a port; any free one if 0")
    add("--cert", metavar="FILE", type=Path, help="the certificate of that address, with those above it, in PEM")
    add("--key", metavar="FILE", type=Path, help="its key, in PEM")
    add("--journal", metavar="PATH", type=Path, default=JOURNAL, help="the first seat's journal; the others are PATH.2, PATH.3 ..")
    add("--open", action="store_true", help="open the first seat's page in a browser")
    add("--program", metavar="PROGRAM", type=Path, default=PROGRAM, help="another built groupdesign")
    given = parser.parse_args(words)
    if (given.cert is None) != (given.key is None):
        parser.error("--cert and --key go together")
    given.demo = None
    return given


def own_address():
    """The address of this machine from which it would reach others, or that of loopback where it reaches none."""
    with socket.socket(socket.AF_INET, socket.SOCK_DGRAM) as tried:
        try:
            # No datagram is sent: the system only chooses the way.
            tried.connect(("192.0.2.1", 9))
            return tried.getsockname()[0]
        except OSError:
            return HERE


def bound_at(host):
    """The address to listen at: that of a host where it is one of this machine, and else all of its addresses."""
    try:
        found = socket.getaddrinfo(host.strip("[]"), 0, type=socket.SOCK_STREAM)
    except (socket.gaierror, UnicodeError):
        raise BadAddress(f"the host {host} behind --at isn't known here: give the address that the guests reach") from None
    for family, kind, _, _, address in found:
        with socket.socket(family, kind) as tried:
            try:
                tried.bind(address)
            except OSError:
                continue
            return address[0]
    return "::" if found[0][0] == socket.AF_INET6 else "0.0.0.0"


def place_of(given):
    """Where the pages are served, and the port. Raises `BadAddress`."""
    text = given.at or f"{own_address()}:0"
    host, colon, port = text.rpartition(":")
    host, number = (host, 0) if colon and host and port == "0" else parts_of(text)
    tls = None
    if given.cert:
        try:
            tls = ssl.SSLContext(ssl.PROTOCOL_TLS_SERVER)
            tls.minimum_version = ssl.TLSVersion.TLSv1_2
            # A key with a passphrase would be asked for at the terminal.
            tls.load_cert_chain(given.cert, given.key, password=lambda: "")
        except (OSError, ssl.SSLError) as fault:
            raise BadAddress(f"{given.cert} and {given.key} aren't a certificate and its key in PEM: {fault}") from None
    return Place((host,), bound_at(host), tls, HEARTBEAT), number


def journals(given):
    """The journals of the seats, the first one's first."""
    return [given.journal, *(Path(f"{given.journal}.{seat}") for seat in range(2, given.host + 1))]


def session_of(given):
    """The number of the session that the first journal is of, or a new one. Raises `BadAddress` where it has other seats."""
    try:
        with open(given.journal, "rb") as file:
            header = file.read(HEADER)
    except FileNotFoundError:
        return secrets.randbelow(2**32)
    except OSError as fault:
        raise BadAddress(f"the journal {given.journal} can't be read: {fault.strerror}") from None
    if len(header) == HEADER and header[SITES] != given.host:
        raise BadAddress(f"{given.journal} was begun with {header[SITES]} seats: give --host {header[SITES]}, or another --journal")
    return int.from_bytes(header[SESSION], "big")


def free_addresses(count):
    """So many addresses of loopback that nobody has at this moment."""
    made = [socket.socket(socket.AF_INET, socket.SOCK_DGRAM) for _ in range(count)]
    try:
        for each in made:
            each.bind((HERE, 0))
        return [f"{HERE}:{each.getsockname()[1]}" for each in made]
    finally:
        for each in made:
            each.close()


def desks_of(given, audience):
    """The desks of seats that draw with each other alone. Raises `BadAddress`."""
    wrong = check_journal(given.journal)
    if wrong:
        raise BadAddress(wrong)
    session, addresses = session_of(given), free_addresses(given.host)
    desks = []
    for seat, journal in enumerate(journals(given), 1):
        command = node_command(given.program.resolve(), session, seat, journal, addresses)
        desks.append(Desk(seat, command, journal, audience, session))
    return desks


def tell_links(server, given):
    """Prints a link for each seat, and in a terminal also its code for a camera."""
    for token, desks in server.doors.items():
        address = server.address_of(token)
        print(f"{address}  (seat {min(desks)}, for one person at a time)", flush=True)
        if sys.stdout.isatty():
            show_code(address)
    if is_open(server.place):
        say(OPENLY)
    if given.open:
        open_later(server.address)


async def served(desks, audience, place, port, given):
    """Serves pages for desks that run until this program is told to end, and gives the status."""
    server = HostServer(desks, audience, place)
    try:
        await server.start(port)
    except OSError as fault:
        say_unserved(f"{place.names[0]}:{port}", fault, "--at")
        return FAILED
    await serve(server, given, tell_links)
    return 0


async def run(given):
    """Hosts seats that draw with each other alone, and gives the status."""
    audience, desks = Audience(), []
    try:
        place, port = place_of(given)
        desks = desks_of(given, audience)
        return await start(desks) or await served(desks, audience, place, port, given)
    except BadAddress as why:
        say(str(why))
        return USAGE
    finally:
        await asyncio.gather(*(desk.stop() for desk in desks if desk.node))


def main(words):
    """Does what `--host` asks for, and gives the status."""
    given = asked(words)
    if Path(f"{given.journal}.seat").exists():
        return carried.host(given)
    try:
        return asyncio.run(run(given))
    except KeyboardInterrupt:
        return BROKEN
