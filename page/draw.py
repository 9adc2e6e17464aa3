"""What `./draw` does: reads its words, starts the nodes, and serves the page until it is ended."""

import argparse
import asyncio
import os
import secrets
import shutil
import signal
import sys
import tempfile
import threading
import webbrowser
from pathlib import Path

from carrier import words as carried
from page.addresses import BadAddress, check_own, looked_up
from page.audience import Audience
from page.demo import MOST_SITES, Proxy
from page.desk import Desk
from page.lines import meaning_of
from page.node import Ended
from page.placed import CALLED, PROGRAM, ROOT, TO_BUILD
from page.server import Server

DEMO_SESSION = 7
MOST_SESSION = 2**32 - 1
USAGE, FAILED, BROKEN = 2, 1, 130
ANOTHER_PORT = "--port, or 0 for any free one"
HOSTING = """for guests who have a browser alone (page/README.md):
  --host N [--at ADDR:PORT] [--cert FILE --key FILE] [--journal PATH]
                                 runs N seats on this machine, and prints a link for each"""


def number_in(least, most):
    def read(text):
        value = int(text) if text.isascii() and text.isdigit() else -1
        if not least <= value <= most:
            raise argparse.ArgumentTypeError(f"{text} is no number from {least} to {most}")
        return value

    return read


def asked(words):
    """What the command line asks for."""
    parser = argparse.ArgumentParser(
        prog=CALLED,
        description="Draws together in a browser, over a node of one's own.",
        epilog=f"for example {CALLED} --demo 2 --open\n\n{HOSTING}\n\n{carried.HELP}",
        formatter_class=argparse.RawDescriptionHelpFormatter,
    )
    add = parser.add_argument
    add("--session", metavar="N", type=number_in(0, MOST_SESSION), help="the session's number, the same at all sites")
    add("--site", metavar="S", type=number_in(1, 16), help="which of the addresses is here, from 1")
    add("--journal", metavar="PATH", help="the file of the node's log; where it is there it is gone on with")
    add("addresses", metavar="ADDR", nargs="*", help="HOST:PORT of each site, this one too, in the same order at all sites")
    add("--demo", metavar="N", type=number_in(1, MOST_SITES), help="that many nodes on this machine")
    add("--port", metavar="N", type=number_in(0, 65_535), default=0, help="the page's port; any free one if 0")
    add("--open", action="store_true", help="open the page in a browser")
    add("--program", metavar="PROGRAM", type=Path, default=PROGRAM, help="another built groupdesign")
    given = parser.parse_args(words)
    own = [given.session, given.site, given.journal]
    if given.demo is None and (None in own or not given.addresses):
        parser.error(f"--session, --site, --journal and the addresses are wanted. For a first look: {CALLED} --demo 2 --open")
    if given.demo is not None and (own != [None] * 3 or given.addresses):
        parser.error("--demo takes no words of a node")
    return given


def node_command(program, session, site, journal, addresses):
    """The words of a node, without `--resume`."""
    options = ["--session", str(session), "--site", str(site), "--journal", str(journal)]
    return [str(program), "node", *options, *addresses]


def say(text):
    print(f"draw: {text}", file=sys.stderr, flush=True)


def say_unserved(place, fault, instead):
    """Says why a page can't be served at a place, and what to do."""
    say(f"{place} can't be served: {os.strerror(fault.errno) if fault.errno else fault}. Take another {instead}")


def check_journal(path):
    """Says what is wrong with the place of a journal, or nothing."""
    folder = path.parent
    if not path.name:
        return f"the journal {path} is no file: name one, like mine.log"
    if path.is_dir():
        return f"the journal {path} is a folder: name a file in it"
    if not folder.is_dir():
        return f"the folder {folder} of the journal isn't there: make it first (mkdir -p {folder})"
    if path.exists() and not os.access(path, os.R_OK | os.W_OK):
        return f"the journal {path} can't be read and written by this user"
    if not path.exists() and not os.access(folder, os.W_OK | os.X_OK):
        return f"no file can be made in the folder {folder} of the journal by this user"
    return None


def own_desk(given, audience):
    """The desk of the node that the words ask for. Raises `BadAddress` where one of its words can't be used."""
    wrong = check_journal(Path(given.journal))
    if wrong:
        raise BadAddress(wrong)
    addresses = looked_up(given.addresses, given.site)
    check_own(addresses[given.site - 1])
    command = node_command(given.program.resolve(), given.session, given.site, given.journal, addresses)
    return Desk(given.site, command, given.journal, audience, given.session)


def demo_desks(given, audience, room):
    """The desks of a demonstration, whose journals are in a folder, and the proxy between them."""
    proxy = Proxy(given.demo, audience)
    desks = []
    for site in range(1, given.demo + 1):
        journal = Path(room) / f"person-{site}.log"
        command = node_command(given.program.resolve(), DEMO_SESSION, site, journal, proxy.addresses(site))
        desks.append(Desk(site, command, journal, audience, DEMO_SESSION))
    return desks, proxy


def advice(status, desk):
    """What to do where a node ended at once with a status; it may be nothing."""
    if status == 3:
        shown = f"`{desk.program} replay --upto-fault < {desk.journal}` shows what it has up to there"
        return f" Is {desk.journal} another file? Where it is one of groupdesign, {shown}; go on with its newest whole copy, under another name."
    if status == 11:
        return f" Give the session, the site and all addresses with which {desk.journal} was begun, or name another file."
    if status == 6:
        return " Is another node at work on it, or is the disk full?"
    return ""


async def start(desks):
    """Starts all desks. Says why where one doesn't, and gives its status then."""
    for desk in desks:
        try:
            await desk.start()
        except Ended as said:
            await desk.node.is_over.wait()
            status = desk.node.status
            if str(said):
                say(str(said))
            say(f"the node of site {desk.number} ended with status {status}: {meaning_of(status)}.{advice(status, desk)}")
            return status if status > 0 else FAILED
        except OSError as fault:
            say(f"the program {desk.program} wasn't started: {fault.strerror}.{TO_BUILD} --program names another")
            return FAILED
    return 0


def tell_addresses(server, given):
    """Prints where the page is, on standard output: in a demonstration that with all panes, and one for each site."""
    if given.demo is None:
        first = server.address
        print(first, flush=True)
    else:
        first = f"{server.address}panes.html"
        print(f"{first}  (all sites side by side)", flush=True)
        for number in server.desks:
            print(f"{server.address}?desk={number}  (site {number} alone)", flush=True)
    if given.open:
        open_later(first)


def open_later(address):
    """Opens a page beside all else: some browsers only give back what they were given when they end."""
    threading.Thread(target=open_page, args=[address], daemon=True).start()


def open_page(address):
    if not webbrowser.open(address):
        say("no browser was found: open the address above in one")


async def serve(server, given, tell=tell_addresses):
    """Serves until this program is told to end. `tell` says where the pages are."""
    told = asyncio.Event()
    for each in (signal.SIGINT, signal.SIGTERM, signal.SIGHUP):
        asyncio.get_running_loop().add_signal_handler(each, told.set)
    tell(server, given)
    await told.wait()
    await server.stop()


async def run(given, room):
    audience, proxy = Audience(), None
    try:
        desks = [own_desk(given, audience)] if given.demo is None else None
    except BadAddress as why:
        say(str(why))
        return USAGE
    if desks is None:
        desks, proxy = demo_desks(given, audience, room)
        proxy.start()
    try:
        server = Server(secrets.token_urlsafe(24), desks, audience, proxy)
        status = await start(desks)
        if not status:
            await server.start(given.port)
            await serve(server, given)
        return status
    except OSError as fault:
        say_unserved(f"port {given.port}", fault, ANOTHER_PORT)
        return FAILED
    finally:
        await asyncio.gather(*(desk.stop() for desk in desks if desk.node))
        if proxy:
            proxy.close()


def main(words=None):
    words = sys.argv[1:] if words is None else words
    if any(word.partition("=")[0] == "--host" for word in words):
        # It takes what is here.
        from page import hosting

        return hosting.main(words)
    if carried.is_carried(words):
        return carried.run(words)
    given = asked(words)
    # The journals of a demonstration go with it.
    room = tempfile.mkdtemp(prefix="draw-") if given.demo is not None else None
    try:
        return asyncio.run(run(given, room))
    except KeyboardInterrupt:
        return BROKEN
    finally:
        if room:
            shutil.rmtree(room, ignore_errors=True)
