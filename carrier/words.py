"""The words of `./draw` for sessions over a broker."""

import argparse
import importlib.util
import os
import subprocess
import sys
from pathlib import Path

from page.addresses import BadAddress, parts_of
from page.placed import CALLED

BEGIN = ("--found", "--join", "--keep", "--invite", "--retire", "--watch")
# Words of a node with addresses, or of a demonstration.
OTHERS = ("--session", "--site", "--demo")
MOST_PORT = 65_535
# Debian's own Python, which has Debian's packages where another one is called first.
SYSTEM = "/usr/bin/python3"
WANTED = ("paho", "cryptography", "aiohttp")
MISSING = "draw: a session over a broker needs two packages: sudo apt install python3-paho-mqtt python3-cryptography"
HELP = """over a broker, from anywhere (page/README.md):
  --found NAME (--listen HOST:PORT | --broker HOST:PORT [--ca FILE] [--account FILE]) --journal PATH
                                 founds a session, and sits down at its first seat
  --invite [--journal PATH]      prints a link for one person; with --watch the link for all who only look on
  --join LINK --journal PATH     sits down at the seat of a link; LINK may be -, and is then read from standard input
  --keep LINK --journal PATH     keeps a copy at the seat of a link, without a page, for a machine that is always on
  --watch LINK                   shows the drawing to who only looks on
  --retire SEAT [--journal PATH] ends a seat that was left for good, or that was taken by a wrong one
  --journal PATH                 goes on later"""


def is_carried(words):
    """Whether words are of a session over a broker."""
    names = {word.partition("=")[0] for word in words}
    return bool(names & {*BEGIN}) or ("--journal" in names and not names & {*OTHERS} and not {"-h", "--help"} & names)


def has_packages():
    """Whether this Python has the packages for a session over a broker. Where it hasn't and Debian's has, it goes on with that
    one; where neither has, that is said."""
    if not all(importlib.util.find_spec(name) for name in WANTED):
        imports = "; ".join(f"import {name}" for name in WANTED)
        tried, can_be = [SYSTEM, "-c", imports], sys.executable != SYSTEM and os.path.exists(SYSTEM)
        if can_be and subprocess.run(tried, stderr=subprocess.DEVNULL).returncode == 0:
            os.execv(SYSTEM, [SYSTEM, *sys.argv])
        print(MISSING, file=sys.stderr)
        return False
    return True


def run(words):
    """Does what words of a session over a broker ask for, and gives the status."""
    if not has_packages():
        return 1
    from carrier.running import main

    return main(words)


def host(given):
    """Hosts seats of a session over a broker, as `page.hosting` was asked to, and gives the status."""
    if not has_packages():
        return 1
    from carrier.hosting import main

    return main(given)


def without_link(words):
    """The words with which a run goes on once its seat has a file: those that it was given, without its link."""
    left, is_link = [], False
    for word in words:
        if word in ("--join", "--keep") or is_link:
            is_link = not is_link
        elif not word.startswith(("--join=", "--keep=")):
            left.append(word)
    return left


def address(text):
    """HOST:PORT."""
    try:
        parts_of(text)
    except BadAddress as why:
        raise argparse.ArgumentTypeError(str(why)) from None
    return text


def port(text):
    value = int(text) if text.isascii() and text.isdigit() else -1
    if not 0 <= value <= MOST_PORT:
        raise argparse.ArgumentTypeError(f"{text} is no port from 0 to {MOST_PORT}")
    return value


def seat(text):
    value = int(text) if text.isascii() and text.isdigit() else 0
    if not 1 <= value <= 16:
        raise argparse.ArgumentTypeError(f"{text} is no seat from 1 to 16")
    return value


def asked(words, program):
    """What the command line asks for. `program` is the built groupdesign where none is named."""
    about, shape = "Draws together over a broker.", argparse.RawDescriptionHelpFormatter
    parser = argparse.ArgumentParser(prog=CALLED, description=about, epilog=HELP, formatter_class=shape)
    add = parser.add_argument
    add("--found", metavar="NAME", help="found a session with this name")
    add("--listen", metavar="HOST:PORT", type=address, help="start a broker here, which the others reach at this address")
    add("--broker", metavar="HOST:PORT", type=address, help="the broker, which speaks MQTT over TLS")
    add("--ca", metavar="FILE", type=Path, help="the certificate of the authority behind the broker's, in PEM")
    add("--account", metavar="FILE", type=Path, help="two lines, the user and password that all members have there; - asks for them")
    add("--invite", action="store_true", help="print a link for one person")
    add("--join", metavar="LINK", help="sit down at the seat of a link")
    add("--keep", metavar="LINK", help="keep a copy at the seat of a link, without a page")
    add("--watch", metavar="LINK", nargs="?", const="", help="look on by a link for that; with --invite print that link")
    add("--retire", metavar="SEAT", type=seat, help="end a seat that was left for good")
    add("--journal", metavar="PATH", type=Path, help="the file of the node's log; the files of the seat lie beside it")
    add("--port", metavar="N", type=port, default=0, help="the page's port; any free one if 0")
    add("--open", action="store_true", help="open the page in a browser")
    add("--program", metavar="PROGRAM", type=Path, default=program, help="another built groupdesign")
    given = parser.parse_args(words)
    check(parser, given)
    given.demo = None
    return given


def check(parser, given):
    """Refuses words that don't go together."""
    begun = [given.found, given.join, given.keep, given.retire, None if given.invite else given.watch]
    if given.invite + sum(each is not None for each in begun) > 1:
        parser.error("one of --found, --invite, --join, --keep, --retire and --watch at a time")
    if given.invite == bool(given.watch) and given.watch is not None:
        parser.error("--watch takes a link, and behind --invite none")
    places = [given.listen, given.broker]
    if given.found is not None and sum(place is not None for place in places) != 1:
        parser.error("--found takes either --listen HOST:PORT, for a broker of its own, or --broker HOST:PORT")
    if given.found is None and (places != [None, None] or given.ca or given.account):
        parser.error("--listen, --broker, --ca and --account go with --found: later on the seat's file has them")
    if (given.ca or given.account) and not given.broker:
        parser.error("--ca and --account go with --broker")
    if given.watch and given.journal:
        parser.error("--watch takes no --journal: who only looks on keeps nothing")
    if given.journal is None and not given.invite and not given.retire and given.watch is None:
        parser.error("--journal is wanted: the file in which your copy of the drawing is kept")
