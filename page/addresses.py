"""The addresses that people give, as the program takes them: numbers with a port, all of IPv4 or all of IPv6."""

import errno
import socket

from page.placed import CALLED

MOST_SITES = 16


class BadAddress(Exception):
    """An address, or the list of them, can't be used. Its text says why, and what to do."""


def parts_of(word):
    """The host and the port of an address. Raises `BadAddress`."""
    host, colon, port = word.rpartition(":")
    if not colon or not host or (":" in host and not (host[0] == "[" and host[-1] == "]")):
        raise BadAddress(f"{word} has no port: each address is HOST:PORT, like 192.168.1.20:7001")
    if not (port.isascii() and port.isdigit() and 1 <= int(port) <= 65_535):
        raise BadAddress(f"{word} has no port from 1 to 65535")
    return host, int(port)


def family_of(words):
    """The kind of all addresses: IPv6 where one is written so, in brackets, and else IPv4."""
    return socket.AF_INET6 if any(word.startswith("[") for word in words) else socket.AF_INET


def is_of_ipv4(host):
    """Whether the host is written in numbers of IPv4."""
    try:
        socket.inet_pton(socket.AF_INET, host)
    except OSError:
        return False
    return True


def numeric(word, family=socket.AF_INET):
    """An address with its host as numbers of that kind. Raises `BadAddress` where no such host is found."""
    host, port = parts_of(word)
    if family == socket.AF_INET6 and is_of_ipv4(host):
        raise BadAddress(f"{word} is an address of IPv4, and another one is of IPv6: give all of one kind")
    try:
        found = socket.getaddrinfo(host.strip("[]"), port, family, socket.SOCK_DGRAM)
    except (socket.gaierror, UnicodeError):
        kind = "IPv6" if family == socket.AF_INET6 else "IPv4"
        raise BadAddress(f"{host} isn't known here by {kind}: is it spelled right? An address in numbers works without names") from None
    number = found[0][4][0]
    return f"[{number}]:{port}" if family == socket.AF_INET6 else f"{number}:{port}"


def looked_up(words, site):
    """The addresses of all sites in numbers. `site` is which of them is here, from 1. Raises `BadAddress`."""
    if not 2 <= len(words) <= MOST_SITES:
        found = "there is 1 address" if len(words) == 1 else f"there are {len(words)} addresses"
        raise BadAddress(f"{found}: 2 to {MOST_SITES} are wanted, one of each site, this one too")
    if not 1 <= site <= len(words):
        raise BadAddress(f"there is no site {site} among {len(words)} addresses")
    family = family_of(words)
    numbers = [numeric(word, family) for word in words]
    for index, number in enumerate(numbers):
        if number in numbers[:index]:
            raise BadAddress(f"{words[index]} stands there twice: each site has an address of its own")
    return numbers


def check_own(word):
    """Tries whether the own address can be had. Raises `BadAddress`."""
    host, port = parts_of(word)
    with socket.socket(family_of([word]), socket.SOCK_DGRAM) as tried:
        try:
            tried.bind((host.strip("[]"), port))
        except OSError as fault:
            raise BadAddress(why_not(fault, host, port)) from None


def why_not(fault, host, port):
    if fault.errno == errno.EADDRNOTAVAIL:
        return (
            f"{host} is no address of this machine, and stands at the place of this site: is --site right? "
            "`hostname -I` prints the addresses that it has; behind a router it is one of these, not the router's"
        )
    if fault.errno == errno.EADDRINUSE:
        asked = f"does a node or {CALLED} run there already?"
        return f"port {port} of {host} is taken: {asked} End it, or take another port at all sites"
    if fault.errno == errno.EACCES:
        return f"port {port} isn't for this user: take one above 1023 at all sites"
    return f"{host}:{port} can't be had: {fault.strerror}"
