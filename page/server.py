"""The bridge between pages and desks: HTTP and sockets on 127.0.0.1, for those who know the token of this run."""

import asyncio
import logging
import re
import ssl
from dataclasses import dataclass
from pathlib import Path

from aiohttp import web
from aiohttp.http_exceptions import HttpProcessingError

from page.gate import Gate, Porch, Strangers
from page.placed import CALLED
from page.talk import Talk

HERE = "127.0.0.1"
STATIC = Path(__file__).resolve().parent / "static"
TYPES = {".html": "text/html", ".css": "text/css", ".js": "text/javascript", ".svg": "image/svg+xml", ".png": "image/png"}
# What stands in the place of a page to which another page led.
ELSEWHERE = "elsewhere.html"
# The file that says how this program is called, as in a checkout.
NAMING = "core/called.js"
# The name of a file of the page: words with `/` between them, none of which begins with a full stop.
NAME = re.compile(r"[a-zA-Z0-9_-][a-zA-Z0-9_.-]*(/[a-zA-Z0-9_-][a-zA-Z0-9_.-]*)*")
# A gesture over thousands of objects is one message.
MOST_MESSAGE = 4 << 20
BACKLOG = 64
# The code with which a socket is closed where another page has what its token is for.
TAKEN = 4002
USUAL = {"http": 80, "https": 443}
# So many seconds a page has to answer that this program ends.
FAREWELL = 3
HEADERS = {
    "Server": "draw",
    "Referrer-Policy": "no-referrer",
    "X-Content-Type-Options": "nosniff",
    "Cross-Origin-Opener-Policy": "same-origin",
    "Cross-Origin-Resource-Policy": "same-origin",
    "Cache-Control": "no-store",
}

# What goes wrong in this program is written to standard error, and what is wrong with a request isn't.
LOG = logging.getLogger("page.server")


def is_own_fault(record):
    return not (record.exc_info and isinstance(record.exc_info[1], HttpProcessingError))


LOG.addFilter(is_own_fault)


@dataclass(frozen=True)
class Place:
    """Where a server is reached: the names by which requests may call it, without the port, the first of which stands in its
    address; the address at which it listens; how TLS is spoken, if it is; and after how many seconds of silence a socket is asked
    whether it is still there, if it is."""

    names: tuple = (HERE, "localhost")
    bound: str = HERE
    tls: ssl.SSLContext = None
    heartbeat: float = None

    @property
    def scheme(self):
        return "https" if self.tls else "http"

    def hosts(self, port):
        """What requests may have for a host. A port that the scheme has anyway isn't named by browsers."""
        named = {f"{name}:{port}" for name in self.names}
        return named | set(self.names) if port == USUAL[self.scheme] else named


def policy(sockets, frames):
    """What a page may load: its own files and its own socket, and no script or style that stands in the page itself."""
    return (
        f"default-src 'none'; script-src 'self'; style-src 'self'; connect-src 'self' {' '.join(sockets)}; img-src 'self'; "
        f"frame-src {frames}; base-uri 'none'; form-action 'none'; frame-ancestors {frames}"
    )


class Server:
    """The server of one run. Its address has the token in it."""

    # Whether one token is for one page at a time.
    is_single = False

    def __init__(self, token, desks, audience, demo=None, place=Place()):
        """`demo` is the proxy of a demonstration, where there is one."""
        self.token, self.audience, self.demo, self.place = token, audience, demo, place
        self.desks = {desk.number: desk for desk in desks}
        for desk in desks:
            desk.is_demo, desk.desks = demo is not None, list(self.desks)
        # The desks behind each token, and the tokens that a page has open.
        self.doors, self.opened = {token: self.desks}, set()
        self.port, self.hosts, self.origins = None, set(), set()
        self.headers, self.strangers, self.talks = dict(HEADERS), Strangers(), set()
        self.listening = self.runner = None

    @property
    def address(self):
        return self.address_of(self.token)

    def address_of(self, token):
        return f"{self.place.scheme}://{self.place.names[0]}:{self.port}/{token}/"

    async def start(self, port):
        """Serves at a port, any free one if it is 0. Raises `OSError` where it can't be had."""
        app = web.Application(middlewares=[self.admitted])
        app.on_response_prepare.append(self.add_headers)
        app.router.add_get("/{token}/socket", self.give_socket, allow_head=False)
        app.router.add_get("/{token}/{name:.*}", self.give_file)
        self.runner = web.AppRunner(app, logger=LOG, access_log=None, handle_signals=False, lingering_time=0)
        await self.runner.setup()
        loop, place = asyncio.get_running_loop(), self.place
        first = self.porch if place.tls else self.gate
        self.listening = await loop.create_server(first, place.bound, port, backlog=BACKLOG)
        self.port = self.listening.sockets[0].getsockname()[1]
        self.hosts = place.hosts(self.port)
        self.origins = {f"{place.scheme}://{host}" for host in self.hosts}
        # In a demonstration pages of this server stand in frames of one of them.
        frames, scheme = "'self'" if self.demo else "'none'", "wss" if place.tls else "ws"
        self.headers["Content-Security-Policy"] = policy(sorted(f"{scheme}://{host}" for host in self.hosts), frames)

    def gate(self):
        return Gate(list(self.doors), self.strangers, self.runner.server, self.headers)

    def porch(self):
        return Porch(self.place.tls, self.strangers, self.gate)

    async def stop(self):
        """Ends all connections, and tells the pages that listen."""
        self.listening.close()
        self.audience.close()
        if self.talks:
            await asyncio.wait(self.talks, timeout=FAREWELL)
        await self.runner.cleanup()

    @web.middleware
    async def admitted(self, request, handler):
        """Lets a request through whose host and origin are those of this run. The gate has judged its token."""
        hosts = request.headers.getall("Host", [])
        if len(hosts) != 1 or hosts[0] not in self.hosts:
            raise web.HTTPMisdirectedRequest(text="another host\n")
        origins = request.headers.getall("Origin", [])
        if any(origin not in self.origins for origin in origins) or len(origins) > 1:
            raise web.HTTPForbidden(text="another origin\n")
        if request.headers.get("Sec-Fetch-Site", "same-origin") not in ("same-origin", "none"):
            return self.elsewhere(request)
        return await handler(request)

    def elsewhere(self, request):
        """What another page gets. Who followed a link of it is asked, by a page of this address, whether to go on."""
        if request.headers.get("Sec-Fetch-Dest") != "document" or request.path.split("/")[2:] == ["socket"]:
            raise web.HTTPForbidden(text="another origin\n")
        return web.Response(status=403, body=(STATIC / ELSEWHERE).read_bytes(), content_type="text/html", charset="utf-8")

    async def add_headers(self, request, response):
        """Sends the headers of this run with each answer, and ends the connection behind each but that of a socket."""
        response.headers.update(self.headers)
        if not isinstance(response, web.WebSocketResponse):
            response.force_close()
            response.headers["Connection"] = "close"

    async def give_file(self, request):
        """One of the files of the page."""
        name = request.match_info["name"] or "index.html"
        path = STATIC / name
        if not NAME.fullmatch(name) or path.suffix not in TYPES or not path.is_file():
            raise web.HTTPNotFound(text="nothing is there\n")
        body = path.read_bytes()
        if name == NAMING:
            body = body.replace(b"./draw", CALLED.encode())
        return web.Response(body=body, content_type=TYPES[path.suffix], charset="utf-8")

    def desk(self, desks, number):
        """The desk of a number in an address; where there is one alone, or none was named, the first."""
        if number is None or len(desks) == 1:
            return desks[min(desks)]
        desk = desks.get(int(number)) if number.isascii() and number.isdigit() and len(number) < 4 else None
        if desk is None:
            raise web.HTTPNotFound(text="there is no such desk\n")
        return desk

    async def give_socket(self, request):
        """The socket of a page: what it is told of a desk, and what it asks for."""
        if "Origin" not in request.headers:
            raise web.HTTPForbidden(text="a socket is for a page of this address\n")
        token = request.match_info["token"]
        desks = self.doors[token]
        desk = self.desk(desks, request.query.get("desk"))
        # A message that packs much into little would be unpacked, so none is packed.
        socket = web.WebSocketResponse(max_msg_size=MOST_MESSAGE, compress=False, heartbeat=self.place.heartbeat)
        await socket.prepare(request)
        if self.is_single and token in self.opened:
            await socket.close(code=TAKEN)
            return socket
        talk = asyncio.current_task()
        self.talks.add(talk)
        self.opened.add(token)
        try:
            await Talk(socket, desks, self.audience, self.demo).run(desk.number, request.transport.abort)
        finally:
            self.talks.discard(talk)
            self.opened.discard(token)
        return socket
