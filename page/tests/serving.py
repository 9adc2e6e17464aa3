"""What tests of the server share: a server over stand-ins, a client that knows its token, and bare connections."""

import asyncio
import json

import aiohttp

from page.audience import Audience
from page.desk import Desk
from page.server import Server
from page.tests.places import PATIENCE, WithStandIn

TOKEN = "a-token-of-thirty-two-characters"
ROW = "rect 1.1 in - at 0 0 size 1 1 stroke 000000 fill none width 1"


async def rest_of(reader):
    """What still comes. A connection that is closed over bytes that nobody read is reset, and has come to its end as well."""
    rest = b""
    try:
        while piece := await reader.read(65_536):
            rest += piece
    except ConnectionResetError:
        pass
    return rest


class Socket:
    """A page's socket, and all that it was told so far."""

    def __init__(self, socket):
        self.socket, self.told, self.count = socket, [], 0

    async def next(self, wanted, seconds=PATIENCE):
        """The next message that a call says yes to. Raises `AssertionError` where the socket is closed before."""
        while True:
            message = await asyncio.wait_for(self.socket.receive(), seconds)
            if message.type != aiohttp.WSMsgType.TEXT:
                raise AssertionError(f"the socket was closed: {message}")
            fields = json.loads(message.data)
            self.told.append(fields)
            if wanted(fields):
                return fields

    async def kind(self, kind):
        return await self.next(lambda fields: fields["is"] == kind)

    async def ask(self, do, desk=1, **fields):
        """Asks for something, and gives the answer to that."""
        self.count += 1
        name = self.count
        await self.socket.send_str(json.dumps({"do": do, "desk": desk, "id": name, **fields}))
        return await self.next(lambda told: told.get("id") == name and told["is"] in ("answers", "reply"))

    async def batch(self, *lines):
        return (await self.ask("batch", lines=list(lines)))["answers"]


class WithServer(WithStandIn):
    """A server over one desk, which polls only when something was typed."""

    demo = None

    async def asyncSetUp(self):
        await super().asyncSetUp()
        self.script(show=[ROW], refused={"raise 9.1": "NoObject"})
        self.audience = Audience()
        self.desk = Desk(1, self.command(), self.journal, self.audience, 7, 1000)
        self.server = Server(TOKEN, [self.desk], self.audience, self.demo)
        await self.desk.start()
        self.addAsyncCleanup(self.desk.stop)
        await self.server.start(0)
        self.addAsyncCleanup(self.server.stop)
        self.here = f"127.0.0.1:{self.server.port}"
        self.client = aiohttp.ClientSession()
        self.addAsyncCleanup(self.client.close)

    async def get(self, path, method="GET", body=None, **headers):
        """The status, the body and the headers of an answer. A header that is `None` is left out."""
        given = {name.replace("_", "-"): value for name, value in headers.items() if value is not None}
        async with self.client.request(method, f"http://{self.here}{path}", headers=given, data=body) as answer:
            return answer.status, await answer.read(), answer.headers

    async def status(self, path, **headers):
        return (await self.get(path, **headers))[0]

    async def open(self, path="socket", **headers):
        """A socket with the server's own origin, or with other headers."""
        given = {"Origin": f"http://{self.here}", **{name.replace("_", "-"): value for name, value in headers.items()}}
        given = {name: value for name, value in given.items() if value is not None}
        made = await self.client.ws_connect(f"http://{self.here}/{TOKEN}/{path}", headers=given)
        self.addAsyncCleanup(made.close)
        return Socket(made)

    async def connect(self):
        """A connection without any request."""
        reader, writer = await asyncio.open_connection("127.0.0.1", self.server.port)
        self.addCleanup(writer.close)
        return reader, writer

    async def sent(self, data, seconds=PATIENCE):
        """All that is answered to bytes, until the server closes the connection."""
        reader, writer = await self.connect()
        writer.write(data)
        return await asyncio.wait_for(rest_of(reader), seconds)

    def request(self, path="", *more, host=None, method="GET"):
        """The bytes of a request for a path behind the token."""
        lines = [f"{method} /{TOKEN}/{path} HTTP/1.1", f"Host: {host or self.here}", *more]
        return ("\r\n".join(lines) + "\r\n\r\n").encode()
