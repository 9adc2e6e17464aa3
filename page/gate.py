"""The gate in front of the server: what a connection sends is held back until its head is whole and has the token."""

import asyncio
import hmac

from page.placed import CALLED

# The head of a request has so many bytes at most, and is whole after so many seconds.
MOST_HEAD, PATIENCE = 16_384, 5
# So many connections may be without a head. One more takes the place of the one that waits for longest.
MOST_STRANGERS = 64
END = b"\r\n\r\n"
METHODS = (b"GET", b"HEAD")
OTHER_TOKEN = f"This address has another token than the one that {CALLED} printed last. Open the address that it printed.\n"


def refusal(status, text, headers):
    """The bytes of an answer to who isn't let in."""
    body = text.encode()
    fields = {**headers, "Content-Type": "text/plain; charset=utf-8", "Content-Length": len(body), "Connection": "close"}
    head = "".join(f"{name}: {value}\r\n" for name, value in fields.items())
    return f"HTTP/1.1 {status}\r\n{head}\r\n".encode() + body


class Strangers:
    """The connections that weren't let in yet, the one that waits for longest first."""

    def __init__(self):
        self.waiting = {}

    def come(self, gate):
        if len(self.waiting) >= MOST_STRANGERS:
            next(iter(self.waiting)).let_go()
        self.waiting[gate] = None

    def leave(self, gate):
        self.waiting.pop(gate, None)


class Gate(asyncio.Protocol):
    """One connection. It has one request: what follows the head of that is never read."""

    def __init__(self, tokens, strangers, handler, headers):
        """`handler` makes the protocol that takes a connection which was let in. `headers` are those of refusals."""
        self.tokens, self.strangers, self.handler, self.headers = [each.encode() for each in tokens], strangers, handler, headers
        self.data, self.transport, self.late = bytearray(), None, None

    def connection_made(self, transport):
        self.transport = transport
        self.strangers.come(self)
        self.late = asyncio.get_running_loop().call_later(PATIENCE, self.let_go)
        # Behind a handshake what was sent may be there already.
        if self.data:
            self.judge()

    def data_received(self, data):
        if self.transport is None:
            self.data += data
        elif self.late is not None:
            self.data += data
            self.judge()

    def judge(self):
        """Lets the connection in, refuses it, or waits for more."""
        if self.is_refused():
            return
        end = self.data.find(END)
        if end >= 0:
            self.let_in(bytes(self.data[: end + len(END)]))

    def is_refused(self):
        """Whether what is there already tells that this one isn't let in, and is answered."""
        line = self.data.partition(b"\r\n")[0]
        if len(self.data) > MOST_HEAD:
            self.refuse("431 Request Header Fields Too Large", "The head is too long.\n")
        elif len(line) < len(self.data) and not self.has_token(bytes(line)):
            self.refuse("403 Forbidden", OTHER_TOKEN)
        elif len(line) < len(self.data) and line.split(b" ")[0] not in METHODS:
            self.refuse("405 Method Not Allowed", "There is nothing here but GET and HEAD.\n")
        else:
            return False
        return True

    def has_token(self, line):
        """Whether the path in the first line of a request begins with a token."""
        words = line.split(b" ")
        parts = words[1].split(b"/") if len(words) == 3 else []
        # All are compared, so that the time tells nothing of which was nearer.
        return len(parts) > 2 and not parts[0] and any([hmac.compare_digest(parts[1], token) for token in self.tokens])

    def refuse(self, status, text):
        self.transport.write(refusal(status, text, self.headers))
        self.let_go()

    def let_go(self):
        """Ends a connection, whatever it still sends."""
        self.forget()
        self.transport.close()

    def forget(self):
        self.strangers.leave(self)
        if self.late:
            self.late.cancel()
        self.late, self.data = None, bytearray()

    def let_in(self, head):
        """Hands the connection on, with the head and nothing that came behind it."""
        self.forget()
        handler = self.handler()
        self.transport.set_protocol(handler)
        handler.connection_made(self.transport)
        handler.data_received(head)

    def connection_lost(self, fault):
        self.forget()


class Porch(asyncio.Protocol):
    """One connection before the gate, where TLS is spoken: it is a stranger until its handshake is done."""

    def __init__(self, context, strangers, gate):
        """`gate` makes the gate to which the connection is led."""
        self.context, self.strangers, self.gate = context, strangers, gate
        self.transport = self.greeting = None

    def connection_made(self, transport):
        self.transport = transport
        self.strangers.come(self)
        # What comes is the handshake's.
        transport.pause_reading()
        self.greeting = asyncio.get_running_loop().create_task(self.greet())

    async def greet(self):
        loop, gate, limit = asyncio.get_running_loop(), self.gate(), {"ssl_handshake_timeout": PATIENCE}
        try:
            led = await loop.start_tls(self.transport, gate, self.context, server_side=True, **limit)
        except (OSError, asyncio.TimeoutError):
            self.transport.abort()
            return
        finally:
            self.strangers.leave(self)
        # There is none where the other side went away just then.
        if led is not None:
            gate.connection_made(led)

    def let_go(self):
        self.strangers.leave(self)
        self.transport.abort()

    def connection_lost(self, fault):
        self.strangers.leave(self)
