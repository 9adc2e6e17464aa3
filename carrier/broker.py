"""The line to a broker: MQTT over TLS, outbound alone, by paho. All calls come and go in the loop in which it is made."""

import asyncio
import os
import socket
import sys
import warnings
from dataclasses import dataclass

import paho.mqtt.client as mqtt

from carrier.trust import context, meaning_of

KEEPALIVE = 20
# So many seconds lie between two attempts, at first and at most.
FIRST_PAUSE, LONGEST_PAUSE = 1, 8
# So many messages wait for the network at most. What is more is lost, as datagrams may be.
MOST_WAITING = 2_000
REFUSED = (4, 5, 134, 135)
NOT_TAKEN = "the broker doesn't take this link: it is for another broker, or its seat was taken out there"


def topic(session, *words):
    """The name of a topic of a session, which is its 16 bytes."""
    return "/".join(["gd", session.hex(), *map(str, words)])


def user_of(session, seat):
    """The name by which a broker knows a seat, or those who only look on."""
    return f"{session.hex()}.{seat or 'watch'}"


@dataclass(frozen=True)
class Account:
    """A user and a password at a broker."""

    user: str
    password: str

    def __post_init__(self):
        """Raises `ValueError` where one of both is empty, has a line break, or has more than 255 bytes."""
        for text in (self.user, self.password):
            if not 0 < len(text.encode()) < 256 or any(letter in text for letter in "\r\n\0"):
                raise ValueError("a user and a password have 1 to 255 bytes each, on one line")


def login_of(account, session, seat, keys):
    """How a seat is known to a broker: by the one account of all, where there is such, else by its own."""
    return account or Account(user_of(session, seat), keys.password)


def client_of(name):
    """A client of paho, of either of its interfaces."""
    if hasattr(mqtt, "CallbackAPIVersion"):
        with warnings.catch_warnings():
            # Its first interface is what Debian has had for long, and says of itself that it is old.
            warnings.simplefilter("ignore")
            return mqtt.Client(mqtt.CallbackAPIVersion.VERSION1, client_id=name, clean_session=True)
    return mqtt.Client(client_id=name, clean_session=True)


class Broker:
    """One connection, which is made anew whenever it is lost, until `stop`."""

    def __init__(self, address, account, trust, certificate, came, changed=lambda: None):
        """`address` is host and port, and `account` an `Account`. `came` is called with the topic, the content and whether it was kept there, of each
        message; `changed` where it is connected or isn't any more. `fault` says why not, in words."""
        self.address, self.came, self.changed = address, came, changed
        self.loop, self.up, self.fault, self.subscribed = asyncio.get_running_loop(), False, "", []
        self.is_refused, self.is_over = False, False
        self.client = client = client_of(f"gd-{os.urandom(8).hex()}")
        client.tls_set_context(context(trust, certificate))
        client.username_pw_set(account.user, account.password)
        client.reconnect_delay_set(FIRST_PAUSE, LONGEST_PAUSE)
        client.max_queued_messages_set(MOST_WAITING)
        client.on_connect, client.on_disconnect, client.on_message = self.on_connect, self.on_disconnect, self.on_message
        client.on_connect_fail, client.on_socket_open = self.on_connect_fail, self.on_socket_open

    def start(self, topics):
        """Begins to connect, and hears from then on what comes to these topics."""
        self.subscribed = [(each, 0) for each in topics]
        self.client.connect_async(*self.address, KEEPALIVE)
        self.client.loop_start()

    async def stop(self):
        """Says goodbye, and ends."""
        self.is_over = True
        self.client.disconnect()
        await self.loop.run_in_executor(None, self.client.loop_stop)

    def publish(self, name, content, keep=False):
        """Sends a message where there is a connection. Says whether there is one; it may be lost all the same. `keep` leaves it
        with the broker for who comes later."""
        if not self.up:
            return False
        self.client.publish(name, content, qos=0, retain=keep)
        return True

    # What paho calls, in a thread of its own.

    def hand(self, call, *words):
        """Has something done in the loop. Where that has ended nothing is left to do."""
        if not self.is_over:
            try:
                self.loop.call_soon_threadsafe(call, *words)
            except RuntimeError:
                self.is_over = True

    def on_socket_open(self, client, _, opened):
        opened.setsockopt(socket.IPPROTO_TCP, socket.TCP_NODELAY, 1)

    def on_connect(self, client, _, flags, code, *rest):
        if code == 0:
            client.subscribe(self.subscribed)
            self.hand(self.turn, True, "", False)
        else:
            is_refused = code in REFUSED
            self.hand(self.turn, False, NOT_TAKEN if is_refused else mqtt.connack_string(code), is_refused)

    def on_connect_fail(self, client, _):
        fault = sys.exc_info()[1]
        self.hand(self.turn, False, meaning_of(fault) if fault else "it doesn't answer", False)

    def on_disconnect(self, client, _, code, *rest):
        if code:
            self.hand(self.turn, False, self.fault or "the connection was lost", self.is_refused)

    def on_message(self, client, _, message):
        self.hand(self.came, message.topic, message.payload, bool(message.retain))

    # In the loop.

    def turn(self, up, fault, is_refused):
        """Takes whether there is a connection now, and why not."""
        before = (self.up, self.fault)
        self.up, self.fault, self.is_refused = up, fault, is_refused
        if (up, fault) != before:
            self.changed()
