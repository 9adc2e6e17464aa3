"""A broker of one's own: Debian's mosquitto as a child, with a certificate, rules and passwords beside the journal."""

import asyncio
import contextlib
import os
import pwd
import shutil
import socket
import subprocess
import time
from pathlib import Path

from carrier import certificate
from carrier.broker import topic, user_of
from carrier.files import write_private
from carrier.roster import SEATS
from carrier.sealing import WATCHERS
from carrier.ways import HERE
from page.addresses import parts_of
from page.placed import CALLED

# Debian has it where only root's PATH leads.
PATH = os.pathsep.join([os.environ.get("PATH", os.defpath), "/usr/sbin"])
PATIENCE = 20
# What the founder alone leaves with the broker, for all.
KEPT = ("roster", "retired", "watched")
MISSING = "mosquitto isn't there. Debian and Ubuntu have it: sudo apt install mosquitto"
CONFIGURATION = """\
# Made by ./draw, and read by the mosquitto that it starts.
listener {port} {address}
certfile {folder}/certificate.pem
keyfile {folder}/key.pem
allow_anonymous false
password_file {folder}/passwords
acl_file {folder}/rules
persistence true
persistence_location {folder}/
autosave_interval 60
max_packet_size 131072
max_queued_messages 2000
log_dest stderr
log_type error
log_type warning
user {user}
"""


class NoBroker(Exception):
    """No broker of one's own runs. The text says why, and what to do."""


def rules(roster):
    """Which seat may write and read what, as mosquitto reads it: each writes as itself alone, and reads what is for it. Who only
    looks on writes nothing."""
    lines = []
    for seat in range(1, SEATS + 1):
        lines.append(f"user {user_of(roster.session, seat)}")
        lines += [f"topic write {topic(roster.session, '+', seat)}", f"topic read {topic(roster.session, seat, '+')}"]
        lines += [f"topic read {topic(roster.session, name, '+')}" for name in ("head", "left")]
        lines.append(f"topic write {topic(roster.session, 'watch', seat, '+')}")
        for name in KEPT:
            lines.append(f"topic {'readwrite' if seat == 1 else 'read'} {topic(roster.session, name)}")
        lines.append("")
    lines.append(f"user {user_of(roster.session, WATCHERS)}")
    for words in (["head", "+"], ["left", "+"], ["watch", "+", "+"], *[[name] for name in KEPT]):
        lines.append(f"topic read {topic(roster.session, *words)}")
    return "\n".join([*lines, ""])


def own_address(host, port):
    """The address of this machine to listen at: that of a host where it is one of here, and else all."""
    try:
        found = socket.getaddrinfo(host.strip("[]"), port, type=socket.SOCK_STREAM)
    except (socket.gaierror, UnicodeError):
        return "0.0.0.0"
    for family, kind, _, _, address in found:
        with socket.socket(family, kind) as tried:
            try:
                tried.bind((address[0], 0))
            except OSError:
                continue
            return address[0]
    return "::" if found[0][0] == socket.AF_INET6 else "0.0.0.0"


def write_new(path, data):
    """Writes a file of mode 0600 that isn't there yet."""
    with open(os.open(path, os.O_WRONLY | os.O_CREAT | os.O_EXCL, 0o600), "wb") as file:
        file.write(data)


class OwnBroker:
    """The broker of a journal's founder. It listens at HOST:PORT."""

    def __init__(self, journal, broker):
        self.folder, self.process = Path(f"{journal}.broker").absolute(), None
        self.host, self.number = parts_of(broker)

    def make_rules(self, roster, passwords):
        """Makes the folder with rules and passwords. Raises `NoBroker`, and `OSError`."""
        program = shutil.which("mosquitto_passwd", path=PATH)
        if program is None:
            raise NoBroker(MISSING)
        self.folder.mkdir(mode=0o700)
        write_new(self.folder / "rules", rules(roster).encode())
        lines = [f"{user_of(roster.session, seat)}:{password}\n" for seat, password in passwords.items()]
        write_new(self.folder / "passwords", "".join(lines).encode())
        # It has salted digests in the place of the passwords from then on.
        done = subprocess.run([program, "-U", self.folder / "passwords"], capture_output=True, text=True)
        if done.returncode:
            raise NoBroker(f"mosquitto_passwd failed: {done.stderr.strip() or done.stdout.strip()}")
        os.chmod(self.folder / "passwords", 0o600)

    def make(self, roster, passwords, days=certificate.DAYS):
        """Makes the folder of the broker, and gives its certificate in DER. Raises as `make_rules`."""
        if shutil.which("mosquitto", path=PATH) is None:
            raise NoBroker(MISSING)
        self.make_rules(roster, passwords)
        shown, pem, key = certificate.made(self.host, days)
        write_new(self.folder / "certificate.pem", pem)
        write_new(self.folder / "key.pem", key)
        return shown

    def configure(self):
        """Writes its configuration, which names the folder where it lies now. Gives the address at which to reach it here."""
        user, address = pwd.getpwuid(os.geteuid()).pw_name, own_address(self.host, self.number)
        words = CONFIGURATION.format(port=self.number, address=address, folder=self.folder, user=user)
        write_private(self.folder / "mosquitto.conf", words)
        return {"0.0.0.0": HERE, "::": "::1"}.get(address, address), self.number

    def start(self):
        """Starts it, and waits until it listens. It ends with the thread that calls this, so also where this program is killed.
        Raises `NoBroker`, and `OSError`."""
        program = shutil.which("mosquitto", path=PATH)
        if program is None:
            raise NoBroker(MISSING)
        here, words = self.configure(), [program, "-c", str(self.folder / "mosquitto.conf")]
        if shutil.which("setpriv"):
            words = ["setpriv", "--pdeathsig", "TERM", *words]
        with open(self.folder / "said", "wb") as said:
            self.process = subprocess.Popen(words, stdin=subprocess.DEVNULL, stdout=said, stderr=said, start_new_session=True)
        end = time.monotonic() + PATIENCE
        while time.monotonic() < end and self.process.poll() is None:
            try:
                with socket.create_connection(here, timeout=1):
                    return
            except OSError:
                time.sleep(0.05)
        self.stop()
        raise NoBroker(f"mosquitto doesn't listen at port {self.number}: {self.last_said()}")

    async def watch(self):
        """Starts it again whenever it has ended, for as long as nobody cancels this."""
        while True:
            await asyncio.sleep(1)
            if self.process and self.process.poll() is not None:
                with contextlib.suppress(NoBroker, OSError):
                    await asyncio.get_running_loop().run_in_executor(None, self.start)

    def last_said(self):
        """What it said last."""
        lines = (self.folder / "said").read_text(errors="replace").strip().split("\n")
        text = lines[-1].partition(": ")[2] or lines[-1] or "it said nothing"
        return f"{text}. Does another broker or {CALLED} have that port?" if "in use" in text else text

    def stop(self):
        """Ends it, which keeps what was left with it."""
        if self.process and self.process.poll() is None:
            self.process.terminate()
            try:
                self.process.wait(PATIENCE)
            except subprocess.TimeoutExpired:
                self.process.kill()
                self.process.wait()
