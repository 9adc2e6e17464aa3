"""The server behind its gate: hosts, origins, files and headers."""

import re
import socket

import aiohttp

from page.server import STATIC, TYPES
from page.tests.serving import TOKEN, WithServer


class Admission(WithServer):
    async def test_it_is_bound_to_this_machine_alone(self):
        (bound,) = self.server.listening.sockets
        self.assertEqual((bound.family, bound.getsockname()[0]), (socket.AF_INET, "127.0.0.1"))

    async def test_another_host_is_refused(self):
        port = self.server.port
        for host in ("evil.example", f"evil.example:{port}", "127.0.0.1", "127.0.0.1:1", "localhost", f"LOCALHOST.:{port}"):
            self.assertEqual(await self.status(f"/{TOKEN}/", Host=host), 421, host)
            with self.assertRaises(aiohttp.WSServerHandshakeError) as found:
                await self.open(Host=host)
            self.assertEqual(found.exception.status, 421)
        self.assertEqual(await self.status(f"/{TOKEN}/", Host=f"localhost:{port}"), 200)

    async def test_one_host_is_needed(self):
        line = f"GET /{TOKEN}/ HTTP/1.1\r\n"
        for hosts in ((), (self.here, self.here), (self.here, "evil.example"), ("evil.example", self.here)):
            head = line + "".join(f"Host: {host}\r\n" for host in hosts) + "\r\n"
            self.assertRegex(await self.sent(head.encode()), rb"^HTTP/1\.[01] 4(21|00) ", hosts)

    async def test_another_origin_is_refused(self):
        origins = ("http://evil.example", "null", f"https://{self.here}", "http://127.0.0.1:1", "http://localhost", "")
        for origin in origins:
            self.assertEqual(await self.status(f"/{TOKEN}/", Origin=origin), 403, origin)
            with self.assertRaises(aiohttp.WSServerHandshakeError) as found:
                await self.open(Origin=origin)
            self.assertEqual(found.exception.status, 403)
        for site in ("cross-site", "same-site", "x"):
            self.assertEqual(await self.status(f"/{TOKEN}/", Sec_Fetch_Site=site), 403)
        two = (f"Origin: http://{self.here}", "Origin: http://evil.example")
        self.assertTrue((await self.sent(self.request("", *two))).startswith(b"HTTP/1.1 403"))
        for site in ("same-origin", "none"):
            self.assertEqual(await self.status(f"/{TOKEN}/", Sec_Fetch_Site=site), 200)

    async def test_who_followed_a_link_of_another_page_is_asked_whether_to_go_on(self):
        asking = (STATIC / "elsewhere.html").read_bytes()
        for path in ("", "?desk=1", "panes.html", "nothing"):
            status, body, headers = await self.get(f"/{TOKEN}/{path}", Sec_Fetch_Site="cross-site", Sec_Fetch_Dest="document")
            self.assertEqual((status, body), (403, asking), path)
            self.assertEqual(headers["Content-Type"], "text/html; charset=utf-8")
            self.assertIn("frame-ancestors 'none'", headers["Content-Security-Policy"])
        # A frame, a script and whatever else another page loads gets nothing of it.
        for kind in ("iframe", "script", "empty", "image"):
            _, body, _ = await self.get(f"/{TOKEN}/", Sec_Fetch_Site="cross-site", Sec_Fetch_Dest=kind)
            self.assertEqual(body, b"another origin\n", kind)
        status, body, _ = await self.get(f"/{TOKEN}/", Sec_Fetch_Site="cross-site", Sec_Fetch_Dest="document", Host="evil.example")
        self.assertEqual((status, body == asking), (421, False))

    async def test_a_socket_needs_the_origin_and_the_token(self):
        with self.assertRaises(aiohttp.WSServerHandshakeError) as found:
            await self.open(Origin=None)
        self.assertEqual(found.exception.status, 403)
        for path in ("/socket", "/x/socket", f"/{TOKEN}x/socket"):
            with self.assertRaises(aiohttp.WSServerHandshakeError) as found:
                await self.client.ws_connect(f"http://{self.here}{path}", headers={"Origin": f"http://{self.here}"})
            self.assertEqual(found.exception.status, 403)
        self.assertEqual(self.edits(), [])
        self.assertEqual((await (await self.open(Origin=f"http://localhost:{self.server.port}")).kind("hello"))["desk"], 1)

    async def test_a_socket_s_address_without_one_is_no_file(self):
        self.assertEqual(await self.status(f"/{TOKEN}/socket", Origin=f"http://{self.here}"), 400)


class Files(WithServer):
    async def test_the_page_and_its_files_are_given(self):
        self.assertEqual((await self.get(f"/{TOKEN}/"))[1], (STATIC / "index.html").read_bytes())
        files = [file for file in STATIC.rglob("*") if file.suffix in TYPES]
        self.assertGreater(len(files), 3)
        for file in files:
            name = file.relative_to(STATIC).as_posix()
            status, body, headers = await self.get(f"/{TOKEN}/{name}")
            self.assertEqual((status, body), (200, file.read_bytes()), name)
            self.assertEqual(headers["Content-Type"], f"{TYPES[file.suffix]}; charset=utf-8")

    async def test_nothing_else_is(self):
        names = ["../server.py", "..%2fserver.py", "%2e%2e/draw.py", "static/index.html", "index.html/", "nothing", "css"]
        more = ["./index.html", "core//types.js", "/index.html", "tsconfig.json", ".git", "index.html%00", "index.html\\..", "%2f"]
        for name in names + more:
            head = f"GET /{TOKEN}/{name} HTTP/1.1\r\nHost: {self.here}\r\n\r\n"
            answer = await self.sent(head.encode())
            self.assertRegex(answer, rb"^HTTP/1\.1 (404|400|403) ", name)

    async def test_the_headers_of_each_answer(self):
        sockets = f"ws://127.0.0.1:{self.server.port} ws://localhost:{self.server.port}"
        wanted = {
            "default-src": "'none'",
            "script-src": "'self'",
            "style-src": "'self'",
            "connect-src": f"'self' {sockets}",
            "img-src": "'self'",
            "frame-src": "'none'",
            "base-uri": "'none'",
            "form-action": "'none'",
            "frame-ancestors": "'none'",
        }
        for path in ("", "icon.svg", "nothing", "socket"):
            _, _, headers = await self.get(f"/{TOKEN}/{path}")
            parts = [part.strip().partition(" ") for part in headers["Content-Security-Policy"].split(";")]
            self.assertEqual({name: sources for name, _, sources in parts}, wanted, path)
            self.assertEqual(headers["Referrer-Policy"], "no-referrer")
            self.assertEqual(headers["X-Content-Type-Options"], "nosniff")
            self.assertEqual(headers["Cross-Origin-Opener-Policy"], "same-origin")
            self.assertEqual(headers["Cross-Origin-Resource-Policy"], "same-origin")
            self.assertEqual((headers["Cache-Control"], headers["Server"]), ("no-store", "draw"))

    async def test_the_page_loads_nothing_from_elsewhere_and_makes_no_markup_of_text(self):
        for file in STATIC.rglob("*"):
            if file.suffix in TYPES and file.suffix != ".png":
                text = file.read_text()
                addresses = set(re.findall(r"https?://[^\s\"'`<>)]+", text))
                self.assertLessEqual(addresses, {"http://www.w3.org/2000/svg", "http://www.w3.org/1999/xhtml"}, file.name)
                markup = re.findall(r"innerHTML|outerHTML|insertAdjacentHTML|document\.write|\beval\(|new Function\(", text)
                self.assertEqual(markup, [], file.name)
