"""Who is let in before anything is served: heads, their time, their size, and strangers."""

import asyncio
import time
from unittest import mock

from page.gate import MOST_HEAD, MOST_STRANGERS
from page.tests.places import PATIENCE, until
from page.tests.serving import TOKEN, WithServer, rest_of


class Heads(WithServer):
    async def test_the_token_is_needed(self):
        self.assertEqual(await self.status(f"/{TOKEN}/"), 200)
        wrong = ["/", f"/{TOKEN}x/", f"/{TOKEN.upper()}/", "//", "/index.html", "/x/index.html", f"/{TOKEN[:-1]}/", "/%20/"]
        for path in [*wrong, f"/{TOKEN}", f"/{TOKEN}?x", f"/x/{TOKEN}/", f"/?/{TOKEN}/"]:
            self.assertEqual(await self.status(path), 403, path)

    async def test_a_refusal_says_what_to_do_and_has_the_headers(self):
        status, body, headers = await self.get("/an-older-token/")
        self.assertEqual(status, 403)
        self.assertIn(b"Open the address that it printed", body)
        self.assertIn("default-src 'none'", headers["Content-Security-Policy"])
        self.assertEqual((headers["Cache-Control"], headers["Server"]), ("no-store", "draw"))

    async def test_the_address_is_a_path_alone(self):
        for path in (f"http://{self.here}/{TOKEN}/", f"http://evil.example/{TOKEN}/", f"x/{TOKEN}/", "*"):
            answer = await self.sent(f"GET {path} HTTP/1.1\r\nHost: {self.here}\r\n\r\n".encode())
            self.assertTrue(answer.startswith(b"HTTP/1.1 403"), path)

    async def test_tokens_are_compared_in_constant_time(self):
        with mock.patch("page.gate.hmac.compare_digest", return_value=False) as compared:
            self.assertEqual(await self.status(f"/{TOKEN}/"), 403)
        compared.assert_called_once_with(TOKEN.encode(), TOKEN.encode())

    async def test_other_methods_aren_t_there(self):
        for method in ("POST", "PUT", "DELETE", "OPTIONS", "CONNECT", "get"):
            answer = await self.sent(self.request("index.html", f"Origin: http://{self.here}", method=method))
            self.assertTrue(answer.startswith(b"HTTP/1.1 405"), method)

    async def test_a_head_tells_whether_this_run_is_still_there(self):
        for path, status in ((f"/{TOKEN}/", 200), ("/another-token/", 403), (f"/{TOKEN}/socket", 404)):
            found, body, _ = await self.get(path, method="HEAD")
            self.assertEqual((found, body), (status, b""), path)

    async def test_bytes_that_are_no_request_do_no_harm(self):
        for data in (b"GET /\xff\xfe/ HTTP/1.1\r\nHost: \xff\r\n\r\n", b"\x00\xff\r\n\r\n", b"\r\n\r\n", b"GET\r\n\r\n"):
            self.assertTrue((await self.sent(data)).startswith(b"HTTP/1.1 403"), data)
        for line in ("no colon", "Content-Length: x", f"Host: {self.here}"):
            self.assertRegex(await self.sent(self.request("", line)), rb"^HTTP/1\.[01] 400 ", line)
        self.assertEqual(await self.status(f"/{TOKEN}/"), 200)

    async def test_the_head_is_bounded(self):
        for data in (b"GET /" + b"a" * MOST_HEAD, self.request("", *[f"X-A: {'b' * 1000}"] * 20)):
            self.assertTrue((await self.sent(data)).startswith(b"HTTP/1.1 431"))
        self.assertTrue((await self.sent(self.request("", f"X-A: {'b' * 7000}"))).startswith(b"HTTP/1.1 200"))

    async def test_a_head_may_come_in_pieces(self):
        reader, writer = await self.connect()
        for byte in self.request("icon.svg"):
            writer.write(bytes([byte]))
            await writer.drain()
        self.assertTrue((await rest_of(reader)).startswith(b"HTTP/1.1 200"))

    async def test_what_follows_a_head_is_no_second_request(self):
        smuggled = self.request("icon.svg")
        for more in ((), (f"Content-Length: {len(smuggled)}",), ("Transfer-Encoding: chunked",), ("Connection: keep-alive",)):
            answer = await self.sent(self.request("", *more) + smuggled)
            self.assertEqual(answer.count(b"HTTP/1.1 "), 1, more)
            self.assertNotIn(b"<svg", answer)

    async def test_what_follows_later_is_none_either(self):
        reader, writer = await self.connect()
        writer.write(self.request("", "Connection: keep-alive"))
        answer = await reader.readuntil(b"\r\n")
        writer.write(self.request("icon.svg"))
        answer += await rest_of(reader)
        self.assertEqual(answer.count(b"HTTP/1.1 "), 1)
        self.assertNotIn(b"<svg", answer)


class Strangers(WithServer):
    async def test_who_is_silent_is_let_go(self):
        with mock.patch("page.gate.PATIENCE", 0.3):
            silent, _ = await self.connect()
            slow, writer = await self.connect()
            began = time.monotonic()
            gone = asyncio.gather(rest_of(silent), rest_of(slow))
            while not gone.done() and time.monotonic() - began < PATIENCE:
                # A byte now and then is no reason to wait for longer.
                writer.write(b"G")
                await asyncio.sleep(0.02)
            self.assertTrue(gone.done())
            self.assertEqual(await gone, [b"", b""])

    async def test_five_seconds_are_given(self):
        from page import gate

        self.assertEqual(gate.PATIENCE, 5)

    async def test_strangers_are_bounded_and_lock_nobody_out(self):
        page = await self.open()
        # None of them is let go for its time alone.
        with mock.patch("page.gate.PATIENCE", 1000):
            held = [await self.connect() for _ in range(MOST_STRANGERS + 20)]
            await until(lambda: len(self.server.strangers.waiting) == MOST_STRANGERS)
            first = [await asyncio.wait_for(rest_of(reader), PATIENCE) for reader, _ in held[:20]]
        self.assertEqual(first, [b""] * 20)
        self.assertEqual(await self.status(f"/{TOKEN}/"), 200)
        other = await self.open()
        for each in (page, other):
            self.assertEqual((await each.batch("undo"))[0][:3], "ok ")

    async def test_strangers_hold_little_memory(self):
        held = [await self.connect() for _ in range(10)]
        for _, writer in held:
            writer.write(b"GET /" + b"a" * (MOST_HEAD - 5))
        gates = await until(lambda: list(self.server.strangers.waiting) if len(self.server.strangers.waiting) == 10 else None)
        await until(lambda: all(len(gate.data) == MOST_HEAD for gate in gates))
        for _, writer in held:
            writer.write(b"a" * 1_000_000)
        await until(lambda: not self.server.strangers.waiting)
        self.assertEqual([len(gate.data) for gate in gates], [0] * 10)
        self.assertEqual(await self.status(f"/{TOKEN}/"), 200)

    async def test_strangers_who_leave_make_room(self):
        held = [await self.connect() for _ in range(10)]
        await until(lambda: len(self.server.strangers.waiting) == 10)
        for _, writer in held:
            writer.close()
        await until(lambda: not self.server.strangers.waiting)
