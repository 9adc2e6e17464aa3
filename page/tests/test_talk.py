"""The sockets of pages: what they are told, what they ask for, and those of a demonstration."""

import asyncio
import json
import socket
from unittest import mock

import aiohttp

from page.audience import Audience
from page.demo import Proxy
from page.desk import Desk
from page.server import MOST_MESSAGE
from page.tests.places import until
from page.tests.serving import TOKEN, WithServer


class Sockets(WithServer):
    async def test_a_page_is_told_all_there_is_and_then_what_changes(self):
        await until(lambda: self.desk.shown >= 0)
        page = await self.open()
        await page.kind("history")
        kinds = [each["is"] for each in page.told]
        self.assertEqual(kinds[:2], ["hello", "news"])
        self.assertEqual(set(kinds), {"hello", "news", "who", "standing", "parted", "peers", "picture", "history"})
        answer = await page.ask("batch", lines=["undo", "raise 9.1"])
        self.assertEqual((answer["answers"][0][:3], answer["answers"][1], answer["edits"]), ("ok ", "refused: NoObject", 1))
        picture = await page.next(lambda each: each["is"] == "picture" and each["edits"] >= 1)
        self.assertFalse(picture["whole"])

    async def test_any_number_of_pages(self):
        pages = [await self.open() for _ in range(20)]
        for page in pages:
            self.assertEqual((await page.batch("undo"))[0][:3], "ok ")
        for page in pages:
            await page.next(lambda each: each["is"] == "picture" and each["edits"] == 20)

    async def test_a_page_that_comes_again_is_told_what_is_there_and_nothing_that_is_gone(self):
        page = await self.open()
        await until(lambda: self.desk.picture.lines)
        await page.socket.close()
        self.desk.picture.take([b"rect 2.1 in - at 0 0 size 1 1 stroke 000000 fill none width 1", b"end 1"])
        picture = await (await self.open()).kind("picture")
        self.assertEqual((picture["whole"], [item["id"] for item in picture["items"]]), (True, ["2.1"]))

    async def test_a_gesture_is_typed_to_its_end_where_its_page_goes(self):
        page = await self.open()
        gesture = ["create rect 0 0 1 1", *[f"text @{line} a" for line in range(1, 200)]]
        await page.socket.send_str(json.dumps({"do": "batch", "desk": 1, "id": 1, "lines": gesture}))
        await page.socket.close()
        await until(lambda: len(self.edits()) == 202)

    async def test_messages_that_ask_for_nothing_are_answered_so(self):
        page = await self.open()
        rows = ["", "undo", "[]", "7", "null", '{"do": "paint", "id": 5}', '{"do": ["batch"]}', "[" * 5000, '{"do": "batch", "id": []}']
        for text in rows:
            await page.socket.send_str(text)
            self.assertIn("error", await page.kind("reply"), text[:20])
        self.assertIn("asks for one of batch", (await page.ask("paint"))["error"])
        for desk in (0, 2, "1", None, [1], 1.0, True):
            self.assertEqual((await page.ask("batch", desk=desk, lines=["undo"]))["error"], "there is no such desk", desk)
        for lines in (None, "undo", {"0": "undo"}, ["undo"] * 10_001):
            self.assertIn("at most 10000 lines", (await page.ask("batch", lines=lines))["error"])
        for name in (None, 1, ["Moved"], "m" * 101):
            self.assertIn("at most 100 characters", (await page.ask("batch", lines=["undo"], name=name))["error"])
        self.assertEqual(self.edits(), [])
        self.assertEqual((await page.batch("undo"))[0][:3], "ok ")

    async def test_a_message_is_bounded(self):
        page = await self.open()
        with self.assertRaises((AssertionError, ConnectionError)):
            await page.socket.send_str("a" * (MOST_MESSAGE + 1))
            await page.next(lambda each: each["is"] == "reply")
        self.assertEqual(self.edits(), [])
        self.assertEqual((await (await self.open()).batch("undo"))[0][:3], "ok ")

    async def test_a_gesture_is_called_by_its_name(self):
        page, other = await self.open(), await self.open()
        answers = await page.ask("batch", lines=["raise 1.1", "raise 2.1"], name="Raised \u05d0")
        wanted = {"name": "Raised \u05d0", "lines": 1}
        self.assertEqual(answers["turns"]["undo"], answers["turns"]["undo"] | wanted)
        told = await other.kind("turns")
        self.assertEqual((told["undo"], told["redo"]), (answers["turns"]["undo"], None))

    async def test_a_gesture_of_thousands_is_one_message(self):
        page = await self.open()
        answers = await page.batch(*[f"move {clock}.1 1 1" for clock in range(1, 5001)])
        self.assertEqual((len(answers), len(set(answers)), answers[-1][:3]), (5000, 5000, "ok "))

    async def test_bytes_and_compressed_frames_are_no_requests(self):
        page = await self.open(Sec_WebSocket_Extensions="permessage-deflate")
        self.assertFalse(page.socket._compress)
        await page.socket.send_bytes(b'{"do":"batch","desk":1,"id":1,"lines":["undo"]}')
        self.assertEqual((await page.batch("raise 1.1"))[0][:3], "ok ")
        self.assertEqual(self.edits(), ["raise 1.1"])

    async def test_packets_go_out_at_once(self):
        page = await self.open()
        await page.kind("hello")
        made = page.socket.get_extra_info("peername")
        self.assertEqual(made[1], self.server.port)
        (talk,) = [each for each in self.server.runner.server.connections if each.transport]
        there = talk.transport.get_extra_info("socket")
        self.assertEqual(there.getsockopt(socket.IPPROTO_TCP, socket.TCP_NODELAY), 1)

    async def test_a_name_is_kept_and_a_wrong_one_isn_t(self):
        page = await self.open()
        self.assertEqual((await page.ask("name", name=" Ada Lovelace "))["result"], "Ada Lovelace")
        self.assertIn("at most 64 bytes", (await page.ask("name", name="a" * 65))["error"])
        self.assertEqual(self.beside("name").read_text(), "Ada Lovelace")
        with mock.patch("page.names.os.open", side_effect=OSError(28, "No space left on device")):
            self.assertIn("No space left", (await page.ask("name", name="Bob"))["error"])

    async def test_a_fault_of_this_program_is_an_answer_too(self):
        page = await self.open()
        with mock.patch.object(self.desk, "batch", side_effect=KeyError), self.assertLogs("page.talk"):
            self.assertIn("failed", (await page.ask("batch", lines=["undo"]))["error"])

    async def test_again_is_refused_while_the_node_runs(self):
        page = await self.open()
        self.assertIn("it runs already", (await page.ask("again"))["error"])

    async def test_again_says_why_it_failed_and_then_works(self):
        page = await self.open()
        self.desk.node.process.kill()
        await page.kind("end")
        self.assertEqual(await page.batch("undo"), ["refused: Ended"])
        self.script(first="other journal\n", status=11)
        self.assertEqual((await page.ask("again"))["error"], "it ended at once: other journal")
        self.assertEqual(await page.batch("undo"), ["refused: Ended"])
        self.script()
        self.assertEqual((await page.ask("again")).get("error"), None)
        self.assertEqual((await page.batch("undo"))[0][:3], "ok ")

    async def test_what_is_saved_is_what_a_replay_prints(self):
        page = await self.open()
        text = 'rect 1.1 .. text "\u05d0" <b>\nend 1\n'
        self.journal.write_text(text)
        for form in ("text", "json", "events"):
            self.assertEqual((await page.ask("save", form=form))["result"], text)
        self.assertEqual((await page.ask("save", form="log"))["result"], "cmVjdCAxLjEgLi4gdGV4dCAi15AiIDxiPgplbmQgMQo=")
        for form in ("svg", None, "../text", ["text"]):
            self.assertIn("error", await page.ask("save", form=form))

    async def test_without_a_demonstration_there_is_no_link_to_set(self):
        page = await self.open()
        self.assertIn("no demonstration", (await page.ask("link", loss=50))["error"])

    async def test_where_there_is_one_desk_its_number_doesn_t_matter(self):
        for path in ("socket", "socket?desk=1", "socket?desk=7"):
            self.assertEqual((await (await self.open(path)).kind("hello"))["desk"], 1)

    async def test_a_server_that_stops_closes_the_sockets(self):
        page = await self.open()
        await page.kind("history")
        # A slow machine has the time that it needs. The code is what is read, since the socket's own `close_code` goes by its
        # reply too.
        with mock.patch("page.server.FAREWELL", 120):
            stopping = asyncio.create_task(self.server.stop())
            with self.assertRaisesRegex(AssertionError, "CLOSE: 8>, data=4001"):
                await page.next(lambda each: False)
            await stopping
        with self.assertRaises(aiohttp.ClientConnectorError):
            await self.status(f"/{TOKEN}/")


class Demonstration(WithServer):
    async def asyncSetUp(self):
        self.demo = Proxy(2, Audience())
        self.addCleanup(self.demo.close)
        await super().asyncSetUp()
        self.demo.audience = self.audience
        self.audience.openings.append((None, self.demo.opening))
        other = Desk(2, self.command(), f"{self.journal}-2", self.audience, 7, 1000)
        self.server.desks[2] = other

    async def test_its_pages_stand_in_frames_of_its_own(self):
        for path in ("", "panes.html"):
            policy = (await self.get(f"/{TOKEN}/{path}"))[2]["Content-Security-Policy"]
            self.assertIn("frame-src 'self';", policy)
            self.assertTrue(policy.endswith("frame-ancestors 'self'"))

    async def test_a_page_is_told_of_its_own_desk_alone(self):
        page = await self.open("socket?desk=2")
        await page.kind("link")
        self.assertEqual({each.get("desk") for each in page.told}, {2, None})
        other = await self.open("socket?desk=1")
        await other.batch("undo")
        await other.next(lambda each: each["is"] == "picture" and each["edits"] == 1)
        await page.ask("again", desk=1)
        self.assertEqual({each.get("desk") for each in page.told}, {2, None})
        for path in ("socket?desk=3", "socket?desk=x", "socket?desk="):
            with self.assertRaises(aiohttp.WSServerHandshakeError):
                await self.open(path)

    async def test_the_link_is_set_for_all_pages(self):
        pages = [await self.open("socket?desk=1"), await self.open("socket?desk=2")]
        for page in pages:
            self.assertEqual(await page.kind("link"), {"is": "link", "loss": 0, "twice": 0, "delay": 0, "cut": []})
        self.assertIn("from 0 to 100", (await pages[0].ask("link", loss=101))["error"])
        self.assertNotIn("error", await pages[0].ask("link", loss=50, twice=5, cut=[2]))
        wanted = {"is": "link", "loss": 50, "twice": 5, "delay": 0, "cut": [2]}
        self.assertEqual(json.dumps(await pages[1].kind("link")), json.dumps(wanted))
