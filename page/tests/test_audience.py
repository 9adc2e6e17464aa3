"""Pages that listen: whom each hears of, and those that let too much lie."""

import asyncio
import json
import unittest
from unittest import mock

from page.audience import Audience, message
from page.tests.places import until
from page.tests.serving import WithServer


def opening(*kinds):
    return lambda: [message(kind, desk=1) for kind in kinds]


class Listening(unittest.IsolatedAsyncioTestCase):
    async def test_what_is_said_of_no_desk_comes_last_to_a_newcomer(self):
        audience = Audience()
        audience.openings += [(None, opening("link")), (2, opening("other")), (1, opening("hello", "news"))]
        told = [json.loads(text)["is"] for text in audience.join(1).waiting]
        self.assertEqual(told, ["hello", "news", "link"])

    async def test_each_hears_of_its_own_desk_and_of_none(self):
        audience = Audience()
        one, two, both = (audience.join(desk) for desk in (1, 2, None))
        audience.tell("news", desk=1)
        audience.tell("news", desk=2)
        audience.tell("link")
        self.assertEqual([len(each.waiting) for each in (one, two, both)], [2, 2, 3])

    async def test_messages_come_in_turn_and_then_the_end(self):
        audience = Audience()
        listener = audience.join(1)
        waiting = asyncio.create_task(listener.get())
        await asyncio.sleep(0)
        for count in range(3):
            audience.tell("news", count=count)
        audience.close()
        told = [await waiting, await listener.get(), await listener.get()]
        self.assertEqual([json.loads(text)["count"] for text in told], [0, 1, 2])
        self.assertIsNone(await listener.get())
        self.assertEqual(audience.listeners, set())

    async def test_who_lets_too_much_lie_is_let_go_with_all_of_it(self):
        for limit, value in (("MOST_WAITING", 100), ("MOST_CHARACTERS", 3_000)):
            with mock.patch(f"page.audience.{limit}", value):
                audience, gone = Audience(), []
                slow, quick = audience.join(1, lambda: gone.append(True)), audience.join(1)
                for count in range(101):
                    audience.tell("news", desk=1, count=count)
                    await quick.get()
            self.assertEqual((gone, len(slow.waiting), await slow.get()), ([True], 0, None), limit)
            self.assertEqual(audience.listeners, {quick})


class Slow(WithServer):
    async def test_a_page_that_reads_nothing_is_let_go_and_others_go_on(self):
        with mock.patch("page.audience.MOST_CHARACTERS", 1 << 20):
            reader, writer = await self.connect()
            head = ["Upgrade: websocket", "Connection: Upgrade", "Sec-WebSocket-Version: 13"]
            head += ["Sec-WebSocket-Key: AAAAAAAAAAAAAAAAAAAAAA==", f"Origin: http://{self.here}"]
            writer.write(self.request("socket", *head))
            await reader.readuntil(b"\r\n\r\n")
            writer.transport.pause_reading()
            page = await self.open()
            await page.kind("hello")
            await until(lambda: len(self.audience.listeners) == 2)
            text = message("news", desk=1, news=["a" * 100_000])
            for _ in range(400):
                self.audience.spread(text, 1)
                await page.kind("news")
                if len(self.audience.listeners) == 1:
                    break
            self.assertEqual(len(self.audience.listeners), 1)
            await until(lambda: len(self.server.talks) == 1)
            self.assertEqual((await page.batch("undo"))[0][:3], "ok ")
