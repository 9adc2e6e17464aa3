"""Types lines at a page's socket, and prints the drawing: run in the network in which the page is served.

    page_client.py ADDRESS COUNT [LINE ..]      waits until the drawing has so many objects, and prints it as JSON
"""

import asyncio
import json
import sys

import aiohttp

from page.tests.serving import Socket

PATIENCE = 300


async def main(address, count, *lines):
    origin = "/".join(address.split("/")[:3])
    async with aiohttp.ClientSession() as client:
        page = Socket(await client.ws_connect(f"{address}socket", headers={"Origin": origin}))
        desk = (await page.kind("hello"))["desk"]
        if lines:
            print(*(await page.ask("batch", desk=desk, lines=list(lines)))["answers"], file=sys.stderr)
        for _ in range(PATIENCE * 5):
            drawing = (await page.ask("save", desk=desk, form="json"))["result"]
            if len(json.loads(drawing)) >= int(count):
                break
            await asyncio.sleep(0.2)
        print(drawing)


if __name__ == "__main__":
    asyncio.run(main(*sys.argv[1:]))
