"""Members who draw at a steady rate, each over a node of the program: what the measurement and its short form as a test share."""

import asyncio
import time


async def draw_on(member, seconds, rate):
    """Types edits at a rate, and gives how many were taken."""
    start, count = time.monotonic(), 0
    while count < seconds * rate:
        await asyncio.sleep(max(0.0, start + count / rate - time.monotonic()))
        await member.draw(f"create rect {count % 1000} {member.number} 5 5 {member.number} {count}")
        count += 1
    return count


async def drawn_by(members, seconds, rate):
    """Has members draw at the same time, and gives how many edits were taken in all."""
    return sum(await asyncio.gather(*(draw_on(member, seconds, rate) for member in members)))


async def idle_rate(members, seconds):
    """The most messages a second that one of the members sends where nobody draws."""
    before, start = [member.carrier.counts["out"] for member in members], time.monotonic()
    await asyncio.sleep(seconds)
    sent = [member.carrier.counts["out"] - old for member, old in zip(members, before)]
    return max(sent) / (time.monotonic() - start)
