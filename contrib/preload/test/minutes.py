"""Sleeps of asyncio of a minute and a little more. Its selector rounds such a time up to a millisecond, and epoll.poll
rounds what that comes to once more: 60.002 s. None comes later, for a poll takes what its timeout asks, whether it finds
something or not. Simulated only; minutes.out is what it says."""
import asyncio
import time

SLEEP, LATEST = 60.0000015, 60.0025


async def main():
    for number in range(5):
        began = time.monotonic()
        await asyncio.sleep(SLEEP)
        took = time.monotonic() - began
        print(f"sleep {number}:", "in time" if SLEEP <= took <= LATEST else f"{took:.6f} s")


asyncio.run(main())
