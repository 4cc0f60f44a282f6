"""CPython's selectors and asyncio, over whatever kernel there is: what happens, and when, in milliseconds."""
import asyncio
import os
import queue
import selectors
import socket
import threading
import time

BEGAN = time.monotonic()


def trace(*words):
    print(f"[{round((time.monotonic() - BEGAN) * 1000)} ms]", *words, flush=True)


def select(kind):
    """A selector over a pipe and a socket, whose other ends a thread writes to."""
    reader, writer = os.pipe()
    left, right = socket.socketpair()
    with kind() as selector:
        selector.register(reader, selectors.EVENT_READ, "pipe")
        selector.register(left, selectors.EVENT_READ | selectors.EVENT_WRITE, "socket")
        trace(kind.__name__, [(key.data, events) for key, events in selector.select(0.2)])
        selector.modify(left, selectors.EVENT_READ, "socket")
        trace("nothing", selector.select(0.2))

        def write():
            time.sleep(0.2)
            os.write(writer, b"abc")
            time.sleep(0.2)
            right.close()

        thread = threading.Thread(target=write)
        thread.start()
        trace([(key.data, events) for key, events in selector.select()], os.read(reader, 10))
        trace([(key.data, events) for key, events in selector.select()], left.recv(10))
        thread.join()
        os.close(writer)
    os.close(reader)
    left.close()


def take_turns():
    """A wait with a time and a sleep, each in a thread of its own: the shorter one ends first."""

    def sleep():
        time.sleep(0.4)
        trace("slept")

    thread = threading.Thread(target=sleep)
    thread.start()
    trace("event", threading.Event().wait(0.2))
    thread.join()
    try:
        queue.Queue().get(timeout=0.3)
    except queue.Empty:
        trace("empty")


async def tick(name, seconds):
    for turn in range(3):
        await asyncio.sleep(seconds)
        trace("tick", name, turn)
    return name


async def talk():
    """Streams over a socket pair: lines there and back."""
    left, right = socket.socketpair()

    async def answer():
        reader, writer = await asyncio.open_connection(sock=right)
        while line := await reader.readline():
            await asyncio.sleep(0.2)
            writer.write(line.upper())
            await writer.drain()
        writer.close()

    server = asyncio.create_task(answer())
    reader, writer = await asyncio.open_connection(sock=left)
    for word in (b"one\n", b"two\n"):
        writer.write(word)
        trace("answer", await reader.readline())
    writer.close()
    await server


async def pipes():
    """A pipe by connect_read_pipe, written by another thread."""
    loop = asyncio.get_running_loop()
    reader, writer = os.pipe()
    stream = asyncio.StreamReader()
    protocol = asyncio.StreamReaderProtocol(stream)
    transport, _ = await loop.connect_read_pipe(lambda: protocol, os.fdopen(reader, "rb", 0))

    def write():
        time.sleep(0.2)
        os.write(writer, b"from a thread")
        os.close(writer)

    await loop.run_in_executor(None, write)
    trace("pipe", await stream.read())
    transport.close()


async def main():
    loop = asyncio.get_running_loop()
    trace(type(loop).__name__, await asyncio.gather(tick("a", 0.35), tick("b", 0.2)))
    try:
        await asyncio.wait_for(asyncio.sleep(10), 0.25)
    except asyncio.TimeoutError:
        trace("too late")
    woken = asyncio.Event()

    def wake():
        time.sleep(0.3)
        loop.call_soon_threadsafe(woken.set)

    thread = threading.Thread(target=wake)
    thread.start()
    await woken.wait()
    thread.join()
    trace("woken")
    await talk()
    await pipes()


for each in (selectors.EpollSelector, selectors.PollSelector, selectors.SelectSelector):
    select(each)
take_turns()
asyncio.run(main())
