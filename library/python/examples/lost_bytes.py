"""Two faults of event loops that hang by luck under Linux, and each time here.

    PYTHONPATH=library/python python3 library/python/examples/lost_bytes.py              # on Nippersage
    PYTHONPATH=library/python python3 library/python/examples/lost_bytes.py --linux 200  # on this machine's kernel

A peer writes "ping" three times. A loop waits, reads 4 bytes at a time, and waits again. Whether it gets a turn between
two writes is luck under Linux: with `--linux N` each loop runs N times, and a line says how often it hung. Here
`explore` tries the orders of their calls. Of a faulty loop it prints the smallest order that it found, of a right one
how many orders there are.
"""

import os
import random
import select
import sys
import threading
import time
from collections import namedtuple

from nippersage import ET, IN, ONESHOT
from nippersage.orders import Env, explore

WRITES = 3
MESSAGE = b"ping"

#: What the loop registers for, what it does with a report, and whether it then arms a one-shot again.
Loop = namedtuple("Loop", "name mask handle rearms")


def read_once(read):
    """Reads what came with the report, as if each write had a report of its own."""
    return read()


def read_all(read):
    """Reads until EAGAIN, so that nothing is left and the next write is an edge."""
    got = b""
    while True:
        try:
            got += read()
        except BlockingIOError:
            return got


LOOPS = [
    Loop("edge-triggered, reads once (faulty)", IN | ET, read_once, False),
    Loop("edge-triggered, reads until EAGAIN (right)", IN | ET, read_all, False),
    Loop("one-shot, not armed again (faulty)", IN | ONESHOT, read_all, False),
    Loop("one-shot, armed again by MOD (right)", IN | ONESHOT, read_all, True),
]


def orders(loop):
    """The result of the exploration of one loop and its peer."""

    def setup(kernel):
        reader, writer = kernel.pipe()
        instance = kernel.epoll()
        kernel.add(instance, reader, loop.mask)
        return Env(reader=reader, writer=writer, instance=instance)

    def turn(t, e):
        while True:
            t.wait(e.instance, timeout=None)
            loop.handle(lambda: t.read(e.reader, len(MESSAGE)))
            if loop.rearms:
                t.mod(e.instance, e.reader, loop.mask)

    def peer(t, e):
        for _ in range(WRITES):
            t.write(e.writer, MESSAGE)

    return explore(setup, {"loop": turn, "peer": peer}, daemons=["loop"], how="rising", raises=False)


def run_on_linux(loop):
    """How many bytes the loop has read once nothing came for a tenth of a second, on this machine's kernel."""
    reader, writer = os.pipe()
    os.set_blocking(reader, False)
    got = b""

    def peer():
        for _ in range(WRITES):
            time.sleep(random.random() / 5_000)
            os.write(writer, MESSAGE)

    with select.epoll() as instance:
        instance.register(reader, loop.mask)
        thread = threading.Thread(target=peer)
        thread.start()
        while len(got) < WRITES * len(MESSAGE) and instance.poll(0.1):
            got += loop.handle(lambda: os.read(reader, len(MESSAGE)))
            if loop.rearms:
                instance.modify(reader, loop.mask)
        thread.join()
    os.close(reader)
    os.close(writer)
    return len(got)


def print_here():
    """For each loop the order that fails and why, or that none does."""
    for loop in LOOPS:
        result = orders(loop)
        print(loop.name)
        if result.failure:
            print(f"  {result.failure.order}: {result.failure.why}")
        elif result.whole:
            print(f"  none of all {result.runs} orders hangs")
        else:
            print(f"  {result}")


def print_linux(runs):
    """A line for each loop: in how many runs it missed bytes."""
    for loop in LOOPS:
        missed = sum(run_on_linux(loop) < WRITES * len(MESSAGE) for _ in range(runs))
        print(f"{loop.name}: {missed} of {runs} runs hung")


if __name__ == "__main__":
    if sys.argv[1:2] == ["--linux"]:
        print_linux(int(sys.argv[2]))
    else:
        print_here()
