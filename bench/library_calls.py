"""Makes rounds of three calls, write, wait and read, at one of N eventfds of an instance: library_calls.py N ROUNDS.

`bench/library_calls` runs it.
"""

import os
import sys

sys.path.insert(0, os.path.join(os.path.dirname(os.path.abspath(__file__)), os.pardir, "library", "python"))

from nippersage import IN, Kernel


def main():
    count, rounds = map(int, sys.argv[1:])
    one = (1).to_bytes(8, "little")
    with Kernel() as kernel:
        instance = kernel.epoll()
        for _ in range(count):
            active = kernel.eventfd()
            kernel.add(instance, active, IN, data=active)
        for _ in range(rounds):
            kernel.write(active, one)
            assert kernel.wait(instance) == [(IN, active)]
            kernel.read(active, 8)


if __name__ == "__main__":
    main()
