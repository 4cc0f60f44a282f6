"""A small event loop over `selectors`, run on a simulated kernel: a peer that echoes, and a client that gives up.

The loop knows nothing of Nippersage: it takes a selector and a clock. On the real kernel they would be
`selectors.EpollSelector()` and `time.monotonic`. Here an hour takes no time.

    PYTHONPATH=library/python python3 library/python/examples/selector_loop.py
"""

import heapq
from itertools import count
from selectors import EVENT_READ

from nippersage import Kernel, Selector


class Loop:
    def __init__(self, selector, clock):
        self.selector, self.clock = selector, clock
        self.later, self.numbers = [], count()
        self.is_running = True

    def call_later(self, seconds, call):
        heapq.heappush(self.later, (self.clock() + seconds, next(self.numbers), call))

    def run(self):
        while self.is_running:
            timeout = self.later[0][0] - self.clock() if self.later else None
            for key, _ in self.selector.select(timeout):
                key.data()
            while self.later and self.later[0][0] <= self.clock():
                heapq.heappop(self.later)[2]()


def main():
    with Kernel() as kernel, Selector(kernel) as selector:
        loop = Loop(selector, kernel.now)
        client, server = kernel.socketpair()

        def tell(what):
            print(f"{kernel.now():6.0f} s  {what}")

        def echo():
            kernel.write(server, kernel.read(server, 64))

        def answered():
            tell(f"answered {kernel.read(client, 64).decode()}")

        def give_up():
            tell("gives up")
            loop.is_running = False

        selector.register(server, EVENT_READ, echo)
        selector.register(client, EVENT_READ, answered)
        loop.call_later(60, lambda: kernel.write(client, b"ping"))
        loop.call_later(3600, give_up)
        loop.run()


if __name__ == "__main__":
    main()
