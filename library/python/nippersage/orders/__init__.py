"""Tries orders of what the callers of one kernel do, and finds one that hangs or loses something.

    from nippersage import ET, IN
    from nippersage.orders import Env, explore

    def setup(kernel):                          # once for each order
        reader, writer = kernel.pipe()
        instance = kernel.epoll()
        kernel.add(instance, reader, IN | ET)
        return Env(reader=reader, writer=writer, instance=instance)

    def loop(t, e):                             # reads once for each report: faulty
        while True:
            t.wait(e.instance, timeout=None)
            t.read(e.reader, 4)

    def peer(t, e):
        for _ in range(2):
            t.write(e.writer, b"ping")

    explore(setup, {"loop": loop, "peer": peer}, daemons=["loop"])

It raises `Failed`, with the calls of the order, who sleeps beside what, and a line that replays it. docs/orders.md says
what is tried and what isn't. It needs the library.
"""

from types import SimpleNamespace as Env

from .._numbers import Watch
from ._doors import BadTask, Caller, NotATask
from ._explore import explore
from ._result import VARIABLE, Failed, Result
from ._schedule import BadSchedule
from ._tasks import Call, Calls
from ._world import NotTheSame, Stuck

__all__ = [
    "explore", "Result", "Failed", "Env", "Caller", "Calls", "Call", "Watch", "BadSchedule", "BadTask", "NotATask",
    "NotTheSame", "Stuck", "VARIABLE",
]
