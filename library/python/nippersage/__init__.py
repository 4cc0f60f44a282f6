"""A simulated Linux kernel for pipes, socket pairs, eventfds, timers and epoll, to test event loops.

    from nippersage import IN, Kernel

    with Kernel() as kernel:
        reader, writer = kernel.pipe()
        instance = kernel.epoll()
        kernel.add(instance, reader, IN, data=7)
        assert kernel.wait(instance, timeout=-1, by=1) is None  # caller 1 waits
        kernel.write(writer, b"abc")
        assert kernel.resume(by=1) == [(IN, 7)]                 # and has been woken

A kernel runs in this process, by the library libnippersage. If there is none it is the program epsim, in a
process of its own. Both answer alike; what needs the library says so.

A call says who makes it by `by` and `pid`; a `Task` has both. Refusals are OSError with Linux's numbers. Times are
seconds or timedeltas, and rounded up to the kernel's unit, a microsecond. docs/calls.md says what each call answers
and refuses. `nippersage.orders` tries orders of what callers do.
"""

from ._kernel import Kernel, Part, Task
from ._library import LIBRARY, library_version
from ._numbers import Ended, Illegal, Limits, Mask, Name, Waiter, Watch
from ._program import AUDITOR, LONGEST_LINE, MOST_CALLS, PROGRAM, audit
from ._selector import Selector

__version__ = "0.2.0"

IN, PRI, OUT, ERR, HUP, RDHUP = Mask.IN, Mask.PRI, Mask.OUT, Mask.ERR, Mask.HUP, Mask.RDHUP
EXCLUSIVE, WAKEUP, ONESHOT, ET = Mask.EXCLUSIVE, Mask.WAKEUP, Mask.ONESHOT, Mask.ET

__all__ = [
    "IN", "PRI", "OUT", "ERR", "HUP", "RDHUP", "EXCLUSIVE", "WAKEUP", "ONESHOT", "ET", "Mask",
    "Kernel", "Task", "Part", "Selector", "Limits", "Name", "Waiter", "Watch", "Ended", "Illegal", "audit",
    "library_version", "LIBRARY", "PROGRAM", "AUDITOR", "MOST_CALLS", "LONGEST_LINE",
]
