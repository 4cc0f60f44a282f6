"""Tasks, which make the calls, and the kernel."""

from __future__ import annotations

from datetime import timedelta
from types import TracebackType
from typing import Any, Callable, List, Optional, Sequence, Tuple, Type, Union

from . import _library
from ._library import Library
from ._numbers import FAMILIES, HOWS, Name, Report, Time, Waiter, Watch
from ._numbers import long, masked, name_of, number, octets, one_of, seconds, units, unsigned, within
from ._program import Program

_ADD, _DEL, _MOD = 1, 2, 3
#: The most bytes that `fill` writes at once.
_MOST_FILLED = 1_048_576
_NO_TIME = timedelta()
#: Who is told of each kernel that is made, as a plugin that keeps the histories of failed tests.
watchers: List[Callable[[Kernel], None]] = []


class Task:
    """Who calls: the caller `by` in the process `pid`. Each method is one system call, and one record of the history.

    A method may be told another caller or process for one call. A refusal is an OSError with Linux's number, and
    changes nothing but the history. An OSError is also what `connect` gives that connects, and an error that waited at
    a socket, which is taken by that. Each file behaves as with O_NONBLOCK. A number out of its range is a ValueError,
    and makes no call. A time is a number of seconds or a timedelta, and what is finer than a microsecond is rounded up.
    """

    def __init__(self, backend: Union[Library, Program], by: int, pid: int) -> None:
        self._backend: Any = backend
        self.by = unsigned("by", by)
        self.pid = long("pid", pid)
        self._self = self._backend.who(by, pid)

    def _who(self, by: Optional[int], pid: Optional[int]) -> Any:
        if by is None and pid is None:
            return self._self
        caller = self.by if by is None else unsigned("by", by)
        return self._backend.who(caller, self.pid if pid is None else long("pid", pid))

    def task(self, by: int, pid: Optional[int] = None) -> Task:
        """Another task of the same kernel. Its process is this one's if none is told."""
        return Task(self._backend, by, self.pid if pid is None else pid)

    def pipe(self, cloexec: bool = False, *, by: Optional[int] = None, pid: Optional[int] = None) -> Tuple[int, int]:
        """The read end and the write end of a new pipe."""
        return self._backend.pipe(self._who(by, pid), bool(cloexec))

    def socketpair(
        self, cloexec: bool = False, *, by: Optional[int] = None, pid: Optional[int] = None,
    ) -> Tuple[int, int]:
        """The two ends of a new pair of Unix stream sockets."""
        return self._backend.socketpair(self._who(by, pid), bool(cloexec))

    def socket(
        self, family: str, cloexec: bool = False, *, by: Optional[int] = None, pid: Optional[int] = None,
    ) -> int:
        """A new socket, of "tcp" or "unix", which has no connection and no name."""
        return self._backend.socket(self._who(by, pid), one_of("family", family, FAMILIES), bool(cloexec))

    def eventfd(
        self, init: int = 0, semaphore: bool = False, cloexec: bool = False,
        *, by: Optional[int] = None, pid: Optional[int] = None,
    ) -> int:
        """A new counter that starts at `init`; its values are 8 bytes, the lowest first."""
        return self._backend.eventfd(self._who(by, pid), unsigned("init", init), bool(semaphore), bool(cloexec))

    def timerfd(
        self, clock: int = 1, cloexec: bool = False, *, by: Optional[int] = None, pid: Optional[int] = None,
    ) -> int:
        """A new timer, disarmed. Clocks 0 and 1 are the one simulated clock."""
        return self._backend.timerfd(self._who(by, pid), number("clock", clock), bool(cloexec))

    def plain(self, cloexec: bool = False, *, by: Optional[int] = None, pid: Optional[int] = None) -> int:
        """A file that can't be polled."""
        return self._backend.plain(self._who(by, pid), bool(cloexec))

    def epoll(self, cloexec: bool = False, *, by: Optional[int] = None, pid: Optional[int] = None) -> int:
        """A new instance."""
        return self._backend.epoll(self._who(by, pid), bool(cloexec))

    def add(
        self, ep: int, fd: int, mask: int, data: int = 0, *, by: Optional[int] = None, pid: Optional[int] = None,
    ) -> None:
        """Registers what fd names in the instance ep. `data` comes back in reports, 0 to 2^64 - 1."""
        self._ctl(ep, _ADD, fd, mask, data, by, pid)

    def mod(
        self, ep: int, fd: int, mask: int, data: int = 0, *, by: Optional[int] = None, pid: Optional[int] = None,
    ) -> None:
        """Gives a registration another mask and other data, and arms it again."""
        self._ctl(ep, _MOD, fd, mask, data, by, pid)

    def delete(self, ep: int, fd: int, *, by: Optional[int] = None, pid: Optional[int] = None) -> None:
        """Takes a registration out."""
        self._ctl(ep, _DEL, fd, 0, 0, by, pid)

    def _ctl(
        self, ep: int, act: int, fd: int, mask: int, data: int, by: Optional[int], pid: Optional[int],
    ) -> None:
        who, mask, data = self._who(by, pid), unsigned("mask", mask), long("data", data)
        self._backend.ctl(who, number("ep", ep), act, number("fd", fd), int(mask), data)

    def wait(
        self, ep: int, max: int = 8, timeout: Optional[Time] = 0,
        *, by: Optional[int] = None, pid: Optional[int] = None,
    ) -> Optional[List[Report]]:
        """A wait by hand: at most `max` reports, each a tuple (Mask, data), or None if the caller is parked.

        A `timeout` of 0 never parks, and one of less than 0 or None parks without an end. A caller that is parked makes
        no call but `resume`.
        """
        who = self._who(by, pid)
        found = self._backend.wait(who, number("ep", ep), number("max", max), _timeout(timeout))
        return masked(found) if found else found

    def resume(self, *, by: Optional[int] = None) -> Optional[List[Report]]:
        """What the parked wait of the caller reports, or None if it is still parked."""
        found = self._backend.resume(self._who(by, None))
        return masked(found) if found else found

    def epoll_wait(
        self, ep: int, max: int = 8, timeout: Optional[Time] = None,
        *, by: Optional[int] = None, pid: Optional[int] = None,
    ) -> List[Report]:
        """A wait by itself, which comes back when it has ended: at most `max` reports.

        Other threads may use the kernel meanwhile. As soon as all that are inside of a call sleep in such waits, the
        clock goes on to the next moment at which something happens. So a wait for an hour comes back at once if nobody
        does anything. EDEADLK if nothing can end it, and its text says who waited at what. Then the caller is not
        parked any more: the library has ended its wait by events of its own, which are in the history. Only if its
        instance is ready, or there is no room for an eventfd, it is still parked, and ends its wait by `resume`. A
        thread that is between two calls is waited for if it takes part (`Kernel.take_part`). It needs the library.
        """
        who = self._who(by, pid)
        return masked(self._backend.epoll_wait(who, number("ep", ep), number("max", max), _timeout(timeout)))

    def read(self, fd: int, n: int, *, by: Optional[int] = None, pid: Optional[int] = None) -> bytes:
        """At most n bytes; b"" at the end of a stream."""
        return self._backend.read(self._who(by, pid), number("fd", fd), unsigned("n", n))

    def write(self, fd: int, data: bytes, *, by: Optional[int] = None, pid: Optional[int] = None) -> int:
        """How many of the bytes were taken. A kernel that is a program takes some 32,000 bytes at once: see `fill`."""
        given = data if type(data) is bytes else octets("data", data)
        return self._backend.write(self._who(by, pid), number("fd", fd), given)

    def fill(self, fd: int, byte: int, count: int, *, by: Optional[int] = None, pid: Optional[int] = None) -> int:
        """Writes a byte so many times, at most 1,048,576."""
        byte, count = within("byte", byte, 0, 255), within("count", count, 0, _MOST_FILLED)
        return self._backend.fill(self._who(by, pid), number("fd", fd), byte, count)

    def shutdown(self, fd: int, how: str = "wr", *, by: Optional[int] = None, pid: Optional[int] = None) -> None:
        """Shuts the reading of a socket, "rd", its writing, "wr", or both, "rdwr"."""
        self._backend.shutdown(self._who(by, pid), number("fd", fd), one_of("how", how, HOWS))

    def peek(self, fd: int, n: int, *, by: Optional[int] = None, pid: Optional[int] = None) -> bytes:
        """What a read of a socket would give, at most n bytes, which stay there."""
        return self._backend.peek(self._who(by, pid), number("fd", fd), unsigned("n", n))

    def take_error(self, fd: int, *, by: Optional[int] = None, pid: Optional[int] = None) -> int:
        """The number of the error that waits at a socket, which is taken by this. 0 if none waits."""
        return self._backend.take_error(self._who(by, pid), number("fd", fd))

    def sockname(self, fd: int, *, by: Optional[int] = None, pid: Optional[int] = None) -> Optional[Name]:
        """The name of a socket. None if it has none, as both ends of a socket pair."""
        return self._backend.sockname(self._who(by, pid), number("fd", fd))

    def peername(self, fd: int, *, by: Optional[int] = None, pid: Optional[int] = None) -> Optional[Name]:
        """The name of the socket at the other end. None if that has none. ENOTCONN if there is no connection."""
        return self._backend.peername(self._who(by, pid), number("fd", fd))

    def bind(
        self, fd: int, name: Tuple[str, int], *, by: Optional[int] = None, pid: Optional[int] = None,
    ) -> None:
        """Gives a socket its name, (space, number), as `sockname` tells it. It keeps that until it dies.

        Number 0 asks for any: the lowest from 32,768 to 60,999 that no socket has in this space. A socket of TCP has
        names in "v4" and "v6", else it is EAFNOSUPPORT, and one of Unix in "local", else it is EINVAL. EINVAL if it has
        a name or a connection, or if its connect failed. EADDRINUSE if the name is taken, or number 0 finds none free.
        """
        self._backend.bind(self._who(by, pid), number("fd", fd), name_of(name))

    def listen(self, fd: int, backlog: int, *, by: Optional[int] = None, pid: Optional[int] = None) -> None:
        """Makes a socket listen at its name from now on. Then it shows no bit.

        One of TCP without a name gets the lowest number of "v4" that is free, as by a bind of number 0. `backlog` + 1
        connections may wait there. A backlog above 4,096 or below 0 is 4,096. If the socket listens already, only that
        changes. EINVAL for an end of a socket pair, for a socket of Unix without a name, and for one of TCP whose
        connect failed, until the next connect has told so. EADDRINUSE if one of TCP has no name and none is free.
        """
        self._backend.listen(self._who(by, pid), number("fd", fd), number("backlog", backlog))

    def accept(
        self, fd: int, cloexec: bool = False, *, by: Optional[int] = None, pid: Optional[int] = None,
    ) -> int:
        """The connection that waits longest at a listener, by accept4(2).

        No connect gets through yet, so none waits, and it is EAGAIN, a BlockingIOError. Before that come, in this
        order: EBADF, EMFILE, which is told of any file, ENOTSOCK, ENFILE, and EINVAL if the socket doesn't listen.
        """
        return self._backend.accept(self._who(by, pid), number("fd", fd), bool(cloexec))

    def connect(
        self, fd: int, name: Tuple[str, int], *, by: Optional[int] = None, pid: Optional[int] = None,
    ) -> None:
        """Connects a socket to this name. No connect gets through yet: if a socket listens there, it is EINVAL.

        That of Unix changes nothing. It is EINVAL for a name in "v4" or "v6", ECONNREFUSED if nobody listens at the
        name, and else EINVAL, or EISCONN for an end of a socket pair.

        That of TCP is EINPROGRESS, a BlockingIOError, and it has failed when the call returns. Then the socket shows
        IN, OUT, ERR, HUP and RDHUP, and ECONNREFUSED waits there. It is taken by `take_error`, or by a read, peek or
        write of a byte or more. The next connect of any name tells that this one failed: it is ECONNREFUSED, or
        ECONNABORTED if the error was taken. The one after that connects anew. Else it is EAFNOSUPPORT for a name in
        "local", EADDRNOTAVAIL if the socket has no name and none is free, and EINVAL if a socket listens at the name.
        These three change nothing. That of a listener of TCP is EISCONN, whatever the name.
        """
        self._backend.connect(self._who(by, pid), number("fd", fd), name_of(name))

    def settime(
        self, fd: int, value: Time, interval: Time = 0, absolute: bool = False,
        *, by: Optional[int] = None, pid: Optional[int] = None,
    ) -> Tuple[float, float]:
        """Sets a timer to `value` from now, or to that moment, and gives the value and interval before in seconds."""
        who, first, further = self._who(by, pid), units("value", value), units("interval", interval)
        return _setting(self._backend.settime(who, number("fd", fd), first, further, bool(absolute)))

    def gettime(self, fd: int, *, by: Optional[int] = None, pid: Optional[int] = None) -> Tuple[float, float]:
        """The time until the next expiration, 0 if there is no next one, and the interval, in seconds."""
        return _setting(self._backend.gettime(self._who(by, pid), number("fd", fd)))

    def dup(self, fd: int, *, by: Optional[int] = None, pid: Optional[int] = None) -> int:
        """Another descriptor of the same description."""
        return self._backend.dup(self._who(by, pid), number("fd", fd))

    def dup2(self, fd: int, to: int, *, by: Optional[int] = None, pid: Optional[int] = None) -> int:
        """The same under the number `to`, which is closed first."""
        return self._backend.dup2(self._who(by, pid), number("fd", fd), number("to", to))

    def close(self, fd: int, *, by: Optional[int] = None, pid: Optional[int] = None) -> None:
        """Closes a descriptor."""
        self._backend.close(self._who(by, pid), number("fd", fd))

    def fork(self, *, by: Optional[int] = None, pid: Optional[int] = None) -> int:
        """The number of the new process."""
        return self._backend.fork(self._who(by, pid))

    def exec(self, *, by: Optional[int] = None, pid: Optional[int] = None) -> None:
        """Closes the descriptors of the process that have close-on-exec."""
        self._backend.exec(self._who(by, pid))

    def exit(self, *, by: Optional[int] = None, pid: Optional[int] = None) -> None:
        """Ends the process."""
        self._backend.exit(self._who(by, pid))

    def tick(self, time: Time, *, by: Optional[int] = None) -> None:
        """The clock goes on by this time. EINVAL past 1,000,000,000 seconds."""
        self._backend.tick(self._who(by, None), units("time", time))


class Kernel(Task):
    """A kernel in its opening state, and of its tasks the one of caller 0 in process 1.

    `limits` are `Limits`, or six numbers. One that is out of its range is an OSError with EINVAL. `history` is the path
    of a file, made anew, that gets the history, a line for each event: from the library some thousands at a time and the
    rest at the end, from a program as it goes. What the library has written takes no more memory.

    It runs in this process by the library, `LIBRARY`. If there is none, or a `program` is named, it is a program in a
    process of its own, by default `PROGRAM`. Then one thread at a time may use it, and it answers `MOST_CALLS` calls at
    most. Any number of threads may use one in this process, each with a caller of its own.
    """

    def __init__(
        self, limits: Optional[Sequence[int]] = None, program: Optional[str] = None, history: Optional[str] = None,
    ) -> None:
        is_program = program is not None or _library.LIBRARY is None
        super().__init__(Program(limits, program, history) if is_program else Library(limits, history), 0, 1)
        for watcher in watchers:
            watcher(self)

    def __enter__(self) -> Kernel:
        return self

    def __exit__(
        self, kind: Optional[Type[BaseException]], error: Optional[BaseException], trace: Optional[TracebackType],
    ) -> None:
        self.end()

    def end(self) -> int:
        """Ends the kernel, and writes the history that is still to be written. The program's status, else 0."""
        return self._backend.end()

    def now(self) -> float:
        """The simulated clock, in seconds since the kernel began."""
        return seconds(self._backend.now())

    def next_moment(self) -> Optional[float]:
        """The first moment of the clock to which a tick has an effect, in seconds, or None.

        It needs the library, and so do the methods that follow.
        """
        moment = self._backend.next_moment()
        return None if moment is None else seconds(moment)

    def first_marked(self) -> Optional[int]:
        """Of the marked callers the one that was parked first, or None."""
        return self._backend.first_marked()

    def is_parked(self, by: int) -> bool:
        """Whether this caller is parked in a wait."""
        return self._backend.is_parked(unsigned("by", by))

    def is_marked(self, by: int) -> bool:
        """Whether this caller is parked and marked: its wait may have ended, and `resume` tells."""
        return self._backend.is_marked(unsigned("by", by))

    def waiters(self) -> List[Waiter]:
        """The parked callers with their waits, the one that was parked first at the beginning.

        A caller counts until its wait was resumed.
        """
        return self._backend.waiters()

    def deadlock(self) -> List[Waiter]:
        """Those that were parked when EDEADLK was last raised, with their waits. Nobody if it never was."""
        return self._backend.deadlock()

    def watches(self, ep: int, *, pid: Optional[int] = None) -> List[Watch]:
        """The registrations of the instance that a number names, in the order in which they were added.

        It is no call: the history stays, and anybody may ask at any time. EBADF if the number names nothing, or the
        process isn't there, EINVAL if it names no instance.
        """
        return self._backend.watches(self._who(None, pid), number("ep", ep))

    def watches_awaited(self, by: int) -> List[Watch]:
        """The same of the instance at which a caller is parked, whether a number still names it or not.

        EINVAL if the caller isn't parked.
        """
        return self._backend.watches_awaited(unsigned("by", by))

    def take_part(self) -> Part:
        """Says that one thread more takes part, until what comes back has ended.

        While at least so many threads as take part aren't asleep in `epoll_wait`, the clock stands. So a thread that is
        between two calls is waited for. Make one for each thread before the first one starts, and `with part:` in it.
        """
        return Part(self._backend)

    def reserve(self, events: int) -> None:
        """Makes room in the history for so many events more, so that none of them asks for memory for its record."""
        self._backend.reserve(long("events", events))

    def history(self) -> str:
        """The history, a record a line, as the program epaudit reads it."""
        return self._backend.history()

    def check(self) -> None:
        """Makes each event of the history again, and compares.

        OSError with EBADMSG would say that the model doesn't allow it. It can't come of a library that is proved. EINVAL
        comes once a part of the history was written to its file: `audit` judges that.
        """
        self._backend.check()


class Part:
    """A thread that takes part: `Kernel.take_part`."""

    def __init__(self, backend: Any) -> None:
        backend.tasks(1)
        self._backend: Any = backend

    def __enter__(self) -> Part:
        return self

    def __exit__(
        self, kind: Optional[Type[BaseException]], error: Optional[BaseException], trace: Optional[TracebackType],
    ) -> None:
        self.end()

    def end(self) -> None:
        """It takes part no more. A second end does nothing."""
        backend, self._backend = self._backend, None
        if backend is not None:
            backend.tasks(-1)


def _timeout(timeout: Optional[Time]) -> int:
    """A timeout in units, or -1 for none."""
    if timeout == 0:
        return 0
    if timeout is None or timeout == float("inf"):
        return -1
    if isinstance(timeout, str):
        return units("timeout", timeout)  # which refuses it by its name
    is_negative = timeout < _NO_TIME if isinstance(timeout, timedelta) else timeout < 0
    return -1 if is_negative else units("timeout", timeout)


def _setting(times: Tuple[int, int]) -> Tuple[float, float]:
    value, interval = times
    return seconds(value), seconds(interval)
