"""The library libnippersage as a kernel, by ctypes."""

from __future__ import annotations

import ctypes
import os
import struct
import tempfile
from ctypes import (
    POINTER, byref, c_char, c_char_p, c_int, c_int64, c_long, c_size_t, c_ssize_t, c_uint32, c_uint64, c_void_p,
)
from typing import IO, Any, Callable, Dict, List, Optional, Sequence, Tuple

from ._numbers import FAMILIES, HOWS, SPACES, UNITS, Ended, Limits, Name, Waiter, Watch
from ._numbers import limits_of, refusal, seconds, watch_of

_HERE = os.path.dirname(os.path.abspath(__file__))

_PARKED = -4096
_EINVAL, _EDEADLK = 22, 35
#: Of how many callers EDEADLK tells where they wait, and of how many registrations what is there.
_MOST_TOLD = 8
_CLOEXEC, _SEMAPHORE, _ABSTIME = 0o2000000, 1, 1
_AF_UNIX, _SOCK_STREAM = 1, 1
#: No read gives more bytes: the largest capacity of a pipe or socket.
_MOST_READ = 1_048_576
#: `struct epoll_event`, which Linux packs on x86-64.
_EVENT = struct.Struct("=IQ")


def _find() -> Optional[str]:
    """The library that NIPPERSAGE_LIB names, itself or its folder. If it isn't set, that of the release or repository
    that this folder lies in, or else what the loader finds. None if there is none, or the variable is empty."""
    named = os.environ.get("NIPPERSAGE_LIB")
    if named is not None:
        return os.path.join(named, "libnippersage.so") if os.path.isdir(named) else named or None
    up = os.pardir
    for folder in (_HERE, os.path.join(_HERE, up, up, "lib"), os.path.join(_HERE, up, up, "out")):
        path = os.path.normpath(os.path.join(folder, "libnippersage.so"))
        if os.path.isfile(path):
            return path
    try:
        ctypes.CDLL("libnippersage.so.2")
    except OSError:
        return None
    return "libnippersage.so.2"


#: The library's path, or None: then a kernel is a program.
LIBRARY = _find()


class _Limits(ctypes.Structure):
    _fields_ = [(name, c_uint32) for name in Limits._fields]


class Who(ctypes.Structure):
    """`struct nippersage_task`. It keeps what holds the kernel, so no kernel is freed while a call on it runs."""

    _fields_ = [("kernel", c_void_p), ("caller", c_uint32), ("pid", c_uint64)]
    holder: "_Holder"


class _Timespec(ctypes.Structure):
    _fields_ = [("seconds", c_int64), ("nanoseconds", c_long)]


class _Itimerspec(ctypes.Structure):
    _fields_ = [("interval", _Timespec), ("value", _Timespec)]


class _Name(ctypes.Structure):
    _fields_ = [("space", c_int), ("number", c_uint32)]


class _Waiter(ctypes.Structure):
    _fields_ = [
        ("caller", c_uint32), ("pid", c_uint64), ("epfd", c_int), ("most", c_int), ("has_timeout", c_int),
        ("timeout", _Timespec),
    ]


class _Watch(ctypes.Structure):
    _fields_ = [
        ("fd", c_int), ("events", c_uint32), ("data", c_uint64), ("shown", c_uint32), ("is_armed", c_int),
        ("is_reportable", c_int), ("reported_in", c_uint64), ("reported_to", c_uint32),
    ]


#: One report of a wait: the bits, and the data.
_Report = Tuple[int, int]

#: What each function takes; all but the last few answer an int.
_TAKEN: Dict[str, Tuple[Any, ...]] = {
    "open": (POINTER(_Limits), POINTER(c_void_p)),
    "pipe2": (Who, c_void_p, c_int),
    "socketpair": (Who, c_int, c_int, c_int, c_void_p),
    "eventfd": (Who, c_uint32, c_int),
    "timerfd_create": (Who, c_int, c_int),
    "timerfd_settime": (Who, c_int, c_int, POINTER(_Itimerspec), POINTER(_Itimerspec)),
    "timerfd_gettime": (Who, c_int, POINTER(_Itimerspec)),
    "plain": (Who, c_int),
    "epoll_create1": (Who, c_int),
    "epoll_ctl": (Who, c_int, c_int, c_int, c_char_p),
    "epoll_pwait2": (Who, c_int, c_void_p, c_int, POINTER(_Timespec)),
    "pwait2_start": (Who, c_int, c_void_p, c_int, POINTER(_Timespec)),
    "resume": (Who, c_void_p, c_int),
    "tasks": (c_void_p, c_int),
    "tick": (Who, POINTER(_Timespec)),
    "now": (c_void_p, POINTER(_Timespec)),
    "next_moment": (c_void_p, POINTER(_Timespec)),
    "first_marked": (c_void_p, POINTER(c_uint32)),
    "is_parked": (c_void_p, c_uint32),
    "is_marked": (c_void_p, c_uint32),
    "waiters": (c_void_p, c_void_p, c_int),
    "deadlock": (c_void_p, c_void_p, c_int),
    "watches": (Who, c_int, c_void_p, c_int),
    "watches_awaited": (c_void_p, c_uint32, c_void_p, c_int),
    "shutdown": (Who, c_int, c_int),
    "take_error": (Who, c_int),
    "getsockname": (Who, c_int, POINTER(_Name)),
    "getpeername": (Who, c_int, POINTER(_Name)),
    "socket": (Who, c_int, c_int, c_int),
    "bind": (Who, c_int, _Name),
    "listen": (Who, c_int, c_int),
    "accept4": (Who, c_int, c_int),
    "connect": (Who, c_int, _Name),
    "dup": (Who, c_int),
    "dup2": (Who, c_int, c_int),
    "close": (Who, c_int),
    "execve": (Who,),
    "exit": (Who,),
    "reserve": (c_void_p, c_size_t),
    "history": (c_void_p, c_int),
    "stream": (c_void_p, c_int),
    "check": (c_void_p,),
    "read": (Who, c_int, c_void_p, c_size_t),
    "peek": (Who, c_int, c_void_p, c_size_t),
    "write": (Who, c_int, c_char_p, c_size_t),
    "fork": (Who,),
    "free": (c_void_p,),
    "version": (),
}
_ANSWERED = {
    "read": c_ssize_t, "peek": c_ssize_t, "write": c_ssize_t, "fork": c_int64, "free": None, "version": c_char_p,
}


class _Functions:
    """The functions of the library, by their names without `nippersage_`."""

    def __init__(self, path: str) -> None:
        library = ctypes.CDLL(path)
        for name, taken in _TAKEN.items():
            try:
                function = getattr(library, "nippersage_" + name)
            except AttributeError:
                raise ImportError(f"{path} has no nippersage_{name}: it is older than this package") from None
            function.argtypes = taken
            function.restype = _ANSWERED.get(name, c_int)
            setattr(self, name, function)

    def __getattr__(self, name: str) -> Any:
        raise AttributeError(name)


_loaded: Dict[str, _Functions] = {}


def _load(path: str) -> _Functions:
    if path not in _loaded:
        _loaded[path] = _Functions(path)
    return _loaded[path]


def library_version() -> Optional[str]:
    """The version of the library, and whether it was proved: `0.2.0, proved in logic ..` or `0.2.0, unproved`. None if
    there is no library; a program tells its version by `--version`."""
    return _load(LIBRARY).version().decode() if LIBRARY else None


class _Holder:
    """Frees the kernel when nothing refers to it any more. Until then the file stays open that its history goes to."""

    def __init__(self, functions: _Functions, pointer: int) -> None:
        self.pointer = pointer
        self.file: Optional[IO[bytes]] = None
        self._free = functions.free

    def __del__(self) -> None:
        self._free(self.pointer)


class Library:
    """A kernel in this process. Any thread may call; a call holds no lock of Python's."""

    def __init__(self, limits: Optional[Sequence[int]], history: Optional[str]) -> None:
        assert LIBRARY is not None
        own = limits_of(limits)
        f = self._f = _load(LIBRARY)
        pointer = c_void_p()
        status = f.open(byref(_Limits(*own)), byref(pointer))
        if status < 0:
            raise refusal(-status)
        self._holder = _Holder(f, pointer.value or 0)
        self._most = max(own.watches, 1)
        self._whos: Dict[Tuple[int, int], Who] = {}
        self._rooms: Dict[int, int] = {}
        self._ended = False
        self._path = history
        if history is not None:
            self._holder.file = open(history, "wb")
            self._write_history()

    def end(self) -> int:
        """Ends the kernel for its callers. It is freed once no task refers to it any more."""
        if not self._ended:
            self._ended = True
            if self._holder.file is not None:
                with self._holder.file:
                    self._done(self._f.stream(self._holder.pointer, -1))
            for who in list(self._whos.values()):
                who.kernel = None
        return 0

    def who(self, by: int, pid: int) -> Who:
        who = self._whos.get((by, pid))
        if who is None:
            who = Who(self._pointer(), by, pid)
            who.holder = self._holder
            self._whos[by, pid] = who
        return who

    def _pointer(self) -> int:
        if self._ended:
            raise Ended("the kernel has ended")
        return self._holder.pointer

    def _done(self, result: int) -> int:
        """The result of a function, or its refusal."""
        if result >= 0:
            return result
        if self._ended and result == -_EINVAL:
            raise Ended("the kernel has ended")
        if result == -_EDEADLK:
            raise OSError(_EDEADLK, self._deadlock())
        raise refusal(-result)

    def _deadlock(self) -> str:
        """What EDEADLK says: who waited at what, and what is registered there."""
        told = _some([self._told(it) for it in self.deadlock()], "more wait")
        return f"EDEADLK: no event can end the waits: {'; '.join(told)}"

    def _told(self, waiter: Waiter) -> str:
        registered = self._awaited(waiter)
        if registered is None:
            return str(waiter)
        watched = ", ".join(_some([str(it) for it in registered], "more are registered"))
        return f"{waiter}: {watched}" if watched else f"{waiter}, and nothing is registered there"

    def _awaited(self, waiter: Waiter) -> Optional[List[Watch]]:
        """What is registered where somebody waited, by the number of the instance once it waits no more. None if that
        number is gone, too."""
        for ask in (lambda: self.watches_awaited(waiter.by), lambda: self.watches(self.who(0, waiter.pid), waiter.ep)):
            try:
                return ask()
            except OSError:
                pass
        return None

    def pipe(self, who: Who, cloexec: bool) -> Tuple[int, int]:
        ends = (c_int * 2)()
        self._done(self._f.pipe2(who, ends, _CLOEXEC if cloexec else 0))
        return ends[0], ends[1]

    def socketpair(self, who: Who, cloexec: bool) -> Tuple[int, int]:
        ends = (c_int * 2)()
        kind = _SOCK_STREAM | (_CLOEXEC if cloexec else 0)
        self._done(self._f.socketpair(who, _AF_UNIX, kind, 0, ends))
        return ends[0], ends[1]

    def socket(self, who: Who, family: str, cloexec: bool) -> int:
        kind = _SOCK_STREAM | (_CLOEXEC if cloexec else 0)
        return self._done(self._f.socket(who, FAMILIES[family], kind, 0))

    def eventfd(self, who: Who, init: int, semaphore: bool, cloexec: bool) -> int:
        flags = (_SEMAPHORE if semaphore else 0) | (_CLOEXEC if cloexec else 0)
        return self._done(self._f.eventfd(who, init, flags))

    def timerfd(self, who: Who, clock: int, cloexec: bool) -> int:
        return self._done(self._f.timerfd_create(who, clock, _CLOEXEC if cloexec else 0))

    def plain(self, who: Who, cloexec: bool) -> int:
        return self._done(self._f.plain(who, _CLOEXEC if cloexec else 0))

    def epoll(self, who: Who, cloexec: bool) -> int:
        return self._done(self._f.epoll_create1(who, _CLOEXEC if cloexec else 0))

    def ctl(self, who: Who, ep: int, act: int, fd: int, mask: int, data: int) -> None:
        self._done(self._f.epoll_ctl(who, ep, act, fd, _EVENT.pack(mask, data)))

    def wait(self, who: Who, ep: int, max: int, timeout: int) -> Optional[List[_Report]]:
        most = self._most_of(who, max)
        events = _room(_EVENT.size * most)
        return self._reports(self._f.pwait2_start(who, ep, events, most, _end(timeout)), events)

    def epoll_wait(self, who: Who, ep: int, max: int, timeout: int) -> List[_Report]:
        most = self._most_of(who, max)
        events = _room(_EVENT.size * most)
        return self._reports(self._f.epoll_pwait2(who, ep, events, most, _end(timeout)), events) or []

    def resume(self, who: Who) -> Optional[List[_Report]]:
        most = self._rooms.get(who.caller, 1)
        events = _room(_EVENT.size * most)
        return self._reports(self._f.resume(who, events, most), events)

    def _most_of(self, who: Who, max: int) -> int:
        """How many reports a wait has room for: as many as the library takes. A resumption has room for any wait's."""
        most = max if max < self._most else self._most
        if most > self._rooms.get(who.caller, 1):
            self._rooms[who.caller] = most
        return most

    def _reports(self, result: int, events: Any) -> Optional[List[_Report]]:
        if result == _PARKED:
            return None
        size = self._done(result) * _EVENT.size
        return list(_EVENT.iter_unpack(events[:size]))

    def read(self, who: Who, fd: int, n: int) -> bytes:
        most = n if n < _MOST_READ else _MOST_READ
        room = _room(most)
        return room[: self._done(self._f.read(who, fd, room, most))]

    def peek(self, who: Who, fd: int, n: int) -> bytes:
        most = n if n < _MOST_READ else _MOST_READ
        room = _room(most)
        return room[: self._done(self._f.peek(who, fd, room, most))]

    def write(self, who: Who, fd: int, data: bytes) -> int:
        return self._done(self._f.write(who, fd, data, len(data)))

    def fill(self, who: Who, fd: int, byte: int, count: int) -> int:
        return self.write(who, fd, bytes((byte,)) * count)

    def shutdown(self, who: Who, fd: int, how: str) -> None:
        self._done(self._f.shutdown(who, fd, HOWS[how]))

    def take_error(self, who: Who, fd: int) -> int:
        return self._done(self._f.take_error(who, fd))

    def sockname(self, who: Who, fd: int) -> Optional[Name]:
        return self._name(self._f.getsockname, who, fd)

    def peername(self, who: Who, fd: int) -> Optional[Name]:
        return self._name(self._f.getpeername, who, fd)

    def bind(self, who: Who, fd: int, name: Name) -> None:
        self._done(self._f.bind(who, fd, _name(name)))

    def listen(self, who: Who, fd: int, backlog: int) -> None:
        self._done(self._f.listen(who, fd, backlog))

    def accept(self, who: Who, fd: int, cloexec: bool) -> int:
        return self._done(self._f.accept4(who, fd, _CLOEXEC if cloexec else 0))

    def connect(self, who: Who, fd: int, name: Name) -> None:
        self._done(self._f.connect(who, fd, _name(name)))

    def _name(self, ask: Callable[..., int], who: Who, fd: int) -> Optional[Name]:
        name = _Name()
        return Name(SPACES[name.space], name.number) if self._done(ask(who, fd, byref(name))) else None

    def settime(self, who: Who, fd: int, value: int, interval: int, absolute: bool) -> Tuple[int, int]:
        given = _Itimerspec(_timespec(interval), _timespec(value))
        before = _Itimerspec()
        flags = _ABSTIME if absolute else 0
        self._done(self._f.timerfd_settime(who, fd, flags, byref(given), byref(before)))
        return _setting(before)

    def gettime(self, who: Who, fd: int) -> Tuple[int, int]:
        now = _Itimerspec()
        self._done(self._f.timerfd_gettime(who, fd, byref(now)))
        return _setting(now)

    def dup(self, who: Who, fd: int) -> int:
        return self._done(self._f.dup(who, fd))

    def dup2(self, who: Who, fd: int, to: int) -> int:
        return self._done(self._f.dup2(who, fd, to))

    def close(self, who: Who, fd: int) -> None:
        self._done(self._f.close(who, fd))

    def fork(self, who: Who) -> int:
        return self._done(self._f.fork(who))

    def exec(self, who: Who) -> None:
        self._done(self._f.execve(who))

    def exit(self, who: Who) -> None:
        self._done(self._f.exit(who))

    def tick(self, who: Who, n: int) -> None:
        self._done(self._f.tick(who, byref(_timespec(n))))

    def now(self) -> int:
        moment = _Timespec()
        self._done(self._f.now(self._pointer(), byref(moment)))
        return _units(moment)

    def next_moment(self) -> Optional[int]:
        moment = _Timespec()
        return _units(moment) if self._done(self._f.next_moment(self._pointer(), byref(moment))) else None

    def first_marked(self) -> Optional[int]:
        caller = c_uint32()
        return caller.value if self._done(self._f.first_marked(self._pointer(), byref(caller))) else None

    def is_parked(self, by: int) -> bool:
        return self._done(self._f.is_parked(self._pointer(), by)) == 1

    def is_marked(self, by: int) -> bool:
        return self._done(self._f.is_marked(self._pointer(), by)) == 1

    def waiters(self) -> List[Waiter]:
        pointer = self._pointer()
        return [_waiter(it) for it in self._all(_Waiter, lambda room, most: self._f.waiters(pointer, room, most))]

    def deadlock(self) -> List[Waiter]:
        pointer = self._pointer()
        return [_waiter(it) for it in self._all(_Waiter, lambda room, most: self._f.deadlock(pointer, room, most))]

    def watches(self, who: Who, ep: int) -> List[Watch]:
        return [_watch(it) for it in self._all(_Watch, lambda room, most: self._f.watches(who, ep, room, most))]

    def watches_awaited(self, by: int) -> List[Watch]:
        pointer, ask = self._pointer(), self._f.watches_awaited
        return [_watch(it) for it in self._all(_Watch, lambda room, most: ask(pointer, by, room, most))]

    def _all(self, kind: Any, ask: Callable[[Any, int], int]) -> List[Any]:
        """All that is told, of that kind. It is asked first how many there are, and again if meanwhile there are more."""
        room = (kind * 0)()
        count = self._done(ask(None, 0))
        while count > len(room):
            room = (kind * count)()
            count = self._done(ask(room, len(room)))
        return room[:count]

    def tasks(self, more: int) -> None:
        self._done(self._f.tasks(self._pointer(), more))

    def reserve(self, events: int) -> None:
        self._done(self._f.reserve(self._pointer(), events))

    def history(self) -> str:
        self._pointer()
        return self.last_history()

    def _write_history(self) -> None:
        """Has what is there of the history written to its file, and from now on the rest as it comes."""
        assert self._holder.file is not None
        self._done(self._f.stream(self._holder.pointer, self._holder.file.fileno()))

    def last_history(self) -> str:
        """The history, also after the end: the kernel is there as long as this is."""
        if self._path is not None:
            if not self._ended:
                self._write_history()
            with open(self._path, "rb") as written:
                return written.read().decode("ascii")
        with tempfile.TemporaryFile() as file:
            self._done(self._f.history(self._holder.pointer, file.fileno()))
            file.seek(0)
            return file.read().decode("ascii")

    def check(self) -> None:
        self._done(self._f.check(self._pointer()))


def _room(size: int) -> Any:
    """Room for so many bytes, and for one if there are none, since NULL is refused."""
    return (c_char * (size if size > 0 else 1))()


def _name(name: Name) -> _Name:
    return _Name(SPACES.index(name.space), name.number)


def _waiter(found: _Waiter) -> Waiter:
    timeout = seconds(_units(found.timeout)) if found.has_timeout else None
    return Waiter(found.caller, found.pid, found.epfd, found.most, timeout)


def _watch(found: _Watch) -> Watch:
    return watch_of(
        found.fd, found.events, found.data, found.shown, found.is_armed == 1, found.is_reportable == 1,
        found.reported_in, found.reported_to,
    )


def _some(told: List[str], more: str) -> List[str]:
    """The first of what is told, and how many more there are."""
    left = len(told) - _MOST_TOLD
    return told[:_MOST_TOLD] + [f"and {left} {more}"] if left > 0 else told


def _end(timeout: int) -> Any:
    """A timeout of so many units, or none if it is less than 0."""
    return None if timeout < 0 else byref(_timespec(timeout))


def _timespec(count: int) -> _Timespec:
    """The time of so many units."""
    whole, part = divmod(count, UNITS)
    return _Timespec(whole, part * (1_000_000_000 // UNITS))


def _units(time: _Timespec) -> int:
    return time.seconds * UNITS + time.nanoseconds // (1_000_000_000 // UNITS)


def _setting(times: _Itimerspec) -> Tuple[int, int]:
    return _units(times.value), _units(times.interval)
