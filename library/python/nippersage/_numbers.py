"""Constants, ranges, times, and the exceptions."""

from __future__ import annotations

import errno
from datetime import timedelta
from enum import IntFlag
from fractions import Fraction
from operator import index
from typing import Dict, Iterable, List, NamedTuple, Optional, Sequence, Tuple, Union

#: The bits of epoll as plain numbers. `Mask` has them for callers.
IN, PRI, OUT, ERR, HUP, RDHUP = 1, 2, 4, 8, 16, 8192
EXCLUSIVE, WAKEUP, ONESHOT, ET = 1 << 28, 1 << 29, 1 << 30, 1 << 31


class Mask(IntFlag):
    """Bits of epoll: what a registration asks for, and what a report shows. They are numbers, too."""

    IN, PRI, OUT, ERR, HUP, RDHUP = IN, PRI, OUT, ERR, HUP, RDHUP
    EXCLUSIVE, WAKEUP, ONESHOT, ET = EXCLUSIVE, WAKEUP, ONESHOT, ET

    def __repr__(self) -> str:
        """The names of the bits, as they are written in a call: `IN|ET`."""
        value = int(self)
        names = [name for name, bit in Mask.__members__.items() if value & int(bit)]
        rest = value & ~sum(int(bit) for bit in Mask.__members__.values())
        return "|".join(names + ([hex(rest)] if rest or not names else []))


class _Masks(Dict[int, Mask]):
    """The masks of numbers, each made once."""

    def __missing__(self, bits: int) -> Mask:
        mask = self[bits] = Mask(bits)
        return mask


_masks = _Masks()

#: One report of a wait: the bits that are shown, and the data of the registration.
Report = Tuple[Mask, int]


def masked(reports: Iterable[Tuple[int, int]]) -> List[Report]:
    """Reports, whose bits were numbers."""
    return [(_masks[bits], data) for bits, data in reports]


#: A time: seconds, or a timedelta.
Time = Union[float, timedelta]

#: The kernel's units of time in a second, and one of them: the microsecond.
UNITS = 1_000_000
_UNIT = timedelta(microseconds=1)
#: The most seconds of a time. A number of 64 bits holds so many units, and the clock doesn't go so far.
_LONGEST = (1 << 63) // UNITS

#: What shutdown(2) shuts, as Linux numbers it.
HOWS = {"rd": 0, "wr": 1, "rdwr": 2}

#: What a socket of socket(2) speaks, and Linux's number of it.
FAMILIES = {"tcp": 2, "unix": 1}

#: The names of the error numbers of Linux that a call may answer.
NAMES = {
    1: "EPERM", 2: "ENOENT", 3: "ESRCH", 9: "EBADF", 11: "EAGAIN", 12: "ENOMEM", 14: "EFAULT",
    16: "EBUSY", 17: "EEXIST", 22: "EINVAL", 23: "ENFILE", 24: "EMFILE", 28: "ENOSPC", 32: "EPIPE",
    35: "EDEADLK", 40: "ELOOP", 74: "EBADMSG", 88: "ENOTSOCK", 90: "EMSGSIZE", 97: "EAFNOSUPPORT",
    98: "EADDRINUSE", 99: "EADDRNOTAVAIL", 103: "ECONNABORTED", 104: "ECONNRESET", 106: "EISCONN",
    107: "ENOTCONN", 111: "ECONNREFUSED", 114: "EALREADY", 115: "EINPROGRESS",
}


class Ended(Exception):
    """The kernel has ended, or may be asked no more. It is no answer of the kernel."""


class Illegal(Exception):
    """A history has a record that the model doesn't allow. `record` is its place, counted from 0."""

    def __init__(self, record: int, text: str) -> None:
        super().__init__(f"illegal at record {record}: {text}")
        self.record = record


class Limits(NamedTuple):
    """How much of each thing a kernel allows."""

    descriptors: int = 1_024
    files: int = 4_096
    processes: int = 64
    watches: int = 4_096
    pipe_bytes: int = 65_536
    sock_bytes: int = 65_536


#: The least and the most of each limit.
RANGES = Limits(
    (3, 65_536), (1, 1_000_000), (1, 10_000), (0, 1_000_000), (4_096, 1_048_576), (1, 1_048_576),  # type: ignore
)


def limits_of(limits: Optional[Sequence[int]]) -> Limits:
    """The limits, or those by default. OSError with EINVAL for one that is out of its range, by its name."""
    if limits is None:
        return Limits()
    if len(limits) != len(Limits._fields):
        names = ", ".join(Limits._fields)
        raise ValueError(f"limits are {len(Limits._fields)} numbers, {names}, and not {len(limits)}")
    own = Limits(*limits)
    for name, value, (least, most) in zip(Limits._fields, own, RANGES):  # type: ignore
        if not least <= whole(name, value) <= most:
            raise OSError(errno.EINVAL, f"EINVAL: {name} is {value}, and goes from {least} to {most}")
    return own


class Name(NamedTuple):
    """The name of a socket: a port of IPv4, "v4", or IPv6, "v6", or a number that stands for a Unix name, "local"."""

    space: str
    number: int


#: The spaces of names, as the library numbers them.
SPACES = ("v4", "v6", "local")
_MOST_PORT = 65_535


class Waiter(NamedTuple):
    """A parked caller, and its wait, as `Kernel.waiters` and `Kernel.deadlock` tell it."""

    by: int
    pid: int
    ep: int
    max: int
    #: In seconds, rounded up to a microsecond. None for a wait without end.
    timeout: Optional[float]

    def __str__(self) -> str:
        of_process = "" if self.pid == 1 else f" of process {self.pid}"
        end = "without a timeout" if self.timeout is None else f"with a timeout of {self.timeout} s"
        return f"caller {self.by}{of_process} waits at instance {self.ep} {end}"


class Watch(NamedTuple):
    """A registration of an instance, as `Kernel.watches` tells it."""

    #: The number under which it was added. Later that number may name something else, or nothing.
    fd: int
    #: The bits that it asks for, and its modes.
    mask: Mask
    data: int
    #: The bits that hold at its file now, whether it asks for them or not.
    shown: Mask
    #: False for a one-shot, from its report to the next `mod`.
    is_armed: bool
    #: Whether a wait would report it now.
    is_reportable: bool
    #: The event of its last report, by its place in the history, from 1 on, and the caller that got it: 0 if the record
    #: was written to the kernel's history file already. None if it was never reported.
    reported_in: Optional[int]
    reported_to: Optional[int]

    def __str__(self) -> str:
        shown = repr(self.shown) if self.shown else "nothing"
        return f"fd {self.fd} shows {shown}, registered {self.mask!r}{'' if self.is_armed else ', not armed'}"


def watch_of(
    fd: int, mask: int, data: int, shown: int, is_armed: bool, is_reportable: bool, reported_in: int, reported_to: int,
) -> Watch:
    """A registration that is told in numbers."""
    last = (reported_in, reported_to) if reported_in else (None, None)
    return Watch(fd, _masks[mask], data, _masks[shown], is_armed, is_reportable, *last)


def refusal(number: int) -> OSError:
    """The error of a number of Linux: as BlockingIOError for EAGAIN and EINPROGRESS, or OSError if it has no class."""
    return OSError(number, NAMES.get(number, f"error number {number}"))


def whole(name: str, value: int) -> int:
    """The value, which has to be a whole number."""
    try:
        return index(value)
    except TypeError:
        raise TypeError(f"{name} is a whole number, and not {value!r}") from None


def within(name: str, value: int, least: int, most: int) -> int:
    """The value, which has to be a whole number of this range."""
    if type(value) is int and least <= value <= most:
        return value
    if not least <= whole(name, value) <= most:
        raise ValueError(f"{name} is a number from {least} to {most}, and not {value}")
    return value


def number(name: str, value: int) -> int:
    """A number of 32 bits with a sign."""
    if type(value) is int and -0x8000_0000 <= value <= 0x7FFF_FFFF:
        return value
    return within(name, value, -0x8000_0000, 0x7FFF_FFFF)


def unsigned(name: str, value: int) -> int:
    """A number of 32 bits without a sign."""
    return within(name, value, 0, (1 << 32) - 1)


def long(name: str, value: int) -> int:
    """A number of 64 bits without a sign."""
    return within(name, value, 0, (1 << 64) - 1)


def one_of(name: str, value: str, words: Iterable[str]) -> str:
    """The value, which has to be one of these words."""
    if value not in words:
        raise ValueError(f"{name} is one of {', '.join(map(repr, words))}, and not {value!r}")
    return value


def name_of(value: Tuple[str, int]) -> Name:
    """The name of a socket, which has to be a space and a number that is one there."""
    try:
        space, count = value
    except (TypeError, ValueError):
        raise TypeError(f"name is a space and a number, as ('v4', 80), and not {value!r}") from None
    one_of("space", space, SPACES)
    return Name(space, unsigned("number", count) if space == "local" else within("number", count, 0, _MOST_PORT))


def octets(name: str, value: bytes) -> bytes:
    """Bytes, or what can be seen as such, as a bytearray."""
    if isinstance(value, (int, str)):
        raise TypeError(f"{name} is bytes, and not {value!r}")
    return bytes(value)


def units(name: str, time: Time) -> int:
    """So many of the kernel's units, rounded up.

    An int or a timedelta is a whole number of them. A float hardly ever is: 0.000003 is not exactly three, and
    0.1 + 0.2 is another float than 0.3. So a float is taken for a whole number that it is as near to as the sum of
    three floats may be, to one part in 2^51. In 26 days that is a nanosecond. Any other float is rounded up.
    """
    exact = Fraction(time // _UNIT, UNITS) if isinstance(time, timedelta) else time
    if not hasattr(exact, "as_integer_ratio"):
        raise TypeError(f"{name} is a time in seconds or a timedelta, and not {time!r}")
    if not 0 <= exact <= _LONGEST:
        raise ValueError(f"{name} is a time of 0 to {_LONGEST} seconds, and not {time}")
    whole, parts = exact.as_integer_ratio()
    count = whole * UNITS
    nearest = (2 * count + parts) // (2 * parts)
    if abs(count - nearest * parts) << 51 <= count:
        return nearest
    return -(-count // parts)


def seconds(count: int) -> float:
    """So many units in seconds: the float that is nearest. No two moments of the clock have the same one."""
    return count / UNITS
