"""Drives Nippersage's program from Python: one method for each call, refusals as OSError.

    from nippersage import Kernel, IN

    with Kernel() as kernel:
        reader, writer = kernel.pipe()
        instance = kernel.epoll()
        kernel.add(instance, reader, IN, data=3)
        kernel.write(writer, b"abc")
        assert kernel.wait(instance) == [(IN, 3)]

Every method takes `by`, the number of the caller, and those of a process's calls take `pid`, its
number. A time is a number of seconds or a timedelta; what is finer than the kernel's unit, a
microsecond, is rounded up. `Kernel(history=PATH)` writes down what happens, and `audit(PATH)` has
it checked. docs/calls.md says what each call answers and refuses; docs/clients.md what is promised.
"""

import errno
import json
import math
import os
import re
import subprocess
from datetime import timedelta
from enum import IntFlag
from fractions import Fraction


class Mask(IntFlag):
    """Bits of epoll: what a registration asks for, and what a report shows. They are numbers, too."""

    IN, PRI, OUT, ERR, HUP, RDHUP = 1, 2, 4, 8, 16, 8192
    EXCLUSIVE, WAKEUP, ONESHOT, ET = 1 << 28, 1 << 29, 1 << 30, 1 << 31


IN, PRI, OUT, ERR, HUP, RDHUP = Mask.IN, Mask.PRI, Mask.OUT, Mask.ERR, Mask.HUP, Mask.RDHUP
EXCLUSIVE, WAKEUP, ONESHOT, ET = Mask.EXCLUSIVE, Mask.WAKEUP, Mask.ONESHOT, Mask.ET

#: The numbers that each key of a line may have, as docs/script.md has them.
_INT, _UINT, _ULONG = (-(1 << 31), (1 << 31) - 1), (0, (1 << 32) - 1), (0, (1 << 64) - 1)
_RANGES = {
    **dict.fromkeys(("ep", "fd", "to", "max", "clock", "backlog"), _INT),
    **dict.fromkeys(("by", "init", "mask"), _UINT),
    **dict.fromkeys(("pid", "data", "value", "interval"), _ULONG),
    "timeout": (-(1 << 63), (1 << 63) - 1),
}
#: The same of a byte that is written over and over, and of how often.
_FILL = ((0, 255), (0, 1_048_576))
#: The words that a key may have.
_WORDS = {"how": ("rd", "wr", "rdwr"), "family": ("tcp", "unix"), "space": ("v4", "v6", "local")}

#: The most calls of one Kernel. A run of the program has at most 100,000 lines, and the header is one.
MOST_CALLS = 99_999
#: The most bytes of a line, without the byte that ends it.
LONGEST_LINE = 65_536

#: The first line of a run, which is its own answer: the times of the others are in microseconds.
_HEADER = b'{"version":2}\n'

_TOP = os.path.join(os.path.dirname(os.path.abspath(__file__)), os.pardir)
#: The programs: `epsim` and `epaudit` beside this folder, or those that these variables name.
PROGRAM = os.environ.get("NIPPERSAGE_EPSIM") or os.path.join(_TOP, "epsim")
AUDITOR = os.environ.get("NIPPERSAGE_EPAUDIT") or os.path.join(_TOP, "epaudit")


class Ended(Exception):
    """The program runs no more, or may be asked no more. It is no answer of the kernel."""


class Illegal(Exception):
    """A history has a record that the model doesn't allow. `record` is its place, counted from 0."""

    def __init__(self, record, text):
        super().__init__(f"illegal at record {record}: {text}")
        self.record = record


def audit(history, limits=None, program=None):
    """How many records the history in this file has, all of which the model allows. Else `Illegal`.

    `limits` are those of the kernel that made it. `Ended` if there is no verdict, since a line is
    no record or the file can't be read; standard error says which. Call it once the kernel's `end`
    has given 0: before that the last record may be missing.
    """
    words = [program or AUDITOR] + _limits_words(limits)
    with open(history, "rb") as records:
        told = subprocess.run(words, stdin=records, stdout=subprocess.PIPE)
    verdict, _, text = told.stdout.decode().partition("\n")
    place = re.fullmatch(r"ok (\d+) records|illegal at record (\d+): .*", verdict)
    if place is None:
        raise Ended(f"the audit gave no verdict, and ended with status {told.returncode}")
    if place[2] is not None:
        raise Illegal(int(place[2]), text.strip())
    return int(place[1])


def _is_within(value, of):
    return isinstance(value, int) and of[0] <= value <= of[1]


def _unfit(keys):
    """Of the keys of a call those whose values don't fit, or all if no range and no word tells which."""
    name = _UINT if keys.get("space") == "local" else (0, 65_535)
    ranges = {**_RANGES, "name": name, "n": _UINT if "fd" in keys else _ULONG}
    unfit = {}
    for key, value in keys.items():
        is_out = key in ranges and not _is_within(value, ranges[key])
        is_no_word = key in _WORDS and value not in _WORDS[key]
        if is_out or is_no_word or (key == "fill" and not all(map(_is_within, value, _FILL))):
            unfit[key] = value
    return ", ".join(f"{key}: {value!r}" for key, value in (unfit or keys).items())


def _limits_words(limits):
    return [] if limits is None else ["--limits", ",".join(map(str, limits))]


def _microseconds(time):
    """So many, rounded up.

    A float that is a whole number to one part in 2^51 is that number, since 0.000003 is not exactly
    three of them, and 0.1 + 0.2 is another float than 0.3.
    """
    if isinstance(time, timedelta):
        time = Fraction(time // timedelta(microseconds=1), 1_000_000)
    if not 0 <= time < math.inf:
        raise ValueError(f"a time is a number of seconds from 0 on, and not {time}")
    count = Fraction(time) * 1_000_000
    nearest = round(count)
    return nearest if abs(count - nearest) <= count / 2**51 else math.ceil(count)


def _timeout(timeout):
    """In microseconds, or -1 if it has no end."""
    if timeout is None or timeout == math.inf:
        return -1
    is_negative = timeout < (timedelta() if isinstance(timeout, timedelta) else 0)
    return -1 if is_negative else _microseconds(timeout)


class Kernel:
    """A kernel in its opening state, in a process of its own.

    `limits` are six numbers: descriptors, files, processes, watches, pipe bytes, socket bytes.
    `program` is the program's path. If none is given it is `PROGRAM`, `epsim` beside this folder,
    which proves and builds the program if that is not done yet.
    `history` is the path of a file, made anew, that gets a line for each event. If it can't be
    made or written, the program ends and says so on standard error.
    """

    def __init__(self, limits=None, program=None, history=None):
        words = [program or PROGRAM] + _limits_words(limits)
        if history is not None:
            words += ["--history", os.path.abspath(history)]
        self.calls = 0
        self._has_begun = False
        self._program = subprocess.Popen(words, stdin=subprocess.PIPE, stdout=subprocess.PIPE)

    def __enter__(self):
        return self

    def __exit__(self, *_):
        self.end()

    def end(self):
        """Ends the program, and gives its status."""
        try:
            self._program.stdin.close()
        except BrokenPipeError:
            pass
        status = self._program.wait()
        self._program.stdout.close()
        return status

    def ask(self, op, **keys):
        """Sends a line with these keys but for those that are None, and gives its answer, a dict of one key.

        The times of both are in microseconds."""
        line = json.dumps({"op": op, **{k: v for k, v in keys.items() if v is not None}}).encode()
        if self._program.poll() is not None or self._program.stdin.closed:
            raise self._ended()
        if len(line) > LONGEST_LINE:
            raise ValueError(f"a line has at most {LONGEST_LINE} bytes, and this call takes {len(line)}")
        if self.calls == MOST_CALLS:
            raise Ended(f"a kernel answers {MOST_CALLS} calls; make another one")
        self._begin()
        self.calls += 1
        return json.loads(self._exchange(line + b"\n"))

    def _begin(self):
        """Says once, before the first call, in which unit times are."""
        if not self._has_begun and self._exchange(_HEADER) != _HEADER:
            raise Ended("the program is older than this client: it knows no scripts of version 2")
        self._has_begun = True

    def _exchange(self, line):
        """Sends a line, and gives the one that answers it."""
        try:
            self._program.stdin.write(line)
            self._program.stdin.flush()
        except BrokenPipeError:
            pass
        answer = self._program.stdout.readline()
        if not answer.endswith(b"\n"):
            raise self._ended()
        return answer

    def _ended(self):
        """That the program runs no more. It names limits out of their range, and a history that it can't write."""
        status = self._program.wait()
        why = ", and standard error says why" if status > 0 else ""
        return Ended(f"the program ended with status {status}{why}")

    def _call(self, op, **keys):
        answer = self.ask(op, **keys)
        for refused in ("err", "failed"):
            if refused in answer:
                raise OSError(*answer[refused])
        if "bad" in answer:
            raise ValueError(f"{op} takes no such {_unfit(keys)}")
        return answer

    def pipe(self, cloexec=False, *, by=0, pid=1):
        """The read end and the write end of a new pipe."""
        return tuple(self._call("pipe", cloexec=cloexec, by=by, pid=pid)["two"])

    def socketpair(self, cloexec=False, *, by=0, pid=1):
        """The two ends of a new pair of sockets."""
        return tuple(self._call("socketpair", cloexec=cloexec, by=by, pid=pid)["two"])

    def socket(self, family, cloexec=False, *, by=0, pid=1):
        """A new socket, of "tcp" or "unix", which has no connection and no name."""
        return self._call("socket", family=family, cloexec=cloexec, by=by, pid=pid)["num"]

    def eventfd(self, init=0, semaphore=False, cloexec=False, *, by=0, pid=1):
        """A new counter that starts at `init`; its values are 8 bytes, the lowest first."""
        return self._call("eventfd", init=init, sem=semaphore, cloexec=cloexec, by=by, pid=pid)["num"]

    def timerfd(self, clock=1, cloexec=False, *, by=0, pid=1):
        """A new timer, disarmed. Clocks 0 and 1 are the one clock that tick moves."""
        return self._call("timerfd", clock=clock, cloexec=cloexec, by=by, pid=pid)["num"]

    def plain(self, cloexec=False, *, by=0, pid=1):
        """A file that can't be polled."""
        return self._call("plain", cloexec=cloexec, by=by, pid=pid)["num"]

    def epoll(self, cloexec=False, *, by=0, pid=1):
        """A new instance."""
        return self._call("epoll", cloexec=cloexec, by=by, pid=pid)["num"]

    def add(self, ep, fd, mask, data=0, *, by=0, pid=1):
        """Registers what fd names in the instance ep. `data` comes back in reports, 0 to 2^64 - 1."""
        self._call("ctl", ep=ep, act="add", fd=fd, mask=mask, data=data, by=by, pid=pid)

    def mod(self, ep, fd, mask, data=0, *, by=0, pid=1):
        """Gives a registration another mask and other data, and arms it again."""
        self._call("ctl", ep=ep, act="mod", fd=fd, mask=mask, data=data, by=by, pid=pid)

    def delete(self, ep, fd, *, by=0, pid=1):
        """Takes a registration out."""
        self._call("ctl", ep=ep, act="del", fd=fd, by=by, pid=pid)

    def wait(self, ep, max=8, timeout=0, *, by=0, pid=1):
        """A list of (Mask, data), at most `max`, or None if the caller is parked.

        A `timeout` of 0 never parks, and one of less than 0 or None parks without a deadline."""
        end = _timeout(timeout)
        return self._reports(self._call("wait", ep=ep, max=max, timeout=end, by=by, pid=pid))

    def resume(self, *, by=0):
        """What the parked wait of the caller reports, or None if it is still parked."""
        return self._reports(self._call("resume", by=by))

    @staticmethod
    def _reports(answer):
        return [(Mask(bits), data) for bits, data in answer["events"]] if "events" in answer else None

    def read(self, fd, n, *, by=0, pid=1):
        """At most n bytes; b"" at the end of a stream."""
        return bytes.fromhex(self._call("read", fd=fd, n=n, by=by, pid=pid)["bytes"])

    def write(self, fd, data, *, by=0, pid=1):
        """How many of the bytes were taken. For more than some 32,000 bytes see fill."""
        return self._call("write", fd=fd, hex=bytes(data).hex(), by=by, pid=pid)["num"]

    def fill(self, fd, byte, count, *, by=0, pid=1):
        """Writes a byte so many times, at most 1,048,576."""
        return self._call("write", fd=fd, fill=[byte, count], by=by, pid=pid)["num"]

    def peek(self, fd, n, *, by=0, pid=1):
        """What a read of a socket would give, which stays there."""
        return bytes.fromhex(self._call("peek", fd=fd, n=n, by=by, pid=pid)["bytes"])

    def shutdown(self, fd, how="wr", *, by=0, pid=1):
        """Shuts the reading of a socket, "rd", its writing, "wr", or both, "rdwr"."""
        self._call("shutdown", fd=fd, how=how, by=by, pid=pid)

    def take_error(self, fd, *, by=0, pid=1):
        """The number of the error that waits at a socket, which is taken by this; 0 if none waits."""
        return self._call("sockerr", fd=fd, by=by, pid=pid)["num"]

    def sockname(self, fd, *, by=0, pid=1):
        """The name of a socket, (space, number), or None if it has none."""
        return self._name(self._call("sockname", fd=fd, by=by, pid=pid))

    def peername(self, fd, *, by=0, pid=1):
        """The name of the socket at the other end, or None if that has none. ENOTCONN if there is no connection."""
        return self._name(self._call("peername", fd=fd, by=by, pid=pid))

    def bind(self, fd, name, *, by=0, pid=1):
        """Gives a socket its name, (space, number), as `sockname` tells it. Number 0 asks for any that is free."""
        space, number = name
        self._call("bind", fd=fd, space=space, name=number, by=by, pid=pid)

    def listen(self, fd, backlog, *, by=0, pid=1):
        """Makes a socket listen at its name.

        One of TCP without a name gets one by this, and one of Unix has to have one. `backlog` + 1
        connections may wait there. A backlog above 4,096 or below 0 is 4,096."""
        self._call("listen", fd=fd, backlog=backlog, by=by, pid=pid)

    def accept(self, fd, cloexec=False, *, by=0, pid=1):
        """The connection that waits longest at a listener. None waits yet: EAGAIN, a BlockingIOError."""
        return self._call("accept", fd=fd, cloexec=cloexec, by=by, pid=pid)["num"]

    def connect(self, fd, name, *, by=0, pid=1):
        """Connects a socket to this name, (space, number). EINPROGRESS, a BlockingIOError, if it connects.

        No connect gets through yet. If nobody listens at the name, that of TCP has failed when the call
        returns, and that of Unix is ECONNREFUSED. If a socket listens there, it is EINVAL."""
        space, number = name
        answer = self._call("connect", fd=fd, space=space, name=number, by=by, pid=pid)
        if "connecting" in answer:
            raise OSError(errno.EINPROGRESS, "EINPROGRESS")

    @staticmethod
    def _name(answer):
        return answer["name"] and tuple(answer["name"])

    def settime(self, fd, value, interval=0, absolute=False, *, by=0, pid=1):
        """Sets a timer, and gives the value and the interval before, in seconds."""
        keys = {"value": _microseconds(value), "interval": _microseconds(interval), "abs": absolute}
        return self._setting(self._call("settime", fd=fd, by=by, pid=pid, **keys))

    def gettime(self, fd, *, by=0, pid=1):
        """The time until the next expiration, 0 if there is no next one, and the interval, in seconds."""
        return self._setting(self._call("gettime", fd=fd, by=by, pid=pid))

    @staticmethod
    def _setting(answer):
        return tuple(count / 1_000_000 for count in answer["time"])

    def dup(self, fd, *, by=0, pid=1):
        """Another descriptor of the same description."""
        return self._call("dup", fd=fd, by=by, pid=pid)["num"]

    def dup2(self, fd, to, *, by=0, pid=1):
        """The same under the number `to`, which is closed first."""
        return self._call("dup2", fd=fd, to=to, by=by, pid=pid)["num"]

    def close(self, fd, *, by=0, pid=1):
        """Closes a descriptor."""
        self._call("close", fd=fd, by=by, pid=pid)

    def fork(self, *, by=0, pid=1):
        """The number of the new process."""
        return self._call("fork", by=by, pid=pid)["num"]

    def exec(self, *, by=0, pid=1):
        """Closes the descriptors of the process that have close-on-exec."""
        self._call("exec", by=by, pid=pid)

    def exit(self, *, by=0, pid=1):
        """Ends the process."""
        self._call("exit", by=by, pid=pid)

    def tick(self, time, *, by=0):
        """The clock goes on by this time."""
        self._call("tick", n=_microseconds(time), by=by)
