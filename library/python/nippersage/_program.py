"""The program epsim as a kernel, and epaudit, which checks histories."""

from __future__ import annotations

import json
import os
import re
import shutil
import subprocess
from errno import EINPROGRESS
from typing import Any, Dict, List, Optional, Sequence, Tuple

from ._numbers import Ended, Illegal, Name, limits_of, refusal

#: The first line of a run, which is its own answer: the times of the others are in microseconds.
_HEADER = b'{"version":2}\n'
#: The most calls of one kernel that is a program. A run has at most 100,000 lines, and the header is one of them.
MOST_CALLS = 99_999
#: The most bytes of a line, without the byte that ends it.
LONGEST_LINE = 65_536

_HERE = os.path.dirname(os.path.abspath(__file__))


def _find(name: str, variable: str) -> str:
    """The program that the variable names, or that of the release or repository that this folder lies in, or PATH's."""
    named = os.environ.get(variable)
    if named:
        return named
    up = os.pardir
    beside = [os.path.join(_HERE, up, up, "bin", name), os.path.join(_HERE, up, up, up, name)]
    for path in beside:
        if os.path.isfile(path) and os.access(path, os.X_OK):
            return os.path.normpath(path)
    return shutil.which(name) or name


#: The programs: those that these variables name, else those of the package or repository, else those on PATH.
PROGRAM = _find("epsim", "NIPPERSAGE_EPSIM")
AUDITOR = _find("epaudit", "NIPPERSAGE_EPAUDIT")

#: What a program can't be asked.
_OF_THE_LIBRARY = {
    "epoll_wait", "next_moment", "first_marked", "is_parked", "is_marked", "waiters", "deadlock", "tasks", "reserve",
    "history", "last_history", "check",
}

Who = Dict[str, int]


def audit(
    history: "str | os.PathLike[str]", limits: Optional[Sequence[int]] = None, program: Optional[str] = None,
) -> int:
    """How many records the history in this file has, all of which the model allows. Else `Illegal`.

    `limits` are those of the kernel that made it. `Ended` if there is no verdict, since a line is no record or the file
    can't be read; standard error says which. Call it after the kernel's `end`: before that records may be missing.
    """
    words = [program or AUDITOR] + _limits_words(limits)
    with open(history, "rb") as records:
        told = subprocess.run(words, stdin=records, stdout=subprocess.PIPE)
    verdict, _, text = told.stdout.decode().partition("\n")
    place = re.fullmatch(r"ok (\d+) records|illegal at record (\d+): .*", verdict)
    if place is None:
        raise Ended(f"the audit gave no verdict, and ended with status {told.returncode}")
    if place[2] is not None:
        raise Illegal(int(place[2]), text.strip())
    return int(place[1])


def _limits_words(limits: Optional[Sequence[int]]) -> List[str]:
    return [] if limits is None else ["--limits", ",".join(map(str, limits))]


class Program:
    """A kernel in a process of its own. Each call is a line of JSON, and so is its answer."""

    def __init__(self, limits: Optional[Sequence[int]], program: Optional[str], history: Optional[str]) -> None:
        limits_of(limits)  # one that is out of its range is told at once
        words = [program or PROGRAM] + _limits_words(limits)
        if history is not None:
            words += ["--history", os.path.abspath(history)]
        self.calls = 0
        self._has_begun = False
        self._now = 0
        try:
            self._program = subprocess.Popen(words, stdin=subprocess.PIPE, stdout=subprocess.PIPE)
        except FileNotFoundError as error:
            missing = "no such program" if program else "no library libnippersage, and no such program"
            raise FileNotFoundError(error.errno, missing, words[0]) from None

    def end(self) -> int:
        assert self._program.stdin and self._program.stdout
        try:
            self._program.stdin.close()
        except BrokenPipeError:
            pass
        status = self._program.wait()
        self._program.stdout.close()
        return status

    def who(self, by: int, pid: int) -> Who:
        return {"by": by, "pid": pid}

    def ask(self, op: str, keys: Dict[str, Any]) -> Dict[str, Any]:
        """Sends a line with these keys, and gives its answer, a dict of one key."""
        assert self._program.stdin and self._program.stdout
        line = json.dumps({"op": op, **keys}).encode()
        if self._program.poll() is not None or self._program.stdin.closed:
            raise Ended(f"the program ended with status {self._program.returncode}")
        if len(line) > LONGEST_LINE:
            raise ValueError(f"a line has at most {LONGEST_LINE} bytes, and this call takes {len(line)}")
        if self.calls == MOST_CALLS:
            raise Ended(f"a kernel answers {MOST_CALLS} calls; make another one")
        if not self._has_begun:
            self._begin()
        self.calls += 1
        return json.loads(self._exchange(line + b"\n"))

    def _begin(self) -> None:
        """Says in which unit times are. A program that doesn't know it is older than this package."""
        if self._exchange(_HEADER) != _HEADER:
            raise Ended("the program knows no scripts of version 2, whose times are microseconds")
        self._has_begun = True

    def _exchange(self, line: bytes) -> bytes:
        """Sends a line, and gives the one that answers it."""
        assert self._program.stdin and self._program.stdout
        try:
            self._program.stdin.write(line)
            self._program.stdin.flush()
        except BrokenPipeError:
            pass
        answer = self._program.stdout.readline()
        if not answer.endswith(b"\n"):
            raise Ended(f"the program ended with status {self._program.wait()}")
        return answer

    def _call(self, op: str, who: Who, **keys: Any) -> Dict[str, Any]:
        answer = self.ask(op, {**keys, **who})
        for refused in ("err", "failed"):
            if refused in answer:
                raise OSError(*answer[refused])
        if "bad" in answer:
            raise ValueError(f"{op} takes no such values: {keys}")
        return answer

    def pipe(self, who: Who, cloexec: bool) -> Tuple[int, int]:
        first, second = self._call("pipe", who, cloexec=cloexec)["two"]
        return first, second

    def socketpair(self, who: Who, cloexec: bool) -> Tuple[int, int]:
        first, second = self._call("socketpair", who, cloexec=cloexec)["two"]
        return first, second

    def socket(self, who: Who, family: str, cloexec: bool) -> int:
        return self._call("socket", who, family=family, cloexec=cloexec)["num"]

    def eventfd(self, who: Who, init: int, semaphore: bool, cloexec: bool) -> int:
        return self._call("eventfd", who, init=init, sem=semaphore, cloexec=cloexec)["num"]

    def timerfd(self, who: Who, clock: int, cloexec: bool) -> int:
        return self._call("timerfd", who, clock=clock, cloexec=cloexec)["num"]

    def plain(self, who: Who, cloexec: bool) -> int:
        return self._call("plain", who, cloexec=cloexec)["num"]

    def epoll(self, who: Who, cloexec: bool) -> int:
        return self._call("epoll", who, cloexec=cloexec)["num"]

    def ctl(self, who: Who, ep: int, act: int, fd: int, mask: int, data: int) -> None:
        self._call("ctl", who, ep=ep, act=act, fd=fd, mask=mask, data=data)

    def wait(self, who: Who, ep: int, max: int, timeout: int) -> Optional[List[Tuple[int, int]]]:
        return self._reports(self._call("wait", who, ep=ep, max=max, timeout=timeout))

    def resume(self, who: Who) -> Optional[List[Tuple[int, int]]]:
        return self._reports(self._call("resume", {"by": who["by"]}))

    @staticmethod
    def _reports(answer: Dict[str, Any]) -> Optional[List[Tuple[int, int]]]:
        return [(bits, data) for bits, data in answer["events"]] if "events" in answer else None

    def read(self, who: Who, fd: int, n: int) -> bytes:
        return bytes.fromhex(self._call("read", who, fd=fd, n=n)["bytes"])

    def write(self, who: Who, fd: int, data: bytes) -> int:
        return self._call("write", who, fd=fd, hex=data.hex())["num"]

    def fill(self, who: Who, fd: int, byte: int, count: int) -> int:
        return self._call("write", who, fd=fd, fill=[byte, count])["num"]

    def shutdown(self, who: Who, fd: int, how: str) -> None:
        self._call("shutdown", who, fd=fd, how=how)

    def peek(self, who: Who, fd: int, n: int) -> bytes:
        return bytes.fromhex(self._call("peek", who, fd=fd, n=n)["bytes"])

    def take_error(self, who: Who, fd: int) -> int:
        return self._call("sockerr", who, fd=fd)["num"]

    def sockname(self, who: Who, fd: int) -> Optional[Name]:
        return self._name(self._call("sockname", who, fd=fd))

    def peername(self, who: Who, fd: int) -> Optional[Name]:
        return self._name(self._call("peername", who, fd=fd))

    def bind(self, who: Who, fd: int, name: Name) -> None:
        self._call("bind", who, fd=fd, space=name.space, name=name.number)

    def listen(self, who: Who, fd: int, backlog: int) -> None:
        self._call("listen", who, fd=fd, backlog=backlog)

    def accept(self, who: Who, fd: int, cloexec: bool) -> int:
        return self._call("accept", who, fd=fd, cloexec=cloexec)["num"]

    def connect(self, who: Who, fd: int, name: Name) -> None:
        if "connecting" in self._call("connect", who, fd=fd, space=name.space, name=name.number):
            raise refusal(EINPROGRESS)

    @staticmethod
    def _name(answer: Dict[str, Any]) -> Optional[Name]:
        return Name(*answer["name"]) if answer["name"] else None

    def settime(self, who: Who, fd: int, value: int, interval: int, absolute: bool) -> Tuple[int, int]:
        keys = {"value": value, "interval": interval, "abs": absolute}
        value, interval = self._call("settime", who, fd=fd, **keys)["time"]
        return value, interval

    def gettime(self, who: Who, fd: int) -> Tuple[int, int]:
        value, interval = self._call("gettime", who, fd=fd)["time"]
        return value, interval

    def dup(self, who: Who, fd: int) -> int:
        return self._call("dup", who, fd=fd)["num"]

    def dup2(self, who: Who, fd: int, to: int) -> int:
        return self._call("dup2", who, fd=fd, to=to)["num"]

    def close(self, who: Who, fd: int) -> None:
        self._call("close", who, fd=fd)

    def fork(self, who: Who) -> int:
        return self._call("fork", who)["num"]

    def exec(self, who: Who) -> None:
        self._call("exec", who)

    def exit(self, who: Who) -> None:
        self._call("exit", who)

    def tick(self, who: Who, n: int) -> None:
        self._call("tick", {"by": who["by"]}, n=n)
        self._now += n

    def now(self) -> int:
        return self._now

    def __getattr__(self, name: str) -> Any:
        if name in _OF_THE_LIBRARY:
            raise NotImplementedError(f"{name} needs the library libnippersage, and this kernel is a program")
        raise AttributeError(name)
