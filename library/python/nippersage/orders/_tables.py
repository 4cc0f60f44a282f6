"""Which descriptor names which file, and which files each instance watches, by the calls that were made.

The kernel doesn't tell this. But every call goes by the explorer, with its answer, and docs/calls.md says what a call
does to descriptors and registrations. So dup, close, fork and numbers that are given out again are followed. What a
registration shows, whether it is armed, and when it was reported last, the kernel tells.
"""

from __future__ import annotations

import errno
from typing import Any, Callable, Dict, Iterable, List, NamedTuple, Optional, Sequence, Set, Tuple


#: A call of an order: the number of the task, the call, its process, what it was given, and its answer or refusal.
Step = Tuple[int, str, int, Tuple[Any, ...], Any]

_ADD, _DEL = 1, 2


class File:
    """An open file description, and what it watches if it is an instance."""

    __slots__ = ("watches",)

    def __init__(self) -> None:
        #: The registrations, by the number that each was made with, and its file. The values say nothing.
        self.watches: Dict[Tuple[int, File], None] = {}


class Parked(NamedTuple):
    """Where a task sleeps: the instance, and its number in this process."""

    file: File
    ep: int
    pid: int


class Tables:
    """The descriptors of each process, and who is parked where, after some calls."""

    def __init__(self, steps: Iterable[Step]) -> None:
        plain = File()
        self.of: Dict[int, Dict[int, File]] = {1: {0: plain, 1: plain, 2: plain}}
        self.parked: Dict[int, Parked] = {}
        self._closing: Set[Tuple[int, int]] = set()
        for number, op, pid, args, answer in steps:
            follow = _FOLLOWED.get(op)
            if follow is not None and not isinstance(answer, OSError):
                follow(self, number, pid, args, answer)

    def is_alive(self, file: File) -> bool:
        """Whether a number names the file, or somebody is parked at it. Registrations die with their file."""
        return bool(self.names_of(file)) or any(it.file is file for it in self.parked.values())

    def names_of(self, file: File) -> List[Tuple[int, int]]:
        """The processes and numbers that name a file."""
        return [(pid, fd) for pid, table in sorted(self.of.items()) for fd, it in sorted(table.items()) if it is file]

    def watched_by(self, instance: File) -> List[File]:
        """The files of the registrations of an instance that live, in the order in which those were made."""
        return [file for _, file in instance.watches if self.is_alive(file)]

    # What each call does.
    def _open(self, number: int, pid: int, args: Tuple[Any, ...], fd: int) -> None:
        self._name(pid, fd, File(), args[-1])

    def _open_two(self, number: int, pid: int, args: Tuple[Any, ...], fds: Tuple[int, int]) -> None:
        for fd in fds:
            self._name(pid, fd, File(), args[-1])

    def _name(self, pid: int, fd: int, file: File, cloexec: bool) -> None:
        self.of[pid][fd] = file
        (self._closing.add if cloexec else self._closing.discard)((pid, fd))

    def _ctl(self, number: int, pid: int, args: Tuple[Any, ...], answer: None) -> None:
        ep, act, fd, _, _ = args
        watches, watch = self.of[pid][ep].watches, (fd, self.of[pid][fd])
        if act == _ADD:
            watches[watch] = None
        elif act == _DEL:
            del watches[watch]

    def _wait(self, number: int, pid: int, args: Tuple[Any, ...], answer: Optional[List[Tuple[int, int]]]) -> None:
        ep = args[0]
        if answer is None:
            self.parked[number] = Parked(self.of[pid][ep], ep, pid)

    def _resume(self, number: int, pid: int, args: Tuple[Any, ...], answer: Optional[List[Tuple[int, int]]]) -> None:
        if answer is not None:
            del self.parked[number]

    def _dup(self, number: int, pid: int, args: Tuple[Any, ...], to: int) -> None:
        if to != args[0]:
            self._name(pid, to, self.of[pid][args[0]], False)

    def _close(self, number: int, pid: int, args: Tuple[Any, ...], answer: None) -> None:
        del self.of[pid][args[0]]

    def _fork(self, number: int, pid: int, args: Tuple[Any, ...], child: int) -> None:
        self.of[child] = dict(self.of[pid])
        self._closing |= {(child, fd) for owner, fd in self._closing if owner == pid}

    def _exec(self, number: int, pid: int, args: Tuple[Any, ...], answer: None) -> None:
        table = self.of[pid]
        self.of[pid] = {fd: it for fd, it in table.items() if (pid, fd) not in self._closing}

    def _exit(self, number: int, pid: int, args: Tuple[Any, ...], answer: None) -> None:
        del self.of[pid]


_FOLLOWED: Dict[str, Callable[..., None]] = {
    "pipe": Tables._open_two, "socketpair": Tables._open_two, "socket": Tables._open, "accept": Tables._open,
    "eventfd": Tables._open, "timerfd": Tables._open, "plain": Tables._open, "epoll": Tables._open, "ctl": Tables._ctl,
    "wait": Tables._wait, "resume": Tables._resume, "dup": Tables._dup, "dup2": Tables._dup, "close": Tables._close,
    "fork": Tables._fork, "exec": Tables._exec, "exit": Tables._exit,
}


def turn_of(steps: Sequence[Step], record: int) -> Tuple[int, int]:
    """The turn of an event, by its place in the history from 1 on, and the number of the task whose it was."""
    turn = 0
    for number, op, _, _, answer in steps:
        turn += number >= 0
        # A turn without a call has no record, nor has a call that found no memory.
        record -= op != "shared" and not (isinstance(answer, OSError) and answer.errno == errno.ENOMEM)
        if record == 0:
            return turn, number
    return 0, -1
