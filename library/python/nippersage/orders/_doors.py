"""What stands between the callers of an order and its kernel: every call is recorded, and waits for its turn."""

from __future__ import annotations

import threading
from typing import Any, Callable, List, Optional, Sequence, Tuple

from .._kernel import Kernel, Task
from .._library import Library, Who
from .._numbers import Report, seconds
from ._tables import Step
from ._words import call_text

#: The calls of a task, as the kernel is asked.
CALLS = (
    "pipe", "socketpair", "socket", "eventfd", "timerfd", "plain", "epoll", "ctl", "wait", "epoll_wait", "resume",
    "read", "write", "fill", "shutdown", "peek", "take_error", "sockname", "peername", "bind", "listen", "accept",
    "connect", "settime", "gettime", "dup", "dup2", "close", "fork", "exec", "exit", "tick",
)
#: The number of setup, in place of a task's.
SETUP = -1


class NotATask(RuntimeError):
    """A kernel was used by a thread that isn't the task whose turn it is. The message names the call and the thread."""


class BadTask(TypeError):
    """A task is none, or is written in a way that can't be explored. The message names the task."""


class Recorder:
    """The kernel of one order. It makes calls and keeps them, in `steps`.

    As long as the turns are those of the order before, each step has to be the same as there. The first that differs
    is `differs`, its place.
    """

    def __init__(self, library: Library, before: Optional[Sequence[Step]]) -> None:
        self.library = library
        self.steps: List[Step] = []
        self._before = before
        self.differs: Optional[int] = None

    def make(self, number: int, op: str, who: Who, args: Tuple[Any, ...]) -> Any:
        """Makes a call for a task, by the name that the library has for it."""
        try:
            answer = getattr(self.library, op)(who, *args)
        except OSError as refusal:
            self.note((number, op, who.pid, args, refusal))
            raise
        self.note((number, op, who.pid, args, answer))
        return answer

    def at_end(self) -> bool:
        """Whether the order ended, though the one before went on from here."""
        if self._before is not None and len(self.steps) < len(self._before):
            self.differs = len(self.steps)
        return self.differs is not None

    def note(self, step: Step) -> None:
        place = len(self.steps)
        self.steps.append(step)
        if self._before is None:
            return
        if place == len(self._before):
            self.differs = place
        elif self._before[place][:4] != step[:4]:
            # Another task's turn is another order. Setup and the tasks' own calls have to come again.
            if self._before[place][0] == step[0] or SETUP in (self._before[place][0], step[0]):
                self.differs = place
        else:
            return
        self._before = None


class Door:
    """A kernel's backend that hands each call to `act`. What is asked and is no call goes to the library."""

    def __init__(self, library: Library) -> None:
        self._library = library

    def who(self, by: int, pid: int) -> Who:
        return self._library.who(by, pid)

    def act(self, op: str, who: Who, args: Tuple[Any, ...]) -> Any:
        raise NotImplementedError

    def __getattr__(self, name: str) -> Any:
        return getattr(self._library, name)


def _passed_on(op: str) -> Callable[..., Any]:
    asked = "wait" if op == "epoll_wait" else op

    def call(self: Door, who: Who, *args: Any) -> Any:
        return self.act(asked, who, args)

    return call


for _op in CALLS:
    setattr(Door, _op, _passed_on(_op))


class OpenDoor(Door):
    """For the calls of one task whose turn it is: they are made at once."""

    def __init__(self, recorder: Recorder, number: int, name: str) -> None:
        super().__init__(recorder.library)
        self._recorder, self._number, self._name = recorder, number, name

    def act(self, op: str, who: Who, args: Tuple[Any, ...]) -> Any:
        look_at_caller(self._name, self._number + 1, op, who)
        return self._recorder.make(self._number, op, who, args)


def look_at_caller(name: str, by: int, op: str, who: Who) -> None:
    """A task is one caller: it does one thing at a time."""
    if who.caller != by:
        raise BadTask(f"the task {name!r} is caller {by}, and called {op} as caller {who.caller}")


class KernelDoor(Door):
    """For the kernel that setup gets. Its calls are made at once in setup and in the check.

    In between they are those of the task in whose thread they are made, by `task_of`, which knows it by the thread's
    number. Another thread is no task; the first that called is kept in `stranger`.
    """

    def __init__(self, recorder: Recorder, task_of: Callable[[int], Any]) -> None:
        super().__init__(recorder.library)
        self._recorder, self._task_of = recorder, task_of
        self._owner = threading.get_ident()
        self.phase = "setup"
        self.stranger: Optional[NotATask] = None

    def act(self, op: str, who: Who, args: Tuple[Any, ...]) -> Any:
        if self.phase == "tasks":
            task = self._task_of(threading.get_ident())
            if task is None:
                raise self._found(op, who, args)
            return task.call(op, self._library.who(task.by, who.pid), args)
        if threading.get_ident() != self._owner:
            raise self._found(op, who, args)
        if self.phase == "setup":
            answer = self._recorder.make(SETUP, op, who, args)
        else:
            answer = getattr(self._library, op)(who, *args)
        if op == "wait" and answer is None:
            told = call_text(op, args, who.pid)
            raise BadTask(f"{told} of the {self.phase} sleeps, and nobody is there to wake it; a task may wait")
        return answer

    def let_go(self) -> None:
        self._task_of = lambda ident: None

    def _found(self, op: str, who: Who, args: Tuple[Any, ...]) -> NotATask:
        thread = threading.current_thread().name
        told = f"the thread {thread!r} is no task, and called {call_text(op, args, who.pid)} while tasks take turns"
        if threading.get_ident() == self._owner:
            told += "; a task that is a generator yields the calls of its t, and a task that is a function may call"
        self.stranger = self.stranger or NotATask(told)
        return self.stranger


class ExploredKernel(Kernel):
    """The kernel that setup gets: the task of caller 0 in process 1, over a door."""

    def __init__(self, door: KernelDoor) -> None:
        Task.__init__(self, door, 0, 1)  # type: ignore[arg-type]


class Caller(Task):
    """What a task that is a function is given: a `Task` whose calls wait for their turn, and whose waits sleep."""

    def __init__(self, door: Door, by: int, name: str) -> None:
        super().__init__(door, by, 1)  # type: ignore[arg-type]
        #: The name of the task.
        self.name = name

    def wait(
        self, ep: int, max: int = 8, timeout: Any = 0, *, by: Optional[int] = None, pid: Optional[int] = None,
    ) -> List[Report]:
        """Sleeps until the wait ends: at most `max` reports, none if its time has passed."""
        return super().wait(ep, max, timeout, by=by, pid=pid) or []

    def shared(self, what: str, f: Optional[Callable[[], Any]] = None) -> Any:
        """A turn that is no call: others may go before what follows it. Its answer is that of `f`.

        It stands before what the task does to something that it shares with other tasks, beside the kernel.
        """
        self._backend.act("shared", self._self, (what,))
        return None if f is None else f()

    def now(self) -> float:
        """The simulated clock, in seconds. It takes no turn."""
        return seconds(self._backend.now())
