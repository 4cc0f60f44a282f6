"""Tasks: generators, and functions in threads of which one at a time goes on."""

from __future__ import annotations

import inspect
import threading
from typing import Any, Callable, Dict, List, Optional, Tuple

from .._kernel import Kernel, Task
from .._library import Who
from ._doors import BadTask, Door, NotATask, OpenDoor, Recorder, look_at_caller
from ._words import call_text

#: How often a task is told that its order is over, if it goes on to call, before its thread is left alone.
_PATIENCE = 100
#: The most seconds that a thread is waited for which was told that its order is over.
_SECONDS = 5.0


class Gone(BaseException):
    """Ends a task whose order is over. A task may clean up behind it, but makes no more calls."""


def is_generator(function: Any) -> bool:
    """Whether a task is to be stepped as a generator."""
    return any(map(inspect.isgeneratorfunction, (function, getattr(function, "__call__", None))))


class Sleeping:
    """What both kinds of task have: the call that they wait to make, or the wait that they sleep in."""

    def __init__(self, recorder: Recorder, number: int, name: str) -> None:
        self.recorder, self.number, self.name = recorder, number, name
        self.by = number + 1
        self.is_done, self.is_parked = False, False
        #: Why the task ended, if by no end of its own.
        self.raised: Optional[BaseException] = None
        self.answer: Any = None
        self.refusal: Optional[Exception] = None

    def make_call(self) -> bool:
        """Makes the call of a turn. Whether it has been answered: not if the task sleeps."""
        self.refusal = None
        try:
            if self.is_parked:
                who = self.recorder.library.who(self.by, 1)
                self.answer = self.recorder.make(self.number, "resume", who, ())
                is_wait = True
            else:
                self.answer, is_wait = self.first_call()
        except (OSError, ValueError, TypeError) as refusal:
            self.answer, self.refusal = None, refusal
            return True
        self.is_parked = is_wait and self.answer is None
        return not self.is_parked

    def first_call(self) -> Tuple[Any, bool]:
        """Makes the call that the task came to: its answer, and whether it is a wait."""
        raise NotImplementedError


class Call:
    """A call that a task which is a generator yields."""

    __slots__ = ("op", "args", "keys")

    def __init__(self, op: str, args: Tuple[Any, ...], keys: Dict[str, Any]) -> None:
        self.op, self.args, self.keys = op, args, keys

    def __repr__(self) -> str:
        words = [repr(it) for it in self.args] + [f"{name}={it!r}" for name, it in self.keys.items()]
        return f"{self.op}({', '.join(words)})"


class Calls:
    """What a task that is a generator is given: the methods of `Task`, each of which makes a `Call` to be yielded."""

    def __init__(self, kernel: Kernel, name: str) -> None:
        self.name = name
        self._kernel = kernel
        self._made: Optional[Call] = None
        #: Whether the order is over, so that nobody takes a call any more.
        self.is_over = False

    def shared(self, what: str, f: Optional[Callable[[], Any]] = None) -> Call:
        """A turn that is no call: others may go before what follows it. Its answer is that of `f`."""
        return self._make("shared", (what, f), {})

    def now(self) -> float:
        """The simulated clock, in seconds. It takes no turn, and isn't yielded."""
        return self._kernel.now()

    def _make(self, op: str, args: Tuple[Any, ...], keys: Dict[str, Any]) -> Call:
        if self._made is not None and not self.is_over:
            raise BadTask(f"the task {self.name!r} made {self._made} and did not yield it; then it made {op}")
        self._made = Call(op, args, keys)
        return self._made

    def taken(self, yielded: Any) -> Call:
        """The call that was yielded, which has to be the one that was made."""
        if self._made is None or yielded is not self._made:
            raise BadTask(f"the task {self.name!r} yielded {yielded!r}; it yields its calls, as `yield t.read(..)`")
        call, self._made = self._made, None
        return call

    def at_end(self) -> None:
        if self._made is not None:
            raise BadTask(f"the task {self.name!r} made {self._made} and did not yield it; then it ended")


def _maker(op: str) -> Callable[..., Call]:
    def method(self: Calls, *args: Any, **keys: Any) -> Call:
        return self._make(op, args, keys)

    method.__name__ = op
    return method


for _op in vars(Task):
    if not _op.startswith("_") and _op not in ("task", "resume"):
        setattr(Calls, _op, _maker(_op))


class ByGenerator(Sleeping):
    """A task that is a generator. Each call that it yields is a turn."""

    def __init__(self, recorder: Recorder, number: int, name: str, kernel: Kernel, function: Any, env: Any) -> None:
        super().__init__(recorder, number, name)
        self._calls = Calls(kernel, name)
        self._task = Task(OpenDoor(recorder, number, name), self.by, 1)  # type: ignore[arg-type]
        self._call: Optional[Call] = None
        self._generator = function(self._calls, env)

    def start(self) -> None:
        self._go_on(lambda: next(self._generator))

    def go_on(self) -> None:
        """Hands the answer to the task, which goes on to its next call."""
        refusal, answer = self.refusal, self.answer
        if refusal is not None:
            self._go_on(lambda: self._generator.throw(refusal))
        else:
            self._go_on(lambda: self._generator.send(answer))

    def _go_on(self, step: Callable[[], Any]) -> None:
        try:
            self._call = self._calls.taken(step())
        except StopIteration:
            self.is_done = True
            self._calls.at_end()
        except BaseException as error:
            self.is_done, self.raised = True, error

    def first_call(self) -> Tuple[Any, bool]:
        call = self._call
        assert call is not None
        if call.op != "shared":
            return getattr(self._task, call.op)(*call.args, **call.keys), call.op in ("wait", "epoll_wait")
        what, f = call.args
        self.recorder.note((self.number, "shared", 1, (what,), None))
        try:
            return None if f is None else f(), False
        except Exception as error:
            self.refusal = error
            return None, False

    def close(self) -> None:
        """Ends the generator. What it raises then is no part of the order."""
        self._calls.is_over = True
        try:
            self._generator.close()
        except Exception:
            pass
        self.is_done = self._generator.gi_frame is None


class Seat:
    """A thread that sleeps until it is handed the baton. Who has it may run, and nobody else does."""

    def __init__(self) -> None:
        self._gate = threading.Lock()
        self._gate.acquire()

    def wake(self) -> None:
        try:
            self._gate.release()
        except RuntimeError:  # it was awake: a thread that had been given up came back
            pass

    def sleep(self, seconds: float = -1) -> bool:
        """Whether the baton came, within so many seconds if there is a limit."""
        return self._gate.acquire(timeout=seconds)


class Worker(threading.Thread):
    """A thread that is used for one task after another."""

    def __init__(self) -> None:
        super().__init__(daemon=True, name="task")
        self._seat = Seat()
        self._job: Optional[Callable[[], None]] = None
        self.start()

    def give(self, job: Optional[Callable[[], None]]) -> None:
        self._job = job
        self._seat.wake()

    def run(self) -> None:
        while self._seat.sleep():
            job, self._job = self._job, None
            if job is None:
                return
            job()
            del job


class Workers:
    """The threads of an exploration. Those that have no task are kept for the next order."""

    def __init__(self) -> None:
        self._idle: List[Worker] = []

    def take(self) -> Worker:
        return self._idle.pop() if self._idle else Worker()

    def back(self, worker: Worker) -> None:
        self._idle.append(worker)

    def end(self) -> None:
        for worker in self._idle:
            worker.give(None)
        for worker in self._idle:
            worker.join()
        self._idle = []


class ThreadDoor(Door):
    """The door of a task in a thread: each call waits for its turn."""

    def __init__(self, task: ByThread) -> None:
        super().__init__(task.recorder.library)
        self._task = task

    def act(self, op: str, who: Who, args: Tuple[Any, ...]) -> Any:
        return self._task.call(op, who, args)


class ByThread(Sleeping):
    """A task that is a function. It runs in a thread, while it has the baton, from one call to the next.

    `pass_on` hands the baton on, and comes back once the task's call has been answered. `ended` hands it on at the end.
    """

    def __init__(
        self, recorder: Recorder, number: int, name: str, run: Callable[[ByThread], Any],
        pass_on: Callable[[ByThread], None], ended: Callable[[ByThread], None], workers: Workers,
    ) -> None:
        super().__init__(recorder, number, name)
        self.seat, self.ident = Seat(), 0
        self._run, self._pass_on, self._ended = run, pass_on, ended
        self._workers, self._worker = workers, workers.take()
        self._is_gone, self._told = False, 0
        self._pending: Tuple[str, Optional[Who], Tuple[Any, ...]] = ("", None, ())

    def start(self) -> None:
        self._worker.give(self._main)

    def _main(self) -> None:
        self.ident = threading.get_ident()
        threading.current_thread().name = self.name
        try:
            self._look_at_end(self._run(self))
        except Gone:
            pass
        except BaseException as error:
            self.raised = error
        self.is_done = True
        self._ended(self)

    def _look_at_end(self, result: Any) -> None:
        if inspect.iscoroutine(result):
            result.close()
            raise BadTask(f"the task {self.name!r} is a coroutine; a task is a function or a generator function")
        if inspect.isgenerator(result):
            raise BadTask(f"the task {self.name!r} gave a generator; give the generator function itself")

    def call(self, op: str, who: Who, args: Tuple[Any, ...]) -> Any:
        """Waits for a turn, and gives the answer that the call got in it."""
        self._look(op, who, args)
        self._pending = (op, who, args)
        self._pass_on(self)
        if self._is_gone:
            raise Gone
        if self.refusal is not None:
            raise self.refusal.with_traceback(None)
        return self.answer

    def _look(self, op: str, who: Who, args: Tuple[Any, ...]) -> None:
        told = call_text(op, args, who.pid) if threading.get_ident() != self.ident or op == "resume" else ""
        if threading.get_ident() != self.ident:
            thread = threading.current_thread().name
            raise NotATask(f"the thread {thread!r} isn't the task {self.name!r}, and called {told} of its t")
        if self._is_gone:
            self._told += 1
            if self._told > _PATIENCE:
                self._ended(self)
                Seat().sleep()
            raise Gone
        if op == "resume":
            raise BadTask(f"the task {self.name!r} called {told}; a wait of a task sleeps, and ends by itself")
        look_at_caller(self.name, self.by, op, who)

    def first_call(self) -> Tuple[Any, bool]:
        op, who, args = self._pending
        if op == "shared":
            self.recorder.note((self.number, op, 1, args, None))
            return None, False
        assert who is not None
        return self.recorder.make(self.number, op, who, args), op == "wait"

    def close(self, sleep: Callable[[float], bool]) -> None:
        """Ends the thread's task, and waits by `sleep` until it has ended. A thread that doesn't end is left alone."""
        if not self.is_done:
            self._is_gone = True
            self.seat.wake()
            if not sleep(_SECONDS) or not self.is_done:
                return
        self._workers.back(self._worker)

    def let_go(self) -> None:
        """Forgets its order, once that is over."""
        self._run, self._ended, self._pass_on = _nothing, _nothing, _gone


def _nothing(task: ByThread) -> None:
    pass


def _gone(task: ByThread) -> None:
    raise Gone
