"""One order: setup, turns until nobody can go on, the end."""

from __future__ import annotations

import sys
import threading
from typing import Any, Callable, Dict, List, NamedTuple, Optional, Sequence, Set, Tuple, Union

from .._library import Library
from .._numbers import UNITS
from ._doors import SETUP, BadTask, Caller, ExploredKernel, KernelDoor, NotATask, Recorder
from ._schedule import BadSchedule
from ._tables import Step
from ._tasks import ByGenerator, ByThread, Seat, ThreadDoor, Workers, is_generator
from ._ways import NOBODY, Ways, goes_by_itself
from ._words import call_text

TheTask = Union[ByGenerator, ByThread]


class NotTheSame(RuntimeError):
    """A task or setup did not do again what it did before in the same order. The message has the first call."""


class Stuck(RuntimeError):
    """A task did not come to its next call: it waits for something that is not the kernel's."""


class Program(NamedTuple):
    """What is explored. Names are those of the tasks, and the clock's behind them."""

    setup: Callable[[Any], Any]
    functions: Tuple[Callable[[Any, Any], Any], ...]
    names: Tuple[str, ...]
    daemons: Set[int]
    check: Optional[Callable[[Any], object]]
    clock: str
    most: int
    limits: Optional[Sequence[int]]
    beside: Union[bool, Callable[[Any], bool]]

    def name_of(self, number: int) -> str:
        return "setup" if number == SETUP else self.names[number]


class World:
    """One order of a program, by ways that choose. `before` are the steps of an order that was run before.

    `patience` is the most seconds that a task in a thread may take from one call to the next. `run` runs the order to
    its end; then `close` has to end what is left of its tasks.
    """

    def __init__(
        self, program: Program, ways: Ways, workers: Workers, before: Optional[Sequence[Step]] = None,
        patience: Optional[float] = None,
    ) -> None:
        self.program, self.ways, self._patience = program, ways, patience
        self._clock = len(program.functions)
        self._before = before
        self.library = Library(program.limits, None)
        self.recorder = Recorder(self.library, before)
        self._door = KernelDoor(self.recorder, lambda ident: self._by_thread.get(ident))
        self.tasks: List[TheTask] = []
        self._by_thread: Dict[int, ByThread] = {}
        self._workers = workers
        self.turns: List[int] = []
        #: Behind so many turns each goes by itself.
        self.chosen = 0
        #: Whether the order had too many turns, and whether a task could go on for long meanwhile and never went.
        self.is_cut, self.is_unfair = False, False
        self._passed_over: Dict[int, int] = {}
        #: The task that has the baton, if any.
        self._turn: Optional[TheTask] = None
        self._seat = Seat()
        self._error: Optional[BaseException] = None
        #: The task that ended by an exception, if one did.
        self.raised: Optional[TheTask] = None
        self._is_running, self._is_over = False, False
        self.env: Any = None

    # ------------------------------------------------------------------ the run
    def run(self) -> None:
        """Runs the order to its end. What is wrong with the program and not with the order is raised."""
        kernel = ExploredKernel(self._door)
        self.env = self.program.setup(kernel)
        self._look_at_calls()
        self._door.phase = "tasks"
        for number, function in enumerate(self.program.functions):
            self._begin(number, function, kernel)
        self._is_running = True
        while self.raised is None:
            turn = self._hand_on(self._seat)
            if turn is None:
                break
            assert isinstance(turn, ByGenerator)
            turn.go_on()
            self._look_at(turn)
        self._at_end()

    def _look_at(self, task: TheTask) -> None:
        if task.raised is not None and self.raised is None:
            self.raised = task

    def _begin(self, number: int, function: Callable[[Any, Any], Any], kernel: ExploredKernel) -> None:
        """Makes a task, which runs up to its first call."""
        if self.raised is not None:
            return
        name = self.program.names[number]
        if is_generator(function):
            by_generator = ByGenerator(self.recorder, number, name, kernel, function, self.env)
            self.tasks.append(by_generator)
            by_generator.start()
            self._look_at(by_generator)
            return

        def body(task: ByThread) -> Any:
            self._by_thread[task.ident] = task
            return function(Caller(ThreadDoor(task), task.by, name), self.env)

        task = ByThread(self.recorder, number, name, body, self._pass_on, self._ended, self._workers)
        self.tasks.append(task)
        self._turn = task
        task.start()
        self._sleep()

    def _at_end(self) -> None:
        self._is_running = False
        self._door.phase = "check"
        if self._error is not None:
            raise self._error
        if self._door.stranger is not None:
            raise self._door.stranger
        wrong = None if self.raised is None else self.raised.raised
        if wrong is not None and (isinstance(wrong, (BadTask, NotATask)) or not isinstance(wrong, Exception)):
            raise wrong
        if self.ways.is_foreign and self.raised is None and self.ways.left:
            raise self._left_over()
        if self.recorder.at_end():
            raise self._not_the_same() from wrong

    @property
    def asleep(self) -> List[TheTask]:
        return [it for it in self.tasks if not it.is_done]

    # ---------------------------------------------------------------- the turns
    def _next(self) -> Optional[TheTask]:
        """Makes turns until a task has an answer. None at the end of the order."""
        while True:
            ready = self._ready()
            if not ready:
                return None
            if len(self.turns) >= self.program.most:
                self.is_cut = True
                return None
            who = self._choose(ready)
            is_answered = self._tick() if who == self._clock else self.tasks[who].make_call()
            self._look_at_calls()
            if is_answered:
                return self.tasks[who]

    def _ready(self) -> List[int]:
        marked = self.library.is_marked
        ready = [it.number for it in self.tasks if not it.is_done and (not it.is_parked or marked(it.by))]
        if (not ready or self.program.clock == "any") and self.library.next_moment() is not None:
            ready.append(self._clock)
        return ready

    def _choose(self, ready: List[int]) -> int:
        last = self.turns[-1] if self.turns else NOBODY
        who = self.ways.choose(ready, last)
        if who not in ready:
            raise self._cannot_go(who)
        self.turns.append(who)
        if who != goes_by_itself(ready, last, self._clock):
            self.chosen = len(self.turns)
        if len(self.turns) * 2 >= self.program.most:
            self._pass_over(ready, who)
        return who

    def _pass_over(self, ready: List[int], who: int) -> None:
        """Counts for how many turns each task could have gone on and didn't. For a quarter of all is unfair."""
        others = (it for it in ready if it not in (who, self._clock))
        self._passed_over = {it: self._passed_over.get(it, 0) + 1 for it in others}
        self.is_unfair |= any(it * 4 >= self.program.most for it in self._passed_over.values())

    def _tick(self) -> bool:
        moment = self.library.next_moment()
        assert moment is not None
        self.recorder.make(self._clock, "tick", self.library.who(0, 1), (moment - self.library.now(),))
        return False

    # --------------------------------------------------------------- the baton
    def _hand_on(self, me: Optional[Seat]) -> Optional[TheTask]:
        """Makes turns, and hands the baton to the task that got an answer; the explorer's thread steps generators.

        It comes back when the baton does, at once if it stays here. A task that has ended has no seat.
        """
        try:
            turn = self._next()
        except BaseException as error:
            self._error, turn = error, None
        self._turn = turn
        seat = turn.seat if isinstance(turn, ByThread) else self._seat
        if seat is not me:
            seat.wake()
            if me is self._seat:
                self._sleep()
            elif me is not None:
                me.sleep()
        return self._turn

    def _pass_on(self, task: ByThread) -> None:
        """A task in a thread came to a call."""
        if self._is_running:
            self._hand_on(task.seat)
        elif not self._is_over:
            self._seat.wake()
            task.seat.sleep()

    def _ended(self, task: ByThread) -> None:
        """A task in a thread came to its end."""
        if not self._is_over:
            self._look_at(task)
        if self._is_running and self.raised is None:
            self._hand_on(None)
        else:
            self._turn = None
            self._seat.wake()

    def _sleep(self) -> None:
        """Sleeps until the baton is back, while calls are made."""
        if self._patience is None:
            self._seat.sleep()
            return
        seen = -1
        while not self._seat.sleep(self._patience):
            if len(self.recorder.steps) == seen:
                raise self._stuck()
            seen = len(self.recorder.steps)

    def close(self) -> None:
        """Ends the tasks that have come to no end."""
        self._is_over, self._is_running = True, False
        for task in self.tasks:
            if isinstance(task, ByThread):
                task.close(self._seat.sleep)
            else:
                task.close()
        self._door.phase = "over"
        self.library.end()
        self._break_circles()

    def look_at_ends(self) -> None:
        """Each task has ended behind `close`, unless it didn't let what ends it pass."""
        for task in self.tasks:
            if not task.is_done:
                raise BadTask(
                    f"the task {task.name!r} goes on though its order is over. It caught what ends it, or waits for"
                    " something that is not the kernel's; `except Exception` lets pass what ends a task"
                )

    def _break_circles(self) -> None:
        """Lets go of what leads back here, so that a kernel is freed as soon as nobody has it any more."""
        self._door.let_go()
        self._by_thread.clear()
        for task in self.tasks:
            if isinstance(task, ByThread):
                task.let_go()

    # ------------------------------------------------------------ what is wrong
    def _look_at_calls(self) -> None:
        if self.recorder.differs is not None:
            raise self._not_the_same()

    def _not_the_same(self) -> NotTheSame:
        place = self.recorder.differs or 0
        assert self._before is not None
        now, before = self._told(self.recorder.steps, place), self._told(self._before, place)
        turn = sum(step[0] != SETUP for step in self.recorder.steps[:place]) + 1
        return NotTheSame(
            f"not the same again: in turn {turn} {now}, where it was {before}, after the same turns. A task depends on"
            " something else than the kernel's answers: time, chance, addresses, the order of a set, an earlier order"
        )

    def _told(self, steps: Sequence[Step], place: int) -> str:
        if place >= len(steps):
            return "the end of the order"
        number, op, pid, args, _ = steps[place]
        return f"{call_text(op, args, pid)} of {self.program.name_of(number)}"

    def _cannot_go(self, who: int) -> Exception:
        turn = len(self.turns) + 1
        if who == NOBODY and self.ways.is_foreign:
            ready = ", ".join(self.program.names[it] for it in self._ready())
            return BadSchedule(f"the schedule ends before turn {turn}, and {ready} can go on; write .. at its end")
        why = self._why_not(who)
        if self.ways.is_foreign:
            return BadSchedule(f"turn {turn} of the schedule is one of {self.program.names[who]}, which {why}")
        name = self.program.names[who] if who != NOBODY else "a task"
        return NotTheSame(f"not the same again: in turn {turn} {name} could go on before, and now {why}")

    def _why_not(self, who: int) -> str:
        if who in (NOBODY, self._clock):
            return "can't"
        return "has come to its end" if self.tasks[who].is_done else "sleeps in a wait that nothing has ended"

    def _left_over(self) -> BadSchedule:
        left, turn = self.ways.left, len(self.turns) + 1
        return BadSchedule(f"the schedule has {left} more from turn {turn} on, and nobody can go on")

    def _stuck(self) -> Stuck:
        task = self._turn
        if not isinstance(task, ByThread):
            return Stuck("no task goes on")
        frame = sys._current_frames().get(task.ident)
        where = f"{frame.f_code.co_filename}:{frame.f_lineno}" if frame else "nowhere"
        return Stuck(
            f"the task {task.name!r} made no call for {self._patience:g} seconds, at {where}: it waits for something"
            " that is not the kernel's, as a lock that another task has"
        )
