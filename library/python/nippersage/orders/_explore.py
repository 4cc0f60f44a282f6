"""Tries orders of a program, and makes the first that fails small."""

from __future__ import annotations

import os
import sys
import time
from math import ceil
from operator import index
from typing import Any, Callable, Collection, List, Mapping, NamedTuple, Optional, Sequence, TypeVar, Union

from .._kernel import Kernel
from .._library import LIBRARY
from .._numbers import Watch
from ._doors import BadTask
from ._result import VARIABLE, Failed, Result, Tried, count, failed
from ._schedule import CLOCK, NAME, Schedule, read_schedule, split_name
from ._shrink import cost, shrink
from ._tables import Step
from ._tasks import Workers
from ._verdict import Verdict, judge
from ._ways import Every, Given, Pct, Random, Rising, Ways
from ._words import answer_text
from ._world import NotTheSame, Program, World

# unittest leaves the frames of this module out of what it prints.
__unittest = True

E = TypeVar("E")

HOWS = ("rising", "every", "random", "pct")
CLOCKS = ("idle", "any")
#: The most seconds of an exploration, if nothing is said.
_SECONDS = 4.0
#: So many orders by chance are run, if there is no limit.
_RUNS = 1_000
#: Behind the first failure by chance so many orders more are run, of so many turns in all, for so many failures.
_MORE, _TURNS, _FAILURES = 30, 10_000, 3


class Part(NamedTuple):
    """A way of choosing orders, with its name, and the share of the limits at which the next one comes."""

    how: str
    ways: Ways
    share: float


class Limits(NamedTuple):
    """When to stop, if not before."""

    seconds: Optional[float]
    runs: Optional[int]

    def reached(self, share: float, seconds: float, runs: int) -> str:
        """The limit that is reached, of this share of all, or nothing."""
        if self.runs is not None and runs >= self.runs * share:
            return f"limit of {count(ceil(self.runs * share), 'order')}"
        if self.seconds is not None and seconds >= self.seconds * share:
            return f"limit of {self.seconds * share:g} s"
        return ""


def explore(
    setup: Callable[[Kernel], E], tasks: Mapping[str, Callable[[Any, E], Any]], *,
    check: Optional[Callable[[E], object]] = None, daemons: Collection[str] = (),
    how: Optional[str] = None, bound: Optional[int] = None, depth: int = 3, seed: Optional[int] = 0,
    seconds: Optional[float] = None, runs: Optional[int] = None, clock: str = "idle",
    beside: Union[bool, Callable[[Watch], bool]] = True, most: int = 2_000, limits: Optional[Sequence[int]] = None,
    order: Optional[str] = None, name: str = "", stop: bool = True, raises: bool = True, outcomes: bool = False,
    patience: Optional[float] = 60.0,
) -> Result:
    """Tries orders of what tasks do, and raises `Failed` for one that fails. Else it tells what was tried.

    `setup(kernel)` is called for each order, and gives what the tasks share. A task is `f(t, shared)`. A function has
    the methods of `nippersage.Task` on `t`, and its waits sleep; a generator yields its calls, `yield t.read(..)`. A
    failure is an exception of a task or of `check(shared)`, which is called at the end; a task that sleeps for good and
    is not of `daemons`; a task, daemon or not, that sleeps beside data (`beside`); more than `most` turns.

    `how` is "rising", every order of no pre-emption, then of one, up to `bound` or all; "every", depth first; "random";
    "pct" with `depth`. If nothing is said, half of the limits is for rising bounds and the rest for random orders.
    The limits are `seconds` and `runs`; if none is told, they are 4 seconds, or for "random" and "pct" 1,000 orders. A
    `seed` of None takes a new one.

    `clock` "idle" moves the clock if nobody can go on, "any" at any point. `order` is a schedule to run alone; the
    variable NIPPERSAGE_ORDER gives one, too. `name` tells this exploration from others there. `stop=False` goes on
    after a failure, `raises=False` gives it in the result, `outcomes=True` counts outcomes. A task in a thread that
    makes no call for `patience` seconds is `Stuck`; None waits for ever, as for an `order` that was given.
    """
    __tracebackhide__ = True
    program = _program(setup, tasks, check, daemons, clock, beside, most, limits)
    kept, given = _limits(how, bound, seconds, runs), _given(program, order, name)
    seed = int.from_bytes(os.urandom(4), "little") if seed is None else index(seed)
    search = Search(program, name, stop, outcomes, None if given is not None else patience)
    search.run(given, _parts(program, how, bound, depth, seed), kept, seed)
    failure = search.raised() if raises else None
    if failure is not None:
        raise failure
    return search.result


def _program(
    setup: Any, tasks: Any, check: Any, daemons: Any, clock: str, beside: Any, most: int, limits: Any,
) -> Program:
    """The program, of which all can be called that has to be."""
    if LIBRARY is None:
        raise NotImplementedError("orders need the library libnippersage, and there is none")
    if not callable(setup):
        raise TypeError(f"setup is a function of a kernel, and not {setup!r}")
    if check is not None and not callable(check):
        raise TypeError(f"check is a function, and not {check!r}")
    if not isinstance(tasks, Mapping) or not tasks:
        raise BadTask(f"tasks are a dict of functions by their names, and not {tasks!r}")
    for name, task in tasks.items():
        if not isinstance(name, str) or not NAME.fullmatch(name):
            raise BadTask(f"{name!r} names no task: it has letters, digits and . _ -, and begins with a letter or _")
        if not callable(task):
            raise BadTask(f"the task {name!r} is no function, but {task!r}")
    if isinstance(daemons, str):
        raise ValueError(f"daemons are a list of names, and not the text {daemons!r}")
    names = tuple(tasks)
    for name in daemons:
        if name not in names:
            raise ValueError(f"the daemon {name!r} is no task; the tasks are {', '.join(names)}")
    if clock not in CLOCKS:
        raise ValueError(f"clock is one of {', '.join(CLOCKS)}, and not {clock!r}")
    _at_least("most", most, 1)
    numbers = {names.index(name) for name in daemons}
    return Program(setup, tuple(tasks.values()), (*names, CLOCK), numbers, check, clock, most, limits, beside)


def _at_least(name: str, value: Any, least: int) -> None:
    if value is not None and index(value) < least:
        raise ValueError(f"{name} is {least} at least, and not {value}")


def _given(program: Program, order: Optional[str], name: str) -> Optional[Schedule]:
    """The one order to run, by the parameter or else by the variable, if that means this exploration."""
    if name and not NAME.fullmatch(name):
        raise ValueError(f"the name of an exploration is {name!r}; it has letters, digits and . _ -")
    if order is None:
        order = os.environ.get(VARIABLE)
        if order is None:
            return None
    whose, turns = split_name(order)
    return read_schedule(turns, program.names) if whose in ("", name) else None


def _limits(how: Optional[str], bound: Optional[int], seconds: Optional[float], runs: Optional[int]) -> Limits:
    _at_least("runs", runs, 1)
    if seconds is not None and not seconds > 0:
        raise ValueError(f"seconds are more than 0, and not {seconds}")
    if seconds is None and runs is None:
        if how in ("random", "pct"):
            return Limits(None, _RUNS)
        return Limits(_SECONDS if how is None and bound is None else None, None)
    return Limits(seconds, runs)


def _parts(program: Program, how: Optional[str], bound: Optional[int], depth: int, seed: int) -> List[Part]:
    """What is tried one after another."""
    if how is not None and how not in HOWS:
        raise ValueError(f"how is one of {', '.join(HOWS)}, and not {how!r}")
    _at_least("bound", bound, 0)
    _at_least("depth", depth, 1)
    if bound is not None and how not in (None, "rising"):
        raise ValueError(f"a bound of pre-emptions is for rising bounds, and not for {how!r}")
    clock = len(program.functions)
    if how == "every":
        return [Part(how, Every(clock), 1)]
    if how == "random":
        return [Part(how, Random(seed), 1)]
    if how == "pct":
        return [Part(how, Pct(seed, depth, clock), 1)]
    if how == "rising" or bound is not None:
        return [Part("rising", Rising(clock, bound), 1)]
    return [Part("rising", Rising(clock, None), 0.5), Part("random", Random(seed), 1)]


class Search:
    """Runs orders of a program, and counts."""

    def __init__(
        self, program: Program, name: str, stop: bool, outcomes: bool, patience: Optional[float],
    ) -> None:
        self._program, self._name, self._stop, self._outcomes = program, name, stop, outcomes
        self._patience = patience
        self._clock = len(program.functions)
        self._workers = Workers()
        self._before: Optional[Sequence[Step]] = None
        self._first: Optional[Tried] = None
        self._how = ""
        self._is_replay = False
        self.result = Result()

    def run(self, given: Optional[Schedule], parts: Sequence[Part], limits: Limits, seed: int) -> None:
        if given is not None:
            self._one(given)
        else:
            self._all(parts, limits, seed)

    def raised(self) -> Optional[BaseException]:
        """What a failure is raised as: in a replay what a task raised, so that a debugger stops there."""
        failure = self.result.failure
        if failure is None or not self._is_replay or failure.__cause__ is None:
            return failure
        print(failure, file=sys.stderr)
        return failure.__cause__

    def _one(self, given: Schedule) -> None:
        """Runs one order."""
        began, self._is_replay = time.monotonic(), True
        ways = Given(given.turns, self._clock, given.is_open, is_foreign=True)
        try:
            tried = self._run(ways)
        finally:
            self._workers.end()
        self.result.seconds = time.monotonic() - began
        self.result.parts.append("one order, as it was given")
        self._count(tried)
        if tried.verdict is not None:
            self._fail(tried, tried, "as it was given")

    def _all(self, parts: Sequence[Part], limits: Limits, seed: int) -> None:
        """Tries orders part after part, until there is none left, a limit is reached, or one fails."""
        began = time.monotonic()
        self.result.seed = seed
        try:
            for part in parts:
                self._try_part(part, limits, began)
                if self.result.whole or self._first is not None and self._stop:
                    break
            self.result.seconds = time.monotonic() - began
            if self._first is not None:
                self._make_small(self._first)
        finally:
            self._workers.end()

    def _try_part(self, part: Part, limits: Limits, began: float) -> None:
        runs, limit = self.result.runs, ""
        while part.ways.begin():
            if self.result.runs:
                limit = limits.reached(part.share, time.monotonic() - began, self.result.runs)
            if limit:
                break
            tried = self._run(part.ways)
            if self.result.runs == 0:
                self._look_again(tried)
            part.ways.end(tried.turns)
            self._count(tried)
            if tried.verdict is not None and self._first is None:
                self._first, self._how = tried, self._how_found(part)
            if self._first is not None and self._stop:
                limit = "first failure"
                break
        self._cover(part, limit, self.result.runs - runs)

    def _look_again(self, first: Tried) -> None:
        """Runs the first order once more, which has to come to the same."""
        again = self._run(Given(first.turns, self._clock))
        if (again.verdict is None) != (first.verdict is None):
            raise self._came_not_again(again if first.verdict is None else first)

    def _cover(self, part: Part, limit: str, runs: int) -> None:
        """Tells what a part came to."""
        result, ways = self.result, part.ways
        stopped = f"{count(runs, 'order')}, then the {limit}" if limit else count(runs, "order")
        if isinstance(ways, Rising):
            done = ways.bound - bool(limit)
            result.bound = done if done >= 0 else None
            result.whole = not limit and ways.is_whole and not result.cut
            done_text = f"every order of at most {count(done, 'pre-emption')}" if done >= 0 else "rising bounds"
            result.parts.append(f"{done_text}: {stopped}")
        elif isinstance(ways, Every):
            result.whole = not limit and not result.cut
            result.parts.append(f"depth first: {stopped}")
        else:
            kind = "by priorities" if isinstance(ways, Pct) else "by chance"
            result.parts.append(f"{kind}, seed {result.seed}: {stopped}")

    def _run(self, ways: Ways) -> Tried:
        world = World(self._program, ways, self._workers, self._before, self._patience)
        try:
            world.run()
            tried = Tried(
                world.turns, world.chosen, world.recorder.steps, world.is_cut and world.is_unfair,
                *self._came_to(world),
            )
        finally:
            self._before = world.recorder.steps
            world.close()
        world.look_at_ends()
        return tried

    def _came_to(self, world: World) -> Any:
        verdict = judge(world)
        if not self._outcomes:
            return verdict, None
        answers: List[List[str]] = [[] for _ in range(self._clock + 1)]
        for number, op, _, _, answer in world.recorder.steps:
            if op not in ("wait", "resume") or answer is not None:
                answers[number].append(answer_text(op, answer))
        told = tuple((it.name, tuple(answers[it.number]), it.is_done) for it in world.tasks)
        return verdict, (told, verdict and verdict.kind)

    def _count(self, tried: Tried) -> None:
        result = self.result
        result.runs += 1
        result.turns += len(tried.turns)
        result.cut += tried.is_cut
        result.failures += tried.verdict is not None
        if self._outcomes:
            result.outcomes[tried.outcome] += 1

    def _how_found(self, part: Part) -> str:
        if isinstance(part.ways, Rising):
            told = f"order {self.result.runs:,}, of {count(part.ways.bound, 'pre-emption')}"
        elif isinstance(part.ways, Every):
            told = f"order {self.result.runs:,}, depth first"
        else:
            told = f"order {self.result.runs:,}, by {part.how} of seed {self.result.seed}"
        return told

    # ------------------------------------------------------------- making small
    def _make_small(self, first: Tried) -> None:
        """Makes the first failure small. If it was found by chance it isn't the only one to begin with."""
        assert first.verdict is not None
        self._before = first.steps
        again = self._again(first.turns, first.verdict)
        if again is None:
            raise self._came_not_again(first)
        small, tried = self._smallest(again, first.verdict)
        for other in self._others(first):
            found, more = self._smallest(other, first.verdict)
            tried += more
            small = min(small, found, key=lambda it: cost(it.turns))
        self._fail(small, first, f"{self._how}; {count(tried, 'order')} tried to make it small")

    def _others(self, first: Tried) -> List[Tried]:
        """Other orders by chance that fail in the same way."""
        found: List[Tried] = []
        if " of seed " not in self._how or first.verdict is None:
            return found
        ways, turns = Random(self.result.seed or 0, first=self.result.runs), 0
        for _ in range(_MORE):
            ways.begin()
            tried = self._run(ways)
            turns += len(tried.turns)
            if first.verdict.is_like(tried.verdict):
                found.append(tried)
            if len(found) == _FAILURES - 1 or turns > _TURNS:
                break
        return found

    def _again(self, turns: Sequence[int], verdict: Verdict) -> Optional[Tried]:
        """The order of these turns, with what lacks filled, if it fails in the same way."""
        tried = self._run(Given(turns, self._clock, fills=True))
        return tried if verdict.is_like(tried.verdict) else None

    def _smallest(self, tried: Tried, verdict: Verdict) -> Any:
        found = {tuple(tried.turns): tried}

        def again(turns: Sequence[int]) -> Optional[Sequence[int]]:
            it = self._again(turns, verdict)
            if it is not None:
                found[tuple(it.turns)] = it
            return it and it.turns

        best, orders = shrink(tried.turns, again)
        return found[tuple(best)], orders

    def _came_not_again(self, first: Tried) -> Exception:
        assert first.verdict is not None
        return NotTheSame(
            f"not the same again: an order failed once, and once it did not, by the same calls: {first.verdict.text}."
            " What the check looks at depends on something else than the kernel's answers"
        )

    def _fail(self, small: Tried, first: Tried, how: str) -> None:
        self.result.failure = failed(self._program, small, first, how, self._name, str(self.result))
