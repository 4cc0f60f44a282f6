"""What an exploration tried, and the failure that it found."""

from __future__ import annotations

import os
import shlex
import sys
from collections import Counter
from typing import Any, List, NamedTuple, Optional, Sequence, Tuple

from ._doors import SETUP
from ._schedule import schedule_text
from ._shrink import switches
from ._tables import Step
from ._verdict import Verdict
from ._words import answer_text, call_text
from ._world import Program

#: The variable that names the one order to run.
VARIABLE = "NIPPERSAGE_ORDER"
#: A schedule of more columns is told by its beginning, if the rest goes by itself.
_LONG = 100
#: So many turns of a long order are shown at its beginning, and at its end.
_FIRST, _LAST = 20, 30


class Tried(NamedTuple):
    """An order that was run: who went, all calls with their answers, and why it failed if it did."""

    turns: Sequence[int]
    chosen: int
    steps: Sequence[Step]
    is_cut: bool
    verdict: Optional[Verdict]
    outcome: Any


class Failed(AssertionError):
    """An order failed. The message says why, has its calls and the line that replays it.

    `kind` is "asleep beside data", "asleep for good", "endless", "raised" or "check", `why` the first line, `order` the
    schedule, and `turns` and `switches` say how long it is. `found` is the schedule before it was made small.
    """

    kind = why = order = found = ""
    turns = switches = 0


class Result:
    """What was tried.

    `whole` says whether that is every order, and `bound` up to how many pre-emptions every order was tried, or None if
    none was. `runs` counts the orders, `failures` those that failed, `cut` those that were cut since a task went on and
    on while another one could have gone, and `turns` all their turns. `outcomes` counts what orders came to, if that
    was asked for: of each task the answers, and whether it came to its end; and the kind of failure.
    `failure` is what `explore` raises. As text it is a sentence.
    """

    def __init__(self) -> None:
        self.runs = self.failures = self.cut = self.turns = 0
        self.seconds = 0.0
        self.whole = False
        self.bound: Optional[int] = None
        self.seed: Optional[int] = None
        self.failure: Optional[Failed] = None
        self.outcomes: "Counter[Any]" = Counter()
        self.parts: List[str] = []

    def __str__(self) -> str:
        if self.whole:
            told = f"every order was tried: {count(self.runs, 'order')}"
        else:
            told = "; ".join(self.parts) + "; not every order was tried"
        if self.cut:
            told += f"; {count(self.cut, 'order')} cut, as a task could go on for ever while another one waited to go"
        return f"{told}; {count(self.failures, 'failure')}; {count(self.turns, 'turn')}, {self.seconds:.2f} s"

    def __repr__(self) -> str:
        return f"<Result: {self}>"


def count(number: int, word: str) -> str:
    """A number with its word, as `2,702 orders`."""
    return f"{number:,} {word}{'' if number == 1 else 's'}"


def order_text(program: Program, tried: Tried) -> str:
    """The schedule of an order. A long one is told by its beginning, if all that follows goes by itself."""
    whole = schedule_text(tried.turns, program.names)
    start = schedule_text(tried.turns[:tried.chosen], program.names, is_open=True)
    return start if len(whole) > _LONG and len(start) < len(whole) else whole


def failed(program: Program, small: Tried, first: Tried, how: str, name: str, tried: str) -> Failed:
    """The failure of an order, found as `how` tells and then made small."""
    verdict = small.verdict
    assert verdict is not None
    order, found = order_text(program, small), order_text(program, first)
    told = f"{count(len(small.turns), 'turn')}, {count(switches(small.turns), 'switch').replace('switchs', 'switches')}"
    if len(first.turns) != len(small.turns) or found != order:
        told += f"; found with {count(len(first.turns), 'turn')}, {switches(first.turns)} switches"
    lines = [verdict.text, f"  order     {order}", f"            {told}; {how}"]
    lines += _steps_text(program, small.steps)
    lines += [f"  asleep    {it}" for it in verdict.asleep]
    lines += [f"  replay    {replay_line(order, name)}", f"  tried     {tried}"]
    failure = Failed("\n".join(lines))
    failure.kind, failure.why, failure.order, failure.found = verdict.kind, verdict.text, order, found
    failure.turns, failure.switches = len(small.turns), switches(small.turns)
    failure.__cause__ = verdict.error
    return failure


def _steps_text(program: Program, steps: Sequence[Step]) -> List[str]:
    """A line for each call: its turn, who made it, the call and its answer."""
    rows: List[Tuple[str, str, str, str]] = []
    turn = 0
    for number, op, pid, args, answer in steps:
        turn += number != SETUP
        place = "" if number == SETUP else str(turn)
        rows.append((place, program.name_of(number), call_text(op, args, pid), answer_text(op, answer)))
    wide = max((len(row[1]) for row in rows), default=0)
    long = min(44, max((len(row[2]) for row in rows), default=0))
    lines = [f"  {at:>4}  {who:<{wide}}  {call:<{long}}  {answer}".rstrip() for at, who, call, answer in rows]
    left = len(lines) - _FIRST - _LAST
    return lines if left <= 0 else lines[:_FIRST] + [f"        .. {count(left, 'call')} more"] + lines[-_LAST:]


def replay_line(order: str, name: str) -> str:
    """The line that runs the test which runs now on this order only."""
    given = f"{VARIABLE}={shlex.quote(f'{name}: {order}' if name else order)}"
    test = os.environ.get("PYTEST_CURRENT_TEST")
    if test:
        return f"{given} pytest {shlex.quote(test.rpartition(' (')[0] or test)}"
    case = _unittest()
    script = sys.argv[0] if sys.argv and os.path.isfile(sys.argv[0]) else ""
    if case is not None:
        return f"{given} python3 {_words_of(case, script)}"
    return f"{given} python3 {shlex.quote(script)}" if script else f"explore(.., order={order!r})"


def _words_of(case: Any, script: str) -> str:
    """The words for Python that run a test case only, from this folder."""
    module, test = type(case).__module__, f"{type(case).__qualname__}.{case._testMethodName}"
    if module == "__main__":
        return f"{shlex.quote(script)} {shlex.quote(test)}"
    folder, file = os.path.split(os.path.relpath(getattr(sys.modules.get(module), "__file__", None) or ""))
    if "." in module or not folder or not file:
        return f"-m unittest {shlex.quote(f'{module}.{test}')}"
    return f"-m unittest discover -s {shlex.quote(folder)} -p {shlex.quote(file)} -k {shlex.quote(test)}"


def _unittest() -> Any:
    """The unittest that runs now: the next test case above."""
    unittest = sys.modules.get("unittest")
    frame = sys._getframe(1) if unittest is not None else None
    while frame is not None and unittest is not None:
        test = frame.f_locals.get("self")
        if isinstance(test, unittest.TestCase) and hasattr(test, "_testMethodName"):
            return test
        frame = frame.f_back
    return None
