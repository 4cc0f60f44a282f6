"""A schedule: who goes, turn by turn, as a short text.

    boss*2 w0*7 + w1*2

`boss` goes twice, then `w0` seven times, then the clock once, then `w1` twice. What ends in ` ..` is the beginning of a
schedule: from there on whoever went last goes on while that can be, else the first of the tasks that can, and the clock
if none can. A name and a colon may stand before it all, `pool: boss*2 ..`: that of the exploration which is meant.

The rest is kept free. A turn may one day say which registrations its wait reports, in brackets behind the name:
`w0[1,0]`. So no name has a bracket, and a schedule that has one is refused by this version.
"""

from __future__ import annotations

import re
from typing import List, NamedTuple, Sequence, Tuple

CLOCK = "+"
_OPEN = ".."
#: The form of the name of a task or of an exploration.
NAME = re.compile(r"[A-Za-z_][A-Za-z0-9_.-]*")
_TURNS = re.compile(rf"({NAME.pattern}|\+)(?:\*([0-9]+))?")
#: No schedule has more turns.
_MOST = 10_000_000


class BadSchedule(ValueError):
    """A schedule that is none, or that is of another program. The message names the place."""


class Schedule(NamedTuple):
    """The turns, as numbers of tasks, the clock's behind them all, and whether the rest is left open."""

    turns: Tuple[int, ...]
    is_open: bool


def blocks(turns: Sequence[int]) -> List[Tuple[int, int]]:
    """The turns as blocks of one task each: who, and how often."""
    found: List[Tuple[int, int]] = []
    for who in turns:
        if found and found[-1][0] == who:
            found[-1] = (who, found[-1][1] + 1)
        else:
            found.append((who, 1))
    return found


def schedule_text(turns: Sequence[int], names: Sequence[str], is_open: bool = False) -> str:
    """The text of turns; `names` are those of the tasks and the clock's."""
    words = [names[who] + (f"*{count}" if count > 1 else "") for who, count in blocks(turns)]
    return " ".join(words + [_OPEN] * is_open)


def split_name(text: str) -> Tuple[str, str]:
    """The name of the exploration that a schedule is for, or nothing, and the schedule."""
    name, colon, rest = text.partition(":")
    if not colon:
        return "", text
    if not NAME.fullmatch(name.strip()):
        raise BadSchedule(f"the schedule {text!r} has {name!r} before its colon, which is no name")
    return name.strip(), rest


def read_schedule(text: str, names: Sequence[str]) -> Schedule:
    """The schedule of a text. `BadSchedule` names the word that is none, or the task that isn't there."""
    turns: List[int] = []
    words = text.split()
    is_open = words[-1:] == [_OPEN]
    for place, word in enumerate(words[:-1] if is_open else words, 1):
        found = _TURNS.fullmatch(word)
        if found is None:
            raise BadSchedule(_no_turns(text, place, word))
        name, count = found[1], int(found[2] or 1)
        if name not in names:
            there = ", ".join(it for it in names if it != CLOCK)
            raise BadSchedule(f"word {place} of the schedule {text!r} names {name!r}, and the tasks are {there}")
        if not 1 <= count <= _MOST - len(turns):
            raise BadSchedule(f"word {place} of the schedule {text!r} has {count} turns; it has 1 to {_MOST}")
        turns += [names.index(name)] * count
    if not turns and not is_open:
        raise BadSchedule(f"the schedule {text!r} has no turns")
    return Schedule(tuple(turns), is_open)


def _no_turns(text: str, place: int, word: str) -> str:
    fault = f"word {place} of the schedule {text!r} is {word!r}"
    if "[" in word or "]" in word:
        return f"{fault}, and what a wait reports can't be chosen in this version"
    if word == _OPEN:
        return f"{fault}, which stands at the end only"
    return f"{fault}, and no turns of a task: those are a name, or a name and how often, as loop*3, or {CLOCK}"
