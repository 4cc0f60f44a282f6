"""Whether an order failed, and why: who sleeps, at what, and what lies beside it."""

from __future__ import annotations

from typing import Any, List, NamedTuple, Optional, Tuple

from .._numbers import ET, IN, ONESHOT, RDHUP, Watch
from ._doors import SETUP
from ._tables import File, Parked, Tables, turn_of
from ._words import bits_text
from ._world import World

BESIDE, FOR_GOOD, ENDLESS = "asleep beside data", "asleep for good", "endless"
RAISED, CHECK = "raised", "check"
#: Data that somebody has to take. OUT mostly holds, and so says nothing.
_DATA = IN | RDHUP


class Verdict(NamedTuple):
    """Why an order failed. Two are of one sort if `kind` and `mark` are the same."""

    kind: str
    mark: Tuple[str, ...]
    text: str
    asleep: List[str]
    error: Optional[Exception]

    def is_like(self, other: Optional[Verdict]) -> bool:
        return other is not None and (self.kind, self.mark) == (other.kind, other.mark)


class Beside(NamedTuple):
    """A registration that a task sleeps beside, its file, and when it was reported last, in words."""

    watch: Watch
    file: File
    reported: str


class Sleeper(NamedTuple):
    """A task that sleeps at the end, where, and what its instance watches."""

    name: str
    is_daemon: bool
    at: Parked
    watches: List[Beside]

    @property
    def is_ready(self) -> bool:
        """Whether its instance would report. Only EXCLUSIVE leaves somebody asleep there."""
        return any(it.watch.is_reportable for it in self.watches)


def judge(world: World) -> Optional[Verdict]:
    """Why the order of this world failed, at its end, or None."""
    task = world.raised
    if task is not None and isinstance(task.raised, Exception):
        kind = type(task.raised).__name__
        return Verdict(RAISED, (task.name, kind), f"{task.name} raised {_told(task.raised)}", [], task.raised)
    if world.is_cut:
        if world.is_unfair:
            return None
        return Verdict(ENDLESS, (), f"{ENDLESS}: {world.program.most} turns, and no end", [], None)
    return _of_sleepers(world) or _of_check(world)


def _told(error: BaseException) -> str:
    """The first line of an exception, which is all of it but where pytest wrote it anew."""
    return f"{type(error).__name__}: {_line(error)}".rstrip(": ")


def _line(error: BaseException) -> str:
    return str(error).partition("\n")[0]


def _of_check(world: World) -> Optional[Verdict]:
    check = world.program.check
    if check is None:
        return None
    try:
        if check(world.env) is not False:
            return None
        return Verdict(CHECK, ("",), "check: it gave False", [], None)
    except Exception as error:
        told = isinstance(error, AssertionError) and _line(error) or _told(error)
        return Verdict(CHECK, (type(error).__name__,), f"check: {told}", [], error)


def _of_sleepers(world: World) -> Optional[Verdict]:
    if not world.asleep:
        return None
    tables = Tables(world.recorder.steps)
    sleepers = _sleepers(world, tables)
    lines = [_sleeper_text(it, tables) for it in sleepers]
    lost = [(it, _lost(it, world.program.beside)) for it in sleepers]
    if any(found is not None for _, found in lost):
        told = "; ".join(_lost_text(it, found, tables) for it, found in lost if found is not None)
        return Verdict(BESIDE, (), f"{BESIDE}: {told}", lines, None)
    stuck = [_sleeper_text(it, tables) for it in sleepers if not it.is_daemon]
    if stuck:
        return Verdict(FOR_GOOD, (), f"{FOR_GOOD}: {'; '.join(stuck)}", lines, None)
    return None


def _sleepers(world: World, tables: Tables) -> List[Sleeper]:
    """Who sleeps, with what the kernel tells of the registrations there.

    It tells those that live in the order in which they were made, as the tables have their files.
    """
    found = []
    for it in world.asleep:
        at = tables.parked[it.number]
        told = zip(world.library.watches_awaited(it.by), tables.watched_by(at.file))
        watches = [Beside(watch, file, _reported_text(world, watch)) for watch, file in told]
        found.append(Sleeper(it.name, it.number in world.program.daemons, at, watches))
    return found


def _reported_text(world: World, watch: Watch) -> str:
    if watch.reported_in is None:
        return "never reported"
    turn, number = turn_of(world.recorder.steps, watch.reported_in)
    return "reported in setup" if number == SETUP else f"reported to {world.program.name_of(number)} in turn {turn}"


def _lost(sleeper: Sleeper, beside: Any) -> Optional[List[Beside]]:
    """The registrations that the sleeper lies beside the data of; none of them if its instance would report."""
    if beside is False:
        return None
    found = [it for it in sleeper.watches if it.watch.shown & it.watch.mask & _DATA]
    found = [it for it in found if beside is True or beside(it.watch)]
    if found:
        return found
    is_passed_over = sleeper.is_ready and (beside is True or any(beside(it.watch) for it in sleeper.watches))
    return [] if is_passed_over else None


def _lost_text(sleeper: Sleeper, lost: Optional[List[Beside]], tables: Tables) -> str:
    where = f"{sleeper.name} at {_instance_text(sleeper)}"
    if not lost:
        return f"{where}, which would report, and no event woke {sleeper.name}"
    return f"{where}: {', and '.join(_watch_text(it, sleeper, tables) for it in lost)}"


def _instance_text(sleeper: Sleeper) -> str:
    return str(sleeper.at.ep) if sleeper.at.pid == 1 else f"{sleeper.at.ep} of process {sleeper.at.pid}"


def _sleeper_text(sleeper: Sleeper, tables: Tables) -> str:
    where = f"{sleeper.name} at {_instance_text(sleeper)}"
    watched = ", and ".join(_watch_text(it, sleeper, tables) for it in sleeper.watches)
    return f"{where}: {watched}" if watched else f"{where}, which watches nothing"


def _watch_text(it: Beside, sleeper: Sleeper, tables: Tables) -> str:
    watch = it.watch
    shown = bits_text(watch.shown) if watch.shown else "nothing"
    text = f"{_file_text(it, sleeper, tables)} shows {shown}, registered {bits_text(watch.mask)}"
    if watch.mask & ONESHOT:
        text += ", armed" if watch.is_armed else ", not armed"
    return f"{text}, {it.reported}" if watch.mask & (ET | ONESHOT) else text


def _file_text(it: Beside, sleeper: Sleeper, tables: Tables) -> str:
    """The number of a registration, and by which number its file is known if that isn't the one."""
    names, number = tables.names_of(it.file), it.watch.fd
    if (sleeper.at.pid, number) in names:
        return f"fd {number}"
    if not names:
        return f"fd {number}, closed since,"
    own = [name for name in names if name[0] == sleeper.at.pid] or names
    pid, fd = own[0]
    return f"fd {number}, now fd {fd}{'' if pid == sleeper.at.pid else f' of process {pid}'},"
