"""Calls, answers and masks as a reader knows them."""

from __future__ import annotations

from typing import Any, Callable, Dict, Tuple

from .._numbers import ERR, ET, EXCLUSIVE, HUP, IN, NAMES, ONESHOT, OUT, PRI, RDHUP, UNITS, WAKEUP

_BITS = (
    ("IN", IN), ("PRI", PRI), ("OUT", OUT), ("ERR", ERR), ("HUP", HUP), ("RDHUP", RDHUP),
    ("EXCLUSIVE", EXCLUSIVE), ("WAKEUP", WAKEUP), ("ONESHOT", ONESHOT), ("ET", ET),
)
_ACTS = {1: "add", 2: "delete", 3: "mod"}
#: So many bytes of a read or write are shown.
_SHOWN = 24


def bits_text(mask: int) -> str:
    """The names of bits, as `IN|ET`."""
    names = [name for name, bit in _BITS if mask & bit]
    rest = mask & ~sum(bit for _, bit in _BITS)
    return "|".join(names + ([hex(rest)] if rest else [])) or "0"


def time_text(count: int) -> str:
    """So many microseconds in seconds, or -1 for no end."""
    return "-1" if count < 0 else f"{count / UNITS:.6f}".rstrip("0").rstrip(".")


def bytes_text(data: bytes) -> str:
    return repr(data) if len(data) <= _SHOWN else f"{data[:_SHOWN]!r}.. ({len(data)} bytes)"


def _flags(*flags: Tuple[str, bool]) -> str:
    return "".join(f", {name}=True" for name, is_set in flags if is_set)


def _ctl(ep: int, act: int, fd: int, mask: int, data: int) -> str:
    rest = "" if act == 2 else f", {bits_text(mask)}, {data}"
    return f"{_ACTS.get(act, act)}({ep}, {fd}{rest})"


def _settime(fd: int, value: int, interval: int, absolute: bool) -> str:
    return f"settime({fd}, {time_text(value)}, {time_text(interval)}{_flags(('absolute', absolute))})"


#: How a call is told by what the kernel is asked; the others are told by their names and words.
_TOLD: Dict[str, Callable[..., str]] = {
    "pipe": lambda cloexec: f"pipe({_flags(('cloexec', cloexec))[2:]})",
    "socketpair": lambda cloexec: f"socketpair({_flags(('cloexec', cloexec))[2:]})",
    "socket": lambda family, cloexec: f"socket({family!r}{_flags(('cloexec', cloexec))})",
    "eventfd": lambda init, sem, cloexec: f"eventfd({init}{_flags(('semaphore', sem), ('cloexec', cloexec))})",
    "timerfd": lambda clock, cloexec: f"timerfd({_flags(('cloexec', cloexec))[2:]})",
    "plain": lambda cloexec: f"plain({_flags(('cloexec', cloexec))[2:]})",
    "epoll": lambda cloexec: f"epoll({_flags(('cloexec', cloexec))[2:]})",
    "ctl": _ctl,
    "wait": lambda ep, most, timeout: f"wait({ep}, {most}, {time_text(timeout)})",
    "write": lambda fd, data: f"write({fd}, {bytes_text(data)})",
    "bind": lambda fd, name: f"bind({fd}, {tuple(name)})",
    "accept": lambda fd, cloexec: f"accept({fd}{_flags(('cloexec', cloexec))})",
    "connect": lambda fd, name: f"connect({fd}, {tuple(name)})",
    "shutdown": lambda fd, how: f"shutdown({fd})" if how == "wr" else f"shutdown({fd}, {how!r})",
    "settime": _settime,
    "tick": lambda count: f"tick({time_text(count)})",
}


def call_text(op: str, args: Tuple[Any, ...], pid: int) -> str:
    """A call as its method is written: `add(5, 3, IN|ET, 7)`."""
    told = _TOLD.get(op)
    text = told(*args) if told else f"{op}({', '.join(map(repr, args))})"
    return text if pid == 1 else f"{text} in process {pid}"


def answer_text(op: str, answer: Any) -> str:
    """What a call came to: `EAGAIN`, `sleeps`, `[(IN, 7)]`; nothing if there is nothing to tell."""
    if isinstance(answer, OSError):
        return NAMES.get(answer.errno or 0, str(answer))
    if op in ("sockname", "peername"):
        return "no name" if answer is None else f"({answer.space}, {answer.number})"
    if answer is None:
        return {"wait": "sleeps", "resume": "sleeps on"}.get(op, "")
    if op in ("wait", "resume"):
        return "[" + ", ".join(f"({bits_text(bits)}, {data})" for bits, data in answer) + "]"
    if op in ("settime", "gettime"):
        return f"({time_text(answer[0])}, {time_text(answer[1])})"
    return bytes_text(answer) if isinstance(answer, bytes) else repr(answer)
