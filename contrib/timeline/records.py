"""Reads a history, a record a line, as docs/history.md has it. Needs Python 3.8."""

import itertools
import json
import re
from collections import namedtuple

#: `line` counts from 1. `pid` and `call` are those of a call; `tick` is by how much a tick goes on; a resumption has
#: neither. `answer` is the key of the answer with its value, and `text` the line itself. Times are microseconds.
Record = namedtuple("Record", "line caller pid call tick answer picked text")

ERRORS = {
    "EPERM": 1, "ENOENT": 2, "ESRCH": 3, "EBADF": 9, "EAGAIN": 11, "ENOMEM": 12, "EBUSY": 16, "EEXIST": 17,
    "EINVAL": 22, "ENFILE": 23, "EMFILE": 24, "ENOSPC": 28, "EPIPE": 32, "ELOOP": 40, "ENOTSOCK": 88,
    "EAFNOSUPPORT": 97, "EADDRINUSE": 98, "EADDRNOTAVAIL": 99, "ECONNABORTED": 103, "ECONNRESET": 104,
    "EISCONN": 106, "ENOTCONN": 107, "ECONNREFUSED": 111, "EALREADY": 114,
}


class BadLine(Exception):
    """A line that is no record."""

    def __init__(self, line):
        super().__init__(f"line {line} is no record (docs/history.md says what one is)")


def whole(low, high):
    """Whether a value is a whole number of this range: `true` and `1.0` are none."""
    return lambda value: type(value) is int and low <= value <= high


def is_flag(value):
    return type(value) is bool


def is_hex(value):
    digits = "0123456789abcdefABCDEF"
    return type(value) is str and len(value) % 2 == 0 and all(it in digits for it in value)


def list_of(fits, length=None):
    return lambda value: type(value) is list and length in (None, len(value)) and all(map(fits, value))


def is_fill(value):
    """A byte, and how often it comes."""
    return list_of(U64, 2)(value) and value[0] < 256


def is_report(value):
    return list_of(U64, 2)(value) and U32(value[0])


def one_of(*words):
    return lambda value: type(value) is str and value in words


def is_name(value):
    """The space and the number of a socket's name, or none."""
    return value is None or type(value) is list and len(value) == 2 and is_space(value[0]) and U32(value[1])


def is_error(value):
    return (
        type(value) is list and len(value) == 2 and type(value[1]) is str and value[1] in ERRORS
        and type(value[0]) is int and value[0] == ERRORS[value[1]]
    )


U32, U64 = whole(0, 2**32 - 1), whole(0, 2**64 - 1)
I32, I64 = whole(-(2**31), 2**31 - 1), whole(-(2**63), 2**63 - 1)

is_space = one_of("v4", "v6", "local")

#: The keys of each operation, and which values they may have.
CALLS = {
    **dict.fromkeys(["pipe", "socketpair", "plain", "epoll"], {"cloexec": is_flag}),
    "eventfd": {"init": U32, "sem": is_flag, "cloexec": is_flag},
    "timerfd": {"clock": I32, "cloexec": is_flag},
    "ctl": {"ep": I32, "act": I32, "fd": I32, "mask": U32, "data": U64},
    "wait": {"ep": I32, "max": I32, "timeout": I64},
    "read": {"fd": I32, "n": U32},
    "write": {"fd": I32, "hex": is_hex},
    "settime": {"fd": I32, "abs": is_flag, "value": U64, "interval": U64},
    "dup2": {"fd": I32, "to": I32},
    **dict.fromkeys(["shutdown", "sockerr", "sockname", "peername", "gettime", "dup", "close"], {"fd": I32}),
    "peek": {"fd": I32, "n": U32},
    "socket": {"family": one_of("tcp", "unix"), "cloexec": is_flag},
    **dict.fromkeys(["bind", "connect"], {"fd": I32, "space": is_space, "name": U32}),
    "listen": {"fd": I32, "backlog": I32},
    "accept": {"fd": I32, "cloexec": is_flag},
    **dict.fromkeys(["fork", "exec", "exit"], {}),
}

#: Those of a write of one byte over and over, and of a shutdown that says what is shut: "wr" is never said.
RUN = {"fd": I32, "fill": is_fill}
SHUT = {"fd": I32, "how": one_of("rd", "rdwr")}
#: Operations that may have other keys, by one of these.
OTHERWISE = {"write": ("fill", RUN), "shutdown": ("how", SHUT)}

ANSWERS = {
    **dict.fromkeys(["done", "parked", "still", "connecting"], lambda value: value is True),
    "num": U64,
    "two": list_of(I32, 2),
    "bytes": is_hex,
    "events": list_of(is_report),
    "time": list_of(U64, 2),
    **dict.fromkeys(["err", "failed"], is_error),
    "name": is_name,
}


def has_keys(value, keys):
    return type(value) is dict and value.keys() == set(keys)


def is_call(call):
    if type(call) is not dict or type(call.get("op")) is not str or call["op"] not in CALLS:
        return False
    key, keys = OTHERWISE.get(call["op"], (None, None))
    keys = keys if key in call else CALLS[call["op"]]
    return has_keys(call, ["op", *keys]) and all(fits(call[key]) for key, fits in keys.items())


def is_event(event):
    if has_keys(event, ["pid", "call"]):
        return U64(event["pid"]) and is_call(event["call"])
    if has_keys(event, ["tick"]):
        return U64(event["tick"])
    return has_keys(event, ["resume"]) and event["resume"] is True


def is_answer(answer):
    if type(answer) is not dict or len(answer) != 1:
        return False
    [(key, value)] = answer.items()
    return key in ANSWERS and ANSWERS[key](value)


def is_record(value):
    return (
        has_keys(value, ["caller", "event", "answer", "picked"])
        and U32(value["caller"])
        and is_event(value["event"])
        and is_answer(value["answer"])
        and list_of(U64)(value["picked"])
    )


def read_record(line, raw):
    """The record of this line. Raises BadLine."""
    try:
        text = raw.decode("utf-8")
        value = json.loads(text)
    except (ValueError, RecursionError):
        raise BadLine(line) from None
    if not is_record(value):
        raise BadLine(line)
    event = value["event"]
    [answer] = value["answer"].items()
    return Record(
        line, value["caller"], event.get("pid"), event.get("call"), event.get("tick"), answer, value["picked"],
        text.strip(),
    )


#: A tick that goes on, as `epsim` writes it.
TICK = re.compile(rb'\{"answer":\{"done":true\},"caller":\d+,"event":\{"tick":(\d+)\},"picked":\[\]\}')


def lines_of(data):
    """The lines of these bytes. A line ends at byte 10, which the last may lack."""
    lines = data.split(b"\n")
    if lines[-1] == b"":
        lines.pop()
    return lines


def read_lines(lines):
    """The records of these lines, which are the first of a history. Raises BadLine."""
    return [read_record(line, raw) for line, raw in enumerate(lines, 1)]


def read_history(data):
    """The records of these bytes. Raises BadLine."""
    return read_lines(lines_of(data))


def ticked(line, raw):
    """By how much this line moves the clock on. Raises BadLine where it may be a tick and is no record."""
    found = TICK.fullmatch(raw)
    if found:
        return int(found[1])
    # (a tick in other words, or a key in disguise)
    if b'"tick"' not in raw and b"\\" not in raw:
        return 0
    record = read_record(line, raw)
    return record.tick if record.tick is not None and record.answer[0] == "done" else 0


def moments(lines):
    """The clock behind each of these lines, in microseconds. It reads the ticks and no more. Raises BadLine."""
    return itertools.accumulate(ticked(line, raw) for line, raw in enumerate(lines, 1))
