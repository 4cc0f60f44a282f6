"""The short words for a record. Needs Python 3.8."""

from collections import namedtuple

from story import ADD, DEL, MOD

#: A unit of time, and how many microseconds it has.
Unit = namedtuple("Unit", "name size")
MICROSECOND, MILLISECOND = Unit("us", 1), Unit("ms", 1000)


def unit_of(times):
    """The unit for all of these times, which are microseconds: the greater one if each is a whole number of it."""
    return MICROSECOND if any(it % MILLISECOND.size for it in times) else MILLISECOND


def moment(time, unit):
    return f"{time // unit.size} {unit.name}"


def times_of(record):
    """The times that the word for a record has."""
    if record.tick is not None:
        return [record.tick]
    asked_for = [record.call.get(key, 0) for key in ("timeout", "value", "interval")] if record.call else []
    key, value = record.answer
    return [it for it in asked_for if it > 0] + (value if key == "time" else [])

BITS = {1: "IN", 2: "PRI", 4: "OUT", 8: "ERR", 16: "HUP", 8192: "RDHUP", 1 << 28: "EXCLUSIVE", 1 << 29: "WAKEUP",
        1 << 30: "ONESHOT", 1 << 31: "ET"}

#: The longest text at a mark, and how many bytes and reports are shown.
LONGEST, BYTES, REPORTS = 30, 8, 2


def clipped(text, longest=LONGEST):
    return text if len(text) <= longest else text[: longest - 1] + "…"


def mask(bits):
    """The names of these bits, and the others as one number."""
    names = [name for bit, name in BITS.items() if bits & bit]
    rest = bits & ~sum(BITS)
    return "|".join(names + [hex(rest)] * bool(rest)) or "0"


def some_bytes(digits):
    found = bytes.fromhex(digits)
    if not found:
        return "no bytes"
    if len(found) <= BYTES and all(32 <= it < 127 for it in found):
        return f'"{found.decode()}"'
    return f"{len(found)} byte{'s' * (len(found) > 1)}"


def reports(found):
    if not found:
        return "no report"
    if len(found) > REPORTS:
        return f"{len(found)} reports"
    return " ".join(f"[{mask(bits)} {data}]" for bits, data in found)


def answer(record, unit):
    """What is behind the colon; nothing for an answer that says no more than that the call was made."""
    key, value = record.answer
    if key in ("err", "failed"):
        return value[1]
    if key == "name":
        return f"{value[0]} {value[1]}" if value else "no name"
    if key == "bytes":
        return some_bytes(value)
    if key == "events":
        return reports(value)
    if key == "two":
        return f"{value[0]}, {value[1]}"
    if key == "time":
        return f"{value[0] // unit.size}, {value[1] // unit.size}"
    return {"num": str(value), "still": "still", "connecting": "connecting"}.get(key, "")


def control(call):
    name, between = {ADD: ("add", "to"), DEL: ("del", "from"), MOD: ("mod", "in")}.get(call["act"], ("ctl", "in"))
    return f"{name} {call['fd']} {between} {call['ep']}"


def asked(call, unit):
    """What a call asks for."""
    if call["op"] == "ctl":
        return control(call)
    if call["op"] == "wait":
        return f"wait {call['ep']}" + (f", {moment(call['timeout'], unit)}" if call["timeout"] > 0 else "")
    if call["op"] == "settime":
        value, interval = call["value"] // unit.size, call["interval"] // unit.size
        return f"settime {call['fd']} {'at' if call['abs'] else 'in'} {value}, {interval}"
    others = [str(call[key]) for key in ("fd", "to", "how", "family", "space", "name", "backlog") if key in call]
    return " ".join([call["op"], *others])


def word(record, unit):
    """A record in a few characters, as `write 4: 3`, with times in this unit."""
    if record.tick is not None:
        before = f"tick {record.tick // unit.size}"
    elif record.call is None:
        before = "resume"
    else:
        before = f"p{record.pid} " * (record.pid != 1) + asked(record.call, unit)
    behind = answer(record, unit)
    return clipped(f"{before}: {behind}" if behind else before)
