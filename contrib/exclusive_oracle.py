#!/usr/bin/env python3
"""Runs random scripts with exclusive registrations on epsim, and judges each answer by rules of its own.

usage: contrib/exclusive_oracle.py [--general] [--plain] [--audit EPAUDIT] [--seed TEXT] [--first N] [--keep FOLDER]
                                   EPSIM COUNT
       contrib/exclusive_oracle.py [--general] [--seed TEXT] [--first N] --print

EPSIM             the program epsim
COUNT             how many scripts are run, some 100 in a second
--general         scripts of any calls in any order, in place of those that are bent (see below)
--plain           runs them on PlainKernel, in place of ReadyKernel
--audit EPAUDIT   writes the history of each run, too, and has it judged by this program epaudit
--seed TEXT       other scripts: script N is made of its kind, TEXT and N alone. Without it TEXT is 1
--first N         begins with script N, in place of script 0
--keep FOLDER     writes each script that fails to FOLDER, as bent-TEXT-N.jsonl
--print           prints script N and runs nothing

It needs Python 3.8. Of the first three scripts that fail it prints the line with the wrong answer, and what is wrong
with it. The last two lines are how many lines were asked, and `N passed, N failed` over the scripts. The status is 0 if
none failed, 1 if one did, 2 if the words are bad or something can't be run or written.

The rules are those of the reference model, told once more in Python. So a fault of a kernel stays unseen only if it was
made here, too. What a wait reports is free within its rules, so each answer is judged, and none is foretold. Who is
marked has no line of its own: resumptions show it.

A bent script is bent towards what calls in any order hardly meet: an instance that was passed over by an exclusive
wake-up, and then loses the last exclusive registration that stands in it or beneath it. It has one instance with an
exclusive registration that is chosen first, others beside it that something else keeps ready, and above these further
ones that have reported what is below, so that only a mark tells their waiters. Then registrations are deleted,
descriptors closed, processes ended. A general script has pipes and timers, too.
"""

import json
import os
import random
import sys

sys.dont_write_bytecode = True
sys.path.insert(0, os.path.dirname(os.path.realpath(__file__)))

import oracle  # noqa: E402
from oracle import Wrong  # noqa: E402

IN, OUT, ERR, HUP, RDHUP = 1, 4, 8, 16, 8192
EXCLUSIVE, WAKEUP, ONESHOT, ET = 1 << 28, 1 << 29, 1 << 30, 1 << 31
#: The bits that are shown, each at its place in a list of counts.
SHOWN = [IN, OUT, ERR, HUP, RDHUP]
#: What may stand beside EXCLUSIVE.
BESIDE = EXCLUSIVE | IN | OUT | ERR | HUP | WAKEUP | ET
#: The longest chain of instances that watch each other.
LEVELS = 5
NAMES = {
    1: "EPERM",
    2: "ENOENT",
    3: "ESRCH",
    9: "EBADF",
    11: "EAGAIN",
    16: "EBUSY",
    17: "EEXIST",
    22: "EINVAL",
    32: "EPIPE",
    40: "ELOOP",
}
EPERM, ENOENT, ESRCH, EBADF, EAGAIN, EBUSY, EEXIST, EINVAL, EPIPE, ELOOP = NAMES


class Refused(Exception):
    """The call is refused with this error number."""


# ---- The rules ----


def asked(mask, bits):
    """Of these bits those that a mask asks for."""
    return bits & (mask | ERR | HUP)


def is_marked_at(waiters, instance):
    return any(it.instance == instance and it.is_marked for it in waiters)


class Pipe:
    """What both ends of a pipe share."""

    def __init__(self):
        self.content = b""


class File:
    """A description: its kind, what it holds, and how often each bit arrived."""

    def __init__(self, kind):
        self.kind = kind
        self.arrived = [0] * len(SHOWN)
        # of an eventfd; of a timer the expirations that are unread
        self.count = 0
        # of an end of a pipe, and the description of its other end
        self.pipe, self.other = None, None
        # of a timer: the moment at which it expires next, or none
        self.moment, self.interval = None, 0


class Registration:
    def __init__(self, number, instance, fd, target):
        self.number, self.instance, self.fd, self.target = number, instance, fd, target
        # the event of the last report, and the one since which it is reportable
        self.reported, self.since = 0, 0

    def arm(self, mask, data):
        self.mask, self.data = mask, data
        self.is_armed = True
        # the counts of arrivals at the last report
        self.seen = None

    @property
    def is_exclusive(self):
        return bool(self.mask & EXCLUSIVE)


class Waiter:
    def __init__(self, caller, pid, instance, most, deadline):
        self.caller, self.pid, self.instance, self.most, self.deadline = caller, pid, instance, most, deadline
        self.is_marked = False


class Machine(oracle.Judge):
    """The state, and what a line of a script may be answered in it."""

    def __init__(self):
        self.events, self.now, self.added, self.opened, self.forked = 0, 0, 0, 0, 1
        self.files = {0: File("plain")}
        self.tables = {1: {0: 0, 1: 0, 2: 0}}
        self.registrations, self.waiters = [], []

    # Readiness

    def is_instance(self, at):
        return at in self.files and self.files[at].kind == "epoll"

    def present(self, at, levels):
        """The bits that hold at a description."""
        file = self.files[at]
        if file.kind == "epoll":
            return IN if self.is_ready(at, levels) else 0
        if file.kind == "eventfd":
            return (IN if file.count else 0) | (OUT if file.count < 2**64 - 2 else 0)
        if file.kind == "timer":
            return IN if file.count else 0
        # No script fills a pipe.
        if file.kind == "reader":
            return (IN if file.pipe.content else 0) | (0 if file.other in self.files else HUP)
        if file.kind == "writer":
            return OUT | (0 if file.other in self.files else ERR)
        return 0

    def shown(self, it, levels=LEVELS):
        return asked(it.mask, self.present(it.target, levels)) if it.is_armed else 0

    def is_fresh(self, it):
        """Whether a bit of its mask arrived since its last report."""
        if it.seen is None:
            return True
        arrived = self.files[it.target].arrived
        return any(asked(it.mask, bit) and it.seen[i] < arrived[i] for i, bit in enumerate(SHOWN))

    def is_reportable(self, it, levels=LEVELS):
        return self.shown(it, levels) != 0 and (not it.mask & ET or self.is_fresh(it))

    def is_ready(self, instance, levels=LEVELS):
        return levels > 0 and any(
            it.instance == instance and self.is_reportable(it, levels - 1) for it in self.registrations
        )

    def is_guarded(self, instance, levels=LEVELS):
        """Whether an exclusive registration is in it or in an instance beneath it, by links armed or not."""
        return levels > 0 and any(
            it.instance == instance and (it.is_exclusive or self.is_guarded(it.target, levels - 1))
            for it in self.registrations
        )

    # What an event raises, and how it spreads

    def is_reached(self, raised, instance, registrations, levels=LEVELS):
        """Whether IN arrives at the instance by one of these registrations, where these bits were raised."""
        return levels > 0 and any(
            it.instance == instance
            and it.is_armed
            and asked(it.mask, self.spread(raised, it.target, registrations, levels - 1))
            for it in registrations
        )

    def spread(self, raised, at, registrations, levels=LEVELS):
        """The bits that arrive at a description."""
        bits = raised.get(at, 0)
        if self.is_instance(at) and self.is_reached(raised, at, registrations, levels):
            bits |= IN
        return bits

    def is_up_from(self, below, instance):
        """Whether it is the instance below, or is above it by the spread."""
        return self.spread({below: IN}, instance, self.registrations) != 0

    # The end of an event

    def named(self):
        """The descriptions that a table or a waiter names."""
        return {at for it in self.tables.values() for at in it.values()} | {it.instance for it in self.waiters}

    def bury(self, raised):
        """Forgets the descriptions that nothing names, and raises at the other end of a pipe what its close does."""
        dead = [(at, self.files[at]) for at in sorted(set(self.files) - self.named())]
        for at, _ in dead:
            del self.files[at]
        for _, file in dead:
            if file.other in self.files:
                raised[file.other] = raised.get(file.other, 0) | (HUP if file.kind == "writer" else ERR)
        self.registrations = [it for it in self.registrations if {it.instance, it.target} <= set(self.files)]
        return {at: bits for at, bits in raised.items() if at in self.files}

    def settle(self, raised, reportable_before, waiters_before):
        """Buries, counts arrivals, notes what has come to be reportable, and marks."""
        raised = self.bury(raised)
        arrived = {at: self.spread(raised, at, self.registrations) for at in self.files}
        for at, bits in arrived.items():
            for i, bit in enumerate(SHOWN):
                self.files[at].arrived[i] += bool(bits & bit)
        for it in self.registrations:
            if it.number not in reportable_before and self.is_reportable(it):
                it.since = self.events
        for it in self.waiters:
            it.is_marked = it.is_marked or self.is_due(it)
        stayed = {it.caller for it in self.waiters}
        left = {instance for caller, instance in waiters_before if caller not in stayed}
        self.mark(raised, left)

    def is_due(self, waiter):
        return waiter.deadline is not None and waiter.deadline <= self.now

    def mark(self, raised, left):
        """Marks the first waiter of each instance that gets a mark. All are judged before one is marked."""
        chosen = [it.instance for it in map(lambda at: self.chosen(raised, at), raised) if it]
        plain = [it for it in self.registrations if not it.is_exclusive]

        def is_woken(instance):
            return (
                instance in left
                or self.spread(raised, instance, plain) & IN
                or any(self.is_up_from(it, instance) for it in chosen)
            )

        def gets_mark(instance):
            return self.is_awaited(instance) and (not self.is_guarded(instance) or is_woken(instance))

        for instance in [it for it in {it.instance for it in self.waiters} if gets_mark(it)]:
            next(it for it in self.waiters if it.instance == instance).is_marked = True

    def is_awaited(self, instance):
        """Whether it is ready, has a waiter and has none marked."""
        return (
            any(it.instance == instance for it in self.waiters)
            and not is_marked_at(self.waiters, instance)
            and self.is_ready(instance)
        )

    def chosen(self, raised, at):
        """The exclusive registration on this description that the event wakes: the first in order of registration that
        a raised bit asks for and that finds a waiter, in its instance or above."""
        for it in self.registrations:
            if it.target == at and it.is_exclusive and it.is_armed and asked(it.mask, raised[at]):
                if self.finds_waiter(it.instance):
                    return it
        return None

    def finds_waiter(self, below):
        """Whether an instance is awaited, or one above it."""
        return any(self.is_up_from(below, it.instance) and self.is_awaited(it.instance) for it in self.waiters)

    # Reports

    def report(self, instance, most, answer):
        """Judges a report, and notes it."""
        reportable = [it for it in self.registrations if it.instance == instance and self.is_reportable(it)]
        if list(answer) != ["events"]:
            raise Wrong("something is reportable")
        taken = []
        for bits, data in answer["events"]:
            # A script gives each registration of an instance data of its own.
            found = [it for it in reportable if it.data == data and it not in taken]
            if len(found) != 1:
                raise Wrong(f"no registration with the data {data} is reportable, or it is reported twice")
            if self.shown(found[0]) != bits:
                raise Wrong(f"the registration with the data {data} shows {self.shown(found[0])}")
            taken += found
        if len(taken) != min(most, len(reportable)):
            raise Wrong(f"{len(reportable)} are reportable, and {most} may be reported")
        for out in reportable:
            if out not in taken and any(it.reported > out.since for it in taken):
                raise Wrong(f"it is not the turn of all of these: the one with the data {out.data} waits for longer")
        for it in taken:
            it.seen = list(self.files[it.target].arrived)
            it.reported = it.since = self.events
            it.is_armed = it.is_armed and not it.mask & ONESHOT
        return answer

    # A step

    def step(self, line, answer):
        """Judges the answer to a line, and goes on to the state behind it."""
        self.events += 1
        reportable_before = {it.number for it in self.registrations if self.is_reportable(it)}
        waiters_before = [(it.caller, it.instance) for it in self.waiters]
        raised = {}
        try:
            wanted = self.change(line, answer, raised)
        except Refused as refusal:
            (number,) = refusal.args
            wanted = {"err": [number, NAMES[number]]}
        else:
            self.settle(raised, reportable_before, waiters_before)
        if answer != wanted:
            raise Wrong(f"wanted: {json.dumps(wanted)}")

    def change(self, line, answer, raised):
        """What a line is answered, its change made and what it raises noted."""
        op, caller, pid = line["op"], line.get("by", 0), line.get("pid", 1)
        if op == "resume":
            return self.resume(caller, answer)
        if op == "tick":
            return self.tick(line["n"], raised)
        if pid not in self.tables:
            raise Refused(ESRCH)
        if any(it.caller == caller for it in self.waiters):
            raise Refused(EBUSY)
        table = self.tables[pid]
        if op == "wait":
            return self.wait(table, caller, pid, line, answer)
        if op == "ctl":
            return self.control(table, line, raised)
        if op in ("read", "write"):
            return getattr(self, op)(self.found(table, line["fd"]), line, raised)
        return getattr(self, op)(table, line, pid)

    def found(self, table, fd):
        if fd not in table:
            raise Refused(EBADF)
        return table[fd]

    def open(self, table, kind):
        self.opened += 1
        self.files[self.opened] = File(kind)
        return self.opened, self.name(table, self.opened)

    def name(self, table, at):
        """Names a description by the lowest free number."""
        fd = next(it for it in range(len(table) + 1) if it not in table)
        table[fd] = at
        return fd

    def epoll(self, table, line, pid):
        return {"num": self.open(table, "epoll")[1]}

    def eventfd(self, table, line, pid):
        at, fd = self.open(table, "eventfd")
        self.files[at].count = line["init"]
        return {"num": fd}

    def timerfd(self, table, line, pid):
        return {"num": self.open(table, "timer")[1]}

    def pipe(self, table, line, pid):
        (reader, first), (writer, second) = self.open(table, "reader"), self.open(table, "writer")
        self.files[reader].pipe = self.files[writer].pipe = Pipe()
        self.files[reader].other, self.files[writer].other = writer, reader
        return {"two": [first, second]}

    def dup(self, table, line, pid):
        return {"num": self.name(table, self.found(table, line["fd"]))}

    def close(self, table, line, pid):
        self.found(table, line["fd"])
        del table[line["fd"]]
        return {"done": True}

    def fork(self, table, line, pid):
        self.forked += 1
        self.tables[self.forked] = dict(table)
        return {"num": self.forked}

    def exit(self, table, line, pid):
        if any(it.pid == pid for it in self.waiters):
            raise Refused(EBUSY)
        del self.tables[pid]
        return {"done": True}

    def settime(self, table, line, pid):
        """A script sets no timer to a moment of the clock, nor to one that has passed."""
        timer = self.files[self.found(table, line["fd"])]
        if timer.kind != "timer":
            raise Refused(EINVAL)
        before = [0 if timer.moment is None else timer.moment - self.now, timer.interval]
        timer.moment = self.now + line["value"] if line["value"] else None
        timer.interval, timer.count = line.get("interval", 0), 0
        return {"time": before}

    def tick(self, n, raised):
        self.now += n
        for at, timer in self.files.items():
            while timer.moment is not None and timer.moment <= self.now:
                if not timer.count:
                    raised[at] = IN
                timer.count += 1
                timer.moment = timer.moment + timer.interval if timer.interval else None
        return {"done": True}

    def write(self, at, line, raised):
        file, given = self.files[at], bytes.fromhex(line["hex"])
        if file.kind == "reader":
            raise Refused(EBADF)
        if file.kind in ("epoll", "timer"):
            raise Refused(EINVAL)
        if file.kind == "eventfd":
            if len(given) < 8:
                raise Refused(EINVAL)
            file.count += int.from_bytes(given, "little")
            raised[at] = IN
        elif file.kind == "writer":
            if file.other not in self.files:
                raise Refused(EPIPE)
            file.pipe.content += given
            raised[file.other] = IN
        return {"num": len(given)}

    def read(self, at, line, raised):
        file = self.files[at]
        if file.kind == "writer":
            raise Refused(EBADF)
        if file.kind == "epoll":
            raise Refused(EINVAL)
        if file.kind == "plain":
            return {"bytes": ""}
        if file.kind == "reader":
            if not file.pipe.content and file.other in self.files:
                raise Refused(EAGAIN)
            given, file.pipe.content = file.pipe.content[: line["n"]], file.pipe.content[line["n"] :]
            return {"bytes": given.hex()}
        if not file.count:
            raise Refused(EAGAIN)
        given, file.count = file.count, 0
        if file.kind == "eventfd":
            raised[at] = OUT
        return {"bytes": given.to_bytes(8, "little").hex()}

    def wait(self, table, caller, pid, line, answer):
        if line["max"] <= 0:
            raise Refused(EINVAL)
        at = self.found(table, line["ep"])
        if not self.is_instance(at):
            raise Refused(EINVAL)
        if self.is_ready(at):
            return self.report(at, line["max"], answer)
        if line["timeout"] == 0:
            return {"events": []}
        deadline = self.now + line["timeout"] if line["timeout"] > 0 else None
        self.waiters.append(Waiter(caller, pid, at, line["max"], deadline))
        return {"parked": True}

    def resume(self, caller, answer):
        waiter = next((it for it in self.waiters if it.caller == caller), None)
        if not waiter:
            raise Refused(EINVAL)
        if not waiter.is_marked:
            return {"still": True}
        if self.is_ready(waiter.instance):
            self.waiters.remove(waiter)
            return self.report(waiter.instance, waiter.most, answer)
        if self.is_due(waiter):
            self.waiters.remove(waiter)
            return {"events": []}
        waiter.is_marked = False
        return {"still": True}

    def control(self, table, line, raised):
        instance, target = (self.found(table, line[it]) for it in ("ep", "fd"))
        act, fd, mask = line["act"], line["fd"], line.get("mask", 0)
        if self.files[target].kind == "plain":
            raise Refused(EPERM)
        if not self.is_instance(instance) or instance == target:
            raise Refused(EINVAL)
        if mask & EXCLUSIVE and (act == "mod" or act == "add" and (mask & ~BESIDE or self.is_instance(target))):
            raise Refused(EINVAL)
        key = (instance, fd, target)
        there = next((it for it in self.registrations if (it.instance, it.fd, it.target) == key), None)
        if act == "add":
            if there:
                raise Refused(EEXIST)
            if self.is_instance(target) and self.is_too_deep(instance, target):
                raise Refused(ELOOP)
            self.added += 1
            there = Registration(self.added, *key)
            self.registrations.append(there)
        elif not there:
            raise Refused(ENOENT)
        elif act == "del":
            self.registrations.remove(there)
            return {"done": True}
        elif there.is_exclusive:
            raise Refused(EINVAL)
        there.arm(mask, line["data"])
        if self.is_reportable(there):
            raised[instance] = IN
        return {"done": True}

    def is_too_deep(self, instance, target):
        """Whether a chain of more than five instances, or a loop, would come of one watching the other."""
        links = {(it.instance, it.target) for it in self.registrations if self.is_instance(it.target)}
        links.add((instance, target))
        ends = {above for above, _ in links}
        for _ in range(LEVELS):
            ends = {below for above, below in links if above in ends}
        return bool(ends)


# ---- The scripts ----


class Script:
    """A script that is being written, by a random source of its own."""

    def __init__(self, chance):
        self.chance, self.lines, self.fd = chance, [], 3
        self.is_forked = False
        #: What was added: the instance, the descriptor and the mask. Of a descriptor the numbers that name the same.
        self.added, self.copies = [], {}

    def put(self, **line):
        self.lines.append(line)

    def open(self, **line):
        """A call that is answered with the lowest free number, before the first close."""
        self.put(**line)
        self.fd += 1
        return self.fd - 1

    def likely(self, chance=0.85):
        return self.chance.random() < chance

    def if_likely(self, bit, chance):
        return bit if self.likely(chance) else 0

    def pid(self):
        return self.chance.choice([1, 1, 2]) if self.is_forked else 1

    def copy(self, fd):
        self.copies[fd] = [self.open(op="dup", fd=fd)]

    def add(self, instance, fd, mask):
        self.put(op="ctl", ep=instance, act="add", fd=fd, mask=mask, data=fd)
        self.added.append((instance, fd, mask))

    def delete(self, instance, fd):
        self.put(op="ctl", ep=instance, act="del", fd=fd)

    def write(self, fd):
        self.put(op="write", fd=fd, hex="0100000000000000")

    def strip(self, instance):
        """Deletes all exclusive registrations in an instance."""
        for own, fd, mask in self.added:
            if own == instance and mask & EXCLUSIVE:
                self.delete(instance, fd)

    def close_all(self, fd):
        """Closes each number that names the same as this one."""
        for pid in (1, 2) if self.is_forked else (1,):
            for number in (fd, *self.copies.get(fd, [])):
                self.put(op="close", fd=number, pid=pid)


def bent(chance):
    """A script that is bent towards instances that are passed over and then lose their guard."""
    it = Script(chance)
    counters = source, holder, second = [it.open(op="eventfd", init=init) for init in (0, int(it.likely()), 0)]
    first, *rest = instances = [it.open(op="epoll") for _ in range(chance.randint(3, 6))]
    if it.likely(0.4):
        it.copy(chance.choice([*instances, source, holder]))
    will_fork = it.likely(0.35)
    half = max(1, len(rest) // 2)
    low, high = rest[:half], rest[half:]
    if it.likely():
        it.add(first, source, IN | EXCLUSIVE | it.if_likely(ET, 0.2))
    for instance in low:
        if it.likely():
            it.add(instance, source, IN | it.if_likely(EXCLUSIVE, 0.9) | it.if_likely(ET, 0.2))
        if it.likely():
            it.add(instance, holder, IN | it.if_likely(EXCLUSIVE, 0.15) | it.if_likely(ET, 0.15))
        if it.likely(0.3):
            it.add(instance, second, IN | it.if_likely(EXCLUSIVE, 0.6))
    below = list(low)
    for instance in high:
        for target in chance.sample(below, min(len(below), chance.randint(1, 2))):
            it.add(instance, target, IN | it.if_likely(ET, 0.8) | it.if_likely(ONESHOT, 0.12))
        # Something that keeps an instance between ready once what is below it is gone.
        if it.likely(0.3):
            it.add(instance, holder, IN | it.if_likely(ET, 0.2))
        below.append(instance)
    if will_fork:
        it.put(op="fork")
        it.is_forked = True
    for instance in high:
        for _ in range(chance.randint(1, 2)):
            it.put(op="wait", ep=instance, max=8, timeout=0)
    if it.likely():
        it.put(op="wait", by=1, ep=first, max=1, timeout=-1, pid=it.pid())
    for caller in range(2, 6):
        if it.likely(0.7):
            at, most = chance.choice(high or rest), chance.choice([1, 8])
            it.put(op="wait", by=caller, ep=at, max=most, timeout=-1 if it.likely() else 3, pid=it.pid())
    if it.likely(0.6):
        it.write(source)
        take_guard(it, source, low, high)
    for _ in range(chance.randint(2, 10)):
        bent_step(it, counters, instances, low)
        for caller in range(1, 6):
            if it.likely(0.25):
                it.put(op="resume", by=caller)
    for caller in range(1, 6):
        it.put(op="resume", by=caller)
    return it.lines


def take_guard(it, source, low, high):
    """Some of what may leave an instance without an exclusive registration in it or beneath it."""
    kind = it.chance.randrange(5)
    if kind == 0:
        for instance in it.chance.sample(low, it.chance.randint(1, len(low))):
            it.strip(instance)
    elif kind == 1:
        it.close_all(source)
    elif kind == 2:
        it.close_all(it.chance.choice(low))
    elif kind == 3:
        for instance, fd, _ in it.added:
            if instance in high and it.likely(0.5):
                it.delete(instance, fd)
    elif it.is_forked:
        it.put(op="close", fd=it.chance.choice([source, *low]))
        it.put(op="exit", pid=2)


def bent_step(it, counters, instances, low):
    """A step of a bent script: mostly one that wakes, or that takes a guard."""
    chance, (source, holder, second) = it.chance, counters
    kind = chance.random()
    if kind < 0.3:
        it.write(chance.choice([source, source, source, second, holder]))
    elif kind < 0.36:
        it.put(op="read", fd=chance.choice([source, holder]), n=8)
    elif kind < 0.48 and it.added:
        it.delete(*chance.choice(it.added)[:2])
    elif kind < 0.58:
        it.strip(chance.choice(low))
    elif kind < 0.64:
        it.put(op="close", fd=chance.choice([*counters, *instances, *sum(it.copies.values(), [])]), pid=it.pid())
    elif kind < 0.70:
        it.close_all(chance.choice([source, source, second, *low]))
    elif kind < 0.76 and it.is_forked:
        it.put(op="exit", pid=chance.choice([1, 2]))
    elif kind < 0.86:
        it.put(op="resume", by=chance.randint(1, 5))
    elif kind < 0.9:
        it.put(op="wait", by=chance.randint(1, 5), ep=chance.choice(instances), max=1, timeout=-1, pid=it.pid())
    elif kind < 0.93:
        it.put(op="tick", n=chance.randint(1, 3))
    elif kind < 0.96 and it.added:
        instance, fd, _ = chance.choice(it.added)
        it.put(op="ctl", ep=instance, act="mod", fd=fd, mask=IN | it.if_likely(ET, 0.5), data=fd)
    else:
        instance, fd, _ = chance.choice(it.added) if it.added else (instances[0], source, 0)
        it.add(instance, fd, IN | (it.if_likely(EXCLUSIVE, 0.7) if fd in counters else 0))


def some_mask(chance):
    kind = chance.randrange(16)
    if kind == 0:
        return chance.choice([EXCLUSIVE, OUT, OUT | EXCLUSIVE, IN | OUT])
    if kind == 1:
        return IN | OUT | ET | chance.choice([0, EXCLUSIVE])
    return IN | chance.choice([0, ET, EXCLUSIVE, EXCLUSIVE, EXCLUSIVE, EXCLUSIVE, EXCLUSIVE | ET, ONESHOT])


def general(chance):
    """A script of any calls, over eventfds, pipes, timers and nests. Callers park before the first arrival."""
    it = Script(chance)
    counters = [it.open(op="eventfd", init=chance.choice([0, 0, 1])) for _ in range(chance.randint(1, 2))]
    timers = [it.open(op="timerfd", clock=0) for _ in range(chance.choice([0, 1, 2, 2]))]
    readers, writers = [], []
    for _ in range(chance.choice([0, 0, 1])):
        readers.append(it.open(op="pipe"))
        writers.append(it.fd)
        it.fd += 1
    instances = [it.open(op="epoll") for _ in range(chance.randint(2, 6))]
    sources = [*counters, *timers, *readers]
    targets = [*sources, *sources, *writers, *instances]
    # Two timers that expire at once raise two targets in one event.
    main = timers if len(timers) == 2 and it.likely(0.6) else counters
    will_fork = it.likely(0.3)
    for _ in range(chance.randint(4, 18)):
        it.add(chance.choice(instances), chance.choice(main if it.likely(0.5) else targets), some_mask(chance))
    if will_fork:
        it.put(op="fork")
        it.is_forked = True
    for timer in timers:
        it.put(op="settime", fd=timer, value=chance.choice([2, 2, 3]), interval=chance.choice([0, 1, 2]))
    for fd in counters:
        it.put(op="read", fd=fd, n=8)
    for caller in range(1, 7):
        if it.likely(0.7):
            general_wait(it, caller, instances)
    if main is timers and it.likely(0.7):
        it.put(op="tick", n=3)
    for _ in range(chance.randint(10, 50)):
        general_step(it, counters, timers, readers, writers, instances, targets)
    for caller in range(1, 7):
        it.put(op="resume", by=caller)
    return it.lines


def general_wait(it, caller, instances):
    most, timeout = it.chance.choice([1, 1, 2, 8]), it.chance.choice([0, -1, -1, -1, 2, 5])
    it.put(op="wait", by=caller, ep=it.chance.choice(instances), max=most, timeout=timeout, pid=it.pid())


def general_step(it, counters, timers, readers, writers, instances, targets):
    chance, kind = it.chance, it.chance.random()
    if kind < 0.18:
        fd = chance.choice([*counters, *counters, *writers])
        it.put(op="write", fd=fd, hex="01" if fd in writers else "0100000000000000", pid=it.pid())
    elif kind < 0.3:
        it.put(op="read", fd=chance.choice([*counters, *timers, *readers]), n=8, pid=it.pid())
    elif kind < 0.4:
        act, fd = chance.choice(["add", "add", "del", "del", "mod"]), chance.choice(targets)
        it.put(op="ctl", ep=chance.choice(instances), act=act, fd=fd, mask=some_mask(chance), data=fd, pid=it.pid())
    elif kind < 0.55:
        general_wait(it, chance.randint(1, 6), instances)
    elif kind < 0.8:
        it.put(op="resume", by=chance.randint(1, 6))
    elif kind < 0.88:
        it.put(op="tick", n=chance.randint(1, 3))
    elif kind < 0.91 and timers:
        it.put(op="settime", fd=chance.choice(timers), value=chance.randint(0, 3), interval=chance.randint(0, 2))
    elif kind < 0.94:
        it.put(op="close", fd=chance.choice(targets), pid=it.pid())
    elif kind < 0.95 and it.is_forked:
        it.put(op="exit", pid=it.pid())
    else:
        it.put(op="wait", by=7, ep=chance.choice(instances), max=8, timeout=0, pid=it.pid())


def kind_of(words):
    return "general" if words.general else "bent"


def script_of(words, number):
    """The lines of a script."""
    make = general if words.general else bent
    return make(random.Random(f"{words.seed}:{number}"))


if __name__ == "__main__":
    sys.exit(oracle.main(oracle.Oracle(__doc__, ("--general",), kind_of, script_of, lambda words: Machine())))
