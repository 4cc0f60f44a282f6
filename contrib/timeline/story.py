"""What a history tells of descriptors, registrations, parked waits and the clock. Needs Python 3.8.

It follows the records by the rules of docs/calls.md, as far as no readiness is asked. It doesn't judge: what doesn't
fit together, since the history is no run, is left out.
"""

from dataclasses import dataclass, field
from typing import Optional

ADD, DEL, MOD = 1, 2, 3
EXCLUSIVE = 1 << 28
#: The calls that can make an instance ready, and so mark a caller, unless they are refused; of ctl ADD and MOD. Once
#: there was an exclusive registration DEL can mark one, too: at an instance that was passed over and has lost its last.
RAISING = {"read", "write", "shutdown", "connect", "settime", "close", "dup2", "exec", "exit", "ctl"}
#: The kinds of the descriptors that a call opens, in the order of its answer.
OPENED = {
    "pipe": ["pipe, reads", "pipe, writes"],
    "socketpair": ["socket", "socket"],
    "socket": ["socket"],
    "eventfd": ["eventfd"],
    "timerfd": ["timer"],
    "plain": ["plain"],
    "epoll": ["instance"],
}


@dataclass(eq=False)
class Description:
    """An open file description."""

    kind: str


@dataclass(eq=False)
class Life:
    """A descriptor from the record that opened it to the one that closed it; None if no record did."""

    pid: int
    fd: int
    description: Description
    opened: Optional[int]
    cloexec: bool = False
    closed: Optional[int] = None


@dataclass(eq=False)
class Registration:
    instance: Description
    fd: int
    target: Description
    added: int
    gone: Optional[int] = None


@dataclass(eq=False)
class Wait:
    """A parked wait. `stills` are the resumptions that left it parked, `due` is the tick that reached its deadline."""

    caller: int
    pid: int
    ep: int
    instance: Optional[Description]
    began: int
    deadline: Optional[int]
    stills: list = field(default_factory=list)
    due: Optional[int] = None
    ended: Optional[int] = None
    #: The first and the last event that can have marked the caller for the resumption that ended its wait.
    marked_from: Optional[int] = None
    marked_by: Optional[int] = None


@dataclass
class Link:
    """A registration that a record adds, alters or deletes."""

    act: int
    instance: Optional[Life]
    target: Life
    mask: int


@dataclass
class Scene:
    """What one record touches, and the clock behind it, in microseconds."""

    now: int
    touched: list = field(default_factory=list)
    reported: list = field(default_factory=list)
    link: Optional[Link] = None


class Story:
    """The records of a history with all that they tell."""

    def __init__(self, records):
        self.records = records
        self.scenes, self.lives, self.waits, self.registrations = [], [], [], []
        self.now, self.tables, self.numbers, self.parked = 0, {1: {}}, {}, {}
        #: The registrations that are there by now, and whether some of them may have lost their instance or target.
        self.current, self.may_die = [], False
        #: The record that added the first exclusive registration.
        self.exclusive = None
        plain = Description("plain")
        for fd in range(3):
            self.open(1, fd, plain, None)
        for at, record in enumerate(records):
            self.scenes.append(Scene(self.now))
            self.follow(at, record)
            self.bury(at)
            self.scenes[-1].now = self.now

    def open(self, pid, fd, description, at, cloexec=False):
        table = self.tables.setdefault(pid, {})
        self.close(pid, fd, at)
        table[fd] = Life(pid, fd, description, at, cloexec)
        self.lives.append(table[fd])
        return table[fd]

    def close(self, pid, fd, at):
        life = self.tables.get(pid, {}).pop(fd, None)
        if life:
            life.closed = at
            self.may_die = True

    def life(self, pid, fd):
        return self.tables.get(pid, {}).get(fd)

    def follow(self, at, record):
        if record.tick is not None:
            self.tick(at, record)
        elif record.call is None:
            self.resume(at, record)
        else:
            self.touch(record)
            if record.answer[0] != "err":
                act = getattr(self, f"do_{record.call['op']}", None)
                if act:
                    act(at, record)
                elif record.call["op"] in OPENED:
                    self.create(at, record)

    def touch(self, record):
        named = [self.life(record.pid, record.call[key]) for key in ("fd", "ep") if key in record.call]
        self.scenes[-1].touched += [it for it in named if it]

    def create(self, at, record):
        kinds, (key, value) = OPENED[record.call["op"]], record.answer
        numbers = value if key == "two" else [value] if key == "num" else []
        for kind, fd in zip(kinds, numbers):
            self.open(record.pid, fd, Description(kind), at, record.call["cloexec"])

    def do_dup(self, at, record):
        source = self.life(record.pid, record.call["fd"])
        if source and record.answer[0] == "num" and record.answer[1] != source.fd:
            self.open(record.pid, record.answer[1], source.description, at)

    do_dup2 = do_dup

    def do_close(self, at, record):
        self.close(record.pid, record.call["fd"], at)

    def do_fork(self, at, record):
        if record.answer[0] == "num" and record.answer[1] not in self.tables:
            for it in list(self.tables.get(record.pid, {}).values()):
                self.open(record.answer[1], it.fd, it.description, at, it.cloexec)

    def do_exec(self, at, record):
        for it in list(self.tables.get(record.pid, {}).values()):
            if it.cloexec:
                self.close(it.pid, it.fd, at)

    def do_exit(self, at, record):
        for fd in list(self.tables.get(record.pid, {})):
            self.close(record.pid, fd, at)

    def do_ctl(self, at, record):
        call = record.call
        instance, target = self.life(record.pid, call["ep"]), self.life(record.pid, call["fd"])
        if call["act"] == ADD:
            number = len(self.numbers) + 1
            self.numbers[number] = None
            if call["mask"] & EXCLUSIVE and self.exclusive is None:
                self.exclusive = at
        if not instance or not target:
            return
        self.scenes[-1].link = Link(call["act"], instance, target, call["mask"])
        if call["act"] == ADD:
            it = Registration(instance.description, target.fd, target.description, at)
            self.numbers[number] = it
            self.registrations.append(it)
            self.current.append(it)
        elif call["act"] == DEL:
            key = (instance.description, target.fd, target.description)
            self.end(at, [it for it in self.current if (it.instance, it.fd, it.target) == key])

    def end(self, at, registrations):
        for it in registrations:
            it.gone = at
        self.current = [it for it in self.current if it.gone is None]

    def do_wait(self, at, record):
        if record.answer[0] != "parked":
            self.report(record, record.pid)
            return
        call, life = record.call, self.life(record.pid, record.call["ep"])
        deadline = self.now + call["timeout"] if call["timeout"] > 0 else None
        wait = Wait(record.caller, record.pid, call["ep"], life and life.description, at, deadline)
        if record.caller in self.parked:
            self.parked[record.caller].ended = at
        self.parked[record.caller] = wait
        self.waits.append(wait)

    def resume(self, at, record):
        wait = self.parked.get(record.caller)
        if not wait:
            return
        life = self.life(wait.pid, wait.ep)
        if life and life.description is wait.instance:
            self.scenes[-1].touched.append(life)
        if record.answer[0] == "still":
            wait.stills.append(at)
        elif record.answer[0] == "events":
            wait.ended = at
            self.find_marks(wait)
            del self.parked[record.caller]
            self.may_die = True
            self.report(record, wait.pid)

    def find_marks(self, wait):
        """Between which events the caller was marked: behind the last `still`, and by its deadline if that came."""
        first = max([wait.began, *wait.stills]) + 1
        found = [at for at in range(first, wait.ended) if self.can_mark(at)]
        if found:
            wait.marked_from = found[0]
            wait.marked_by = found[-1] if wait.due is None else wait.due

    def can_mark(self, at):
        """Whether an event like this one can mark a caller: one makes an instance ready, or lets a marked one leave."""
        record = self.records[at]
        if record.tick is not None or record.call is None:
            return record.answer[0] in ("done", "events")
        call = record.call
        if record.answer[0] == "err" or call["op"] not in RAISING:
            return False
        return call.get("act") != DEL or self.exclusive is not None and self.exclusive < at

    def report(self, record, pid):
        for number in record.picked:
            it = self.numbers.get(number)
            if it:
                lives = [life for table in self.tables.values() for life in table.values()]
                lives = [life for life in lives if (life.fd, life.description) == (it.fd, it.target)]
                self.scenes[-1].reported += sorted(lives, key=lambda life: life.pid != pid)[:1]

    def tick(self, at, record):
        if record.answer[0] == "done":
            self.now += record.tick
            for wait in self.parked.values():
                if wait.deadline is not None and wait.due is None and wait.deadline <= self.now:
                    wait.due = wait.marked_from = wait.marked_by = at

    def bury(self, at):
        """Ends the registrations whose instance or target nothing names any more."""
        if not self.may_die:
            return
        self.may_die = False
        living = {life.description for table in self.tables.values() for life in table.values()}
        living |= {wait.instance for wait in self.parked.values()}
        self.end(at, [it for it in self.current if not {it.instance, it.target} <= living])
