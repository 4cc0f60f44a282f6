#!/usr/bin/env python3
"""Runs random scripts of sockets on epsim and on the machine's kernel, and compares the answers.

usage: contrib/sockets_oracle.py [--model] [--plain] [--audit EPAUDIT] [--seed TEXT] [--first N] [--keep FOLDER]
                                 EPSIM COUNT
       contrib/sockets_oracle.py [--model] [--seed TEXT] [--first N] --print

EPSIM             the program epsim
COUNT             how many scripts are run, some 100 in a second
--model           other scripts, whose answers are compared with rules of its own, in place of the machine's kernel
--plain           runs them on PlainKernel, in place of ReadyKernel
--audit EPAUDIT   writes the history of each run, too, and has it judged by this program epaudit
--seed TEXT       other scripts: script N is made of its kind, TEXT and N alone. Without it TEXT is 1
--first N         begins with script N, in place of script 0
--keep FOLDER     writes each script that fails to FOLDER, as sockets-TEXT-N.jsonl or model-TEXT-N.jsonl
--print           prints script N and runs nothing

It needs Python 3.8, and without --model Linux with IPv6, where the same calls are made. Of the first three scripts that
fail it prints the line with another answer, and both answers. The last two lines are how many lines were asked, and `N
passed, N failed` over the scripts. The status is 0 if none failed, 1 if one did, 2 if the words are bad or something
can't be run or written.

A script has socket pairs, or TCP and Unix sockets without a connection, or both, perhaps a pipe beside them, and an
instance. Its lines write, read, look at bytes, shut either direction or both, ask for errors and names, bind, listen,
accept and connect, copy and close descriptors, and register and wait. Every call has to be answered as Linux answers it, refusals
too. In which order a wait reports is free, so reports are compared as a set. Which number a bind of number 0, a listen
or a connect gives is free, too. But one number here has to be one number there, for as long as a socket has that name.

The names there are ports of the loopback and abstract Unix names. If this process may have a network of its own, as
root may, the calls are made in it. Else they are made on the loopback of the machine, at ports that are free when the
run begins, and nobody else may use these in the meantime.

What docs/LIMITS.md says of Linux is kept out, or allowed for:

- writes and peeks of no bytes, which are refused or not by other rules
- a close of an end at which bytes wait unread: each close of such an end has a read of all before it
- full queues: a script writes some hundred bytes at most
- edge-triggered registrations: Linux may report one that isn't reported here. What is reported here has to be reported
  by Linux, with the same bits
- a TCP socket that connects to its own name: there it connects to another one
- a TCP socket is of one family there, by its number: those under even numbers have names in v4, the others in v6

So is what Linux does otherwise with sockets that have no connection, or with names:

- shutdown(2) of a socket without a connection has an effect: so it isn't made there, and ENOTCONN is expected
- bind(2) of a pair's end is taken: so it isn't made there, and EINVAL is expected
- a connect to a name at which a socket listens gets through: so it isn't made there, and EINVAL is expected
- listen(2) names a socket without a name in its own family: so each one of v6 is bound before it listens
- a TCP socket whose connect has failed never listens: so none listens that was asked to connect more than once
- a connect that tells an error wakes: so in the next wait Linux may report one more edge-triggered registration
- a name that a bind of number 0 or a connect gave is lost once the connect has failed: so there each socket is bound to
  a number of this program's choice

The scripts of --model have sockets without a connection, some of which listen, and an instance. They have writes and
peeks of no bytes, too, names in both spaces of TCP, and one-shot registrations. The rules are those of docs/calls.md,
told once more in Python, and every answer is foretold, with the numbers that are given and with what an edge-triggered
registration reports. So a fault of a kernel stays unseen only if it was made here, too.
"""

import json
import os
import random
import sys
from collections import Counter
from errno import ECONNABORTED, ECONNREFUSED, EINPROGRESS

sys.dont_write_bytecode = True
sys.path.insert(0, os.path.dirname(os.path.realpath(__file__)))

import oracle  # noqa: E402
from sockets_linux import Linux, space_of  # noqa: E402
from sockets_model import Model  # noqa: E402

IN, OUT, RDHUP, ONESHOT, ET = 1, 4, 8192, 1 << 30, 1 << 31
#: The least number that a script's calls give out.
LEAST = 3
#: What a read asks for that has to take all, the most bytes of a write, and the most reports of a wait.
ALL, WRITTEN, MOST = 65536, 9, 64
#: The kinds of socket without a connection, and the spaces of their names.
SPACES = {"tcp": ["v4", "v6"], "v4": ["v4"], "v6": ["v6"], "local": ["local"]}
SOCKETS = ["pair", *SPACES]
#: Numbers of names, of which a script has two: some of them can be given, too.
NUMBERS = [7, 80, 32768, 32769, 32770, 60999, 65535]
#: What sockets without a connection a script makes.
MADE = [["tcp"], ["unix"], ["tcp", "tcp", "unix"]]
#: The most sockets of a script, about.
ENOUGH = 6
#: The errors that a socket can tell though the call wasn't refused.
WAITED = ECONNREFUSED, ECONNABORTED


# ---- The scripts ----


class Script:
    """A script in the making: its lines, and what its numbers name."""

    def __init__(self, chance, is_model):
        self.chance, self.is_model = chance, is_model
        self.lines = []
        self.tag = 0
        #: The numbers of its names, of which 0 stands for any and one comes often, and what sockets it makes.
        often, seldom = chance.sample(NUMBERS, 2)
        self.numbers = [0, often, often, often, seldom]
        self.makes = chance.choice(MADE if is_model else [["pair"], ["pair", "tcp", "tcp", "unix"], *MADE])
        #: What each open number names: a socket or a pipe's end, as a word; an instance.
        self.open = {}
        #: The numbers of which a bind was asked, and how often a connect was asked of what each number names.
        self.bound, self.connects = set(), {}

    def put(self, op, **keys):
        self.lines.append({"op": op, **keys})

    def likely(self, share=0.5):
        return self.chance.random() < share

    def free(self):
        return next(it for it in range(LEAST, 99) if it not in self.open)

    def opened(self, kind, op, ends, **keys):
        self.put(op, **keys)
        for _ in range(ends):
            fd = self.free()
            self.open[fd], self.connects[fd] = kind, Counter()

    def sockets(self):
        return [fd for fd, it in self.open.items() if it in SOCKETS]

    def any_number(self):
        """Mostly a socket, sometimes another descriptor, seldom none."""
        kind = self.chance.random()
        sockets = self.sockets()
        if kind < 0.92 and sockets:
            return self.chance.choice(sockets)
        if kind < 0.97:
            return self.chance.choice(list(self.open))
        return self.chance.choice([self.free(), 90, -1])

    def put_named(self, op, fd):
        """A call with a name, mostly for a socket that can have it, and mostly in a space of that socket. Then a look
        at the name that it has, so that no line names a number that was given and that nobody has asked for."""
        able = [it for it, kind in self.open.items() if kind in SPACES]
        if able and self.likely(0.7):
            unbound = [it for it in able if it not in self.bound]
            fd = self.chance.choice(unbound if unbound and op == "bind" else able)
        if op == "bind":
            self.bound.add(fd)
        elif fd in self.open:
            self.connects[fd]["asked"] += 1
        spaces = SPACES.get(self.open.get(fd), ["local", "v4"])
        if self.likely(0.08):
            spaces = ["v4", "v6"] if spaces == ["local"] else ["local"]
        self.put(op, fd=fd, space=self.chance.choice(spaces), name=self.chance.choice(self.numbers))
        self.put("sockname", fd=fd)

    def put_listen(self, fd):
        """Mostly for a socket of which a bind was asked. Then a look at its name, which it may have been given."""
        able = [it for it in self.bound if it in self.open]
        if able and self.likely(0.6):
            fd = self.chance.choice(able)
        kind = self.open.get(fd)
        if kind in ("v4", "v6") and self.connects[fd]["asked"] > 1:
            return
        if kind == "v6":
            # By itself it would be named in v4, and by Linux in v6.
            self.put("bind", fd=fd, space="v6", name=0)
        self.put("listen", fd=fd, backlog=self.chance.choice([-1, 0, 1, 5, 128, 100000]))
        self.put("sockname", fd=fd)

    def length(self, *lengths):
        """A number of bytes. No bytes at all are answered otherwise by Linux."""
        return self.chance.choice([*lengths, *[0] * self.is_model])

    def instance(self):
        return next(fd for fd, it in self.open.items() if it == "epoll")

    def wait(self):
        self.put("wait", ep=self.instance(), max=MOST, timeout=0)

    def register(self, act, fd):
        self.tag += 1
        mask = sum(bit for bit in (IN, OUT, RDHUP) if self.likely(0.7)) + ET * self.likely(0.3)
        mask += ONESHOT * (self.is_model and self.likely(0.15))
        self.put("ctl", ep=self.instance(), act=act, fd=fd, mask=mask, data=self.tag)


# What a line of a script does with a number


def write(it, fd):
    length = it.length(*range(1, WRITTEN + 1))
    it.put("write", fd=fd, hex=bytes(it.chance.choices(b"abcdefgh", k=length)).hex())


def read(it, fd):
    it.put("read", fd=fd, n=it.chance.choice([0, 1, 2, 3, 5, 17, 100]))


def peek(it, fd):
    it.put("peek", fd=fd, n=it.length(1, 2, 3, 5, 17, 100))


def shut(it, fd):
    it.put("shutdown", fd=fd, how=it.chance.choice(["rd", "wr", "rdwr"]))


def ask(it, fd):
    it.put(it.chance.choice(["sockerr", "sockname", "peername"]), fd=fd)


def bind(it, fd):
    it.put_named("bind", fd)


def connect(it, fd):
    it.put_named("connect", fd)


def listen(it, fd):
    it.put_listen(fd)


def accept(it, fd):
    it.put("accept", fd=fd)


def copy(it, fd):
    it.put("dup", fd=fd)
    if fd in it.open:
        other = it.free()
        it.open[other], it.connects[other] = it.open[fd], it.connects[fd]


def close(it, fd):
    """Closes a number, once nothing waits at an end of a pair that nobody has read."""
    if it.open.get(fd) == "epoll":
        return
    if it.open.get(fd) == "pair":
        it.put("read", fd=fd, n=ALL)
    it.put("close", fd=fd)
    it.open.pop(fd, None)
    it.bound.discard(fd)


def register(it, fd):
    it.register(it.chance.choice(["add", "add", "mod", "mod", "del"]), fd)


def make(it, fd=None):
    """A new socket without a connection, or a pair."""
    if len(it.sockets()) >= ENOUGH:
        return
    kind = it.chance.choice(it.makes)
    if kind == "pair":
        it.opened("pair", "socketpair", 2)
    elif kind == "unix":
        it.opened("local", "socket", 1, family="unix")
    else:
        it.opened("tcp" if it.is_model else space_of(it.free()), "socket", 1, family="tcp")


#: How often each of them is called.
STEPS = {
    write: 16,
    read: 12,
    peek: 10,
    shut: 14,
    ask: 10,
    bind: 9,
    connect: 12,
    listen: 6,
    accept: 4,
    copy: 6,
    close: 7,
    register: 10,
    make: 7,
}


def kind_of(words):
    return "model" if words.model else "sockets"


def script_of(words, number):
    """The lines of a script."""
    chance = random.Random(f"{words.seed}:{number}")
    it = Script(chance, words.model)
    it.opened("epoll", "epoll", 1)
    for _ in range(chance.randint(1, 4)):
        make(it)
    if not words.model and it.likely(0.3):
        it.opened("pipe", "pipe", 2)
    for fd in it.sockets():
        if it.likely(0.9):
            it.register("add", fd)
    it.wait()
    for _ in range(chance.randint(8, 40)):
        (step,) = chance.choices(list(STEPS), list(STEPS.values()))
        step(it, it.any_number())
        if it.likely(0.7):
            it.wait()
    it.wait()
    return it.lines


# ---- The judges ----


def reports(answer):
    """The reports of an answer, in no order. None if it has none."""
    if not isinstance(answer, dict) or {*answer} != {"events"}:
        return None
    return Counter(tuple(it) for it in answer["events"])


class BesideLinux(oracle.Judge):
    """Makes the calls of a script on the machine's kernel, too, and compares the answers."""

    def __init__(self):
        self.linux = Linux()
        #: The data of the edge-triggered registrations that Linux may report more often: those of ends of pairs and
        #: pipes, and those of sockets without a connection once a connect has told an error, until the next wait.
        self.ends, self.sockets, self.has_told = set(), set(), False

    def step(self, line, answer):
        if line.get("mask", 0) & ET:
            (self.sockets if self.linux.is_apart(line["fd"]) else self.ends).add(line["data"])
        other = self.as_here(line, self.linux.answer(line))
        if not self.are_alike(answer, other):
            raise oracle.Wrong(f"Linux: {json.dumps(other)}")
        self.has_told = line["op"] != "wait" and (self.has_told or line["op"] == "connect" and "failed" in answer)

    def as_here(self, line, other):
        """An answer of Linux as epsim gives it. There a connect that has begun looks like a refusal, and so does an
        error that waited at a TCP socket and is taken."""
        number, _ = other.get("err", (0, ""))
        if number == EINPROGRESS:
            return {"connecting": True}
        return {"failed": other["err"]} if number in WAITED and self.linux.is_tcp(line["fd"]) else other

    def are_alike(self, mine, other):
        """Whether an answer is that of Linux. Of reports at edge-triggered registrations Linux may have more."""
        here, there = reports(mine), reports(other)
        if here is not None and there is not None:
            edges = self.ends | self.sockets if self.has_told else self.ends
            return not here - there and all(data in edges for _, data in there - here)
        if {*mine, *other} == {"name"} and mine["name"] and other["name"]:
            return self.linux.is_told(mine["name"], other["name"])
        return mine == other

    def end(self):
        self.linux.end()


class ByRules(oracle.Judge):
    """Foretells each answer."""

    def __init__(self):
        self.model = Model()

    def step(self, line, answer):
        wanted = self.model.answer(line)
        if answer != wanted and (reports(wanted) is None or reports(answer) != reports(wanted)):
            raise oracle.Wrong(f"wanted: {json.dumps(wanted)}")


def judge_of(words):
    return ByRules() if words.model else BesideLinux()


if __name__ == "__main__":
    sys.exit(oracle.main(oracle.Oracle(__doc__, ("--model",), kind_of, script_of, judge_of)))
