"""The shapes of scripts by which bench/audits compares what an audit costs with what the run cost. Each is made here,
and is the same in each run."""

import random
from dataclasses import dataclass

#: Room for as many descriptors as a process can have, and for what they name; pipes are small.
LIMITS = "65536,1000000,10000,1000000,4096,65536"
ONE = '"0100000000000000"'
#: The seed of what is chosen at random.
SEED = 1
#: How deep instances can be nested.
LEVELS = 5


@dataclass
class Shape:
    """A script, and how many times the instructions of its run its audit may take."""

    name: str
    lines: list
    most: float = 1.25


class Script:
    """The lines of a script. Nothing is closed before `closes`, so descriptors are numbered from 3 on."""

    def __init__(self):
        self.lines = []
        self.descriptors = 3

    def opens(self, line, count=1):
        self.lines.append(line)
        self.descriptors += count
        return self.descriptors - count

    def instance(self):
        return self.opens('{"op":"epoll"}')

    def counter(self):
        return self.opens('{"op":"eventfd","init":0}')

    def pair(self):
        first = self.opens('{"op":"socketpair"}', 2)
        return first, first + 1

    def dup(self, fd):
        return self.opens('{"op":"dup","fd":%d}' % fd)

    def ctl(self, act, instance, target, mask="IN"):
        words = (instance, act, target, mask, target)
        self.lines.append('{"op":"ctl","ep":%d,"act":"%s","fd":%d,"mask":"%s","data":%d}' % words)

    def wait(self, instance, most=8, timeout=0, by=0):
        self.lines.append('{"op":"wait","by":%d,"ep":%d,"max":%d,"timeout":%d}' % (by, instance, most, timeout))

    def resume(self, by):
        self.lines.append('{"op":"resume","by":%d}' % by)

    def write(self, fd):
        self.lines.append('{"op":"write","fd":%d,"hex":%s}' % (fd, ONE))

    def read(self, fd, size=8):
        self.lines.append('{"op":"read","fd":%d,"n":%d}' % (fd, size))

    def close(self, fd):
        self.lines.append('{"op":"close","fd":%d}' % fd)

    def tick(self):
        self.lines.append('{"op":"tick","n":1}')


def servers(mask, drains, how):
    """A server: something arrives at one of its connections, it waits, and reads. Each 20th event is a tick, and a
    timer for each fourth connection is set anew again and again."""
    for connections in (100, 300, 1_000, 3_000):
        chosen, script = random.Random(SEED), Script()
        instance = script.instance()
        pairs = [script.pair() for _ in range(connections)]
        timers = [script.opens('{"op":"timerfd","clock":1}') for _ in range(connections // 4)]
        for near, _ in pairs:
            script.ctl("add", instance, near, mask)
        for fd in timers:
            script.ctl("add", instance, fd, "IN|ET")
        for event in range(5_000):
            near, far = chosen.choice(pairs)
            script.write(far)
            script.wait(instance)
            if drains:
                script.read(near, 4096)
            if event % 20 == 0:
                fd = chosen.choice(timers)
                script.lines.append('{"op":"settime","fd":%d,"value":%d}' % (fd, 1 + event % 50))
                script.tick()
        yield Shape(f"server, {how}, {connections} connections", script.lines)


def always_ready():
    """Connections that can always be written to, level-triggered, so each of them stays reportable."""
    for connections in (400, 1_000, 2_000, 4_000):
        chosen, script = random.Random(SEED), Script()
        instance = script.instance()
        pairs = [script.pair() for _ in range(connections)]
        for near, _ in pairs:
            script.ctl("add", instance, near, "IN|OUT")
        for _ in range(1_000):
            near, far = chosen.choice(pairs)
            script.write(far)
            script.wait(instance)
            script.read(near)
        yield Shape(f"{connections} that stay ready", script.lines)


def elsewhere():
    """Many registrations stay ready while things happen at another instance."""
    script = Script()
    instance, other = script.instance(), script.instance()
    for _ in range(1_600):
        near, _ = script.pair()
        script.ctl("add", instance, near, "OUT")
    counter = script.counter()
    script.ctl("add", other, counter)
    for _ in range(1_000):
        script.write(counter)
        script.wait(other)
        script.read(counter)
    yield Shape("1600 that stay ready, events elsewhere", script.lines)


def full_nest(width):
    """Five levels of instances, each of which watches each instance of the next level, and below them a counter."""
    script = Script()
    levels = [[script.instance() for _ in range(width)] for _ in range(LEVELS)]
    counter = script.counter()
    for upper, lower in zip(levels, levels[1:]):
        for outer in upper:
            for inner in lower:
                script.ctl("add", outer, inner)
    for inner in levels[-1]:
        script.ctl("add", inner, counter)
    return script, levels, counter


def nests():
    for width in (6, 8, 10, 12, 16, 20):
        script, levels, counter = full_nest(width)
        script.write(counter)
        script.wait(levels[0][0])
        script.read(counter)
        yield Shape(f"full nest of width {width}", script.lines)
    for width in (5, 8, 20):
        script, levels, counter = full_nest(width)
        for turn in range(100):
            script.write(counter)
            script.wait(levels[turn % LEVELS][turn % width])
            script.read(counter)
        yield Shape(f"events below a full nest of width {width}", script.lines)


def outer_over_inner():
    for count in (1_000, 4_000):
        chosen, script = random.Random(SEED), Script()
        inner, outer = script.instance(), script.instance()
        counters = [script.counter() for _ in range(count)]
        for fd in counters:
            script.ctl("add", inner, fd)
        script.ctl("add", outer, inner)
        for _ in range(2_000):
            fd = chosen.choice(counters)
            script.write(fd)
            script.wait(outer)
            script.wait(inner)
            script.read(fd)
        yield Shape(f"an outer instance over an inner one of {count}", script.lines)


def workers():
    chosen, script = random.Random(SEED), Script()
    outer = script.instance()
    inners = [script.instance() for _ in range(8)]
    counters = []
    for inner in inners:
        script.ctl("add", outer, inner)
        for _ in range(50):
            fd = script.counter()
            script.ctl("add", inner, fd)
            counters.append((inner, fd))
    for _ in range(3_000):
        inner, fd = chosen.choice(counters)
        script.write(fd)
        script.wait(outer)
        script.wait(inner)
        script.read(fd)
    yield Shape("8 instances of 50 and one over them", script.lines)


def many_outers():
    # At each write and each read all outer registrations come and go together, which an audit pays more for than a run.
    for outers, rounds, waiters, most in ((320, 40, 0, 1.25), (1_280, 200, 0, 1.5), (80, 40, 80, 1.25)):
        script = Script()
        inner = script.instance()
        counters = [script.counter() for _ in range(40)]
        for fd in counters:
            script.ctl("add", inner, fd)
        above = [script.instance() for _ in range(outers)]
        for outer in above:
            script.ctl("add", outer, inner)
        for turn in range(rounds):
            fd = counters[turn % len(counters)]
            for by in range(waiters):
                script.wait(above[by], 1, -1, by + 1)
            script.write(fd)
            for by in range(waiters):
                script.resume(by + 1)
            script.wait(above[turn % outers])
            script.read(fd)
        name = f"{outers} instances over an inner one of 40"
        yield Shape(name + (f", {waiters} waiters" if waiters else ""), script.lines, most)


def long_reports():
    # An audit prints each record again, to compare the lines. So it may cost more where a run does little else.
    for count, rounds, most in ((1_000, 20, 1.25), (1_000, 200, 1.5), (4_000, 20, 2), (4_000, 200, 2)):
        script = Script()
        instance = script.instance()
        counters = [script.counter() for _ in range(count)]
        for fd in counters:
            script.ctl("add", instance, fd)
            script.write(fd)
        for _ in range(rounds):
            script.wait(instance, count)
        yield Shape(f"{rounds} reports of {count}", script.lines, most)
    for count in (400, 4_000):
        script = Script()
        instance = script.instance()
        for _ in range(count):
            fd = script.counter()
            script.ctl("add", instance, fd)
            script.write(fd)
        for _ in range(400):
            script.wait(instance, 8)
        yield Shape(f"reports of 8 of {count} that are ready", script.lines)


def waiting():
    """Callers that wait, at one instance or each at its own, and are marked and go on, or stay parked."""
    for name, callers, instances, wakes in (
        ("400 waiters at one instance", 400, 1, True),
        ("800 waiters, each at its instance", 800, 800, True),
        ("800 idle waiters", 800, 800, False),
    ):
        script = Script()
        sets = [script.instance() for _ in range(instances)]
        counters = [script.counter() for _ in sets]
        busy, counter = script.instance(), script.counter()
        script.ctl("add", busy, counter)
        for instance, fd in zip(sets, counters):
            script.ctl("add", instance, fd)
        for by in range(callers):
            script.wait(sets[by % instances], 1, -1, by + 1)
        for turn in range(2_000):
            by, at = turn % callers, turn % callers % instances
            script.write(counters[at] if wakes else counter)
            if wakes:
                script.resume(by + 1)
            script.read(counters[at] if wakes else counter)
            if wakes:
                script.wait(sets[at], 1, -1, by + 1)
        yield Shape(name, script.lines)
    for waiters in (5, 20):
        script = Script()
        for by in range(waiters):
            instance = script.instance()
            for _ in range(15):
                fd = script.counter()
                script.ctl("add", instance, fd)
                script.write(fd)
        idle, counter = script.instance(), script.counter()
        for by in range(waiters):
            script.wait(idle, 1, -1, by + 1)
        for _ in range(1_000):
            script.write(counter)
            script.read(counter)
        yield Shape(f"{waiters} waiters and 15 that stay ready for each", script.lines)


def comings_and_goings():
    script = Script()
    instance = script.instance()
    counters = [script.counter() for _ in range(400)]
    for turn in range(8_000):
        fd = counters[turn // 2 % len(counters)]
        script.ctl("del" if turn % 2 else "add", instance, fd)
    yield Shape("ADD and DEL", script.lines)
    for what in ("instance", "target"):
        script = Script()
        others = [script.instance() if what == "target" else script.counter() for _ in range(8)]
        for _ in range(800):
            fd = script.counter() if what == "target" else script.instance()
            for other in others:
                script.ctl("add", *((other, fd) if what == "target" else (fd, other)))
            script.close(fd)
            script.descriptors -= 1
        yield Shape(f"ADD, and the {what} is closed", script.lines)


def together():
    """Many registrations that come and go in one event."""
    script = Script()
    counter = script.counter()
    for _ in range(400):
        script.ctl("add", script.instance(), counter)
    for _ in range(100):
        script.write(counter)
        script.read(counter)
    yield Shape("400 watchers of one target", script.lines, 2)
    script = Script()
    instance = script.instance()
    near, far = script.pair()
    for number in [near, *[script.dup(near) for _ in range(399)]]:
        script.ctl("add", instance, number, "IN|ET")
    for _ in range(100):
        script.write(far)
        script.wait(instance, 400)
        script.read(near)
    yield Shape("400 numbers of one socket", script.lines, 2)


def sharing():
    """Workers that wait at instances of their own for one counter. One of them reads what is written, and waits again."""
    for mask in ("IN", "IN|EXCLUSIVE"):
        script = Script()
        counter = script.counter()
        sets = [script.instance() for _ in range(400)]
        for instance in sets:
            script.ctl("add", instance, counter, mask)
        for by, instance in enumerate(sets):
            script.wait(instance, 1, -1, by + 1)
        for _ in range(200):
            script.write(counter)
            script.resume(1)
            script.read(counter)
            script.wait(sets[0], 1, -1, 1)
        yield Shape(f"400 workers of one counter, {mask}", script.lines, 2)


def fills():
    """Writes of one byte, many times, and their reads."""
    # The longer they are, the more of both is printing the bytes, and an audit copies and compares the line, too.
    for size, most in ((16, 1.25), (100, 1.25), (1_000, 1.25), (4_096, 1.5)):
        script = Script()
        far = script.opens('{"op":"pipe"}', 2)
        for _ in range(500):
            script.lines.append('{"op":"write","fd":%d,"fill":[97,%d]}' % (far + 1, size))
            script.read(far, size)
        yield Shape(f"500 times fill of {size} bytes and its read", script.lines, most)


def shapes():
    yield from servers("IN|ET", True, "edge-triggered, drained")
    yield from servers("IN", True, "level-triggered, drained")
    yield from servers("IN|ET", False, "edge-triggered, never drained")
    for maker in (
        always_ready,
        elsewhere,
        nests,
        outer_over_inner,
        workers,
        many_outers,
        long_reports,
        waiting,
        comings_and_goings,
        together,
        sharing,
        fills,
    ):
        yield from maker()
