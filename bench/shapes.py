"""What bench/count counts beside the jobs: scripts, histories and rounds of calls of shapes that a change once made
dearer. Each is made here, and is the same in each run."""

from dataclasses import dataclass

#: Room for as many descriptors as a process can have, and for what they name; pipes are small.
LIMITS = "65536,1000000,10000,1000000,4096,65536"
#: The bytes of a long line of a script, and how many such lines a shape has.
LONG, LINES = 16_000, 20
#: How often a history writes and reads, and the bytes of a line that is no record.
RECORDS, NO_RECORD = 30, 16_361
#: The greatest nesting that is read.
DEEPEST = 127
#: The instances that watch one target each.
OWNERS = 3_000
PIPES = 4_000
#: How often a script writes a long text, and the byte of a `fill`.
WRITES, FILLED = 30, 0x61
#: Timers in one instance, and instances above it.
TIMERS, ABOVE = 160, 160
#: Counters of one instance, each written once, and instances over it.
WATCHED, OUTERS = 40, 320
ONE = '"0100000000000000"'
#: A moment that no tick comes to.
FAR_AHEAD = 900_000_000_000


@dataclass
class Shape:
    """What is counted: the run of a program on a text, or what it does more than another run."""

    name: str
    program: str
    #: The words of the run, and those of the other one, which do a part of the same.
    words: list
    without: list = None
    given: str = ""
    #: The last line that the run has to print, if it is known, and its status.
    prints: str = None
    status: int = 0
    #: Whether the most that the stack holds is counted, too.
    has_stack: bool = False


def filled(head, unit, tail, size=LONG):
    """A text of about that many bytes: the head, the unit again and again, the tail."""
    return head + unit * ((size - len(head) - len(tail)) // len(unit)) + tail


def bad_of(count):
    """The last line of a run over so many lines, none of which is a command."""
    counted = "1 of 1 line was" if count == 1 else f"{count} of {count} lines were"
    return f"epsim: {counted} no command; --explain says why"


def broken_lines():
    """Long lines of scripts that are no commands: each has a number that is not whole as its last one, or is broken
    there, and ends as an object does."""
    members = ",".join(f'"k{number:04}":1' for number in range(LONG // 10 - 2))
    kinds = {
        "list": filled('{"a":[', "100,", "{}]}"),
        "members": f'{{{members},"z":{{}}}}',
        "strings": filled('{"a":[', '"word",', "{}]}"),
        "objects": filled('{"a":[', '{"b":1},', "{}]}"),
        "text": filled('{"a":"', r"\n", '","b":{}}'),
    }
    for kind, line in kinds.items():
        head, _, tail = line.rpartition("{}")
        for how, last in (("with -0", "-0"), ("with a comma", "1,")):
            given = f"{head}{last}{tail}\n" * LINES
            yield Shape(f"{kind} {how} last", "epsim", [], given=given, prints=bad_of(LINES))


def record(call, answer, picked=""):
    """A record of a call as it is printed; all are compact JSON."""
    return f'{{"answer":{answer},"caller":0,"event":{{"call":{call},"pid":1}},"picked":[{picked}]}}'


def traffic(size, hex_pair):
    """The records of a pipe through which so many bytes go again and again. They are no run of one byte."""
    digits = "00" + hex_pair * (size - 1)
    write = record(f'{{"fd":4,"hex":"{digits}","op":"write"}}', f'{{"num":{size}}}')
    read = record(f'{{"fd":3,"n":{size},"op":"read"}}', f'{{"bytes":"{digits}"}}')
    return [record('{"cloexec":false,"op":"pipe"}', '{"two":[3,4]}'), *[write, read] * RECORDS]


def nearly_printed():
    """Histories as they are printed, and nearly so."""
    for size in (1_000, 7_900):
        printed, capitals = traffic(size, "ab"), traffic(size, "AB")
        for how, lines in {
            "as printed": printed,
            "with CR LF": [it + "\r" for it in printed],
            "with a blank at the end": [it + " " for it in printed],
            "with a blank before picked": [it.replace(',"picked"', ', "picked"') for it in printed],
            "in capitals": capitals,
        }.items():
            text = "".join(f"{it}\n" for it in lines)
            name = f"history of {size} bytes {how}"
            yield Shape(name, "epaudit", [], given=text, prints=f"ok {len(lines)} records")


def no_record():
    line = filled('{"answer":{"events":[', "[,]", "]}", NO_RECORD)
    prints = "epaudit: line 1 is no record"
    yield Shape("line that is no record", "epaudit", [], given=f"{line}\n", prints=prints, status=2)


def deep_lines():
    """Single lines of scripts that want a deep stack."""
    nested = '{"a":' * DEEPEST + "1" + "}" * (DEEPEST - 1)
    for name, line in {"nested deep": nested, "with a point": '{"op":"dup","fd":1.5}'}.items():
        yield Shape(f"line {name}", "epsim", [], given=f"{line}\n", prints=bad_of(1), has_stack=True)


class Script:
    """The lines that are made once, and those of a round. Before the rounds nothing is closed, so descriptors are
    numbered from 3 on."""

    def __init__(self):
        self.setup = []
        self.round = []
        self.descriptors = 3

    def opens(self, line, count=1):
        self.setup.append(line)
        self.descriptors += count
        return self.descriptors - count

    def instance(self):
        return self.opens('{"op":"epoll"}')

    def counter(self, start=0):
        return self.opens('{"op":"eventfd","init":%d}' % start)

    def timer(self, value, interval=0):
        timer = self.opens('{"op":"timerfd","clock":1}')
        self.setup.append('{"op":"settime","fd":%d,"value":%d,"interval":%d}' % (timer, value, interval))
        return timer

    def add(self, instance, target, mask="IN"):
        self.setup.append(ctl("add", instance, target, mask))

    def park(self, caller, instance):
        self.setup.append(wait(instance, 1, -1, caller))

    def rounds(self, name, count, options=()):
        """The rounds alone: what comes before them is taken off."""
        words = ["rounds", *options, "--limits", LIMITS, str(len(self.setup))]
        calls = len(self.setup) + count * len(self.round)
        text = "".join(f"{it}\n" for it in self.setup + self.round)
        prints = f"{calls} calls, 0 refused"
        # Words of one length, so that all that lies behind them on the stack lies alike.
        none = "0" * len(str(count))
        return Shape(name, "ep_bench", [*words, str(count)], [*words, none], given=text, prints=prints)


def ctl(act, instance, target, mask="IN"):
    return '{"op":"ctl","ep":%d,"act":"%s","fd":%d,"mask":"%s","data":%d}' % (instance, act, target, mask, target)


def wait(instance, most, timeout=0, by=0):
    return '{"op":"wait","by":%d,"ep":%d,"max":%d,"timeout":%d}' % (by, instance, most, timeout)


def write_one(counter):
    return '{"op":"write","fd":%d,"hex":"0100000000000000"}' % counter


def read_eight(counter):
    return '{"op":"read","fd":%d,"n":8}' % counter


TICK = '{"op":"tick","n":1}'


def reports():
    """One wait that reports many."""
    for kind, mask in (("level", "IN"), ("edge", "IN|ET")):
        for count in (1, 8, 32, 100, 300):
            script = Script()
            instance = script.instance()
            for _ in range(count):
                script.add(instance, script.counter(1), mask)
            script.round = ['{"op":"wait","ep":%d,"max":%d,"timeout":0}' % (instance, count)]
            yield script.rounds(f"wait with {count} {kind} reports", 1)


def lone_registrations():
    """DEL and ADD of the only registration of an instance and of its target, beside others of that kind."""
    for owners in (1, OWNERS):
        script = Script()
        pairs = [(script.instance(), script.counter()) for _ in range(owners)]
        for pair in pairs:
            script.add(*pair)
        pair = pairs[owners // 2]
        script.round = [ctl("del", *pair), ctl("add", *pair)]
        yield script.rounds(f"DEL and ADD beside {owners} owners", 100)


def stale_hopes():
    """A raise of many registrations of an inner instance, which are stale when the outer one asks."""
    for count in (100, 300):
        script = Script()
        target = script.counter()
        numbers = [target, *[script.opens('{"op":"dup","fd":%d}' % target) for _ in range(1, count)]]
        inner = script.instance()
        for number in numbers:
            script.add(inner, number)
        outer = script.instance()
        script.add(outer, inner)
        script.round = [
            '{"op":"write","fd":%d,"hex":"0100000000000000"}' % target,
            '{"op":"read","fd":%d,"n":8}' % target,
            ctl("mod", outer, inner),
        ]
        yield script.rounds(f"raise of {count} that go stale", 10)


def pipes():
    """A table of descriptors that grows, with an ADD for each pipe."""
    script = Script()
    instance = script.instance()
    for number in range(PIPES):
        script.round += ['{"op":"pipe"}', ctl("add", instance, 4 + 2 * number)]
    yield script.rounds(f"{PIPES} times pipe and ADD", 1)


def exclusive_rounds():
    """What is written wakes the caller that waits by the only exclusive registration. It reads, and waits again."""
    script = Script()
    instance, counter = script.instance(), script.counter()
    script.add(instance, counter, "IN|EXCLUSIVE")
    script.park(1, instance)
    script.round = [write_one(counter), '{"op":"resume","by":1}', read_eight(counter), wait(instance, 1, -1, 1)]
    yield script.rounds("round of an exclusive registration", 100)


def links_beside_exclusive():
    """DEL and ADD of a link between instances. Callers wait at n instances above it, n more are beneath and idle, and
    one registration elsewhere is exclusive."""
    for count in (15, 60, 240):
        script = Script()
        middle = script.instance()
        beneath = [script.instance() for _ in range(count)]
        for inner in beneath:
            script.add(middle, inner)
        for caller in range(1, count + 1):
            outer = script.instance()
            script.add(outer, middle)
            script.park(caller, outer)
        script.add(script.instance(), script.counter(), "IN|EXCLUSIVE")
        script.round = [ctl("del", middle, beneath[0]), ctl("add", middle, beneath[0])]
        yield script.rounds(f"DEL and ADD of a link amid {count} and {count}, one exclusive elsewhere", 10)


def ticks():
    """Timers of one instance below many that expire in one tick, timers that expire in each tick, and ticks beside
    timers that don't expire."""
    for kind, mask in (("plain", "IN"), ("exclusive", "IN|EXCLUSIVE")):
        script = Script()
        instance = script.instance()
        for _ in range(TIMERS):
            script.add(instance, script.timer(1, 1), mask)
        for _ in range(ABOVE):
            script.add(script.instance(), instance)
        script.round = [TICK]
        yield script.rounds(f"tick of {TIMERS} {kind} timers below {ABOVE}", 10)
    for count in (1, 100):
        script = Script()
        instance = script.instance()
        timers = [script.timer(1, 1) for _ in range(count)]
        for timer in timers:
            script.add(instance, timer)
        script.round = [TICK, *map(read_eight, timers)]
        yield script.rounds(f"tick of {count} periodic timers and their reads", 1_000 // count)
    script = Script()
    for _ in range(1_000):
        script.timer(FAR_AHEAD)
    script.round = [TICK]
    yield script.rounds("tick beside 1000 far timers", 100)


def scanned():
    """A pipe's round on the kernel that scans."""
    script = Script()
    near = script.opens('{"op":"pipe"}', 2)
    instance = script.instance()
    script.add(instance, near)
    write = '{"op":"write","fd":%d,"hex":"616263"}' % (near + 1)
    script.round = [write, wait(instance, 8), '{"op":"read","fd":%d,"n":3}' % near]
    yield script.rounds("round of a pipe on --plain", 100, ["--plain"])


def fills():
    """The audit of writes of one byte, many times, and of their reads."""
    for size in (100, 4_096):
        written = record('{"fd":4,"fill":[%d,%d],"op":"write"}' % (FILLED, size), '{"num":%d}' % size)
        read = record('{"fd":3,"n":%d,"op":"read"}' % size, '{"bytes":"%s"}' % (b"%c" % FILLED * size).hex())
        lines = [record('{"cloexec":false,"op":"pipe"}', '{"two":[3,4]}'), *[written, read] * RECORDS]
        text = "".join(f"{it}\n" for it in lines)
        yield Shape(f"audit of fill, {size} bytes", "epaudit", [], given=text, prints=f"ok {len(lines)} records")


def many_outers():
    """The audit of many instances over one that watches many counters: all their registrations come and go together."""
    inner, counters, outers = 3, range(4, 4 + WATCHED), range(4 + WATCHED, 4 + WATCHED + OUTERS)
    made = [(it, '"cloexec":false,"init":0,"op":"eventfd","sem":false') for it in counters]
    made = [(inner, '"cloexec":false,"op":"epoll"'), *made, *((it, '"cloexec":false,"op":"epoll"') for it in outers)]
    lines = [record("{%s}" % call, '{"num":%d}' % it) for it, call in made]
    for outer, watched in [*((inner, it) for it in counters), *((it, inner) for it in outers)]:
        call = '{"act":1,"data":%d,"ep":%d,"fd":%d,"mask":1,"op":"ctl"}' % (watched, outer, watched)
        lines.append(record(call, '{"done":true}'))
    for counter, outer in zip(counters, outers):
        lines.append(record('{"fd":%d,"hex":%s,"op":"write"}' % (counter, ONE), '{"num":8}'))
        wait_call = '{"ep":%d,"max":1,"op":"wait","timeout":0}' % outer
        lines.append(record(wait_call, '{"events":[[1,%d]]}' % inner, WATCHED + 1 + outer - outers[0]))
        lines.append(record('{"fd":%d,"n":8,"op":"read"}' % counter, '{"bytes":%s}' % ONE))
    text = "".join(f"{it}\n" for it in lines)
    name = f"audit of {OUTERS} instances over one of {WATCHED}"
    yield Shape(name, "epaudit", [], given=text, prints=f"ok {len(lines)} records")


def long_writes():
    """Long writes of a script by their digits, and their reads."""
    for size in (400, 8_000):
        digits = "00" + "ab" * (size - 1)
        lines = ['{"op":"write","fd":4,"hex":"%s"}' % digits, '{"op":"read","fd":3,"n":%d}' % size]
        text = "".join(f"{it}\n" for it in ['{"op":"pipe"}', *lines * WRITES])
        yield Shape(f"write of {size} bytes by digits", "epsim", [], given=text, prints='{"bytes":"%s"}' % digits)


def shapes():
    makers = (
        broken_lines,
        nearly_printed,
        no_record,
        deep_lines,
        reports,
        lone_registrations,
        stale_hopes,
        pipes,
        exclusive_rounds,
        links_beside_exclusive,
        ticks,
        scanned,
        fills,
        many_outers,
        long_writes,
    )
    return [it for maker in makers for it in maker()]
