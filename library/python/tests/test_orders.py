"""What nippersage.orders tries: how many orders, by which ways, which fail, and what mends them.

Numbers of orders are counted here by binomials, or by a recursion over what the manual pages say of the calls, and not
taken from the program. The faults are those of faults.py.

    python3 library/python/tests/test_orders.py
"""

import random
import unittest
from collections import Counter
from functools import lru_cache
from itertools import permutations
from math import comb

from faults import (
    FAULTS, ONE, Example, gives_up_example, herd_example, pipe_example, pool_example, proxy_example, reads_all,
    reads_once,
)
from nippersage import ET, EXCLUSIVE, IN, LIBRARY, ONESHOT, OUT, Limits
from nippersage.orders import Env, Failed, explore


def straight(*counts):
    """Tasks that make so many calls each, none of which waits."""

    def setup(kernel):
        return Env(ends=[kernel.pipe() for _ in counts])

    def task(place, count):
        def run(t, e):
            for _ in range(count):
                yield t.write(e.ends[place][1], b"x")

        return run

    return Example(setup, {f"t{place}": task(place, count) for place, count in enumerate(counts)})


def interleavings(*counts):
    """In how many orders so many calls of each task can be."""
    total, product = 0, 1
    for count in counts:
        total += count
        product *= comb(total, count)
    return product


def with_pre_emptions(first, second, pre_emptions):
    """How many orders of two tasks have so many pre-emptions.

    The last switch is at the end of a task, and each other one is a pre-emption. So there are two blocks more than
    pre-emptions, that go to the tasks in turn.
    """
    blocks = pre_emptions + 2
    more, less = (blocks + 1) // 2, blocks // 2

    def splits(calls, parts):
        return comb(calls - 1, parts - 1) if parts else 0

    return splits(first, more) * splits(second, less) + splits(second, more) * splits(first, less)


def pre_emptions_of(order):
    """How often another task goes though the one before has still a turn to come."""
    return sum(who != after and who in order[place + 1:] for place, (who, after) in enumerate(zip(order, order[1:])))


@lru_cache(None)
def orders_of_loop(at, unread, is_fresh, left, reads_once):
    """In how many orders an edge-triggered loop and its peer go, from here on.

    The loop is at its `wait` or `read`, or asleep in the wait; so many messages are unread, the last one came after the
    last report or not, and so many will be written.
    """
    ways = [("asleep" if at == "asleep" else at, unread + 1, True, left - 1)] if left else []
    if at == "read" and reads_once:
        ways.append(("wait", unread - 1, is_fresh, left))
    elif at == "read":
        ways.append(("read", unread - 1, is_fresh, left) if unread else ("wait", 0, is_fresh, left))
    elif is_fresh and unread:
        ways.append(("read", unread, False, left))
    elif at == "wait":
        ways.append(("asleep", unread, is_fresh, left))
    return sum(orders_of_loop(*way, reads_once) for way in ways) or 1


def loops_by_reports(at, unread, is_fresh, left):
    """In how many of them a loop that reads once gets so many reports: {reports: orders}."""
    is_due = at != "read" and is_fresh and unread > 0
    if not left and at == "asleep" and not is_due:
        return Counter([0])
    found = loops_by_reports(at, unread + 1, True, left - 1) if left else Counter()
    if at == "read":
        found += loops_by_reports("wait", unread - 1, is_fresh, left)
    elif is_due:
        reported = loops_by_reports("read", unread, False, left)
        found += Counter({reports + 1: orders for reports, orders in reported.items()})
    elif at == "wait":
        found += loops_by_reports("asleep", unread, is_fresh, left)
    return found


def workers_by_answers(at, marked, parked, is_fresh, value, left):
    """In how many orders workers at one edge-triggered instance come to what: {their ends: orders}.

    Each waits once and reads a counter, to which a boss adds so many times. `at` has for each worker "wait", "parked",
    "read", or what its read came to. docs/calls.md, "Parked waits": at the end of each event, if the instance is ready
    and nobody is marked, the one is that was parked first. Who is answered "still" keeps its place.
    """
    ways = [(at, marked, parked, True, value + 1, left - 1)] if left else []
    for me, where in enumerate(at):
        def then(to, marked=marked, parked=parked, is_fresh=is_fresh, value=value):
            ways.append(((*at[:me], to, *at[me + 1:]), marked, parked, is_fresh, value, left))

        if where == "read":
            then(value or "EAGAIN", value=0)
        elif where == "wait" or marked == me:
            others, mark = tuple(it for it in parked if it != me), None if marked == me else marked
            if is_fresh and value:
                then("read", mark, others, False)
            else:
                then("parked", mark, parked if me in parked else (*parked, me))
    found = Counter()
    for at_then, mark, queue, *rest in ways:
        if mark is None and queue and rest[0] and rest[1]:
            mark = queue[0]
        found += workers_by_answers(at_then, mark, queue, *rest)
    return found or Counter([at])


@unittest.skipUnless(LIBRARY, "there is no library")
class Counts(unittest.TestCase):
    def count(self, example, expected, **how):
        for way in ("every", "rising"):
            result = example.explore(how=way, raises=False, stop=False, **how)
            self.assertTrue(result.whole, result)
            self.assertEqual(result.runs, expected)

    def test_two_tasks(self):
        for first in range(4):
            for second in range(1, 5):
                self.count(straight(first, second), comb(first + second, first))

    def test_more_tasks(self):
        self.assertEqual(interleavings(2, 2, 2), 90)
        for counts in ((5,), (1, 1, 1), (2, 1, 2), (2, 2, 2), (1, 1, 1, 1)):
            self.count(straight(*counts), interleavings(*counts))

    def test_a_task_without_a_call(self):
        self.count(straight(0), 1)
        self.count(straight(0, 0, 3), 1)

    def test_each_bound(self):
        for first, second in ((1, 1), (3, 2), (4, 4), (2, 5)):
            self.assertEqual(
                sum(with_pre_emptions(first, second, it) for it in range(first + second)), comb(first + second, first)
            )
            for bound in range(first + second):
                result = straight(first, second).explore(bound=bound)
                expected = sum(with_pre_emptions(first, second, it) for it in range(bound + 1))
                self.assertEqual(result.runs, expected, (first, second, bound))
                self.assertEqual(result.whole, expected == comb(first + second, first))
                self.assertEqual(result.bound, result.bound if result.whole else bound)

    def test_each_bound_of_three_tasks(self):
        counts = (2, 1, 3)
        orders = set(permutations([place for place, count in enumerate(counts) for _ in range(count)]))
        self.assertEqual(len(orders), interleavings(*counts))
        for bound in range(max(map(pre_emptions_of, orders)) + 2):
            result = straight(*counts).explore(bound=bound)
            self.assertEqual(result.runs, sum(pre_emptions_of(it) <= bound for it in orders))

    def test_loops(self):
        """34, 2,702 and 6,478 are what an explorer in C made of these loops, too."""
        for task, writes, expected in (
            (reads_once, 1, None), (reads_once, 3, 34), (reads_once, 6, 2_702), (reads_all, 2, None),
            (reads_all, 3, None), (reads_all, 6, 6_478),
        ):
            by_hand = orders_of_loop("wait", 0, False, writes, task is reads_once)
            self.assertEqual(by_hand, expected or by_hand)
            result = pipe_example(IN | ET, task, writes).explore(how="every", raises=False, stop=False)
            self.assertTrue(result.whole)
            self.assertEqual(result.runs, by_hand)

    def test_rising_bounds_make_the_same_orders(self):
        for task, writes in ((reads_once, 4), (reads_all, 4)):
            example = pipe_example(IN | ET, task, writes)
            by_hand = orders_of_loop("wait", 0, False, writes, task is reads_once)
            found = [
                example.explore(how=how, raises=False, stop=False, outcomes=True) for how in ("every", "rising")
            ]
            self.assertEqual([it.runs for it in found], [by_hand, by_hand])
            self.assertEqual(found[0].outcomes, found[1].outcomes)
            self.assertEqual(sum(found[0].outcomes.values()), by_hand)

    def test_failures_of_a_loop(self):
        """It fails if a message comes behind a report and before the next wait, and none comes later."""
        result = pipe_example(IN | ET, reads_once, 3).explore(how="every", raises=False, stop=False)
        self.assertEqual((result.runs, result.failures), (34, 16))

    def test_workers_in_c_and_here(self):
        """Two workers that wait at one edge-triggered instance and read a counter, and two writes: 76 orders."""
        result = workers_example().explore(how="every", beside=False, outcomes=True)
        self.assertEqual((result.runs, len(result.outcomes)), (76, 5))


@unittest.skipUnless(LIBRARY, "there is no library")
class Faults(unittest.TestCase):
    #: The kind of failure, and the smallest order that fails. It was found by hand: the fewest calls that each task has
    #: to make, and then the fewest switches.
    SMALLEST = {
        "edge-triggered, reads once": ("asleep beside data", "peer*3 loop*3"),
        "one-shot, never armed again": ("asleep beside data", "peer loop*4 peer*2"),
        "a herd, each sure of its job": ("raised", "boss w0 w1*2 w0"),
        "the same with EXCLUSIVE": ("raised", "boss w0 w1*2 w0"),
        "a pool whose stop is lost": ("asleep beside data", "boss w0*3 w1*2"),
        "a proxy that hands the end on": ("check", "client*3 proxy*2"),
        "a flag that wakes nobody": ("asleep for good", "worker*2 boss"),
        "an end that is told for ever": ("endless", "peer*2 loop*98"),
    }

    def test_each_is_found_and_mended(self):
        self.assertEqual(set(self.SMALLEST), set(FAULTS))
        for name, (faulty, right) in FAULTS.items():
            for faulty, right in ((faulty, right), (faulty.in_threads(), right.in_threads())):
                with self.subTest(name):
                    found = faulty.explore(raises=False, how="rising")
                    self.assertEqual((found.failure.kind, found.failure.order), self.SMALLEST[name])
                    self.assertLessEqual(found.bound or 0, 1)
                    self.assertTrue(right.explore(how="rising").whole)

    def test_each_replays(self):
        for name, (faulty, right) in FAULTS.items():
            kind, order = self.SMALLEST[name]
            with self.subTest(name):
                result = faulty.explore(order=order, raises=False)
                self.assertEqual((result.runs, result.failure.kind, result.failure.order), (1, kind, order))
                self.assertFalse(result.whole)

    def test_each_by_chance(self):
        for name, (faulty, _) in FAULTS.items():
            for how in ("random", "pct"):
                with self.subTest(name):
                    found = faulty.explore(how=how, raises=False)
                    self.assertEqual(found.failure.kind, self.SMALLEST[name][0])

    def test_larger_ones(self):
        for example, kind in (
            (pool_example(False, 1), "asleep beside data"), (pool_example(False, 2), "asleep beside data"),
            (proxy_example(False), "check"), (herd_example(IN, False, 3, 2), "raised"),
            (herd_example(IN | EXCLUSIVE, False, 2, 2), "raised"),
        ):
            self.assertEqual(example.explore(bound=1, raises=False).failure.kind, kind)
        for example in (pool_example(True, 1), proxy_example(True), herd_example(IN, True, 2, 2)):
            result = example.explore(bound=1)
            self.assertEqual((result.bound, result.whole, result.failures), (1, False, 0))

    def test_an_end_of_patience(self):
        """The loop waits, and then reads or closes; its peer writes a and b. A wait behind both writes: 1 order. One
        between them: 2, with the read before or behind b. One before both sleeps until a; then the resumption, the read
        behind it and b are in 3 orders. With a clock that goes at any point the time may also pass before a. Then a
        comes before the resumption, which gives 3 orders more, or behind it: the close is before a (EPIPE), between
        the two (EPIPE) or behind b."""
        right, faulty = gives_up_example(True), gives_up_example(False)
        result = faulty.explore(how="every")
        self.assertEqual((result.runs, result.whole), (6, True))
        found = faulty.explore(how="every", clock="any", stop=False, raises=False)
        self.assertEqual((found.runs, found.failures, found.whole), (12, 2, True))
        self.assertEqual((found.failure.kind, found.failure.order), ("raised", "loop + loop*2 peer"))
        self.assertTrue(right.explore(how="every", clock="any").whole)
        again = faulty.explore(how="rising", clock="any", stop=False, raises=False)
        self.assertEqual((again.runs, again.failures, again.whole), (12, 2, True))


@unittest.skipUnless(LIBRARY, "there is no library")
class Ways(unittest.TestCase):
    def orders_of(self, example, runs, **how):
        """The orders that are tried, as the tasks see them. The first is run twice."""
        orders = []

        def setup(kernel):
            orders.append([])
            return example.setup(kernel)

        def noted(name, task):
            def run(t, e):
                steps, answer = task(t, e), None
                while True:
                    try:
                        answer = yield steps.send(answer)
                    except StopIteration:
                        return
                    orders[-1].append(name)

            return run

        tasks = {name: noted(name, it) for name, it in example.tasks.items()}
        explore(setup, tasks, runs=runs, **how)
        self.assertEqual(orders[0], orders[1])
        return ["".join(it) for it in orders[1:]]

    def test_every_order_is_tried_once(self):
        for how in ("every", "rising"):
            orders = self.orders_of(straight(3, 2, 2), None, how=how)
            self.assertEqual(len(orders), interleavings(3, 2, 2))
            self.assertEqual(len(set(orders)), len(orders))

    def test_bounds_rise(self):
        def switches(order):
            return sum(order[place:place + 2] != order[place - 2:place] for place in range(2, len(order), 2))

        orders = self.orders_of(straight(3, 3), None, how="rising")
        self.assertEqual([switches(it) for it in orders], sorted(switches(it) for it in orders))

    def test_orders_by_chance(self):
        """Each of six orders comes, as often as their first turns have it: three each behind t0 and behind t1."""
        orders = self.orders_of(straight(2, 2), 400, how="random", seed=5)
        self.assertEqual(orders, self.orders_of(straight(2, 2), 400, how="random", seed=5))
        self.assertNotEqual(orders, self.orders_of(straight(2, 2), 400, how="random", seed=6))
        self.assertEqual(len(set(orders)), comb(4, 2))
        # t0 twice and then t1: a quarter of the orders; 100 of 400, give or take five times the deviation of 8.7.
        self.assertTrue(57 <= Counter(orders)["t0t0t1t1"] <= 143)

    def test_priorities(self):
        """Without a fall each task goes to its end, in an order of the tasks: 6 of them."""
        orders = self.orders_of(straight(2, 2, 2), 200, how="pct", depth=1)
        self.assertEqual(len(set(orders)), 6)
        self.assertTrue(all(len(set(zip(it[::4], it[2::4]))) for it in orders))
        # A fall is one pre-emption at most.
        for depth in (2, 3):
            orders = self.orders_of(straight(2, 2), 400, how="pct", depth=depth)
            self.assertEqual(len(set(orders)), sum(with_pre_emptions(2, 2, it) for it in range(depth)))

    def test_limits(self):
        example = straight(6, 6)
        for how in ("every", "rising", "random", "pct"):
            result = example.explore(how=how, runs=50)
            self.assertEqual((result.runs, result.whole), (50, False))
        result = example.explore(runs=50)
        self.assertEqual((result.runs, result.whole), (50, False))
        # 2 orders have no pre-emption, 10 have one, and 50 have two.
        self.assertEqual([with_pre_emptions(6, 6, it) for it in range(3)], [2, 10, 50])
        self.assertEqual(result.bound, 1)
        self.assertTrue(str(result).startswith(
            "every order of at most 1 pre-emption: 25 orders, then the limit of 25 orders; "
            "by chance, seed 0: 25 orders, then the limit of 50 orders; not every order was tried; 0 failures; 600 t"
        ), result)
        self.assertFalse(example.explore(how="every", seconds=1e-9).whole)
        self.assertTrue(straight(2, 1).explore(how="every", runs=4).whole)
        self.assertFalse(straight(2, 2).explore(how="every", runs=5).whole)

    def test_what_was_covered(self):
        result = straight(2, 2).explore()
        self.assertTrue(str(result).startswith("every order was tried: 6 orders; 0 failures; 24 turns, "), result)
        result = straight(2, 2).explore(bound=0)
        self.assertTrue(str(result).startswith("every order of at most 0 pre-emptions: 2 orders; not every order was"))
        self.assertEqual(result.bound, 0)
        result = straight(2, 2).explore(how="random", runs=7, seed=None)
        self.assertIn(f"by chance, seed {result.seed}: 7 orders, then the limit of 7 orders;", str(result))

    def test_more_than_255_tasks(self):
        result = straight(*[1] * 300).explore(bound=0, runs=3)
        self.assertEqual((result.runs, result.turns), (3, 900))


@unittest.skipUnless(LIBRARY, "there is no library")
class Clock(unittest.TestCase):
    def setup(self, kernel):
        e = Env(timer=kernel.timerfd(), instance=kernel.epoll(), at=[])
        kernel.add(e.instance, e.timer, IN)
        return e

    def test_it_goes_to_the_next_moment(self):
        def sleeper(t, e):
            t.settime(e.timer, 3_600)
            assert t.wait(e.instance, timeout=10) == []
            e.at.append(t.now())
            assert t.wait(e.instance, timeout=None) == [(IN, 0)]
            e.at.append(t.now())

        def check(e):
            assert e.at == [10, 3_600], e.at

        result = explore(self.setup, {"sleeper": sleeper}, check=check)
        # settime, wait, tick, resume, wait, tick, resume
        self.assertEqual((result.runs, result.turns), (1, 7))

    def test_it_stands_while_somebody_can_go_on(self):
        def sleeper(t, e):
            yield t.wait(e.instance, timeout=0.001)

        def other(t, e):
            yield t.dup(0)
            assert t.now() == 0

        tasks = {"sleeper": sleeper, "other": other}
        self.assertEqual(explore(self.setup, tasks).runs, 2)
        with self.assertRaises(Failed) as caught:
            explore(self.setup, tasks, clock="any")
        self.assertEqual(caught.exception.order, "sleeper + other")

    def test_a_clock_that_never_ends(self):
        """A timer that is read each time it expires. With clock "any" that isn't held against the task that waits."""

        def reader(t, e):
            yield t.settime(e.timer, 1, interval=1)
            while True:
                yield t.wait(e.instance, timeout=None)
                yield t.read(e.timer, 8)

        with self.assertRaises(Failed) as caught:
            explore(self.setup, {"reader": reader}, daemons=["reader"], most=100)
        self.assertEqual(caught.exception.kind, "endless")


def random_call(t, e, kind, place, number):
    """A call on what `random_example` makes."""
    instance = e.instances[place]
    return {
        "wait": lambda: t.wait(instance, 1 + number, [0, None, 0.002][number]),
        "write": lambda: t.write(e.writer, b"a" * (number + 1)),
        "read": lambda: t.read(e.reader, 2),
        "add": lambda: t.write(e.counter, ONE),
        "take": lambda: t.read(e.counter, 8),
        "arm": lambda: t.mod(instance, e.reader, IN | ONESHOT, 2),
        "close": lambda: t.close([e.writer, e.reader, e.counter][number]),
        "set": lambda: t.settime(e.timer, 0.001 * number),
    }[kind]()


def random_task(chance, length):
    kinds = ["wait"] * 4 + ["write", "read", "add", "take", "arm", "close", "set"]
    calls = [(chance.choice(kinds), chance.randrange(2), chance.randrange(3)) for _ in range(length)]

    def task(t, e):
        for words in calls:
            try:
                yield random_call(t, e, *words)
            except OSError:
                pass

    return task


def random_example(seed):
    """Two or three tasks of a few calls each, on a pipe, a counter and two instances that watch them."""
    chance = random.Random(f"example {seed}")
    masks = [IN, IN | ET, IN | ONESHOT, IN | OUT | ET, IN | EXCLUSIVE]
    is_semaphore, chosen = bool(chance.randrange(2)), [chance.choice(masks) for _ in range(2)]

    def setup(kernel):
        e = Env(counter=kernel.eventfd(0, is_semaphore), timer=kernel.timerfd())
        e.reader, e.writer = kernel.pipe()
        e.instances = [kernel.epoll(), kernel.epoll()]
        for mask, instance in zip(chosen, e.instances):
            kernel.add(instance, e.counter, mask, 1)
            kernel.add(instance, e.reader, mask, 2)
        return e

    tasks = {}
    for name in ("a", "b", "c")[:chance.choice((2, 2, 2, 2, 3))]:
        tasks[name] = random_task(chance, chance.choice((2, 2, 3)) if len(tasks) < 2 else 1)
    return Example(setup, tasks, daemons=tuple(tasks))


def workers_example():
    def setup(kernel):
        e = Env(counter=kernel.eventfd(), instance=kernel.epoll())
        kernel.add(e.instance, e.counter, IN | ET, data=3)
        return e

    def worker(t, e):
        yield t.wait(e.instance, max=1, timeout=None)
        try:
            yield t.read(e.counter, 8)
        except BlockingIOError:
            pass

    def boss(t, e):
        for _ in range(2):
            yield t.write(e.counter, ONE)

    return Example(setup, {"w1": worker, "w2": worker, "boss": boss}, daemons=["w1", "w2"])


def reads_example(length):
    """Two tasks write so many bytes, of which the last is their own, and a third one reads them."""

    def setup(kernel):
        e = Env()
        e.reader, e.writer = kernel.pipe()
        return e

    def writes(last):
        def task(t, e):
            yield t.write(e.writer, b"x" * (length - 1) + last)

        return task

    def reads(t, e):
        try:
            yield t.read(e.reader, length)
        except BlockingIOError:
            pass

    return Example(setup, {"a": writes(b"a"), "b": writes(b"b"), "c": reads})


def fills_example():
    """Two writes that fill the pipe."""

    def fills(t, e):
        try:
            yield t.write(e.writer, bytes(4_096))
        except BlockingIOError:
            pass

    return Example(lambda kernel: Env(writer=kernel.pipe()[1]), {"a": fills, "b": fills})


def looks_example():
    """A worker that sleeps for good if it looks at a flag before that is set. It may."""

    def setup(kernel):
        return Env(stops=False, instance=kernel.epoll())

    def worker(t, e):
        yield t.shared("stops")
        if not e.stops:
            yield t.wait(e.instance, timeout=None)

    def boss(t, e):
        yield t.shared("stops")
        e.stops = True

    return Example(setup, {"worker": worker, "boss": boss}, daemons=["worker"])


def signs_example(check):
    def signs(name):
        def task(t, e):
            yield t.shared("taken")
            e.taken = name

        return task

    return Example(lambda kernel: Env(taken=""), {name: signs(name) for name in "ab"}, check)


def dups_example():
    """A dup answers the lowest free number, which tells its place. So each order comes to something else."""

    def twice(t, e):
        for _ in range(2):
            yield t.dup(0)

    return Example(lambda kernel: Env(), {name: twice for name in "abc"})


@unittest.skipUnless(LIBRARY, "there is no library")
class Outcomes(unittest.TestCase):
    """Every order, and rising bounds up to all, come to the same, also in threads."""

    #: Examples, and how many of their orders come to each outcome. The tests in C, library/test/orders.c, and in Rust,
    #: library/rust/tests/orders.rs, count the same of the same examples.
    #:
    #: The loop that gives up is in 6 orders, of which 2 have the read between the two writes. If time may pass at any
    #: point, there are 3 orders more that read, one of them between the writes; and it closes its end before both,
    #: between them or behind both. A reader of what two write reads nothing in 2 of 6 orders, and in 2 each the bytes
    #: of either writer: if only the 25th differs, these are one. Of two writes that fill a pipe the second is refused.
    #: The worker that looks at the flag first has two places for its wait. Its answers are the same in the third order,
    #: but there it ends. Of two that sign each may be the last, which only a check tells.
    COUNTED = (
        (workers_example(), {"beside": False}, [20, 14, 14, 14, 14]),
        (pipe_example(IN | ET, reads_once, 3), {}, [18, 14, 2]),
        (pipe_example(IN | ET, reads_once, 6), {}, [1_026, 828, 486, 310, 50, 2]),
        (gives_up_example(False), {}, [4, 2]),
        (gives_up_example(False), {"clock": "any"}, [6, 3, 1, 1, 1]),
        (reads_example(24), {}, [2, 2, 2]),
        (reads_example(25), {}, [4, 2]),
        (fills_example(), {"limits": Limits(pipe_bytes=4_096)}, [1, 1]),
        (looks_example(), {}, [2, 1]),
        (signs_example(None), {}, [2]),
        (signs_example(lambda e: e.taken == "b"), {}, [1, 1]),
        (dups_example(), {}, [1] * interleavings(2, 2, 2)),
    )

    def test_counts(self):
        workers = workers_by_answers(("wait", "wait"), None, (), False, 0, 2)
        self.assertEqual(sorted(workers.values(), reverse=True), self.COUNTED[0][2])
        for place, writes in ((1, 3), (2, 6)):
            loops = loops_by_reports("wait", 0, False, writes)
            self.assertEqual(sum(loops.values()), orders_of_loop("wait", 0, False, writes, True))
            self.assertEqual(sorted(loops.values(), reverse=True), self.COUNTED[place][2])
        for example, how, expected in self.COUNTED:
            ways = [(example, "every"), (example, "rising"), (example.in_threads(), "every")]
            for it, way in ways if sum(expected) < 1_000 else ways[:1]:
                found = self.outcomes(it, how=way, **how)
                self.assertEqual(sorted(found.values(), reverse=True), expected)

    def outcomes(self, example, **how):
        result = example.explore(raises=False, stop=False, outcomes=True, **how)
        self.assertTrue(result.whole)
        self.assertEqual(sum(result.outcomes.values()), result.runs)
        return result.outcomes

    def test_random_programs(self):
        for seed in range(200):
            example, clock = random_example(seed), ("idle", "any")[seed % 2]
            every = self.outcomes(example, how="every", clock=clock)
            self.assertEqual(self.outcomes(example, how="rising", clock=clock), every, seed)

    def test_threads(self):
        for seed in range(20):
            example = random_example(seed)
            every = self.outcomes(example, how="every")
            self.assertEqual(self.outcomes(example.in_threads(), how="every"), every, seed)

    def test_the_faults(self):
        for name, pair in FAULTS.items():
            for example in pair:
                if name != "an end that is told for ever":
                    self.assertEqual(self.outcomes(example, how="every"), self.outcomes(example, how="rising"), name)

    def test_limits_of_the_kernel(self):
        """The pipe holds 4,096 bytes, so one of two writes of as many finds no room."""

        def setup(kernel):
            return Env(writer=kernel.pipe()[1])

        def fills(t, e):
            try:
                yield t.fill(e.writer, 0, 4_096)
            except BlockingIOError:
                pass

        result = explore(
            setup, {"a": fills, "b": fills}, limits=Limits(pipe_bytes=4_096), outcomes=True, how="every"
        )
        self.assertEqual((result.runs, len(result.outcomes)), (2, 2))


if __name__ == "__main__":
    unittest.main()
