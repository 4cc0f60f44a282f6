"""What nippersage.orders refuses, tasks that don't do the same again, and threads.

    python3 library/python/tests/test_orders_refused.py
"""

import gc
import os
import random
import subprocess
import sys
import threading
import unittest
import weakref

from faults import FAULTS, Example
from nippersage import LIBRARY
from nippersage.orders import BadTask, Env, NotATask, NotTheSame, Stuck, explore

HERE = os.path.dirname(os.path.abspath(__file__))


@unittest.skipUnless(LIBRARY, "there is no library")
class NotAgain(unittest.TestCase):
    """Tasks that do something else when they are run again."""

    def expect(self, pattern, setup, **tasks):
        for wrap in (lambda task: task, self.in_thread):
            with self.assertRaisesRegex(NotTheSame, pattern):
                explore(setup, {name: wrap(task) for name, task in tasks.items()}, how="every")

    def in_thread(self, task):
        return Example(None, {"it": task}).in_threads().tasks["it"]

    def setup(self, kernel):
        return Env(ends=kernel.pipe())

    def test_another_call(self):
        runs = []

        def counts(t, e):
            runs.append(0)
            yield t.dup(0)
            yield t.write(e.ends[1], b"%d" % len(runs))

        def other(t, e):
            for _ in range(3):
                yield t.dup(0)

        with self.assertRaises(NotTheSame) as caught:
            explore(self.setup, {"counts": counts, "other": other}, how="every")
        self.assertTrue(str(caught.exception).startswith(
            "not the same again: in turn 2 write(4, b'2') of counts, where it was write(4, b'1') of counts, after the"
        ), caught.exception)
        pattern = "in turn 2 write.* of counts, where it was write.* of counts"
        self.expect(pattern, self.setup, counts=counts, other=other)

    def test_an_earlier_end(self):
        runs = []

        def ends(t, e):
            runs.append(0)
            yield t.dup(0)
            for _ in range(3 // len(runs)):
                yield t.dup(0)

        def other(t, e):
            yield t.dup(0)

        # Three calls more in the first run, one in the second.
        self.expect("", self.setup, ends=ends, other=other)
        with self.assertRaises(NotTheSame) as caught:
            runs.clear()
            explore(self.setup, {"ends": ends}, how="every")
        self.assertTrue(str(caught.exception).startswith(
            "not the same again: in turn 3 the end of the order, where it was dup(0) of ends, after the same turns."
        ), caught.exception)

    def test_a_later_end(self):
        runs = []

        def goes_on(t, e):
            runs.append(0)
            for _ in range(len(runs)):
                yield t.dup(0)

        self.expect("in turn [0-9]+ dup.0. of goes_on, where it was the end of the order", self.setup, goes_on=goes_on)

    def test_a_failure_that_comes_once(self):
        """The first order is run twice, so the second run is of the first order, and the third is not."""
        for place in (1, 2, 3):
            runs = []

            def check(e):
                runs.append(0)
                assert len(runs) != place, "this time"

            pattern = "failed once, and once it did not, by the same calls: check: this time"
            with self.assertRaisesRegex(NotTheSame, pattern):
                explore(self.setup, {"a": lambda t, e: t.dup(0), "b": lambda t, e: t.dup(0)}, check=check)

    def test_setup(self):
        chance = random.Random(1)

        def setup(kernel):
            kernel.write(kernel.pipe()[1], b"%d" % chance.randrange(10**9))

        self.expect("in turn 1 write.* of setup, where it was write.* of setup", setup, a=lambda t, e: iter(()),
                    b=FAULTS["a flag that wakes nobody"][0].tasks["boss"])


@unittest.skipUnless(LIBRARY, "there is no library")
class BadInput(unittest.TestCase):
    def expect(self, kind, pattern, setup=lambda kernel: None, tasks=None, **how):
        tasks = {"a": lambda t, e: t.dup(0)} if tasks is None else tasks
        with self.assertRaisesRegex(kind, pattern):
            explore(setup, tasks, **how)

    def test_what_is_no_task(self):
        self.expect(BadTask, "the task 'a' is no function, but 7", tasks={"a": 7})
        self.expect(BadTask, "tasks are a dict", tasks=[lambda t, e: None])
        self.expect(BadTask, "tasks are a dict", tasks={})
        for name in ("", "a b", "a*2", "+", "w0[1]", "1", 7, "a:b", ".."):
            self.expect(BadTask, "names no task", tasks={name: lambda t, e: None})
        self.expect(TypeError, "setup is a function of a kernel, and not None", setup=None)
        self.expect(TypeError, "check is a function, and not 1", check=1)

    def test_numbers_and_words(self):
        for how, fault in (
            ({"bound": -1}, "bound is 0 at least, and not -1"), ({"runs": 0}, "runs is 1 at least"),
            ({"depth": 0, "how": "pct"}, "depth is 1 at least"), ({"most": 0}, "most is 1 at least"),
            ({"seconds": 0}, "seconds are more than 0, and not 0"), ({"seconds": float("nan")}, "seconds are more"),
            ({"how": "all"}, "how is one of rising, every, random, pct, and not 'all'"),
            ({"clock": "never"}, "clock is one of idle, any, and not 'never'"),
            ({"how": "every", "bound": 1}, "a bound of pre-emptions is for rising bounds, and not for 'every'"),
            ({"daemons": ["b"]}, "the daemon 'b' is no task; the tasks are a"),
            ({"daemons": "a"}, "daemons are a list of names, and not the text 'a'"),
            ({"name": "a b"}, "the name of an exploration is 'a b'"),
        ):
            self.expect(ValueError, fault, **how)
        for how in ({"bound": 1.5}, {"runs": "7"}, {"seed": 0.5}):
            self.expect(TypeError, "", **how)

    def test_calls_that_are_not_yielded(self):
        def forgets(t, e):
            t.dup(0)
            yield t.dup(0)

        def forgets_last(t, e):
            yield t.dup(0)
            t.close(0)

        def yields_more(t, e):
            yield 7

        def yields_nothing(t, e):
            yield

        self.expect(BadTask, r"'a' made dup\(0\) and did not yield it; then it made dup", tasks={"a": forgets})
        self.expect(BadTask, r"'a' made close\(0\) and did not yield it; then it ended", tasks={"a": forgets_last})
        self.expect(BadTask, "'a' yielded 7; it yields its calls", tasks={"a": yields_more})
        self.expect(BadTask, "'a' yielded None", tasks={"a": yields_nothing})

    def test_tasks_of_another_kind(self):
        def generator(t, e):
            yield t.dup(0)

        async def coroutine(t, e):
            t.dup(0)

        self.expect(BadTask, "'a' gave a generator; give the generator function itself",
                    tasks={"a": lambda t, e: generator(t, e)})
        self.expect(BadTask, "'a' is a coroutine", tasks={"a": coroutine})

    def test_calls_of_somebody_else(self):
        def as_another(t, e):
            t.dup(0, by=9)

        def as_another_yielded(t, e):
            yield t.dup(0, by=9)

        for task in (as_another, as_another_yielded):
            self.expect(BadTask, "the task 'a' is caller 1, and called dup as caller 9", tasks={"a": task})
        self.expect(BadTask, r"'a' called resume\(\); a wait of a task sleeps", tasks={"a": lambda t, e: t.resume()})

    def test_a_wait_of_setup(self):
        def setup(kernel):
            kernel.wait(kernel.epoll(), timeout=None)

        self.expect(BadTask, r"wait\(3, 8, -1\) of the setup sleeps, and nobody is there to wake it", setup=setup)

    def test_words_of_a_call(self):
        """What the package refuses comes to the task, as it would without an explorer."""

        def task(t, e):
            for call in (lambda: t.dup(1 << 40), lambda: t.add(3, 4, -1)):
                try:
                    yield call()
                except ValueError:
                    e.append(0)
            try:
                yield t.dup("0")
            except TypeError:
                e.append(0)
            yield t.shared("end")

        result = explore(lambda kernel: [], {"a": task}, check=lambda e: len(e) == 3)
        self.assertEqual(result.failures, 0)

    def test_without_a_library(self):
        words = (
            "from nippersage.orders import explore\n"
            "try: explore(lambda k: None, {'a': lambda t, e: None})\n"
            "except NotImplementedError as error: print(error)\n"
        )
        told = subprocess.run(
            [sys.executable, "-B", "-c", words], stdout=subprocess.PIPE, cwd=os.path.dirname(HERE),
            env={**os.environ, "NIPPERSAGE_LIB": ""},
        )
        self.assertEqual(told.stdout, b"orders need the library libnippersage, and there is none\n")

    def test_what_setup_raises(self):
        self.expect(ZeroDivisionError, "", setup=lambda kernel: 1 // 0)


@unittest.skipUnless(LIBRARY, "there is no library")
class Threads(unittest.TestCase):
    def setup(self, kernel):
        return Env(kernel=kernel, ends=kernel.pipe(), instance=kernel.epoll())

    def tearDown(self):
        self.assertEqual([it for it in threading.enumerate() if it.name in ("task", "a", "b")], [])

    def test_none_is_left(self):
        """Neither behind a failure nor behind tasks that sleep."""
        def sleeps(t, e):
            t.wait(e.instance, timeout=None)

        def ends(t, e):
            t.dup(0)

        result = explore(self.setup, {"a": sleeps, "b": ends}, raises=False)
        self.assertEqual(result.failure.kind, "asleep for good")
        explore(self.setup, {"a": sleeps, "b": ends}, daemons=["a"])

    def test_what_cleans_up(self):
        """A task that sleeps for ever is ended, and may clean up, but calls no more."""
        seen = []

        def cleans(t, e):
            try:
                t.wait(e.instance, timeout=None)
            finally:
                try:
                    t.close(e.instance)
                except BaseException as gone:
                    seen.append(isinstance(gone, Exception))
                    raise

        explore(self.setup, {"a": cleans}, daemons=["a"])
        self.assertEqual(set(seen), {False})

    def test_what_does_not_end(self):
        """A task that goes on to call though its order is over. Its thread is left alone."""
        def goes_on(t, e):
            while True:
                try:
                    t.wait(e.instance, timeout=None)
                except BaseException:
                    pass

        def goes_on_yielding(t, e):
            while True:
                try:
                    yield t.wait(e.instance, timeout=None)
                except BaseException:
                    pass

        # Python tells of such a generator when it lets go of it.
        self.addCleanup(setattr, sys, "unraisablehook", sys.unraisablehook)
        sys.unraisablehook = lambda told: None
        for task in (goes_on, goes_on_yielding):
            with self.assertRaisesRegex(BadTask, "the task 'lasting' goes on though its order is over"):
                explore(self.setup, {"lasting": task}, daemons=["lasting"])

    def test_an_exception_of_a_cleaning(self):
        """It comes behind the end of the order, of which it is no part."""
        def cleans(t, e):
            try:
                t.wait(e.instance, timeout=None)
            finally:
                raise ValueError

        def cleans_yielding(t, e):
            try:
                yield t.wait(e.instance, timeout=None)
            finally:
                raise ValueError

        for task in (cleans, cleans_yielding):
            self.assertEqual(explore(self.setup, {"a": task}, daemons=["a"]).failures, 0)

    def test_the_kernel_of_setup_in_a_task(self):
        """A call by it is a turn of the task whose thread calls."""
        def writes(t, e):
            e.kernel.write(e.ends[1], b"a")
            e.kernel.task(0).write(e.ends[1], b"b")

        result = explore(self.setup, {"a": writes, "b": writes}, how="every")
        self.assertEqual((result.runs, result.turns), (6, 24))

    def test_a_thread_that_is_no_task(self):
        def starts(t, e):
            other = threading.Thread(target=lambda: self.ignore(e.kernel.write, e.ends[1], b"a"), name="other")
            other.start()
            other.join()
            t.dup(0)

        with self.assertRaisesRegex(NotATask, r"the thread 'other' is no task, and called write\(4, b'a'\) while"):
            explore(self.setup, {"a": starts})

    def ignore(self, call, *words):
        with self.assertRaises(NotATask):
            call(*words)

    def test_the_t_of_another_task(self):
        def lends(t, e):
            e.t = t
            t.dup(0)

        def borrows(t, e):
            t.dup(0)
            e.t.dup(0)

        with self.assertRaisesRegex(NotATask, r"the thread 'b' isn't the task 'a', and called dup\(0\) of its t"):
            explore(self.setup, {"a": lends, "b": borrows})

    def test_the_kernel_of_setup_in_a_generator(self):
        def calls(t, e):
            yield t.dup(0)
            e.kernel.dup(0)

        with self.assertRaisesRegex(NotATask, "a task that is a generator yields the calls of its t"):
            explore(self.setup, {"a": calls})

    def test_a_lock_of_their_own(self):
        lock = threading.Lock()

        def holds(t, e):
            with lock:
                t.dup(0)

        with self.assertRaisesRegex(Stuck, "made no call for 0.5 seconds, at .*: it waits for something that is not"):
            explore(self.setup, {"lasting": holds, "lasting2": holds}, patience=0.5)

    def test_both_kinds_together(self):
        def in_thread(t, e):
            t.write(e.ends[1], b"a")
            t.write(e.ends[1], b"b")

        def generator(t, e):
            yield t.write(e.ends[1], b"c")
            yield t.write(e.ends[1], b"d")

        for tasks in ({"a": in_thread, "b": generator}, {"a": generator, "b": in_thread}):
            self.assertEqual(explore(self.setup, tasks, how="every").runs, 6)

    def test_exceptions_that_are_no_failures(self):
        class Stop(BaseException):
            pass

        def stops(t, e):
            t.dup(0)
            raise Stop

        with self.assertRaises(Stop):
            explore(self.setup, {"a": stops})

    def test_kernels_are_freed(self):
        """Without the collector's help: the explorer leaves no circles behind."""
        kernels = []

        def setup(kernel):
            kernels.append(weakref.ref(kernel))
            return Env(kernel=kernel, ends=kernel.pipe())

        def task(t, e):
            yield t.dup(0)

        def function(t, e):
            t.dup(0)

        gc.disable()
        self.addCleanup(gc.enable)
        for tasks in ({"a": task, "b": task}, {"a": function, "b": function}):
            explore(setup, tasks)
        self.assertEqual([it for it in kernels if it() is not None], [])


if __name__ == "__main__":
    unittest.main()
