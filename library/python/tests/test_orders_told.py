"""What nippersage.orders tells: who waits for what, the line that replays an order, schedules, the page.

Whose registration shows what is expected by docs/calls.md, under dup, fork and numbers that are given out again.

    python3 library/python/tests/test_orders_told.py
"""

import importlib.util
import os
import pickle
import re
import subprocess
import sys
import tempfile
import unittest

from faults import FAULTS, ONE, pipe_example, pool_example, reads_once
from nippersage import ET, EXCLUSIVE, IN, LIBRARY, ONESHOT, OUT, RDHUP, Limits, Name
from nippersage.orders import VARIABLE, BadSchedule, BadTask, Env, Failed, explore

HERE = os.path.dirname(os.path.abspath(__file__))


def failure_of(setup, tasks, **how):
    found = explore(setup, tasks, raises=False, **how).failure
    assert found is not None, "no order failed"
    return found


def lines_of(failure):
    return str(failure).split("\n")


@unittest.skipUnless(LIBRARY, "there is no library")
class Messages(unittest.TestCase):
    def test_a_whole_message(self):
        failure = pool_example(False, 0).explore(raises=False).failure
        lines = lines_of(failure)
        shown = "fd 4 shows IN|OUT, registered IN|ET, reported to w0 in turn 3"
        self.assertEqual(lines[:2], [f"asleep beside data: w1 at 5: {shown}", "  order     boss w0*3 w1*2"])
        self.assertRegex(lines[2], "^            6 turns, 2 switches; order 1, of 0 pre-emptions; [0-9]+ orders tried")
        table = [re.split("  +", line.strip()) for line in lines[3:-3]]
        self.assertEqual(table[:5], [
            ["setup", "eventfd(0, semaphore=True)", "3"], ["setup", "eventfd(0)", "4"], ["setup", "epoll()", "5"],
            ["setup", "add(5, 3, IN, 1)"], ["setup", "add(5, 4, IN|ET, 2)"],
        ])
        self.assertEqual(table[5:], [
            ["1", "boss", f"write(4, {ONE!r})", "8"], ["2", "w0", "shared('idle')"],
            ["3", "w0", "wait(5, 1, -1)", "[(IN, 2)]"], ["4", "w0", "shared('idle')"], ["5", "w1", "shared('idle')"],
            ["6", "w1", "wait(5, 1, -1)", "sleeps"],
        ])
        self.assertEqual(lines[-3], f"  asleep    w1 at 5: fd 3 shows OUT, registered IN, and {shown}")
        self.assertTrue(lines[-2].startswith(f"  replay    {VARIABLE}='boss w0*3 w1*2' "), lines[-2])
        self.assertTrue(lines[-1].startswith("  tried     rising bounds: 1 order, then the first failure"))

    def test_it_can_be_pickled(self):
        failure = pool_example(False, 0).explore(raises=False).failure
        again = pickle.loads(pickle.dumps(failure))
        self.assertEqual((str(again), again.kind, again.order), (str(failure), failure.kind, failure.order))

    def test_calls_and_answers(self):
        """A line for each kind of call."""

        def setup(kernel):
            return Env(ends=kernel.socketpair(), counter=kernel.eventfd(7), timer=kernel.timerfd(cloexec=True))

        def task(t, e):
            t.settime(e.timer, 0.0015, interval=2)
            t.gettime(e.timer)
            t.write(e.ends[0], bytes(30))
            t.peek(e.ends[1], 3)
            t.read(e.ends[1], 2)
            t.shutdown(e.ends[0])
            t.shutdown(e.ends[0], "rd")
            t.take_error(e.ends[0])
            t.sockname(e.ends[0])
            t.peername(e.ends[0])
            t.dup2(e.counter, 9)
            try:
                t.close(77)
            except OSError:
                pass
            t.mod(t.epoll(), 3, 0)

        failure = failure_of(setup, {"task": task})
        table = [re.split("  +", line.strip())[-2:] for line in lines_of(failure)[3:-2]]
        self.assertEqual(table, [
            ["socketpair()", "(3, 4)"], ["eventfd(7)", "5"], ["timerfd(cloexec=True)", "6"],
            ["settime(6, 0.0015, 2)", "(0, 0)"], ["gettime(6)", "(0.0015, 2)"],
            ["write(3, " + repr(bytes(24)) + ".. (30 bytes))", "30"], ["peek(4, 3)", repr(bytes(3))],
            ["read(4, 2)", repr(bytes(2))], ["task", "shutdown(3)"], ["task", "shutdown(3, 'rd')"],
            ["take_error(3)", "0"], ["sockname(3)", "no name"], ["peername(3)", "no name"],
            ["dup2(5, 9)", "9"], ["close(77)", "EBADF"], ["epoll()", "7"],
            ["mod(7, 3, 0, 0)", "ENOENT"],
        ])
        self.assertEqual(failure.why, "task raised FileNotFoundError: [Errno 2] ENOENT")

    def test_calls_of_sockets_without_a_connection(self):
        def task(t, e):
            tcp, unix = t.socket("tcp", cloexec=True), t.socket("unix")
            t.bind(tcp, ("v6", 80))
            t.bind(unix, Name("local", 0))
            t.sockname(unix)
            for fd, name in ((unix, ("local", 32_768)), (tcp, ("v6", 80))):
                try:
                    t.connect(fd, name)
                except OSError:
                    pass
            t.take_error(tcp)
            t.add(t.epoll(), tcp, IN)
            t.connect(tcp, ("v6", 80))

        failure = failure_of(lambda kernel: None, {"task": task})
        table = [re.split("  +", line.strip())[-2:] for line in lines_of(failure)[3:-2]]
        self.assertEqual(table, [
            ["socket('tcp', cloexec=True)", "3"], ["socket('unix')", "4"], ["task", "bind(3, ('v6', 80))"],
            ["task", "bind(4, ('local', 0))"], ["sockname(4)", "(local, 32768)"],
            ["connect(4, ('local', 32768))", "ECONNREFUSED"], ["connect(3, ('v6', 80))", "EINPROGRESS"],
            ["take_error(3)", "111"], ["epoll()", "5"], ["task", "add(5, 3, IN, 0)"],
            ["connect(3, ('v6', 80))", "ECONNABORTED"],
        ])
        self.assertEqual(failure.why, "task raised ConnectionAbortedError: [Errno 103] ECONNABORTED")

    def test_calls_of_listeners(self):
        def task(t, e):
            listener = t.socket("tcp")
            t.listen(listener, 5)
            for fd, cloexec in ((listener, True), (listener, False), (0, False)):
                try:
                    t.accept(fd, cloexec)
                except OSError:
                    pass
            t.listen(t.socket("unix"), -1)

        failure = failure_of(lambda kernel: None, {"task": task})
        table = [re.split("  +", line.strip())[-2:] for line in lines_of(failure)[3:-2]]
        self.assertEqual(table, [
            ["socket('tcp')", "3"], ["task", "listen(3, 5)"], ["accept(3, cloexec=True)", "EAGAIN"],
            ["accept(3)", "EAGAIN"], ["accept(0)", "ENOTSOCK"], ["socket('unix')", "4"], ["listen(4, -1)", "EINVAL"],
        ])
        self.assertEqual(failure.why, "task raised OSError: [Errno 22] EINVAL")

    def test_a_loop_asleep_beside_a_socket(self):
        """A connect that finds nobody leaves all five bits, and the loop reads nothing."""

        def setup(kernel):
            fd, instance = kernel.socket("tcp"), kernel.epoll()
            kernel.add(instance, fd, IN | ET)
            return Env(fd=fd, instance=instance)

        def loop(t, e):
            while True:
                t.wait(e.instance, timeout=None)

        def peer(t, e):
            with self.assertRaises(BlockingIOError):
                t.connect(e.fd, ("v4", 80))

        failure = failure_of(setup, {"loop": loop, "peer": peer}, daemons=["loop"])
        self.assertEqual(failure.kind, "asleep beside data")
        self.assertIn("loop at 4: fd 3 shows IN|OUT|ERR|HUP|RDHUP, registered IN|ET, reported", lines_of(failure)[0])

    def test_a_long_order(self):
        def task(t, e):
            for _ in range(100):
                yield t.shared("counter")
            assert t.name == "a", "the end of b"

        failure = failure_of(lambda kernel: None, {"a": task, "b": task})
        self.assertEqual((failure.order, failure.why), ("b*100", "b raised AssertionError: the end of b"))
        self.assertIn("        .. 50 calls more", lines_of(failure))

    def test_checks(self):
        tasks = {"a": lambda t, e: t.dup(0)}
        for check, kind, why in (
            (lambda e: False, "check", "check: it gave False"),
            (lambda e: {}[1], "check", "check: KeyError: 1"),
            (lambda e: self.fail("no"), "check", "check: no"),
        ):
            failure = failure_of(lambda kernel: None, tasks, check=check)
            self.assertEqual((failure.kind, failure.why), (kind, why))
        for check in (lambda e: None, lambda e: True, lambda e: 0, None):
            self.assertEqual(explore(lambda kernel: None, tasks, check=check).failures, 0)

    def test_what_a_check_may_call(self):
        def check(e):
            self.assertEqual(e.kernel.read(e.ends[0], 9), b"ab")
            self.assertEqual(e.kernel.now(), 0)
            e.kernel.check()
            with self.assertRaisesRegex(BadTask, "of the check sleeps"):
                e.kernel.wait(e.kernel.epoll(), timeout=None)

        def setup(kernel):
            return Env(kernel=kernel, ends=kernel.pipe())

        explore(setup, {"a": lambda t, e: t.write(e.ends[1], b"ab")}, check=check)

    def test_an_order_that_is_cut(self):
        """A task that asks again and again, while the other one that would end it waits for its turn."""

        def setup(kernel):
            return Env(ends=kernel.pipe())

        def asks(t, e):
            while True:
                try:
                    return (yield t.read(e.ends[0], 1))
                except BlockingIOError:
                    pass

        def peer(t, e):
            yield t.write(e.ends[1], b"a")

        result = explore(setup, {"asks": asks, "peer": peer}, most=50, bound=1)
        # asks*50, which is cut, and peer asks; peer between two of the 50, of which asks*49 peer is cut.
        self.assertEqual((result.runs, result.failures, result.cut, result.whole), (2 + 49, 0, 2, False))
        self.assertIn("2 orders cut, as a task could go on for ever while another one waited to go", str(result))


def watching(mask, data=7, kind="pipe"):
    """A setup: a pipe whose read end an instance watches."""

    def setup(kernel):
        e = Env(kernel=kernel)
        e.reader, e.writer = kernel.pipe()
        e.instance = kernel.epoll()
        kernel.add(e.instance, e.reader, mask, data=data)
        return e

    return setup


def sleeper(t, e):
    while True:
        yield t.wait(e.instance, timeout=None)


def quiet(t, e):
    """Waits, and takes the one report."""
    yield t.wait(e.instance, timeout=None)
    yield t.wait(e.instance, timeout=None)


@unittest.skipUnless(LIBRARY, "there is no library")
class Reasons(unittest.TestCase):
    """What is told of registrations whose numbers have changed since."""

    def expect(self, expected, setup, kind="asleep beside data", **tasks):
        failure = failure_of(setup, tasks, how="rising", daemons=[name for name in tasks if name == "daemon"])
        self.assertEqual(failure.why, f"{kind}: {expected}")
        return failure

    def test_a_copy_of_the_number(self):
        """The number was closed, and its file lives on by a copy."""

        def writer(t, e):
            e.copy = yield t.dup(e.reader)
            yield t.close(e.reader)
            yield t.write(e.writer, b"a")

        self.expect(
            "daemon at 5: fd 3, now fd 6, shows IN, registered IN|ET, reported to daemon in turn 4",
            watching(IN | ET), writer=writer, daemon=sleeper,
        )

    def test_a_number_that_is_given_out_again(self):
        """fd 3 is a counter now that shows IN, and the registration is of a pipe that shows nothing."""

        def swaps(t, e):
            yield t.dup2(e.reader, 10)
            yield t.close(e.reader)
            assert (yield t.eventfd(1)) == e.reader

        self.expect(
            "quiet at 5: fd 3, now fd 10, shows nothing, registered IN", watching(IN), "asleep for good",
            swaps=swaps, quiet=quiet,
        )

    def test_both_under_one_number(self):
        """The pipe by another number, and the counter that has its number now: two registrations of fd 3."""

        def swaps(t, e):
            yield t.dup2(e.reader, 10)
            yield t.close(e.reader)
            yield t.eventfd(0)
            yield t.add(e.instance, e.reader, IN | ET, data=8)
            yield t.write(e.writer, b"a")

        self.expect(
            "daemon at 5: fd 3, now fd 10, shows IN, registered IN|ET, reported to daemon in turn 6",
            watching(IN | ET), swaps=swaps, daemon=sleeper,
        )

    def test_a_file_that_is_gone(self):
        def closes(t, e):
            yield t.close(e.reader)

        self.expect("quiet at 5, which watches nothing", watching(IN), "asleep for good", closes=closes, quiet=quiet)

    def test_deleted_and_added_again(self):
        def changes(t, e):
            yield t.delete(e.instance, e.reader)
            yield t.add(e.instance, e.writer, IN, data=1)

        self.expect(
            "quiet at 5: fd 4 shows OUT, registered IN", watching(IN), "asleep for good", changes=changes, quiet=quiet,
        )

    def test_another_process(self):
        """Only the child's table still names the pipe."""

        def forks(t, e):
            child = yield t.fork()
            yield t.close(e.reader)
            yield t.write(e.writer, b"a", pid=child)

        self.expect(
            "daemon at 5: fd 3, now fd 3 of process 2, shows IN, registered IN|ET, reported to daemon in turn 4",
            watching(IN | ET), forks=forks, daemon=sleeper,
        )

    def test_exec(self):
        """exec closes the child's reader, which fork copied with its flag. No table names it any more."""

        def setup(kernel):
            e = Env()
            e.reader, e.writer = kernel.pipe(cloexec=True)
            e.instance = kernel.epoll()
            kernel.add(e.instance, e.reader, IN)
            return e

        def ends(t, e):
            child = yield t.fork()
            yield t.close(e.reader)
            yield t.exec(pid=child)

        self.expect("quiet at 5, which watches nothing", setup, "asleep for good", ends=ends, quiet=quiet)

    def test_exit(self):
        def ends(t, e):
            child = yield t.fork()
            yield t.close(e.reader)
            yield t.exec(pid=child)
            yield t.exit(pid=child)

        self.expect("quiet at 5, which watches nothing", watching(IN), "asleep for good", ends=ends, quiet=quiet)

    def test_what_exec_leaves(self):
        """The reader has no such flag in the child, since dup drops it."""

        def setup(kernel):
            e = Env()
            e.reader, e.writer = kernel.pipe(cloexec=True)
            e.instance = kernel.epoll()
            kernel.add(e.instance, e.reader, IN)
            return e

        def ends(t, e):
            yield t.dup2(e.reader, 9)
            child = yield t.fork()
            for fd in (e.reader, 9):
                yield t.close(fd)
            yield t.exec(pid=child)

        self.expect(
            "quiet at 5: fd 3, now fd 9 of process 2, shows nothing, registered IN", setup, "asleep for good",
            ends=ends, quiet=quiet,
        )

    def test_what_is_not_asked_for(self):
        """A byte is unread, but the registration asks for the end of the stream only."""

        def setup(kernel):
            e = Env(ends=kernel.socketpair(), instance=kernel.epoll())
            kernel.add(e.instance, e.ends[0], RDHUP | ET)
            return e

        def writer(t, e):
            yield t.write(e.ends[1], b"a")

        def shuts(t, e):
            yield t.shutdown(e.ends[1])

        self.assertTrue(explore(setup, {"writer": writer, "daemon": sleeper}, daemons=["daemon"]).whole)
        self.expect(
            "daemon at 5: fd 3 shows IN|OUT|RDHUP, registered RDHUP|ET, reported to daemon in turn 2", setup,
            shuts=shuts, daemon=sleeper,
        )

    def test_a_wait_in_another_process(self):
        def setup(kernel):
            e = watching(IN | ET)(kernel)
            e.child = kernel.fork()
            return e

        def waits(t, e):
            yield t.wait(e.instance, timeout=None, pid=e.child)

        self.expect(
            "waits at 5 of process 2: fd 3 shows nothing, registered IN|ET, never reported", setup, "asleep for good",
            waits=waits,
        )

    def test_equal_data(self):
        """The data of both is the same, and the kernel tells which of the two was reported."""

        def setup(kernel):
            e = watching(IN | ONESHOT)(kernel)
            kernel.add(e.instance, kernel.eventfd(), IN | ONESHOT, data=7)
            return e

        def writer(t, e):
            yield t.write(e.writer, b"a")

        self.expect(
            "daemon at 5: fd 3 shows IN, registered IN|ONESHOT, not armed, reported to daemon in turn 2",
            setup, writer=writer, daemon=sleeper,
        )

    def test_armed_again(self):
        def setup(kernel):
            e = watching(IN | ONESHOT)(kernel)
            kernel.write(e.writer, b"a")
            return e

        def arms(t, e):
            assert (yield t.wait(e.instance, timeout=None))
            yield t.read(e.reader, 1)
            yield t.mod(e.instance, e.reader, IN | ONESHOT, data=7)
            yield t.wait(e.instance, timeout=None)

        self.expect(
            "arms at 5: fd 3 shows nothing, registered IN|ONESHOT, armed, reported to arms in turn 1", setup,
            "asleep for good", arms=arms,
        )

    def test_an_instance_within(self):
        """The outer registration has the edge, and what is unread lies two instances further down."""

        def setup(kernel):
            e = watching(IN)(kernel)
            e.inner, e.instance = e.instance, kernel.epoll()
            kernel.add(e.instance, e.inner, IN | ET, data=9)
            return e

        def writer(t, e):
            yield t.write(e.writer, b"a")

        self.expect(
            "daemon at 6: fd 5 shows IN, registered IN|ET, reported to daemon in turn 2", setup,
            writer=writer, daemon=sleeper,
        )

    def test_passed_over(self):
        """The write wakes the first worker only, which leaves the byte: the second stays asleep at what would report.

        Both registrations ask for OUT too, so the counter's IN is not what is told."""

        def setup(kernel):
            e = Env(counter=kernel.eventfd(), instances=[kernel.epoll(), kernel.epoll()])
            for instance in e.instances:
                kernel.add(instance, e.counter, OUT | EXCLUSIVE)
            kernel.write(e.counter, (2**64 - 2).to_bytes(8, "little"))
            return e

        def waits(place):
            def task(t, e):
                yield t.wait(e.instances[place], timeout=None)

            return task

        def reads(t, e):
            yield t.read(e.counter, 8)

        failure = failure_of(setup, {"a": waits(0), "b": waits(1), "reads": reads})
        self.assertEqual(
            failure.why, "asleep beside data: b at 5, which would report, and no event woke b",
        )

    def test_a_full_table(self):
        """No descriptor is left. The kernel tells what shows nevertheless, as that makes none."""
        failure = failure_of(watching(IN), {"quiet": quiet}, limits=Limits(descriptors=6))
        self.assertEqual(failure.why, "asleep for good: quiet at 5: fd 3 shows nothing, registered IN")

    def test_reported_in_setup(self):
        def setup(kernel):
            e = watching(IN | ONESHOT)(kernel)
            kernel.write(e.writer, b"a")
            kernel.wait(e.instance)
            return e

        self.expect(
            "daemon at 5: fd 3 shows IN, registered IN|ONESHOT, not armed, reported in setup", setup, daemon=sleeper,
        )

    def test_what_is_let_be(self):
        faulty = pipe_example(IN | ET, reads_once, 2)
        faulty.more["check"] = None
        self.assertTrue(faulty.explore(beside=False).whole)
        self.assertTrue(faulty.explore(beside=lambda watch: watch.data != 7).whole)
        failure = faulty.explore(beside=lambda watch: watch.data == 7, raises=False).failure
        self.assertEqual(failure.kind, "asleep beside data")


SCRIPT = '''
import sys, unittest
sys.path[:0] = [{library!r}, {tests!r}]
from faults import FAULTS
from nippersage.orders import explore

class Pool(unittest.TestCase):
    def test_the_stop(self):
        FAULTS["a pool whose stop is lost"][0].explore()

    def test_the_flag(self):
        FAULTS["a flag that wakes nobody"][0].explore(name="flag")

if __name__ == "__main__":
    unittest.main()
'''


@unittest.skipUnless(LIBRARY, "there is no library")
class Replays(unittest.TestCase):
    def setUp(self):
        room = tempfile.TemporaryDirectory()
        self.addCleanup(room.cleanup)
        self.room = room.name
        text = SCRIPT.format(library=os.path.dirname(HERE), tests=HERE)
        self.write("test_pool.py", text)

    def write(self, name, text):
        with open(os.path.join(self.room, name), "w") as script:
            script.write(text)

    def run_words(self, *words, given="", **variables):
        around = {name: it for name, it in os.environ.items() if name not in (VARIABLE, "PYTEST_CURRENT_TEST")}
        return subprocess.run(
            words, cwd=self.room, env={**around, **variables}, input=given, stdout=subprocess.PIPE,
            stderr=subprocess.STDOUT, universal_newlines=True,
        )

    def replay_line(self, told):
        return re.findall("^  replay +(.*)$", told.stdout, re.M)

    def run_line(self, line):
        """Runs a line that a message gave, with this Python."""
        python = f"{sys.executable} -B"
        line = line.replace(" python3 ", f" {python} ").replace(" pytest ", f" {python} -m pytest -q -s ")
        return self.run_words("sh", "-c", line)

    def test_under_unittest(self):
        told = self.run_words(sys.executable, "-B", "-m", "unittest", "test_pool.Pool.test_the_stop")
        line, = self.replay_line(told)
        self.assertEqual(line, f"{VARIABLE}='boss w0*3 w1*2' python3 -m unittest test_pool.Pool.test_the_stop")
        told = self.run_line(line)
        self.assertEqual(told.returncode, 1)
        self.assertIn("asleep beside data: w1 at 5: fd 4 shows IN|OUT", told.stdout)
        self.assertIn("6 turns, 2 switches; as it was given", told.stdout)
        told = self.run_words(sys.executable, "-B", "test_pool.py", "Pool.test_the_stop")
        line, = self.replay_line(told)
        self.assertEqual(line, f"{VARIABLE}='boss w0*3 w1*2' python3 test_pool.py Pool.test_the_stop")
        self.assertIn("as it was given", self.run_line(line).stdout)

    def test_of_another_folder(self):
        """A test that was discovered is found again from where that was."""
        folder = os.path.join(self.room, "some tests")
        os.mkdir(folder)
        os.rename(os.path.join(self.room, "test_pool.py"), os.path.join(folder, "test_pool.py"))
        told = self.run_words(sys.executable, "-B", "-m", "unittest", "discover", "some tests", "-k", "the_stop")
        line, = self.replay_line(told)
        self.assertEqual(line, (
            f"{VARIABLE}='boss w0*3 w1*2' python3 -m unittest discover -s 'some tests' -p test_pool.py"
            " -k Pool.test_the_stop"
        ))
        told = self.run_line(line)
        self.assertIn("6 turns, 2 switches; as it was given", told.stdout)
        self.assertIn("Ran 1 test", told.stdout)

    def test_by_name(self):
        """A schedule with a name is for that exploration only; one without is for all."""
        both = [sys.executable, "-B", "-m", "unittest", "test_pool"]
        lines = self.replay_line(self.run_words(*both))
        self.assertEqual(lines[0], f"{VARIABLE}='flag: worker*2 boss' python3 -m unittest test_pool.Pool.test_the_flag")
        told = self.run_words(*both, **{VARIABLE: "flag: worker*2 boss"})
        self.assertEqual(len(re.findall("switch(?:es)?; as it was given", told.stdout)), 1)
        self.assertEqual(len(re.findall("order 1, of 0 pre-emptions", told.stdout)), 1)
        told = self.run_words(*both, **{VARIABLE: "worker*2 boss"})
        self.assertIn("names 'worker', and the tasks are boss, w0, w1", told.stdout)

    def test_a_script(self):
        self.write("script.py", SCRIPT.format(library=os.path.dirname(HERE), tests=HERE).partition("class")[0] + (
            "FAULTS['a flag that wakes nobody'][0].explore()\n"
        ))
        told = self.run_words(sys.executable, "-B", "script.py")
        line, = self.replay_line(told)
        self.assertEqual(line, f"{VARIABLE}='worker*2 boss' python3 script.py")
        self.assertIn("asleep for good: worker at 4", self.run_line(line).stdout)

    def test_a_debugger(self):
        """A breakpoint in a task is come to in the order that was given, and the order then goes on."""
        self.write("script.py", SCRIPT.format(library=os.path.dirname(HERE), tests=HERE).partition("class")[0] + (
            "from nippersage.orders import Env\n"
            "def first(t, e):\n"
            "    t.dup(0)\n"
            "    e.seen.append('first')\n"
            "def second(t, e):\n"
            "    t.dup(0)\n"
            "    breakpoint()\n"
            "    assert e.seen, 'second was first'\n"
            "explore(lambda k: Env(seen=[]), {'first': first, 'second': second})\n"
        ))
        for order, seen in (("first second", "['first']"), ("second first", "[]")):
            told = self.run_words(
                sys.executable, "-B", "script.py", given="p e.seen\nc\n", **{VARIABLE: order}
            )
            self.assertIn(f"(Pdb) {seen}", told.stdout)
            # What a task raised is raised as it is, so that a debugger finds its frame.
            self.assertEqual(told.stdout.endswith("AssertionError: second was first\n"), seen == "[]")

    def test_under_pytest(self):
        """Where it is installed."""
        if importlib.util.find_spec("pytest") is None:
            return
        words = [sys.executable, "-B", "-m", "pytest", "-q", "-p", "no:cacheprovider", "test_pool.py"]
        told = self.run_words(*words)
        lines = [it.partition("E  ")[2].strip() or it for it in told.stdout.split("\n") if " replay " in it]
        line = next(it for it in lines if "w0" in it).partition("replay")[2].strip()
        self.assertEqual(line, f"{VARIABLE}='boss w0*3 w1*2' pytest test_pool.py::Pool::test_the_stop")
        told = self.run_line(line)
        self.assertIn("as it was given", told.stdout)
        self.assertNotIn("_explore.py", told.stdout.partition("short test summary")[0].replace("/_explore.py:", ""))


def page():
    """docs/orders.md, of the repository or of a release."""
    above = os.path.dirname(os.path.dirname(HERE))
    for folder in (above, os.path.dirname(above)):
        path = os.path.join(folder, "docs", "orders.md")
        if os.path.isfile(path):
            with open(path, encoding="utf-8") as text:
                return text.read()
    raise AssertionError("there is no docs/orders.md")


@unittest.skipUnless(LIBRARY, "there is no library")
class Page(unittest.TestCase):
    """What docs/orders.md shows."""

    def test_its_example(self):
        """It fails with the message that follows it, but for the name of the file and the last line."""
        text = page()
        program, = re.findall(r"^```python\n(.*?)^```$", text, re.M | re.S)
        shown = text.partition("which says:\n\n")[2].partition("\n\nBoth writes")[0]
        shown = [line[4:] for line in shown.split("\n")]
        with self.assertRaises(Failed) as caught:
            exec(program, {"__name__": "page"})
        told = lines_of(caught.exception)
        self.assertEqual(told[:-2], shown[:-1])
        self.assertTrue(told[-2].startswith(shown[-1].partition("python3")[0]))
        mended = program.replace("t.read(e.reader, 4)", (
            "\n        while True:\n            try:\n                t.read(e.reader, 4)\n"
            "            except BlockingIOError:\n                break"
        ))
        mended = mended.replace("explore(", "result = explore(")
        names = {"__name__": "page"}
        exec(mended, names)
        whole, = re.findall("`(every order was tried: [0-9]+ orders)`", text)
        self.assertTrue(str(names["result"]).startswith(whole), names["result"])

    def test_its_table_of_faults(self):
        rows = re.findall(r"^\| .* \| `(.+)` .* \| ([0-9]+) \| ([0-9]+) \|$", page(), re.M)
        self.assertEqual(len(rows), len(FAULTS))
        for (order, found, orders), (faulty, right) in zip(rows, FAULTS.values()):
            result = faulty.explore(how="rising", raises=False)
            self.assertEqual((order, int(found)), (result.failure.order, result.runs))
            self.assertEqual(int(orders), right.explore(how="every").runs)


@unittest.skipUnless(LIBRARY, "there is no library")
class Schedules(unittest.TestCase):
    def explore(self, order, **how):
        return pool_example(False, 0).explore(order=order, raises=False, **how)

    def expect(self, fault, order, **how):
        with self.assertRaises(BadSchedule) as caught:
            self.explore(order, **how)
        self.assertIn(fault, str(caught.exception))
        self.assertIsInstance(caught.exception, ValueError)

    def test_what_is_none(self):
        for order, fault in (
            ("", "has no turns"), ("boss w0*", "word 2 of the schedule 'boss w0*' is 'w0*', and no turns"),
            ("boss*0", "has 0 turns"), ("boss*99999999", "has 99999999 turns"), ("boss,w0", "is 'boss,w0'"),
            ("boss w2", "word 2 of the schedule 'boss w2' names 'w2', and the tasks are boss, w0, w1"),
            ("boss .. w0", "is '..', which stands at the end only"), ("boss*-1", "is 'boss*-1'"),
            ("boss w0[1,0]", "what a wait reports can't be chosen in this version"), ("++", "is '++'"),
            ("a b: boss", "has 'a b' before its colon"), ("boss*2x", "is 'boss*2x'"), ("boss * 2", "is '*'"),
        ):
            self.expect(fault, order)

    def test_what_is_of_another_program(self):
        self.expect("turn 2 of the schedule is one of boss, which has come to its end", "boss*2 w0*3 w1*2")
        self.expect("turn 3 of the schedule is one of w0, which sleeps in a wait that nothing has ended", "w0*3")
        self.expect("turn 1 of the schedule is one of +, which can't", "+ boss")
        self.expect("the schedule ends before turn 5, and w1 can go on; write ..", "boss w0*3")
        self.expect("the schedule has 1 more from turn 7 on, and nobody can go on", "boss w0*3 w1*3 ..")

    def test_what_is_left_open(self):
        for order in ("boss w0*3 w1*2", "boss w0 ..", "..", " boss\tw0*2  w0 w1*2 ", "boss*1 .."):
            self.assertEqual(self.explore(order).failure.order, "boss w0*3 w1*2")
        # w1 goes on while it can (2 turns), then the first that can, which is boss (1). It wakes w1, and w0 comes
        # before that, takes the stop, and passes it on, as w1 idles (4). Then w1 takes it (2).
        result = self.explore("w1 ..")
        self.assertEqual((result.failures, result.turns), (0, 2 + 1 + 4 + 2))

    def test_a_long_one_is_left_open(self):
        """Two tasks wake each other, by turns, and the schedule of that has a word for each."""

        def setup(kernel):
            e = Env(counters=[kernel.eventfd(), kernel.eventfd()], instances=[kernel.epoll(), kernel.epoll()])
            for counter, instance in zip(e.counters, e.instances):
                kernel.add(instance, counter, IN)
            return e

        def task(place):
            def run(t, e):
                while True:
                    yield t.write(e.counters[1 - place], ONE)
                    yield t.wait(e.instances[place], timeout=None)
                    yield t.read(e.counters[place], 8)

            return run

        failure = failure_of(setup, {"a": task(0), "b": task(1)}, most=300)
        self.assertEqual((failure.kind, failure.order, failure.turns), ("endless", "..", 300))
        again = explore(setup, {"a": task(0), "b": task(1)}, most=300, order="..", raises=False)
        self.assertEqual((again.failure.kind, again.turns), ("endless", 300))
        # One that begins otherwise is told so.
        again = explore(setup, {"a": task(0), "b": task(1)}, most=300, order="a b a*2 ..", raises=False)
        self.assertEqual(again.failure.order, "a b a ..")

    def test_by_the_variable(self):
        self.addCleanup(os.environ.pop, VARIABLE, None)
        os.environ[VARIABLE] = "boss w0*3 w1*2"
        self.assertEqual(self.explore(None).runs, 1)
        os.environ[VARIABLE] = "pool: boss w0*3 w1*2"
        self.assertEqual(self.explore(None, name="pool").failure.found, "boss w0*3 w1*2")
        self.assertIn("pre-emption", str(self.explore(None, name="other").failure))
        self.assertEqual(self.explore("pool: ..", name="pool").runs, 1)

    def test_an_order_that_passes(self):
        result = pool_example(True, 0).explore(order="..")
        self.assertTrue(str(result).startswith("one order, as it was given; not every order was tried; 0 failures"))


if __name__ == "__main__":
    unittest.main()
