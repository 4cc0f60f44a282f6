"""What the Python client hands on. The expected answers are those of examples/ and docs/calls.md."""

import errno
import json
import os
import sys
import tempfile
import unittest
from datetime import timedelta

sys.dont_write_bytecode = True

from nippersage import ERR, ET, EXCLUSIVE, HUP, IN, ONESHOT, OUT, PRI, RDHUP, Ended, Illegal, Kernel, audit

#: 16 descriptors, 16 files, 2 processes, a registration, and the least room of pipes and sockets.
SMALL = (16, 16, 2, 1, 4_096, 4_096)


class Client(unittest.TestCase):
    def expect_refusal(self, number, call, *words, **keys):
        with self.assertRaises(OSError) as caught:
            call(*words, **keys)
        self.assertEqual(caught.exception.errno, number)

    def test_a_level_triggered_registration(self):
        with Kernel() as kernel:
            self.assertEqual(kernel.pipe(), (3, 4))
            self.assertEqual(kernel.epoll(), 5)
            kernel.add(5, 3, IN, data=3)
            self.assertEqual(kernel.write(4, b"abc"), 3)
            self.assertEqual(kernel.wait(5), [(IN, 3)])
            self.assertEqual(kernel.wait(5), [(IN, 3)])
            self.assertEqual(kernel.read(3, 3), b"abc")
            self.assertEqual(kernel.wait(5), [])
            self.assertEqual(kernel.end(), 0)

    def test_parked_callers_and_the_clock(self):
        with Kernel() as kernel:
            timer, instance = kernel.timerfd(), kernel.epoll()
            kernel.add(instance, timer, IN | ET, data=9)
            self.assertEqual(kernel.settime(timer, 0.000005, interval=0.000002), (0, 0))
            self.assertIsNone(kernel.wait(instance, timeout=-1, by=1))
            self.expect_refusal(errno.EBUSY, kernel.close, timer, by=1)
            self.assertIsNone(kernel.resume(by=1))
            kernel.tick(0.000004)
            self.assertEqual(kernel.gettime(timer), (0.000001, 0.000002))
            kernel.tick(timedelta(microseconds=5))
            self.assertEqual(kernel.resume(by=1), [(IN, 9)])
            self.assertEqual(kernel.read(timer, 8), bytes([3, 0, 0, 0, 0, 0, 0, 0]))
            self.expect_refusal(errno.EINVAL, kernel.resume, by=1)

    def test_times_are_rounded_up(self):
        with Kernel() as kernel:
            timer = kernel.timerfd()
            for time, found in (
                (1e-9, 0.000001), (0.0000031, 0.000004), (0.000003, 0.000003), (0.1 + 0.2, 0.3), (1, 1),
                (timedelta(days=1, microseconds=7), 86_400.000007), (1_000_000_000, 1_000_000_000),
            ):
                kernel.settime(timer, time, interval=time)
                self.assertEqual(kernel.gettime(timer), (found, found))
            kernel.settime(timer, 1e-9)
            kernel.tick(0)
            self.expect_refusal(errno.EAGAIN, kernel.read, timer, 8)
            kernel.tick(0.000001)
            self.assertEqual(kernel.read(timer, 8), bytes([1, 0, 0, 0, 0, 0, 0, 0]))
            self.expect_refusal(errno.EINVAL, kernel.settime, timer, timedelta(seconds=10**9, microseconds=1))
            self.expect_refusal(errno.EINVAL, kernel.tick, 1_000_000_000)

    def test_what_is_no_time(self):
        with Kernel() as kernel:
            for time in (-0.000001, timedelta(microseconds=-1), float("nan"), float("inf"), 10**15):
                with self.assertRaises(ValueError):
                    kernel.tick(time)
                with self.assertRaises(ValueError):
                    kernel.settime(3, 1, interval=time)
            with self.assertRaises(ValueError):
                kernel.wait(3, timeout=float("nan"))

    def test_timeouts(self):
        microsecond = timedelta(microseconds=1)
        with Kernel() as kernel:
            instance = kernel.epoll()
            self.assertEqual(kernel.wait(instance, timeout=timedelta(), by=1), [])
            for seconds in (0, 2_200, 3_000_000):
                self.assertIsNone(kernel.wait(instance, timeout=timedelta(seconds=seconds) + microsecond, by=1))
                kernel.tick(seconds)
                self.assertIsNone(kernel.resume(by=1))
                kernel.tick(microsecond)
                self.assertEqual(kernel.resume(by=1), [])
            for by, timeout in enumerate((None, -1, -1e-9, timedelta(microseconds=-1), float("inf"), 9 * 10**12)):
                self.assertIsNone(kernel.wait(instance, timeout=timeout, by=by))
            kernel.tick(900_000_000, by=9)
            for by in range(6):
                self.assertIsNone(kernel.resume(by=by))

    def test_registrations_and_descriptors(self):
        with Kernel() as kernel:
            (reader, writer), instance = kernel.pipe(cloexec=True), kernel.epoll()
            copy = kernel.dup(reader)
            kernel.add(instance, writer, OUT, data=1)
            self.expect_refusal(errno.EEXIST, kernel.add, instance, writer, OUT)
            self.assertEqual(kernel.fill(writer, 97, 65_536), 65_536)
            self.assertEqual(kernel.wait(instance), [])
            self.expect_refusal(errno.EAGAIN, kernel.write, writer, b"a")
            kernel.mod(instance, writer, 0, data=2)
            kernel.delete(instance, writer)
            kernel.add(instance, copy, HUP, data=3)
            self.assertEqual(kernel.fork(), 2)
            kernel.exec()
            self.expect_refusal(errno.EBADF, kernel.read, reader, 1)
            self.assertEqual(kernel.dup2(copy, 9), 9)
            self.assertEqual(kernel.wait(instance), [])
            kernel.exit(pid=2)
            self.assertEqual(kernel.wait(instance), [(HUP, 3)])
            self.expect_refusal(errno.ESRCH, kernel.pipe, pid=2)

    def test_exclusive_registrations(self):
        """A write wakes one of two callers at instances of their own."""
        with Kernel() as kernel:
            counter, first, second = kernel.eventfd(0), kernel.epoll(), kernel.epoll()
            for instance in (first, second):
                kernel.add(instance, counter, EXCLUSIVE | IN, data=instance)
            self.expect_refusal(errno.EEXIST, kernel.add, first, counter, EXCLUSIVE | IN)
            self.expect_refusal(errno.EINVAL, kernel.add, first, counter, EXCLUSIVE | ONESHOT | IN)
            self.expect_refusal(errno.EINVAL, kernel.add, first, second, EXCLUSIVE | IN)
            self.expect_refusal(errno.EINVAL, kernel.mod, first, counter, EXCLUSIVE | IN)
            self.expect_refusal(errno.EINVAL, kernel.mod, first, counter, IN)
            self.assertIsNone(kernel.wait(first, timeout=-1, by=1))
            self.assertIsNone(kernel.wait(second, timeout=-1, by=2))
            kernel.write(counter, bytes([1, 0, 0, 0, 0, 0, 0, 0]))
            self.assertIsNone(kernel.resume(by=2))
            self.assertEqual(kernel.resume(by=1), [(IN, first)])
            kernel.write(counter, bytes([1, 0, 0, 0, 0, 0, 0, 0]))
            self.assertEqual(kernel.resume(by=2), [(IN, second)])

    def test_other_objects(self):
        with Kernel(limits=(16, 16, 2, 8, 4_096, 4)) as kernel:
            left, right = kernel.socketpair()
            self.assertEqual(kernel.write(left, b"abcde"), 4)
            kernel.shutdown(left)
            self.expect_refusal(errno.EPIPE, kernel.write, left, b"a")
            self.assertEqual(kernel.peek(right, 2), b"ab")
            self.assertEqual(kernel.read(right, 8), b"abcd")
            self.assertEqual(kernel.read(right, 8), b"")
            kernel.shutdown(left, "rd")
            self.expect_refusal(errno.EPIPE, kernel.write, right, b"a")
            kernel.shutdown(right, "rdwr")
            self.assertEqual((kernel.take_error(left), kernel.sockname(left), kernel.peername(left)), (0, None, None))
            counter = kernel.eventfd(2, semaphore=True)
            self.assertEqual(kernel.read(counter, 8), bytes([1, 0, 0, 0, 0, 0, 0, 0]))
            self.expect_refusal(errno.ENOTSOCK, kernel.shutdown, kernel.plain())
            self.expect_refusal(errno.ENOTSOCK, kernel.peek, counter, 1)
            kernel.close(right)

    def shown_at(self, kernel, fd):
        """The bits that a socket shows."""
        instance = kernel.epoll()
        kernel.add(instance, fd, IN | OUT | RDHUP)
        ((mask, _),) = kernel.wait(instance)
        kernel.close(instance)
        return mask

    def test_sockets_without_a_connection(self):
        with Kernel(limits=(6, 4, 2, 8, 4_096, 4_096)) as kernel:
            tcp, unix = kernel.socket("tcp", cloexec=True), kernel.socket("unix")
            for fd, read, write in ((tcp, errno.ENOTCONN, errno.EPIPE), (unix, errno.EINVAL, errno.ENOTCONN)):
                self.expect_refusal(read, kernel.read, fd, 8)
                self.expect_refusal(read, kernel.peek, fd, 8)
                self.expect_refusal(write, kernel.write, fd, b"a")
                self.expect_refusal(errno.ENOTCONN, kernel.shutdown, fd)
                self.expect_refusal(errno.ENOTCONN, kernel.peername, fd)
                self.assertEqual((kernel.take_error(fd), kernel.sockname(fd)), (0, None))
                self.assertEqual(self.shown_at(kernel, fd), OUT | HUP)
            last = kernel.socket("tcp")
            self.expect_refusal(errno.EMFILE, kernel.socket, "tcp")
            kernel.dup2(unix, last)
            kernel.close(last)
            kernel.epoll()
            kernel.exec()
            self.expect_refusal(errno.EBADF, kernel.sockname, tcp)
        with Kernel(limits=(6, 1, 2, 8, 4_096, 4_096)) as kernel:
            self.expect_refusal(errno.ENFILE, kernel.socket, "unix")

    def test_names_that_are_given(self):
        with Kernel() as kernel:
            first, second, unix = kernel.socket("tcp"), kernel.socket("tcp"), kernel.socket("unix")
            self.expect_refusal(errno.EAFNOSUPPORT, kernel.bind, first, ("local", 80))
            kernel.bind(first, ("v4", 80))
            self.assertEqual(kernel.sockname(first), ("v4", 80))
            self.expect_refusal(errno.EINVAL, kernel.bind, first, ("v4", 81))
            self.expect_refusal(errno.EADDRINUSE, kernel.bind, second, ("v4", 80))
            kernel.bind(second, ("v6", 65_535))
            self.expect_refusal(errno.EINVAL, kernel.bind, unix, ("v6", 0))
            kernel.bind(unix, ("local", 0))
            self.assertEqual(kernel.sockname(unix), ("local", 32_768))
            self.expect_refusal(errno.ENOTSOCK, kernel.bind, 0, ("v4", 9))
            self.expect_refusal(errno.EBADF, kernel.bind, 77, ("v4", 9))

    def test_connects_that_find_nobody(self):
        left = IN | OUT | HUP | RDHUP
        with Kernel() as kernel:
            fd = kernel.socket("tcp")
            self.expect_refusal(errno.EAFNOSUPPORT, kernel.connect, fd, ("local", 80))
            with self.assertRaises(BlockingIOError) as caught:
                kernel.connect(fd, ("v4", 80))
            self.assertEqual(caught.exception.errno, 115)
            self.assertEqual((kernel.sockname(fd), self.shown_at(kernel, fd)), (("v4", 32_768), left | ERR))
            self.assertEqual((kernel.take_error(fd), kernel.take_error(fd)), (111, 0))
            self.assertEqual((self.shown_at(kernel, fd), kernel.read(fd, 8)), (left, b""))
            self.expect_refusal(errno.EPIPE, kernel.write, fd, b"a")
            self.expect_refusal(errno.EINVAL, kernel.bind, fd, ("v4", 9))
            self.expect_refusal(errno.ECONNABORTED, kernel.connect, fd, ("local", 1))
            self.assertEqual(self.shown_at(kernel, fd), OUT | HUP)
            takers = (kernel.read, (8,)), (kernel.peek, (8,)), (kernel.write, (b"a",)), (kernel.fill, (97, 2))
            for call, words in takers:
                self.expect_refusal(errno.EINPROGRESS, kernel.connect, fd, ("v6", 80))
                self.expect_refusal(errno.ECONNREFUSED, call, fd, *words)
                self.expect_refusal(errno.ECONNABORTED, kernel.connect, fd, ("v6", 80))
            self.expect_refusal(errno.EINPROGRESS, kernel.connect, fd, ("v4", 80))
            self.expect_refusal(errno.ECONNREFUSED, kernel.connect, fd, ("v4", 80))

    def test_connects_of_unix_sockets(self):
        with Kernel() as kernel:
            fd, (left, _) = kernel.socket("unix"), kernel.socketpair()
            kernel.bind(fd, ("local", 7))
            self.expect_refusal(errno.ECONNREFUSED, kernel.connect, fd, ("local", 7))
            self.expect_refusal(errno.EINVAL, kernel.connect, fd, ("v4", 7))
            self.assertEqual((kernel.take_error(fd), self.shown_at(kernel, fd)), (0, OUT | HUP))
            self.expect_refusal(errno.ECONNREFUSED, kernel.connect, left, ("local", 7))
            self.expect_refusal(errno.ENOTSOCK, kernel.connect, 0, ("local", 7))
            self.expect_refusal(errno.EBADF, kernel.connect, 77, ("local", 7))

    def expect_nothing_shown(self, kernel, fd):
        instance = kernel.epoll()
        kernel.add(instance, fd, IN | OUT | PRI | RDHUP)
        self.assertEqual(kernel.wait(instance), [])
        kernel.close(instance)

    def listeners(self, kernel):
        """One of TCP at 80, and a Unix one at 7."""
        tcp, unix = kernel.socket("tcp"), kernel.socket("unix")
        for fd, name in ((tcp, ("v4", 80)), (unix, ("local", 7))):
            kernel.bind(fd, name)
            kernel.listen(fd, 5)
        return tcp, unix

    def test_what_listens(self):
        with Kernel() as kernel:
            tcp, unix = self.listeners(kernel)
            for backlog in (0, 4_097, 2_147_483_647, -1, -2_147_483_648):
                kernel.listen(tcp, backlog)
            unnamed, left = kernel.socket("tcp"), kernel.socketpair()[0]
            kernel.listen(unnamed, 0)
            names = tuple(map(kernel.sockname, (tcp, unix, unnamed)))
            self.assertEqual(names, (("v4", 80), ("local", 7), ("v4", 32_768)))
            for fd in (tcp, unix, unnamed):
                self.expect_nothing_shown(kernel, fd)
            self.expect_refusal(errno.EINVAL, kernel.listen, kernel.socket("unix"), 5)
            self.expect_refusal(errno.EINVAL, kernel.listen, left, 5)
            self.expect_refusal(errno.ENOTSOCK, kernel.listen, 0, 5)
            self.expect_refusal(errno.EBADF, kernel.listen, 77, 5)

    def test_a_socket_whose_connect_failed_listens_once_told(self):
        with Kernel() as kernel:
            fd = kernel.socket("tcp")
            self.expect_refusal(errno.EINPROGRESS, kernel.connect, fd, ("v6", 80))
            self.expect_refusal(errno.EINVAL, kernel.listen, fd, 5)
            self.assertEqual(kernel.take_error(fd), 111)
            self.expect_refusal(errno.EINVAL, kernel.listen, fd, 5)
            self.expect_refusal(errno.ECONNABORTED, kernel.connect, fd, ("v4", 80))
            kernel.listen(fd, 5)

    def test_what_a_listener_answers(self):
        with Kernel() as kernel:
            tcp, unix = self.listeners(kernel)
            for fd, read, write in ((tcp, errno.ENOTCONN, errno.EPIPE), (unix, errno.EINVAL, errno.ENOTCONN)):
                self.expect_refusal(read, kernel.read, fd, 1)
                self.expect_refusal(read, kernel.peek, fd, 1)
                self.expect_refusal(write, kernel.write, fd, b"a")
                self.assertEqual((kernel.read(fd, 0), kernel.write(fd, b""), kernel.take_error(fd)), (b"", 0, 0))
                self.expect_refusal(errno.ENOTCONN, kernel.shutdown, fd)
                self.expect_refusal(errno.ENOTCONN, kernel.peername, fd)
                self.expect_refusal(errno.EINVAL, kernel.bind, fd, kernel.sockname(fd))
            self.expect_refusal(errno.EISCONN, kernel.connect, tcp, ("local", 9))
            self.expect_refusal(errno.EINVAL, kernel.connect, unix, ("v4", 80))
            self.expect_refusal(errno.ECONNREFUSED, kernel.connect, unix, ("local", 9))
            self.expect_refusal(errno.EINVAL, kernel.connect, unix, ("local", 7))

    def test_connects_to_listeners(self):
        with Kernel() as kernel:
            listener, _ = self.listeners(kernel)
            tcp, unix, left = kernel.socket("tcp"), kernel.socket("unix"), kernel.socketpair()[0]
            self.expect_refusal(errno.EINVAL, kernel.connect, tcp, ("v4", 80))
            self.expect_refusal(errno.EAFNOSUPPORT, kernel.connect, tcp, ("local", 7))
            self.assertEqual((kernel.sockname(tcp), self.shown_at(kernel, tcp)), (None, OUT | HUP))
            for fd, number in ((unix, errno.EINVAL), (left, errno.EISCONN)):
                self.expect_refusal(errno.EINVAL, kernel.connect, fd, ("v4", 80))
                self.expect_refusal(errno.ECONNREFUSED, kernel.connect, fd, ("local", 80))
                self.expect_refusal(number, kernel.connect, fd, ("local", 7))
            self.expect_refusal(errno.EADDRINUSE, kernel.bind, tcp, ("v4", 80))
            kernel.close(listener)
            kernel.bind(tcp, ("v4", 80))

    def test_accepts(self):
        with Kernel() as kernel:
            for fd in self.listeners(kernel):
                with self.assertRaises(BlockingIOError):
                    kernel.accept(fd)
                self.expect_refusal(errno.EAGAIN, kernel.accept, fd, cloexec=True)
            self.expect_refusal(errno.EINVAL, kernel.accept, kernel.socket("tcp"))
            self.expect_refusal(errno.ENOTSOCK, kernel.accept, 0)
            self.expect_refusal(errno.EBADF, kernel.accept, 77)
        with Kernel(limits=(4, 9, 2, 8, 4_096, 4_096)) as kernel:
            kernel.listen(kernel.socket("tcp"), 5)
            self.expect_refusal(errno.EMFILE, kernel.accept, 3)
            self.expect_refusal(errno.EMFILE, kernel.accept, 0)
        with Kernel(limits=(9, 2, 2, 8, 4_096, 4_096)) as kernel:
            self.expect_refusal(errno.ENFILE, kernel.accept, kernel.socket("tcp"))
            self.expect_refusal(errno.ENOTSOCK, kernel.accept, 0)

    def test_what_a_listener_is_asked(self):
        """The backlog and the flag get to the kernel, though nothing shows them yet."""
        with tempfile.TemporaryDirectory() as room:
            path = os.path.join(room, "kept.history")
            with Kernel(history=path) as kernel:
                fd = kernel.socket("tcp")
                kernel.listen(fd, -7)
                for cloexec in (True, False):
                    self.expect_refusal(errno.EAGAIN, kernel.accept, fd, cloexec)
            with open(path) as kept:
                calls = [json.loads(line)["event"]["call"] for line in kept]
        self.assertEqual(calls[1:], [
            {"op": "listen", "fd": fd, "backlog": -7}, {"op": "accept", "fd": fd, "cloexec": True},
            {"op": "accept", "fd": fd, "cloexec": False},
        ])

    def test_limits_out_of_range(self):
        with Kernel(limits=(2, 64, 4, 64, 4_096, 4_096)) as kernel:
            for _ in range(2):
                with self.assertRaises(Ended) as caught:
                    kernel.pipe()
                self.assertEqual(str(caught.exception), "the program ended with status 2, and standard error says why")

    def test_what_is_no_call(self):
        with Kernel() as kernel:
            for call, words, key in (
                (kernel.dup, (1 << 31,), "fd: 2147483648"),
                (kernel.dup2, (0, "4"), "to: '4'"),
                (kernel.add, (3, 4, 1 << 32), "mask: 4294967296"),
                (kernel.add, (3, 4, 1, -1), "data: -1"),
                (kernel.eventfd, (-1,), "init: -1"),
                (kernel.shutdown, (3, "both"), "how: 'both'"),
                (kernel.socket, ("udp",), "family: 'udp'"),
                (kernel.bind, (3, ("v5", 80)), "space: 'v5'"),
                (kernel.bind, (3, ("v6", 65_536)), "name: 65536"),
                (kernel.connect, (3, ("local", -1)), "name: -1"),
                (kernel.listen, (3, 1 << 31), "backlog: 2147483648"),
                (kernel.accept, (-(1 << 31) - 1,), "fd: -2147483649"),
                (kernel.read, (3, -1), "n: -1"),
                (kernel.peek, (3, 1 << 32), "n: 4294967296"),
                (kernel.fill, (3, 256, 1), "fill: [256, 1]"),
                (kernel.fill, (3, 1, 1_048_577), "fill: [1, 1048577]"),
                (kernel.tick, (1 << 70,), f"n: {(1 << 70) * 1_000_000}"),
            ):
                with self.assertRaises(ValueError) as caught:
                    call(*words)
                self.assertTrue(str(caught.exception).endswith(f" takes no such {key}"))
            with self.assertRaises(ValueError):
                kernel.write(1, bytes(40_000))
            self.assertEqual(kernel.dup(0), 3)

    def test_the_last_call(self):
        """The program reads 100,000 lines, and the header is one of them. The test in C makes all the calls."""
        with Kernel() as kernel:
            self.assertEqual(kernel.dup(0), 3)
            self.assertEqual(kernel.calls, 1)
            kernel.calls = 99_998
            self.assertEqual(kernel.dup(0), 4)
            with self.assertRaises(Ended):
                kernel.dup(0)

    def test_a_program_of_before_the_header(self):
        with tempfile.TemporaryDirectory() as room:
            path = os.path.join(room, "epsim")
            with open(path, "w") as program:
                program.write("#!/bin/sh\nread line; echo '{\"bad\":1}'; cat >/dev/null\n")
            os.chmod(path, 0o755)
            with Kernel(program=path) as kernel:
                with self.assertRaisesRegex(Ended, "older"):
                    kernel.pipe()

    def test_a_program_that_ended(self):
        with Kernel(limits=(1, 1, 1, 1, 1, 1)) as kernel:
            with self.assertRaises(Ended):
                kernel.dup(0)
                kernel.dup(0)
            self.assertEqual(kernel.end(), 2)


class Histories(unittest.TestCase):
    """The history of examples/level.jsonl up to its first report, and what an audit says of it."""

    def setUp(self):
        room = tempfile.TemporaryDirectory()
        self.addCleanup(room.cleanup)
        self.path = os.path.join(room.name, "kept.history")
        with Kernel(limits=SMALL, history=self.path) as kernel:
            reader, writer = kernel.pipe()
            instance = kernel.epoll()
            kernel.add(instance, reader, IN, data=3)
            kernel.write(writer, b"abc")
            self.assertEqual(kernel.wait(instance), [(IN, 3)])
            self.assertEqual(kernel.end(), 0)

    def expect_illegal(self, place, limits):
        with self.assertRaises(Illegal) as caught:
            audit(self.path, limits=limits)
        self.assertEqual(caught.exception.record, place)

    def test_a_history_of_a_kernel(self):
        self.assertEqual(audit(self.path, limits=SMALL), 5)

    def test_a_history_without_its_write(self):
        with open(self.path) as kept:
            records = kept.readlines()
        self.assertIn('"hex":"616263"', records[3])
        with open(self.path, "w") as shorter:
            shorter.writelines(records[:3] + records[4:])
        self.expect_illegal(3, SMALL)

    def test_other_limits(self):
        self.expect_illegal(2, (16, 16, 2, 0, 4_096, 4_096))

    def test_a_history_without_a_verdict(self):
        with open(self.path, "a") as longer:
            longer.write("no record\n")
        with self.assertRaises(Ended):
            audit(self.path, limits=SMALL)
        with self.assertRaises(OSError):
            audit(self.path + ".missing")

    def test_a_file_that_cannot_be_made(self):
        with Kernel(history=os.path.join(self.path, "below.history")) as kernel:
            with self.assertRaises(Ended):
                kernel.tick(0)
            self.assertEqual(kernel.end(), 1)


if __name__ == "__main__":
    unittest.main()
