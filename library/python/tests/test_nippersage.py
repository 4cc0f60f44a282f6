"""The package over the library and over the program epsim: each call, and a refusal of each.

Expected answers are those of the manual pages and of docs/calls.md. What has no library or no program to run on is
skipped, and told so. Histories are given to epaudit if there is one.

    python3 -m unittest discover library/python/tests
"""

import errno
import json
import os
import re
import subprocess
import sys
import tempfile
import threading
import unittest
from datetime import timedelta

sys.dont_write_bytecode = True
#: The folder that has the package.
FOLDER = os.path.dirname(os.path.dirname(os.path.abspath(__file__)))
sys.path.insert(0, FOLDER)

from nippersage import (
    AUDITOR, ERR, ET, EXCLUSIVE, HUP, IN, LIBRARY, MOST_CALLS, ONESHOT, OUT, PRI, PROGRAM, RDHUP, Ended, Illegal,
    Kernel, Limits, Mask, Name, Watch, __version__, audit, library_version,
)
from nippersage._numbers import seconds, units


def runs(program):
    """Whether there is such a program, and built. At the top of the repository is a script of its name, which would
    prove it first, for many minutes."""
    top, name = os.path.split(os.path.abspath(program))
    if os.path.isfile(os.path.join(top, "crates.txt")):
        program = os.path.join(top, "crates", name, "out", name)
    return os.path.isfile(program) and os.access(program, os.X_OK)


def run_anew(words, **variables):
    """Runs these words of Python in a process of its own, under these variables."""
    return subprocess.run(
        [sys.executable, "-B", "-c", words], stdout=subprocess.PIPE, stderr=subprocess.PIPE, cwd=FOLDER,
        env={**os.environ, **variables},
    )


class Refusals(unittest.TestCase):
    def expect_refusal(self, number, call, *words, **keys):
        with self.assertRaises(OSError) as caught:
            call(*words, **keys)
        self.assertEqual(caught.exception.errno, number)


class Calls:
    """What both kinds of kernel answer. `make` makes one."""

    def test_the_first_example(self):
        with self.make() as kernel:
            reader, writer = kernel.pipe()
            instance = kernel.epoll()
            kernel.add(instance, reader, IN, data=7)
            self.assertIsNone(kernel.wait(instance, timeout=-1, by=1))
            kernel.write(writer, b"abc")
            self.assertEqual(kernel.resume(by=1), [(IN, 7)])

    def test_pipes(self):
        with self.make() as kernel:
            self.assertEqual(kernel.pipe(cloexec=True), (3, 4))
            self.expect_refusal(errno.EAGAIN, kernel.read, 3, 1)
            self.assertEqual(kernel.write(4, b"abcde"), 5)
            self.assertEqual(kernel.read(3, 3), b"abc")
            self.assertEqual(kernel.read(3, 9), b"de")
            self.assertEqual(kernel.read(3, 0), b"")
            self.expect_refusal(errno.EBADF, kernel.write, 3, b"a")
            self.assertEqual(kernel.fill(4, 0, 65_536), 65_536)
            self.assertEqual(kernel.read(3, 4_294_967_295), bytes(65_536))
            kernel.close(3)
            with self.assertRaises(BrokenPipeError):
                kernel.write(4, b"a")
            self.expect_refusal(errno.EBADF, kernel.close, 3)

    def test_sockets(self):
        with self.make(limits=Limits(sock_bytes=4)) as kernel:
            left, right = kernel.socketpair()
            self.assertEqual(kernel.write(left, b"abcde"), 4)
            kernel.shutdown(left)
            self.expect_refusal(errno.EPIPE, kernel.write, left, b"a")
            self.assertEqual(kernel.read(right, 8), b"abcd")
            self.assertEqual(kernel.read(right, 8), b"")
            kernel.shutdown(left, "rd")
            self.expect_refusal(errno.EPIPE, kernel.write, right, b"a")
            kernel.shutdown(right, "rdwr")
            self.assertEqual(kernel.read(left, 8), b"")
            self.expect_refusal(errno.ENOTSOCK, kernel.shutdown, kernel.plain())
            for how in ("both", "", 1):
                with self.assertRaises(ValueError):
                    kernel.shutdown(left, how)

    def test_what_a_socket_alone_is_asked(self):
        with self.make() as kernel:
            left, right = kernel.socketpair()
            self.expect_refusal(errno.EAGAIN, kernel.peek, right, 8)
            self.assertEqual(kernel.peek(right, 0), b"")
            kernel.write(left, b"abcde")
            self.assertEqual(kernel.peek(right, 3), b"abc")
            self.assertEqual(kernel.peek(right, 4_294_967_295), b"abcde")
            self.assertEqual(kernel.read(right, 8), b"abcde")
            kernel.close(left)
            self.assertEqual(kernel.peek(right, 8), b"")
            self.assertEqual(kernel.take_error(right), 0)
            self.assertIsNone(kernel.sockname(right))
            self.assertIsNone(kernel.peername(right))
            for ask in (lambda fd: kernel.peek(fd, 1), kernel.take_error, kernel.sockname, kernel.peername):
                self.expect_refusal(errno.ENOTSOCK, ask, 0)
                self.expect_refusal(errno.EBADF, ask, left)

    def shown_at(self, kernel, fd):
        """The bits that a socket shows."""
        instance = kernel.epoll()
        kernel.add(instance, fd, IN | OUT | RDHUP)
        ((mask, _),) = kernel.wait(instance)
        kernel.close(instance)
        return mask

    def test_sockets_without_a_connection(self):
        with self.make() as kernel:
            tcp, unix = kernel.socket("tcp", cloexec=True), kernel.socket("unix")
            self.assertEqual((tcp, unix), (3, 4))
            for fd, read, write in ((tcp, errno.ENOTCONN, errno.EPIPE), (unix, errno.EINVAL, errno.ENOTCONN)):
                self.expect_refusal(read, kernel.read, fd, 8)
                self.expect_refusal(read, kernel.peek, fd, 8)
                self.expect_refusal(write, kernel.write, fd, b"a")
                self.assertEqual((kernel.read(fd, 0), kernel.write(fd, b"")), (b"", 0))
                self.expect_refusal(errno.ENOTCONN, kernel.shutdown, fd, "rdwr")
                self.assertEqual((kernel.take_error(fd), kernel.sockname(fd)), (0, None))
                self.expect_refusal(errno.ENOTCONN, kernel.peername, fd)
                self.assertEqual(self.shown_at(kernel, fd), OUT | HUP)
            kernel.exec()
            self.expect_refusal(errno.EBADF, kernel.close, tcp)
            kernel.close(unix)

    def test_too_many_sockets(self):
        for limits, number in ((Limits(descriptors=4), errno.EMFILE), (Limits(files=2), errno.ENFILE)):
            with self.make(limits=limits) as kernel:
                self.assertEqual(kernel.socket("unix"), 3)
                self.expect_refusal(number, kernel.socket, "tcp")

    def test_names_that_are_given(self):
        with self.make() as kernel:
            first, second, unix = kernel.socket("tcp"), kernel.socket("tcp"), kernel.socket("unix")
            left, _ = kernel.socketpair()
            self.expect_refusal(errno.EAFNOSUPPORT, kernel.bind, first, ("local", 80))
            kernel.bind(first, ("v4", 80))
            self.assertEqual(kernel.sockname(first), Name("v4", 80))
            self.expect_refusal(errno.EINVAL, kernel.bind, first, ("v4", 81))
            self.expect_refusal(errno.EADDRINUSE, kernel.bind, second, Name("v4", 80))
            kernel.bind(second, Name("v6", 80))
            self.assertEqual(kernel.sockname(second), ("v6", 80))
            self.expect_refusal(errno.EINVAL, kernel.bind, unix, ("v4", 0))
            kernel.bind(unix, ("local", 0))
            self.assertEqual(kernel.sockname(unix), ("local", 32_768))
            self.expect_refusal(errno.EINVAL, kernel.bind, left, ("local", 9))
            self.expect_refusal(errno.ENOTSOCK, kernel.bind, 0, ("v4", 9))
            self.expect_refusal(errno.EBADF, kernel.bind, 77, ("v4", 9))
            kernel.close(first)
            kernel.bind(kernel.socket("tcp"), ("v4", 80))

    def test_the_last_names(self):
        with self.make() as kernel:
            for fd, name in ((kernel.socket("tcp"), ("v4", 65_535)), (kernel.socket("tcp"), ("v6", 65_535)),
                             (kernel.socket("unix"), ("local", 4_294_967_295))):
                kernel.bind(fd, name)
                self.assertEqual(kernel.sockname(fd), name)

    def test_connects_that_find_nobody(self):
        left = IN | OUT | HUP | RDHUP
        with self.make() as kernel:
            fd = kernel.socket("tcp")
            self.expect_refusal(errno.EAFNOSUPPORT, kernel.connect, fd, ("local", 80))
            with self.assertRaises(BlockingIOError) as caught:
                kernel.connect(fd, ("v4", 80))
            self.assertEqual((caught.exception.errno, str(caught.exception)), (115, "[Errno 115] EINPROGRESS"))
            self.assertEqual(kernel.sockname(fd), ("v4", 32_768))
            self.assertEqual(self.shown_at(kernel, fd), left | ERR)
            self.assertEqual((kernel.take_error(fd), kernel.take_error(fd)), (111, 0))
            self.assertEqual(self.shown_at(kernel, fd), left)
            self.assertEqual(kernel.read(fd, 8), b"")
            self.expect_refusal(errno.EPIPE, kernel.write, fd, b"a")
            self.expect_refusal(errno.EINVAL, kernel.bind, fd, ("v4", 9))
            self.expect_refusal(errno.ECONNABORTED, kernel.connect, fd, ("local", 1))
            self.assertEqual(self.shown_at(kernel, fd), OUT | HUP)
            self.expect_refusal(errno.EINPROGRESS, kernel.connect, fd, ("v4", 80))
            with self.assertRaises(ConnectionRefusedError):
                kernel.connect(fd, ("v4", 80))

    def test_calls_that_take_an_error(self):
        """The first tells it, and the next connect that it was taken."""
        with self.make() as kernel:
            fd = kernel.socket("tcp")
            takers = (kernel.read, (8,)), (kernel.peek, (8,)), (kernel.write, (b"a",)), (kernel.fill, (97, 2))
            for call, words in takers:
                self.expect_refusal(errno.EINPROGRESS, kernel.connect, fd, ("v6", 80))
                self.assertEqual((kernel.read(fd, 0), kernel.write(fd, b"")), (b"", 0))
                self.expect_refusal(errno.ECONNREFUSED, call, fd, *words)
                self.assertEqual(kernel.take_error(fd), 0)
                self.expect_refusal(errno.ECONNABORTED, kernel.connect, fd, ("v6", 80))

    def test_connects_of_unix_sockets(self):
        with self.make() as kernel:
            fd, (left, _) = kernel.socket("unix"), kernel.socketpair()
            kernel.bind(fd, ("local", 7))
            self.expect_refusal(errno.ECONNREFUSED, kernel.connect, fd, ("local", 7))
            self.expect_refusal(errno.ECONNREFUSED, kernel.connect, fd, ("local", 8))
            self.expect_refusal(errno.EINVAL, kernel.connect, fd, ("v4", 7))
            self.assertEqual(kernel.take_error(fd), 0)
            self.assertEqual(self.shown_at(kernel, fd), OUT | HUP)
            self.expect_refusal(errno.ECONNREFUSED, kernel.connect, left, ("local", 7))
            self.expect_refusal(errno.EINVAL, kernel.connect, left, ("v6", 7))
            self.expect_refusal(errno.ENOTSOCK, kernel.connect, 0, ("local", 7))
            self.expect_refusal(errno.EBADF, kernel.connect, 77, ("local", 7))

    def test_no_name_is_free(self):
        with self.make(limits=Limits(descriptors=65_536, files=1_000_000)) as kernel:
            for number in range(32_768, 61_000):
                kernel.bind(kernel.socket("tcp"), ("v4", number))
            last = kernel.socket("tcp")
            self.expect_refusal(errno.EADDRNOTAVAIL, kernel.connect, last, ("v4", 80))
            self.expect_refusal(errno.EADDRINUSE, kernel.bind, last, ("v4", 0))
            self.expect_refusal(errno.EADDRINUSE, kernel.listen, last, 5)
            kernel.listen(3, 5)
            self.expect_refusal(errno.EADDRNOTAVAIL, kernel.connect, last, ("v4", 32_768))
            self.expect_refusal(errno.EINPROGRESS, kernel.connect, last, ("v6", 80))

    def expect_nothing_shown(self, kernel, fd):
        instance = kernel.epoll()
        kernel.add(instance, fd, IN | OUT | PRI | RDHUP)
        self.assertEqual(kernel.wait(instance), [])
        kernel.close(instance)

    def listener(self, kernel, family, name):
        fd = kernel.socket(family)
        kernel.bind(fd, name)
        kernel.listen(fd, 5)
        return fd

    def test_what_listens(self):
        with self.make() as kernel:
            tcp, v6 = self.listener(kernel, "tcp", ("v4", 80)), self.listener(kernel, "tcp", ("v6", 80))
            for backlog in (0, 1, 4_096, 4_097, 2_147_483_647, -1, -2_147_483_648):
                kernel.listen(tcp, backlog)
            self.assertEqual((kernel.sockname(tcp), kernel.sockname(v6)), (("v4", 80), ("v6", 80)))
            unnamed, unix, (left, _) = kernel.socket("tcp"), kernel.socket("unix"), kernel.socketpair()
            kernel.listen(unnamed, 0)
            self.assertEqual(kernel.sockname(unnamed), ("v4", 32_768))
            self.expect_refusal(errno.EINVAL, kernel.listen, unix, 5)
            self.assertEqual(self.shown_at(kernel, unix), OUT | HUP)
            kernel.bind(unix, ("local", 7))
            kernel.listen(unix, 5)
            for fd in (tcp, v6, unnamed, unix):
                self.expect_nothing_shown(kernel, fd)
            self.expect_refusal(errno.EINVAL, kernel.listen, left, 5)
            self.expect_refusal(errno.ENOTSOCK, kernel.listen, 0, 5)
            self.expect_refusal(errno.EBADF, kernel.listen, 77, 5)
            self.expect_refusal(errno.ESRCH, kernel.task(0, pid=77).listen, tcp, 5)

    def test_a_socket_whose_connect_failed_listens_once_told(self):
        with self.make() as kernel:
            fd = kernel.socket("tcp")
            self.expect_refusal(errno.EINPROGRESS, kernel.connect, fd, ("v6", 80))
            self.expect_refusal(errno.EINVAL, kernel.listen, fd, 5)
            self.assertEqual(kernel.take_error(fd), 111)
            self.expect_refusal(errno.EINVAL, kernel.listen, fd, 5)
            self.expect_refusal(errno.ECONNABORTED, kernel.connect, fd, ("v4", 80))
            kernel.listen(fd, 5)
            self.assertEqual(kernel.sockname(fd), ("v6", 32_768))

    def test_what_a_listener_answers(self):
        with self.make() as kernel:
            tcp, unix = self.listener(kernel, "tcp", ("v4", 80)), self.listener(kernel, "unix", ("local", 7))
            for fd, read, write in ((tcp, errno.ENOTCONN, errno.EPIPE), (unix, errno.EINVAL, errno.ENOTCONN)):
                self.expect_refusal(read, kernel.read, fd, 1)
                self.expect_refusal(read, kernel.peek, fd, 1)
                self.expect_refusal(write, kernel.write, fd, b"a")
                self.assertEqual((kernel.read(fd, 0), kernel.peek(fd, 0), kernel.write(fd, b"")), (b"", b"", 0))
                for how in ("rd", "wr", "rdwr"):
                    self.expect_refusal(errno.ENOTCONN, kernel.shutdown, fd, how)
                self.assertEqual(kernel.take_error(fd), 0)
                self.expect_refusal(errno.ENOTCONN, kernel.peername, fd)
                self.expect_nothing_shown(kernel, fd)
            self.assertEqual((kernel.sockname(tcp), kernel.sockname(unix)), (Name("v4", 80), Name("local", 7)))
            self.expect_refusal(errno.EAFNOSUPPORT, kernel.bind, tcp, ("local", 9))
            self.expect_refusal(errno.EINVAL, kernel.bind, tcp, ("v4", 9))
            self.expect_refusal(errno.EINVAL, kernel.bind, unix, ("v4", 9))
            self.expect_refusal(errno.EINVAL, kernel.bind, unix, ("local", 9))
            for name in (("local", 9), ("v4", 9), ("v4", 80)):
                self.expect_refusal(errno.EISCONN, kernel.connect, tcp, name)
            self.expect_refusal(errno.EINVAL, kernel.connect, unix, ("v4", 80))
            self.expect_refusal(errno.ECONNREFUSED, kernel.connect, unix, ("local", 9))
            self.expect_refusal(errno.EINVAL, kernel.connect, unix, ("local", 7))

    def test_the_name_of_a_listener_is_taken(self):
        with self.make() as kernel:
            first = self.listener(kernel, "tcp", ("v4", 80))
            copy, other = kernel.dup(first), kernel.socket("tcp")
            self.expect_refusal(errno.EADDRINUSE, kernel.bind, other, ("v4", 80))
            kernel.close(first)
            self.expect_refusal(errno.EADDRINUSE, kernel.bind, other, ("v4", 80))
            self.expect_refusal(errno.EINVAL, kernel.connect, other, ("v4", 80))
            kernel.close(copy)
            kernel.bind(other, ("v4", 80))

    def test_connects_to_listeners(self):
        with self.make() as kernel:
            self.listener(kernel, "tcp", ("v4", 80))
            self.listener(kernel, "unix", ("local", 7))
            tcp, unix, (left, _) = kernel.socket("tcp"), kernel.socket("unix"), kernel.socketpair()
            self.expect_refusal(errno.EAFNOSUPPORT, kernel.connect, tcp, ("local", 7))
            self.expect_refusal(errno.EINVAL, kernel.connect, tcp, ("v4", 80))
            self.assertEqual((kernel.sockname(tcp), self.shown_at(kernel, tcp)), (None, OUT | HUP))
            self.expect_refusal(errno.EINPROGRESS, kernel.connect, tcp, ("v6", 80))
            self.expect_refusal(errno.ECONNREFUSED, kernel.connect, tcp, ("v4", 80))
            self.expect_refusal(errno.EINVAL, kernel.connect, tcp, ("v4", 80))
            for fd, number in ((unix, errno.EINVAL), (left, errno.EISCONN)):
                self.expect_refusal(errno.EINVAL, kernel.connect, fd, ("v4", 80))
                self.expect_refusal(errno.ECONNREFUSED, kernel.connect, fd, ("local", 80))
                self.expect_refusal(number, kernel.connect, fd, ("local", 7))
            self.assertEqual((kernel.sockname(unix), self.shown_at(kernel, unix)), (None, OUT | HUP))

    def test_accepts(self):
        with self.make() as kernel:
            for fd in (self.listener(kernel, "tcp", ("v4", 80)), self.listener(kernel, "unix", ("local", 7))):
                with self.assertRaises(BlockingIOError) as caught:
                    kernel.accept(fd)
                self.assertEqual(str(caught.exception), "[Errno 11] EAGAIN")
                self.expect_refusal(errno.EAGAIN, kernel.accept, fd, cloexec=True)
            idle, (left, _) = kernel.socket("tcp"), kernel.socketpair()
            self.expect_refusal(errno.EINVAL, kernel.accept, idle)
            self.expect_refusal(errno.EINVAL, kernel.accept, left)
            self.expect_refusal(errno.ENOTSOCK, kernel.accept, 0)
            self.expect_refusal(errno.EBADF, kernel.accept, 77)

    def test_what_a_listener_is_asked(self):
        """The backlog and the flag get to the kernel, though nothing shows them yet."""
        with tempfile.TemporaryDirectory() as room:
            path = os.path.join(room, "kept.history")
            with self.make(history=path) as kernel:
                fd = kernel.socket("tcp")
                kernel.listen(fd, -7)
                for cloexec in (True, False):
                    self.expect_refusal(errno.EAGAIN, kernel.accept, fd, cloexec)
            with open(path) as kept:
                calls = [json.loads(line)["event"]["call"] for line in kept]
        self.assertEqual(calls[1:], [
            {"op": "listen", "fd": fd, "backlog": -7}, {"op": "accept", "fd": fd, "cloexec": True},
            {"op": "accept", "fd": fd, "cloexec": False},
        ])

    def test_accepts_no_more(self):
        with self.make(limits=Limits(descriptors=4)) as kernel:
            fd = self.listener(kernel, "tcp", ("v4", 80))
            self.expect_refusal(errno.EMFILE, kernel.accept, fd)
            self.expect_refusal(errno.EMFILE, kernel.accept, 0)
            self.expect_refusal(errno.EBADF, kernel.accept, 4)
        with self.make(limits=Limits(files=2)) as kernel:
            fd = kernel.socket("tcp")
            self.expect_refusal(errno.ENFILE, kernel.accept, fd)
            kernel.listen(fd, 5)
            self.expect_refusal(errno.ENFILE, kernel.accept, fd)
            self.expect_refusal(errno.ENOTSOCK, kernel.accept, 0)

    def test_counters(self):
        with self.make() as kernel:
            counter = kernel.eventfd(2, semaphore=True)
            self.assertEqual(kernel.read(counter, 8), bytes([1, 0, 0, 0, 0, 0, 0, 0]))
            self.expect_refusal(errno.EINVAL, kernel.read, counter, 7)
            counter = kernel.eventfd(2)
            self.assertEqual(kernel.read(counter, 8), bytes([2, 0, 0, 0, 0, 0, 0, 0]))

    def test_timers(self):
        with self.make() as kernel:
            timer, instance = kernel.timerfd(), kernel.epoll()
            kernel.add(instance, timer, IN | ET, data=9)
            self.assertEqual(kernel.settime(timer, 0.000005, interval=0.0000011), (0, 0))
            self.assertIsNone(kernel.wait(instance, timeout=-1, by=1))
            kernel.tick(0.0000031)
            self.assertEqual(kernel.gettime(timer), (0.000001, 0.000002))
            kernel.tick(0.000005)
            self.assertEqual(kernel.now(), 0.000009)
            self.assertEqual(kernel.resume(by=1), [(IN, 9)])
            self.assertEqual(kernel.read(timer, 8), bytes([3, 0, 0, 0, 0, 0, 0, 0]))
            self.assertEqual(kernel.settime(timer, 1, absolute=True), (0.000002, 0.000002))
            self.assertEqual(kernel.gettime(timer), (0.999991, 0))
            self.expect_refusal(errno.EINVAL, kernel.settime, 0, 1)
            self.expect_refusal(errno.EBADF, kernel.gettime, 99)
            self.expect_refusal(errno.EINVAL, kernel.timerfd, clock=7)

    def test_a_timer_of_a_microsecond(self):
        for time in (0.000001, 1e-9, timedelta(microseconds=1)):
            with self.make() as kernel:
                timer = kernel.timerfd()
                kernel.settime(timer, time)
                kernel.tick(0)
                self.expect_refusal(errno.EAGAIN, kernel.read, timer, 8)
                self.assertEqual(kernel.gettime(timer), (0.000001, 0))
                kernel.tick(timedelta(microseconds=1))
                self.assertEqual(kernel.read(timer, 8), bytes([1, 0, 0, 0, 0, 0, 0, 0]))
                self.assertEqual(kernel.now(), 0.000001)

    def test_the_last_moment(self):
        last = 1_000_000_000
        with self.make() as kernel:
            timer = kernel.timerfd()
            for time in (last + 1, timedelta(seconds=last, microseconds=1), 9_223_372_036_854):
                self.expect_refusal(errno.EINVAL, kernel.settime, timer, time)
                self.expect_refusal(errno.EINVAL, kernel.settime, timer, 1, interval=time)
                self.expect_refusal(errno.EINVAL, kernel.tick, time)
            kernel.settime(timer, last, interval=timedelta(seconds=last))
            self.assertEqual(kernel.gettime(timer), (last, last))
            kernel.tick(timedelta(seconds=last - 1, microseconds=999_999))
            self.assertEqual(kernel.now(), 999_999_999.999999)
            kernel.tick(0.000001)
            self.assertEqual(kernel.now(), last)
            self.expect_refusal(errno.EINVAL, kernel.tick, 1e-9)

    def test_waits_of_any_length(self):
        """Those of 36 minutes are longer than 2^31 microseconds, and those of 34 days longer than 2^31 milliseconds."""
        microsecond = timedelta(microseconds=1)
        for seconds_ in (0, 2_200, 3_000_000, 999_999_999):
            time = timedelta(seconds=seconds_)
            with self.make() as kernel:
                instance = kernel.epoll()
                self.assertIsNone(kernel.wait(instance, timeout=time + microsecond, by=1))
                kernel.tick(time)
                self.assertIsNone(kernel.resume(by=1))
                kernel.tick(microsecond)
                self.assertEqual(kernel.resume(by=1), [])

    def test_waits_without_an_end(self):
        longest = 9_223_372_036_854
        for time in (None, -1, -1e-9, float("inf"), timedelta(microseconds=-1), longest, timedelta(seconds=longest)):
            with self.make() as kernel:
                instance = kernel.epoll()
                self.assertIsNone(kernel.wait(instance, timeout=time, by=1))
                kernel.tick(1_000_000_000)
                self.assertIsNone(kernel.resume(by=1))

    def test_parked_callers(self):
        with self.make() as kernel:
            counter, instance = kernel.eventfd(), kernel.epoll()
            kernel.add(instance, counter, IN)
            self.expect_refusal(errno.EEXIST, kernel.add, instance, counter, IN)
            self.expect_refusal(errno.EINVAL, kernel.resume, by=1)
            self.assertEqual(kernel.wait(instance, by=1), [])
            self.assertEqual(kernel.wait(instance, timeout=timedelta(), by=1), [])
            self.assertIsNone(kernel.wait(instance, timeout=0.0000101, by=1))
            self.expect_refusal(errno.EBUSY, kernel.close, counter, by=1)
            self.expect_refusal(errno.EBUSY, kernel.wait, instance, max=1, by=1)
            kernel.tick(0.00001)
            self.assertIsNone(kernel.resume(by=1))
            kernel.tick(0.000001)
            self.assertEqual(kernel.resume(by=1), [])
            self.expect_refusal(errno.EINVAL, kernel.wait, instance, max=0)
            self.expect_refusal(errno.EINVAL, kernel.wait, counter)

    def test_reports(self):
        with self.make(limits=Limits(watches=3)) as kernel:
            instance = kernel.epoll()
            for data in (0, 2**64 - 1, 7):
                kernel.add(instance, kernel.eventfd(1), IN | OUT, data=data)
            self.expect_refusal(errno.ENOSPC, kernel.add, instance, kernel.eventfd(1), IN)
            found = kernel.wait(instance, max=2_147_483_647)
            self.assertEqual(sorted(found), [(IN | OUT, 0), (IN | OUT, 7), (IN | OUT, 2**64 - 1)])
            self.assertEqual(len(kernel.wait(instance, max=1)), 1)
            self.expect_refusal(errno.EPERM, kernel.add, instance, 0, IN)
            self.expect_refusal(errno.EINVAL, kernel.mod, instance, instance, IN)

    def test_exclusive_registrations(self):
        """A write wakes one of two callers at instances of their own."""
        with self.make() as kernel:
            counter, first, second = kernel.eventfd(0), kernel.epoll(), kernel.epoll()
            for instance in (first, second):
                kernel.add(instance, counter, EXCLUSIVE | IN, data=instance)
            self.expect_refusal(errno.EEXIST, kernel.add, first, counter, EXCLUSIVE | IN)
            self.expect_refusal(errno.EINVAL, kernel.add, first, counter, EXCLUSIVE | ONESHOT | IN)
            self.expect_refusal(errno.EINVAL, kernel.add, first, second, EXCLUSIVE | IN)
            self.expect_refusal(errno.EINVAL, kernel.mod, first, counter, EXCLUSIVE | IN)
            self.expect_refusal(errno.EINVAL, kernel.mod, first, counter, IN)
            self.assertIsNone(kernel.wait(first, timeout=-1, by=1))
            self.assertIsNone(kernel.wait(second, timeout=-1, by=2))
            kernel.write(counter, bytes([1, 0, 0, 0, 0, 0, 0, 0]))
            self.assertIsNone(kernel.resume(by=2))
            self.assertEqual(kernel.resume(by=1), [(IN, first)])
            kernel.write(counter, bytes([1, 0, 0, 0, 0, 0, 0, 0]))
            self.assertEqual(kernel.resume(by=2), [(IN, second)])

    def test_descriptors_and_processes(self):
        with self.make(limits=(16, 16, 2, 1, 4_096, 4_096)) as kernel:
            (reader, writer), instance = kernel.pipe(cloexec=True), kernel.epoll()
            copy = kernel.dup(reader)
            kernel.add(instance, writer, OUT, data=1)
            kernel.mod(instance, writer, 0, data=2)
            kernel.delete(instance, writer)
            self.expect_refusal(errno.ENOENT, kernel.delete, instance, writer)
            kernel.add(instance, copy, HUP, data=3)
            self.assertEqual(kernel.fork(), 2)
            self.expect_refusal(errno.EAGAIN, kernel.fork)
            kernel.exec()
            self.expect_refusal(errno.EBADF, kernel.read, reader, 1)
            self.assertEqual(kernel.dup2(copy, 9), 9)
            self.expect_refusal(errno.EBADF, kernel.dup2, copy, 16)
            child = kernel.task(5, pid=2)
            self.assertEqual(child.read(copy, 0), b"")
            child.exit()
            self.assertEqual(kernel.wait(instance), [(HUP, 3)])
            self.expect_refusal(errno.ESRCH, child.pipe)
            self.expect_refusal(errno.ESRCH, kernel.pipe, pid=2)
            self.assertEqual(child.dup(0, pid=1), 3)

    def test_what_is_out_of_range(self):
        with self.make() as kernel:
            for call, words in (
                (kernel.dup, (1 << 31,)),
                (kernel.eventfd, (-1,)),
                (kernel.add, (3, 4, 1 << 32)),
                (kernel.add, (3, 4, IN, 1 << 64)),
                (kernel.read, (0, -1)),
                (kernel.fill, (0, 256, 1)),
                (kernel.tick, (-0.000001,)),
                (kernel.tick, (timedelta(microseconds=-1),)),
                (kernel.tick, (9_223_372_036_855,)),
                (kernel.settime, (3, float("nan"))),
                (kernel.settime, (3, 1, float("inf"))),
                (kernel.wait, (3, 8, float("nan"))),
                (kernel.wait, (3, 8, timedelta.max)),
                (kernel.task, (-1,)),
                (kernel.socket, ("inet",)),
                (kernel.bind, (0, ("v5", 80))),
                (kernel.connect, (0, ("v4", -1))),
                (kernel.listen, (0, 1 << 31)),
                (kernel.accept, (1 << 31,)),
            ):
                with self.assertRaises(ValueError):
                    call(*words)
            with self.assertRaises(TypeError):
                kernel.dup(0.0)
            with self.assertRaises(ValueError):
                kernel.dup(0, by=1 << 32)
            self.assertEqual(kernel.dup(0), 3)

    def test_what_does_not_fit_is_named(self):
        with self.make() as kernel:
            for call, words, name in (
                (kernel.dup, (1 << 31,), "fd"),
                (kernel.dup2, (0, "4"), "to"),
                (kernel.dup, (None,), "fd"),
                (kernel.add, (3, 4, 1 << 32), "mask"),
                (kernel.add, (3, 4, IN, -1), "data"),
                (kernel.wait, (3, 1.5), "max"),
                (kernel.wait, (3, 8, "1"), "timeout"),
                (kernel.read, (0, 1 << 32), "n"),
                (kernel.write, (1, "abc"), "data"),
                (kernel.write, (1, 5), "data"),
                (kernel.settime, (3, 1, -1), "interval"),
                (kernel.task, ("1",), "by"),
                (kernel.socket, ("udp",), "family"),
                (kernel.bind, (0, 80), "name"),
                (kernel.bind, (0, ("v4", 80, 1)), "name"),
                (kernel.bind, (0, ("v4", 65_536)), "number"),
                (kernel.bind, (0, ("v6", "80")), "number"),
                (kernel.connect, (0, ("unix", 1)), "space"),
                (kernel.connect, (0, ("local", 1 << 32)), "number"),
                (kernel.connect, ("3", ("local", 1)), "fd"),
                (kernel.listen, ("3", 5), "fd"),
                (kernel.listen, (3, -(1 << 31) - 1), "backlog"),
                (kernel.listen, (3, None), "backlog"),
                (kernel.accept, (None,), "fd"),
            ):
                with self.assertRaises((TypeError, ValueError)) as caught:
                    call(*words)
                self.assertRegex(str(caught.exception), f"^{name} is ")
            self.assertEqual(kernel.write(1, bytearray(b"ab")), 2)

    def test_masks(self):
        with self.make() as kernel:
            reader, writer = kernel.pipe()
            instance = kernel.epoll()
            kernel.add(instance, reader, IN | ET, data=1)
            kernel.add(instance, writer, 4, data=2)
            kernel.write(writer, b"a")
            kernel.close(reader)
            ((mask, data),) = kernel.wait(instance)
            self.assertEqual((mask, data), (12, 2))
            self.assertIsInstance(mask, Mask)
            self.assertEqual(repr((mask, IN | ET, Mask(0), Mask(1 << 20))), "(OUT|ERR, IN|ET, 0x0, 0x100000)")

    def test_limits_out_of_their_ranges(self):
        """The ranges are those of docs/script.md."""
        ranges = (
            ("descriptors", 3, 65_536), ("files", 1, 1_000_000), ("processes", 1, 10_000),
            ("watches", 0, 1_000_000), ("pipe_bytes", 4_096, 1_048_576), ("sock_bytes", 1, 1_048_576),
        )
        for name, least, most in ranges:
            for value in (least, most):
                with self.make(limits=Limits()._replace(**{name: value})) as kernel:
                    kernel.exit()
            for value in (least - 1, most + 1, 1 << 32):
                with self.assertRaises(OSError) as caught:
                    self.make(limits=Limits()._replace(**{name: value}))
                self.assertEqual(caught.exception.errno, errno.EINVAL)
                self.assertIn(f"{name} is {value}, and goes from {least} to {most}", str(caught.exception))
        with self.assertRaises(ValueError):
            self.make(limits=(16, 16))

    def test_the_end(self):
        with self.make() as kernel:
            kernel.pipe()
        self.assertEqual(kernel.end(), 0)
        with self.assertRaises(Ended):
            kernel.dup(0)
        with self.assertRaises(Ended):
            kernel.task(2).dup(0)


@unittest.skipUnless(LIBRARY, "there is no library")
class OverLibrary(Calls, Refusals):
    def make(self, **keys):
        return Kernel(**keys)

    def test_version(self):
        number, _, made = library_version().partition(", ")
        self.assertEqual(number, __version__)
        self.assertRegex(made, "^(unproved|proved in logic [0-9a-f]{16})$")

    def test_waits_by_themselves(self):
        with Kernel() as kernel:
            timer, instance = kernel.timerfd(), kernel.epoll()
            kernel.add(instance, timer, IN, data=5)
            self.assertEqual(kernel.epoll_wait(instance, timeout=1e-9), [])
            self.assertEqual(kernel.now(), 0.000001)
            kernel.settime(timer, 3_600)
            self.assertEqual(kernel.next_moment(), 3_600.000001)
            self.assertEqual(kernel.epoll_wait(instance), [(IN, 5)])
            self.assertEqual(kernel.now(), 3_600.000001)
            kernel.close(timer)
            self.assertIsNone(kernel.next_moment())
            self.assertIsNone(kernel.wait(timer + 1, max=3, timeout=-1, by=7))
            with self.assertRaises(OSError) as caught:
                kernel.epoll_wait(instance)
            self.assertEqual(str(caught.exception), (
                "[Errno 35] EDEADLK: no event can end the waits: caller 7 waits at instance 4 without a timeout, and"
                " nothing is registered there; caller 0 waits at instance 4 without a timeout, and nothing is registered"
                " there"
            ))
            self.assertEqual(kernel.deadlock(), [(7, 1, instance, 3, None), (0, 1, instance, 8, None)])
            self.assertEqual(kernel.waiters(), [(7, 1, instance, 3, None)])
            self.assertIsNone(kernel.wait(instance, timeout=0.25, by=8))
            self.assertEqual(kernel.waiters()[1:], [(8, 1, instance, 8, 0.25)])
            self.expect_refusal(errno.EINVAL, kernel.resume)
            kernel.add(instance, kernel.eventfd(1), IN, data=9)
            self.assertEqual(kernel.epoll_wait(instance), [(IN, 9)])
            self.assertEqual(kernel.resume(by=7), [(IN, 9)])
            kernel.check()

    def test_a_deadlock_of_what_is_closed(self):
        """Where the number of the instance is gone, it tells who waits, and the wait stays."""
        with Kernel() as kernel:
            kernel.wait(kernel.epoll(), timeout=None, by=7)
            kernel.close(3)
            kernel.add(kernel.epoll(), kernel.pipe()[0], IN)
            with self.assertRaises(OSError) as caught:
                kernel.epoll_wait(3)
            told = "caller 7 waits at instance 3 without a timeout, and nothing is registered there; caller 0 waits at"
            self.assertIn(told, str(caught.exception))
            self.assertEqual([it.by for it in kernel.waiters()], [7])

    def test_a_deadlock_of_many(self):
        """Of more callers than eight it tells how many they are."""
        with Kernel() as kernel:
            instance = kernel.epoll()
            for caller in range(1, 10):
                kernel.wait(instance, timeout=None, by=caller)
            with self.assertRaises(OSError) as caught:
                kernel.epoll_wait(instance)
            self.assertEqual(caught.exception.errno, errno.EDEADLK)
            told = "caller 8 waits at instance 3 without a timeout, and nothing is registered there; and 2 more wait"
            self.assertIn(told, str(caught.exception))

    def test_a_deadlock_beside_data(self):
        """It tells what is registered there, of more than eight how many more they are."""
        with Kernel() as kernel:
            instance = kernel.epoll()
            kernel.add(instance, kernel.eventfd(1), IN | ONESHOT, data=1)
            kernel.wait(instance)
            for _ in range(9):
                kernel.add(instance, kernel.eventfd(), IN | ET)
            with self.assertRaises(OSError) as caught:
                kernel.epoll_wait(instance)
            told = str(caught.exception)
            self.assertIn("timeout: fd 4 shows IN|OUT, registered IN|ONESHOT, not armed, fd 5 shows OUT, registered", told)
            self.assertTrue(told.endswith("fd 11 shows OUT, registered IN|ET, and 2 more are registered"), told)

    def test_watches(self):
        """The rows are worked out by hand from docs/calls.md."""
        with Kernel() as kernel:
            counter, (reader, writer), instance = kernel.eventfd(1), kernel.pipe(), kernel.epoll()
            kernel.add(instance, counter, IN, data=30)
            kernel.add(instance, reader, IN | ONESHOT, data=40)
            kernel.add(instance, writer, OUT | ET, data=50)
            kernel.wait(instance, by=2)  # the seventh event
            level = Watch(counter, IN, 30, IN | OUT, True, True, 7, 2)
            edge = Watch(writer, OUT | ET, 50, OUT, True, False, 7, 2)
            unreported = Watch(reader, IN | ONESHOT, 40, Mask(0), True, False, None, None)
            self.assertEqual(kernel.watches(instance), [level, unreported, edge])
            self.assertEqual(str(unreported), "fd 4 shows nothing, registered IN|ONESHOT")
            kernel.write(writer, b"a")
            self.assertEqual(kernel.watches(instance)[1], unreported._replace(shown=IN, is_reportable=True))
            kernel.delete(instance, counter)
            kernel.wait(instance, by=3)  # the tenth
            reported = Watch(reader, IN | ONESHOT, 40, IN, False, False, 10, 3)
            self.assertEqual(kernel.watches(instance), [reported, edge])
            self.assertEqual(kernel.history().count("\n"), 10)
            self.expect_refusal(errno.EBADF, kernel.watches, 77)
            self.expect_refusal(errno.EBADF, kernel.watches, instance, pid=2)
            self.expect_refusal(errno.EINVAL, kernel.watches, reader)

    def test_watches_awaited(self):
        """The instance has no number any more, and the file of its registration has another one."""
        with Kernel() as kernel:
            (reader, writer), instance = kernel.pipe(), kernel.epoll()
            kernel.add(instance, reader, IN | ET, data=1 << 63)
            kernel.wait(instance, timeout=None, by=9)
            kernel.dup(reader)
            kernel.close(reader)
            kernel.close(instance)
            watch = Watch(reader, IN | ET, 1 << 63, Mask(0), True, False, None, None)
            self.assertEqual(kernel.watches_awaited(9), [watch])
            kernel.write(writer, b"a")
            self.assertEqual(kernel.watches_awaited(9), [watch._replace(shown=IN, is_reportable=True)])
            self.expect_refusal(errno.EINVAL, kernel.watches_awaited, 1)

    def test_questions(self):
        with Kernel() as kernel:
            counter, instance = kernel.eventfd(), kernel.epoll()
            kernel.add(instance, counter, IN)
            self.assertIsNone(kernel.first_marked())
            kernel.wait(instance, timeout=None, by=4)
            self.assertTrue(kernel.is_parked(4))
            self.assertFalse(kernel.is_marked(4))
            kernel.write(counter, bytes([1, 0, 0, 0, 0, 0, 0, 0]))
            self.assertTrue(kernel.is_marked(4))
            self.assertEqual(kernel.first_marked(), 4)

    def test_threads(self):
        """Two threads wake each other, and a third one sleeps until they are done."""
        rounds = 200
        with Kernel() as kernel:
            ends = kernel.eventfd(1), kernel.eventfd()
            one = (1).to_bytes(8, "little")
            failures, parts = [], [kernel.take_part() for _ in range(3)]

            def watch(task, fd):
                instance = task.epoll()
                task.add(instance, fd, IN, data=fd)
                return instance

            def pass_on(task, own, peer):
                instance = watch(task, own)
                for _ in range(rounds):
                    if task.epoll_wait(instance) != [(IN, own)] or task.read(own, 8) != one:
                        failures.append(task.by)
                    task.write(peer, one)

            def sleep(task):
                if task.epoll_wait(task.epoll(), timeout=60) != []:
                    failures.append(task.by)

            def run(part, call, *words):
                with part:
                    call(*words)

            calls = (
                (pass_on, kernel.task(1), ends[0], ends[1]),
                (pass_on, kernel.task(2), ends[1], ends[0]),
                (sleep, kernel.task(3)),
            )
            threads = [threading.Thread(target=run, args=(part, *words)) for part, words in zip(parts, calls)]
            for thread in threads:
                thread.start()
            for thread in threads:
                thread.join(600)
            self.assertEqual(failures, [])
            self.assertEqual(kernel.read(ends[0], 8), one)
            self.assertEqual(kernel.now(), 60)
            kernel.check()

    def test_an_end_while_a_thread_waits(self):
        """The thread's wait lives on, as does the kernel, until somebody else moves the clock or the process ends."""
        words = (
            "import nippersage as n, threading, time\n"
            "k = n.Kernel(); parts = k.take_part(), k.take_part(); e = k.epoll()\n"
            "threading.Thread(target=k.task(1).epoll_wait, args=(e,), daemon=True).start()\n"
            "while not k.is_parked(1): time.sleep(0.001)\n"
            "k.end(); del k, parts; print('ended')"
        )
        told = run_anew(words)
        self.assertEqual((told.returncode, told.stdout), (0, b"ended\n"))

    def test_histories(self):
        with Kernel() as kernel:
            kernel.reserve(10)
            kernel.pipe()
            self.expect_refusal(errno.EBADF, kernel.close, 99, by=7)
            expected = [
                {"answer": {"two": [3, 4]}, "caller": 0, "event": {"call": {"cloexec": False, "op": "pipe"}, "pid": 1}},
                {"answer": {"err": [9, "EBADF"]}, "caller": 7, "event": {"call": {"fd": 99, "op": "close"}, "pid": 1}},
            ]
            found = [json.loads(line) for line in kernel.history().splitlines()]
            self.assertEqual(found, [{**record, "picked": []} for record in expected])
            kernel.check()


@unittest.skipUnless(LIBRARY, "there is no library")
class Readme(unittest.TestCase):
    def test_its_programs(self):
        with open(os.path.join(FOLDER, "README.md")) as page:
            programs = re.findall(r"^```python\n(.*?)^```$", page.read(), re.M | re.S)
        self.assertEqual(len(programs), 7)
        for program in programs:
            told = run_anew(program)
            self.assertEqual((told.returncode, told.stderr), (0, b""))


@unittest.skipUnless(runs(PROGRAM), "there is no program epsim")
class OverProgram(Calls, Refusals):
    def make(self, **keys):
        return Kernel(program=PROGRAM, **keys)

    def test_the_last_call(self):
        """The program reads 100,000 lines, and the header is one of them."""
        self.assertEqual(MOST_CALLS, 99_999)
        with self.make() as kernel:
            self.assertEqual(kernel.dup(0), 3)
            kernel._backend.calls = MOST_CALLS - 1
            self.assertEqual(kernel.dup(0), 4)
            with self.assertRaises(Ended):
                kernel.dup(0)

    def test_a_line_that_is_too_long(self):
        with self.make() as kernel:
            with self.assertRaises(ValueError):
                kernel.write(1, bytes(40_000))
            self.assertEqual(kernel.dup(0), 3)

    def test_a_program_that_ended(self):
        with Kernel(program="/bin/false") as kernel:
            with self.assertRaises(Ended):
                kernel.dup(0)
                kernel.dup(0)
            self.assertEqual(kernel.end(), 1)

    def test_what_needs_the_library(self):
        with self.make() as kernel:
            for call in (kernel.check, kernel.history, kernel.next_moment, kernel.take_part):
                with self.assertRaises(NotImplementedError):
                    call()

    def test_without_a_library(self):
        words = "import nippersage as n; k = n.Kernel(); print(n.LIBRARY, k.pipe(), k.end())"
        told = run_anew(words, NIPPERSAGE_LIB="", NIPPERSAGE_EPSIM=PROGRAM)
        self.assertEqual(told.stdout, b"None (3, 4) 0\n")


class Times(unittest.TestCase):
    """How many microseconds a time is."""

    def test_whole_numbers(self):
        for time, count in (
            (0, 0), (0.000001, 1), (0.000003, 3), (0.003, 3_000), (0.1, 100_000), (1, 1_000_000), (2.5, 2_500_000),
            (999_999_999.999999, 999_999_999_999_999), (timedelta(days=1, microseconds=7), 86_400_000_007),
        ):
            self.assertEqual(units("time", time), count)

    def test_what_is_finer_is_rounded_up(self):
        for time, count in (
            (1e-300, 1), (1e-9, 1), (0.0000010001, 2), (0.0000019999, 2), (0.0000020001, 3), (1.0000001, 1_000_001),
        ):
            self.assertEqual(units("time", time), count)

    def test_sums_of_floats(self):
        """None of these sums is the float that its sum in decimals is."""
        for time, other, count in (
            (0.1 + 0.2, 0.3, 300_000), (0.000002 + 0.000003, 0.000005, 5), (0.1 + 0.7, 0.8, 800_000),
        ):
            self.assertNotEqual(time, other)
            self.assertEqual(units("time", time), count)

    def test_there_and_back(self):
        for count in (0, 1, 3, 7, 999_999, 1_000_001, 123_456_789_012_345, 999_999_999_999_999, 10**15):
            self.assertEqual(units("time", seconds(count)), count)


class Older(unittest.TestCase):
    """A program of before the header."""

    def test_it_is_told(self):
        with tempfile.TemporaryDirectory() as room:
            path = os.path.join(room, "epsim")
            with open(path, "w") as program:
                program.write("#!/bin/sh\nread line; echo '{\"bad\":1}'; cat >/dev/null\n")
            os.chmod(path, 0o755)
            with Kernel(program=path) as kernel:
                with self.assertRaisesRegex(Ended, "version 2"):
                    kernel.pipe()


class Missing(unittest.TestCase):
    """What is said if there is nothing to run."""

    def test_neither_library_nor_program(self):
        told = run_anew("import nippersage; nippersage.Kernel()", NIPPERSAGE_LIB="", NIPPERSAGE_EPSIM="/none/epsim")
        self.assertIn(b"no library libnippersage, and no such program: '/none/epsim'", told.stderr)

    def test_a_library_that_is_none(self):
        told = run_anew("import nippersage; nippersage.Kernel()", NIPPERSAGE_LIB="/none/libnippersage.so")
        self.assertIn(b"OSError: /none/libnippersage.so: cannot open shared object file", told.stderr)

    @unittest.skipIf(sys.platform != "linux", "there is no libm.so.6")
    def test_a_library_without_a_function(self):
        told = run_anew("import nippersage; nippersage.Kernel()", NIPPERSAGE_LIB="libm.so.6")
        self.assertIn(b"ImportError: libm.so.6 has no nippersage_open: it is older than this package", told.stderr)


class Histories:
    """What epaudit says of the history of a short run."""

    limits = (16, 16, 2, 1, 4_096, 4_096)

    def setUp(self):
        room = tempfile.TemporaryDirectory()
        self.addCleanup(room.cleanup)
        self.path = os.path.join(room.name, "kept.history")
        with self.make(limits=self.limits, history=self.path) as kernel:
            reader, writer = kernel.pipe()
            instance = kernel.epoll()
            kernel.add(instance, reader, IN, data=3)
            kernel.write(writer, b"abc")
            self.assertEqual(kernel.wait(instance), [(IN, 3)])

    def test_a_history_of_a_kernel(self):
        self.assertEqual(audit(self.path, limits=self.limits), 5)

    def test_a_history_without_its_write(self):
        with open(self.path) as kept:
            records = kept.readlines()
        with open(self.path, "w") as shorter:
            shorter.writelines(records[:3] + records[4:])
        with self.assertRaises(Illegal) as caught:
            audit(self.path, limits=self.limits)
        self.assertEqual(caught.exception.record, 3)

    def test_a_history_without_a_verdict(self):
        with open(self.path, "a") as longer:
            longer.write("no record\n")
        with self.assertRaises(Ended):
            audit(self.path, limits=self.limits)
        with self.assertRaises(OSError):
            audit(self.path + ".missing")


@unittest.skipUnless(LIBRARY and runs(AUDITOR), "there is no library, or no program epaudit")
class OfLibrary(Histories, unittest.TestCase):
    make = Kernel

    def test_a_file_that_cannot_be_made(self):
        with self.assertRaises(OSError):
            Kernel(history=os.path.join(self.path, "below.history"))


@unittest.skipUnless(runs(PROGRAM) and runs(AUDITOR), "there is no program epsim or epaudit")
class OfProgram(Histories, unittest.TestCase):
    def make(self, **keys):
        return Kernel(program=PROGRAM, **keys)

    def test_a_file_that_cannot_be_made(self):
        with self.make(history=os.path.join(self.path, "below.history")) as kernel:
            with self.assertRaises(Ended):
                kernel.tick(0)
            self.assertEqual(kernel.end(), 1)


if __name__ == "__main__":
    unittest.main()
