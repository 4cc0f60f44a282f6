"""Faults of loops, pools and proxies that some order of their calls shows, each beside what mends it.

    python3 library/python/tests/faults.py

It explores each, and prints the first order that fails, or that none does. test_orders.py explores them, too.
"""

import os
import sys

sys.dont_write_bytecode = True
sys.path.insert(0, os.path.dirname(os.path.dirname(os.path.abspath(__file__))))

from nippersage import ET, EXCLUSIVE, HUP, IN, ONESHOT, RDHUP
from nippersage.orders import Env, explore

ONE = (1).to_bytes(8, "little")


class Example:
    """A program of tasks, each a generator."""

    def __init__(self, setup, tasks, check=None, daemons=(), most=2_000):
        self.setup, self.tasks = setup, tasks
        self.more = {"check": check, "daemons": daemons, "most": most}

    def explore(self, **how):
        return explore(self.setup, self.tasks, **{**self.more, **how})

    def in_threads(self):
        """The same with tasks that are functions."""
        return Example(self.setup, {name: in_thread(it) for name, it in self.tasks.items()}, **self.more)


class Later:
    """Gives calls that are made later, by the methods of a task that is a function."""

    def __getattr__(self, op):
        return lambda *args, **keys: lambda t: getattr(t, op)(*args, **keys)


def in_thread(generator):
    """A task that is a function, and makes the calls that a generator yields."""

    def task(t, e):
        steps, answer, refusal = generator(Later(), e), None, None
        while True:
            try:
                call = steps.throw(refusal) if refusal else steps.send(answer)
            except StopIteration:
                return
            answer = refusal = None
            try:
                answer = call(t)
            except OSError as error:
                refusal = error

    return task


# A loop that is told of edges, and reads once for each: of two writes that come before its turn, one stays unread. And
# a loop whose registration is a one-shot that it doesn't arm again.
def pipe_example(mask, task, writes):
    def setup(kernel):
        e = Env(got=b"", mask=mask)
        e.reader, e.writer = kernel.pipe()
        e.instance = kernel.epoll()
        kernel.add(e.instance, e.reader, mask, data=7)
        return e

    def peer(t, e):
        for _ in range(writes):
            yield t.write(e.writer, b"ping")

    def check(e):
        assert len(e.got) == 4 * writes, f"{len(e.got)} of {4 * writes} bytes were read"

    return Example(setup, {"loop": task, "peer": peer}, check, ["loop"])


def reads_once(t, e):
    while True:
        yield t.wait(e.instance, timeout=None)
        e.got += yield t.read(e.reader, 4)


def reads_all(t, e):
    while True:
        yield t.wait(e.instance, timeout=None)
        yield from read_all(t, e)


def reads_all_and_arms(t, e):
    while True:
        yield t.wait(e.instance, timeout=None)
        yield from read_all(t, e)
        yield t.mod(e.instance, e.reader, e.mask, data=7)


def read_all(t, e):
    while True:
        try:
            e.got += yield t.read(e.reader, 4)
        except BlockingIOError:
            return


# A herd: workers at an instance each. A write wakes them all, and one of them takes it.
def herd_example(mask, is_careful, workers, writes):
    def setup(kernel):
        e = Env(taken=0)
        e.jobs = kernel.eventfd(0, semaphore=True)
        e.instances = [kernel.epoll() for _ in range(workers)]
        for instance in e.instances:
            kernel.add(instance, e.jobs, mask)
        return e

    def worker(place):
        def task(t, e):
            while True:
                yield t.wait(e.instances[place], timeout=None)
                try:
                    yield t.read(e.jobs, 8)
                    e.taken += 1
                except BlockingIOError:
                    if not is_careful:
                        raise

        return task

    def boss(t, e):
        for _ in range(writes):
            yield t.write(e.jobs, ONE)

    def check(e):
        assert e.taken == writes, f"{e.taken} of {writes} jobs were taken"

    names = [f"w{place}" for place in range(workers)]
    return Example(setup, {"boss": boss, **{name: worker(int(name[1:])) for name in names}}, check, names)


# A pool at one instance. Who is told to stop passes it on; in the faulty one only if somebody idles.
def pool_example(is_right, jobs):
    def setup(kernel):
        e = Env(idle=0, done=0)
        e.jobs, e.stop, e.instance = kernel.eventfd(0, semaphore=True), kernel.eventfd(), kernel.epoll()
        kernel.add(e.instance, e.jobs, IN, data=1)
        kernel.add(e.instance, e.stop, IN | ET, data=2)
        return e

    def worker(t, e):
        while True:
            yield t.shared("idle")
            e.idle += 1
            ((_, data),) = yield t.wait(e.instance, max=1, timeout=None)
            yield t.shared("idle")
            e.idle -= 1
            if data == 2:
                if is_right or e.idle > 0:
                    yield t.write(e.stop, ONE)
                return
            try:
                yield t.read(e.jobs, 8)
                e.done += 1
            except BlockingIOError:
                pass

    def boss(t, e):
        for _ in range(jobs):
            yield t.write(e.jobs, ONE)
        yield t.write(e.stop, ONE)

    return Example(setup, {"boss": boss, "w0": worker, "w1": worker})


# A proxy between two socket pairs. The client shuts its writing behind its request. The faulty proxy hands that end on
# as soon as it is told, before it has read all that came.
def proxy_example(is_right):
    def setup(kernel):
        e = Env(asked=b"", reply=b"")
        e.client, e.near = kernel.socketpair()
        e.far, e.server = kernel.socketpair()
        e.instance, e.of_client, e.of_server = kernel.epoll(), kernel.epoll(), kernel.epoll()
        kernel.add(e.instance, e.near, IN | RDHUP | ET, data=1)
        kernel.add(e.instance, e.far, IN | RDHUP | ET, data=2)
        kernel.add(e.of_client, e.client, IN)
        kernel.add(e.of_server, e.server, IN)
        return e

    def client(t, e):
        yield t.write(e.client, b"GET")
        yield t.shutdown(e.client)
        while True:
            yield t.wait(e.of_client, timeout=None)
            got = yield t.read(e.client, 64)
            if not got:
                return
            e.reply += got

    def server(t, e):
        while True:
            yield t.wait(e.of_server, timeout=None)
            got = yield t.read(e.server, 64)
            if not got:
                break
            e.asked += got
        yield t.write(e.server, b"OK " + e.asked)
        yield t.close(e.server)

    def check(e):
        assert e.reply == b"OK GET", f"the client got {e.reply}"

    return Example(setup, {"client": client, "proxy": proxy(is_right), "server": server}, check)


def proxy(is_right):
    def task(t, e):
        ends, still_open = {1: (e.near, e.far), 2: (e.far, e.near)}, {1, 2}
        while still_open:
            for bits, data in (yield t.wait(e.instance, timeout=None)):
                source, to = ends[data]
                if not is_right and bits & RDHUP and not bits & HUP and data in still_open:
                    yield t.shutdown(to)
                    still_open.discard(data)
                while data in still_open:
                    try:
                        got = yield t.read(source, 64)
                    except BlockingIOError:
                        break
                    if got:
                        yield t.write(to, got)
                    else:
                        yield t.shutdown(to)
                        still_open.discard(data)

    return task


# One direction of it, whose tree is small: what the server got is looked at in the end.
def half_proxy_example(is_right):
    def setup(kernel):
        e = Env(kernel=kernel)
        e.client, e.near = kernel.socketpair()
        e.far, e.server = kernel.socketpair()
        e.instance = kernel.epoll()
        kernel.add(e.instance, e.near, IN | RDHUP | ET, data=1)
        return e

    def client(t, e):
        yield t.write(e.client, b"GET")
        yield t.write(e.client, b" /")
        yield t.shutdown(e.client)

    def copies(t, e):
        while True:
            ((bits, _),) = yield t.wait(e.instance, timeout=None)
            if not is_right and bits & RDHUP:
                yield t.shutdown(e.far)
                return
            while True:
                try:
                    got = yield t.read(e.near, 64)
                except BlockingIOError:
                    break
                if not got:
                    yield t.shutdown(e.far)
                    return
                yield t.write(e.far, got)

    def check(e):
        got = e.kernel.read(e.server, 64)
        assert got == b"GET /", f"the server got {got}"

    return Example(setup, {"client": client, "proxy": copies}, check)


# A worker that looks at a flag and then sleeps. In the faulty program the flag is set and nobody is woken.
def flag_example(is_right):
    def setup(kernel):
        e = Env(stops=False)
        e.wake, e.instance = kernel.eventfd(), kernel.epoll()
        kernel.add(e.instance, e.wake, IN)
        return e

    def worker(t, e):
        while True:
            yield t.shared("stops")
            if e.stops:
                return
            yield t.wait(e.instance, timeout=None)

    def boss(t, e):
        yield t.shared("stops")
        e.stops = True
        if is_right:
            yield t.write(e.wake, ONE)

    return Example(setup, {"worker": worker, "boss": boss})


def watched_pipe(kernel):
    e = Env()
    e.reader, e.writer = kernel.pipe()
    e.instance = kernel.epoll()
    kernel.add(e.instance, e.reader, IN)
    return e


# A loop that gives up after 5 ms and closes its end, while its peer still writes.
def gives_up_example(is_right):
    def loop(t, e):
        if (yield t.wait(e.instance, timeout=0.005)):
            yield t.read(e.reader, 8)
        elif not is_right:
            yield t.close(e.reader)

    def peer(t, e):
        for data in (b"a", b"b"):
            yield t.write(e.writer, data)

    return Example(watched_pipe, {"loop": loop, "peer": peer})


# A loop that reads what came, and does nothing about the end of the stream: it is told of that again and again.
def ignores_end_example(is_right):
    def loop(t, e):
        while True:
            ((bits, _),) = yield t.wait(e.instance, timeout=None)
            if bits & IN:
                yield t.read(e.reader, 8)
            elif is_right:
                return

    def peer(t, e):
        yield t.write(e.writer, b"a")
        yield t.close(e.writer)

    return Example(watched_pipe, {"loop": loop, "peer": peer}, most=100)


#: Each fault with what mends it, by name.
FAULTS = {
    "edge-triggered, reads once": (
        pipe_example(IN | ET, reads_once, 3), pipe_example(IN | ET, reads_all, 3)),
    "one-shot, never armed again": (
        pipe_example(IN | ONESHOT, reads_all, 3), pipe_example(IN | ONESHOT, reads_all_and_arms, 3)),
    "a herd, each sure of its job": (
        herd_example(IN, False, 2, 1), herd_example(IN, True, 2, 1)),
    "the same with EXCLUSIVE": (
        herd_example(IN | EXCLUSIVE, False, 2, 1), herd_example(IN | EXCLUSIVE, True, 2, 1)),
    "a pool whose stop is lost": (
        pool_example(False, 0), pool_example(True, 0)),
    "a proxy that hands the end on": (
        half_proxy_example(False), half_proxy_example(True)),
    "a flag that wakes nobody": (
        flag_example(False), flag_example(True)),
    "an end that is told for ever": (
        ignores_end_example(False), ignores_end_example(True)),
}


if __name__ == "__main__":
    for name, (faulty, right) in FAULTS.items():
        print(name)
        found = faulty.explore(raises=False)
        print(f"  faulty: order {found.runs}, {found.failure.order}: {found.failure.why}")
        print(f"  right:  {right.explore(raises=False)}")
