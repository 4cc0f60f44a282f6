"""`Selector`, against what the standard library says of selectors, and its example.

    python3 -m unittest discover library/python/tests
"""

import errno
import os
import subprocess
import sys
import unittest
from selectors import EVENT_READ, EVENT_WRITE, BaseSelector

sys.dont_write_bytecode = True
#: The folder that has the package.
FOLDER = os.path.dirname(os.path.dirname(os.path.abspath(__file__)))
sys.path.insert(0, FOLDER)

from nippersage import LIBRARY, Kernel, Selector

BOTH = EVENT_READ | EVENT_WRITE


class Pipe:
    """What has a descriptor."""

    def __init__(self, number):
        self.number = number

    def fileno(self):
        return self.number


@unittest.skipUnless(LIBRARY, "there is no library")
class Selectors(unittest.TestCase):
    def setUp(self):
        self.kernel = Kernel()
        self.addCleanup(self.kernel.end)
        self.selector = Selector(self.kernel)
        self.reader, self.writer = self.kernel.pipe()

    def ready(self, timeout=0):
        return [(key.fileobj, events) for key, events in self.selector.select(timeout)]

    def test_reads_and_writes(self):
        self.assertIsInstance(self.selector, BaseSelector)
        left, right = self.kernel.socketpair()
        key = self.selector.register(left, BOTH, "left")
        self.assertEqual((key.fileobj, key.fd, key.events, key.data), (left, left, BOTH, "left"))
        self.assertEqual(self.ready(), [(left, EVENT_WRITE)])
        self.kernel.write(right, b"a")
        self.assertEqual(self.ready(), [(left, BOTH)])
        self.assertEqual(self.ready(), [(left, BOTH)])  # level-triggered
        self.selector.modify(left, EVENT_READ, "now")
        ((key, events),) = self.selector.select()
        self.assertEqual((key.data, events), ("now", EVENT_READ))
        self.kernel.read(left, 1)
        self.assertEqual(self.ready(), [])
        self.assertEqual(self.selector.unregister(left).data, "now")
        self.kernel.write(right, b"a")
        self.assertEqual(self.ready(), [])

    def test_an_end(self):
        """Of a pipe whose other end is closed the reader reads, and the writer is told by a write."""
        self.selector.register(self.reader, EVENT_READ)
        self.kernel.close(self.writer)
        self.assertEqual(self.ready(), [(self.reader, EVENT_READ)])
        reader, writer = self.kernel.pipe()
        self.kernel.fill(writer, 0, 65_536)
        self.selector.register(writer, EVENT_WRITE)
        self.kernel.close(reader)
        self.assertIn((writer, EVENT_WRITE), self.ready())

    def test_timeouts(self):
        for timeout, now in ((3_600, 3_600), (0.25, 3_600.25), (0, 3_600.25), (-1, 3_600.25)):
            self.assertEqual(self.ready(timeout), [])
            self.assertEqual(self.kernel.now(), now)
        timer = self.kernel.timerfd()
        self.kernel.settime(timer, 10)
        self.selector.register(timer, EVENT_READ)
        self.assertEqual(self.ready(None), [(timer, EVENT_READ)])
        self.assertEqual(self.kernel.now(), 3_610.25)

    def test_a_wait_that_nothing_ends(self):
        self.selector.register(self.reader, EVENT_READ)
        with self.assertRaises(OSError) as caught:
            self.selector.select()
        self.assertEqual(caught.exception.errno, errno.EDEADLK)

    def test_objects(self):
        pipe = Pipe(self.reader)
        self.selector.register(pipe, EVENT_READ, 7)
        self.kernel.write(self.writer, b"a")
        self.assertEqual(self.ready(), [(pipe, EVENT_READ)])
        keys = self.selector.get_map()
        self.assertEqual((len(keys), list(keys)), (1, [pipe]))
        self.assertIs(keys[pipe], keys[self.reader])
        self.assertEqual(self.selector.get_key(pipe).data, 7)
        self.assertNotIn(self.writer, keys)

    def test_refusals(self):
        self.selector.register(self.reader, EVENT_READ)
        for call, words, kind in (
            (self.selector.register, (self.reader, EVENT_READ), KeyError),
            (self.selector.register, (self.writer, 0), ValueError),
            (self.selector.register, (self.writer, 4), ValueError),
            (self.selector.register, ("a", EVENT_READ), ValueError),
            (self.selector.register, (-1, EVENT_READ), ValueError),
            (self.selector.register, (99, EVENT_READ), OSError),
            (self.selector.register, (self.kernel.plain(), EVENT_READ), PermissionError),
            (self.selector.unregister, (self.writer,), KeyError),
            (self.selector.modify, (self.writer, EVENT_READ), KeyError),
            (self.selector.modify, (self.reader, 0), ValueError),
            (self.selector.get_key, (self.writer,), KeyError),
        ):
            with self.assertRaises(kind):
                call(*words)
        self.assertEqual(list(self.selector.get_map()), [self.reader])

    def test_a_descriptor_that_was_closed(self):
        self.selector.register(self.reader, EVENT_READ)
        self.kernel.close(self.reader)
        self.assertEqual(self.selector.unregister(self.reader).fd, self.reader)
        self.assertEqual(self.kernel.pipe()[0], self.reader)
        self.selector.register(self.reader, EVENT_READ)

    def test_the_end(self):
        with self.selector as selector:
            instance = selector.fileno()
            selector.register(self.reader, EVENT_READ)
        selector.close()
        self.assertIsNone(selector.get_map())
        with self.assertRaises(RuntimeError):
            selector.get_key(self.reader)
        with self.assertRaises(OSError):
            self.kernel.wait(instance)

    def test_the_example(self):
        words = [sys.executable, "-B", os.path.join(FOLDER, "examples", "selector_loop.py")]
        told = subprocess.run(words, env={**os.environ, "PYTHONPATH": FOLDER}, stdout=subprocess.PIPE)
        self.assertEqual(told.stdout.decode(), "    60 s  answered ping\n  3600 s  gives up\n")
        self.assertEqual(told.returncode, 0)


if __name__ == "__main__":
    unittest.main()
