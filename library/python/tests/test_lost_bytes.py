"""What lost_bytes.py prints, against a model of the two right loops that knows no kernel, and orders worked out by hand.

    python3 library/python/tests/test_lost_bytes.py
"""

import os
import subprocess
import sys
import unittest

sys.dont_write_bytecode = True
FOLDER = os.path.dirname(os.path.dirname(os.path.abspath(__file__)))
sys.path.insert(0, FOLDER)

from nippersage import LIBRARY

WRITES = 3

#: Three writes before the loop's turn are one report, so one of three messages is read. And a one-shot that isn't armed
#: again sleeps beside what is written after its first report; the wait, two reads and the next wait are its four turns.
EXPECTED = """edge-triggered, reads once (faulty)
  peer*3 loop*3: asleep beside data: loop at 5: fd 3 shows IN, registered IN|ET, reported to loop in turn 4
edge-triggered, reads until EAGAIN (right)
  none of all {edge} orders hangs
one-shot, not armed again (faulty)
  peer loop*4 peer*2: asleep beside data: loop at 5: fd 3 shows IN, registered IN|ONESHOT, not armed, reported to \
loop in turn 2
one-shot, armed again by MOD (right)
  none of all {shot} orders hangs
"""


def count(arms, writes, unread, listed, at):
    """How many orders there are from here. `listed` is whether a wait looks at the pipe, which it reports if it shows
    IN, and `at` what the loop does next."""
    ways = []
    if writes > 0:
        ways.append((writes - 1, unread + 1, listed or at != "arms", at))
    if at != "asleep" or (listed and unread > 0):
        ways.append((writes, *turn(arms, unread, listed, at)))
    return sum(count(arms, *way) for way in ways) or 1


def turn(arms, unread, listed, at):
    """A turn of a loop that reads until EAGAIN, and then arms a one-shot or waits again."""
    if at in ("waits", "asleep"):
        return unread, False, "reads" if listed and unread > 0 else "asleep"
    if at == "arms":
        return unread, unread > 0, "waits"
    if unread > 0:
        return unread - 1, listed, "reads"
    return unread, listed, "arms" if arms else "waits"


@unittest.skipUnless(LIBRARY, "there is no library")
class LostBytes(unittest.TestCase):
    def test_here(self):
        edge, shot = (count(arms, WRITES, 0, False, "waits") for arms in (False, True))
        words = [sys.executable, "-B", os.path.join(FOLDER, "examples", "lost_bytes.py")]
        told = subprocess.run(words, env={**os.environ, "PYTHONPATH": FOLDER}, stdout=subprocess.PIPE)
        self.assertEqual(told.stdout.decode(), EXPECTED.format(edge=edge, shot=shot))
        self.assertEqual(told.returncode, 0)


if __name__ == "__main__":
    unittest.main()
