"""The plugin for pytest: what it keeps of tests that fail, and that it keeps nothing else.

    python3 -m unittest discover library/python/tests

Without pytest there is nothing to run, which is said.
"""

import os
import re
import subprocess
import sys
import tempfile
import unittest
from importlib.util import find_spec

sys.dont_write_bytecode = True
#: The folder that has the package.
FOLDER = os.path.dirname(os.path.dirname(os.path.abspath(__file__)))
sys.path.insert(0, FOLDER)

from nippersage import LIBRARY, Kernel

#: What a test file begins with.
HEAD = """\
import pytest
from nippersage import Kernel

def fill(kernel, rounds):
    reader, writer = kernel.pipe()
    for _ in range(rounds):
        kernel.write(writer, b"abc")
        kernel.read(reader, 3)

"""


class Plugin(unittest.TestCase):
    def setUp(self):
        room = tempfile.TemporaryDirectory()
        self.addCleanup(room.cleanup)
        self.room = room.name

    def run_tests(self, text, *words, **more):
        """What pytest says of a file of tests, and the files that are kept, without the mark of the test's name."""
        with open(os.path.join(self.room, "test_it.py"), "w") as file:
            file.write(HEAD + text)
        env = {**os.environ, "PYTHONPATH": FOLDER, "PYTHONDONTWRITEBYTECODE": "1", **more}
        if os.path.isfile(LIBRARY):
            env["NIPPERSAGE_LIB"] = os.path.abspath(LIBRARY)  # pytest runs in another folder
        words = ["-q", "-p", "nippersage.pytest_plugin", "-p", "no:cacheprovider", "--rootdir", self.room, *words]
        words = [sys.executable, "-m", "pytest", *words, self.room]
        said = subprocess.run(words, env=env, stdin=subprocess.DEVNULL, stdout=subprocess.PIPE, cwd=self.room)
        folder = os.path.join(self.room, "nippersage-failed")
        kept = sorted(os.listdir(folder)) if os.path.isdir(folder) else []
        return said.returncode, said.stdout.decode(), [re.sub(r"-[0-9a-f]{8}-", "-", it) for it in kept], folder

    def text(self, folder, ending):
        (name,) = [it for it in os.listdir(folder) if it.endswith(ending)]
        with open(os.path.join(folder, name)) as file:
            return name, file.read()

    def test_a_failed_test(self):
        """Its history is that of the same calls here, also after the kernel's end, and its picture is drawn of that."""
        status, said, kept, folder = self.run_tests(
            "def test_fails():\n    with Kernel() as kernel:\n        fill(kernel, 2)\n        assert False\n\n"
            "def test_passes():\n    fill(Kernel(), 1)\n"
        )
        self.assertEqual((status, kept), (1, ["test_it.py-test_fails-1.history", "test_it.py-test_fails-1.svg"]))
        with Kernel() as kernel:
            reader, writer = kernel.pipe()
            for _ in range(2):
                kernel.write(writer, b"abc")
                kernel.read(reader, 3)
            self.assertEqual(self.text(folder, ".history")[1], kernel.history())
        name, picture = self.text(folder, ".svg")
        self.assertTrue(picture.endswith("</svg>\n"))
        self.assertEqual(picture.count("write 4: 3"), 2)
        for it in (name, name.replace(".svg", ".history")):
            self.assertIn(os.path.join(folder, it), said)
        self.assertIn("(5 records)", said)
        self.assertIn("1 failed, 1 passed", said)

    def test_a_fixture_that_fails(self):
        status, said, kept, _ = self.run_tests(
            "@pytest.fixture\ndef full():\n    kernel = Kernel()\n    fill(kernel, 1)\n    raise ValueError\n\n"
            "def test_it(full):\n    pass\n"
        )
        self.assertEqual((status, len(kept)), (1, 2), said)

    def test_many_kernels(self):
        """The last eight have files, and two tests of like names have files of their own."""
        status, _, kept, folder = self.run_tests(
            "@pytest.mark.parametrize('word', ['a/b', 'a:b'])\ndef test_many(word):\n"
            "    for rounds in range(9):\n        fill(Kernel(), rounds)\n    assert False\n"
        )
        self.assertEqual((status, len(kept)), (1, 2 * 2 * 8))
        histories = [it for it in os.listdir(folder) if it.endswith("-1.history")]
        for it in histories:
            with open(os.path.join(folder, it)) as file:
                self.assertEqual(len(file.readlines()), 1 + 2 * 1)
        self.assertEqual(len(histories), 2)

    def test_a_long_history(self):
        """The picture has the last 400 records."""
        _, said, kept, folder = self.run_tests("def test_long():\n    fill(Kernel(), 300)\n    assert False\n")
        self.assertEqual(len(kept), 2, said)
        self.assertIn("(601 records)", said)
        self.assertIn("(from record 202 on)", said)
        self.assertEqual(self.text(folder, ".svg")[1].count("write 4: 3"), 200)

    def test_a_program(self):
        """A kernel that is a program has no history here, which is told, and the other one has its own."""
        _, said, kept, _ = self.run_tests(
            "def test_fails():\n    with Kernel(program='cat'):\n        fill(Kernel(), 1)\n        assert False\n"
        )
        self.assertEqual(kept, ["test_it.py-test_fails-2.history", "test_it.py-test_fails-2.svg"], said)
        self.assertIn("kernel 1: nothing is kept: ", said)

    def test_nothing_to_keep(self):
        fails = "def test_fails():\n    fill(Kernel(), 1)\n    assert False\n"
        for text, words in (("def test_fails():\n    assert False\n", ()), (fails, ("--nippersage-keep=",))):
            status, said, kept, _ = self.run_tests(text, *words)
            self.assertEqual((status, kept), (1, []))
            self.assertNotIn("Nippersage", said)

    def test_another_folder(self):
        _, said, kept, _ = self.run_tests(
            "def test_fails():\n    fill(Kernel(), 1)\n    assert False\n", "--nippersage-keep=else/where"
        )
        self.assertEqual(kept, [])
        self.assertEqual(len(os.listdir(os.path.join(self.room, "else", "where"))), 2, said)

    def test_without_a_timeline(self):
        status, said, kept, _ = self.run_tests(
            "def test_fails():\n    fill(Kernel(), 1)\n    assert False\n", NIPPERSAGE_TIMELINE=""
        )
        self.assertEqual((status, kept), (1, ["test_it.py-test_fails-1.history"]))
        self.assertIn("no picture: ", said)


def load_tests(loader, tests, pattern):
    """Only with pytest and the library there is something to run."""
    lacking = [name for name, there in (("pytest", find_spec("pytest")), ("library", LIBRARY)) if not there]
    if lacking:
        print(f"there is no {' and no '.join(lacking)}, so the plugin for pytest was not run", file=sys.stderr)
        return unittest.TestSuite()
    return tests


if __name__ == "__main__":
    unittest.main()
