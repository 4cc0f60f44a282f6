"""Runs the programs that README.md and docs/clients.md show: each block that begins with ```python or ```c.

Each is a whole program, but for C without a `main`, which gets one and its headers. They run
in an empty folder with `./epsim` and `./epaudit` in it, as they would at the top of the repository.
"""

import os
import re
import shlex
import subprocess
import sys
import tempfile
import unittest

sys.dont_write_bytecode = True

from nippersage import AUDITOR, PROGRAM

HERE = os.path.dirname(os.path.abspath(__file__))
AROUND = """#define _GNU_SOURCE
#include "nippersage_client.h"
#include <assert.h>
#include <errno.h>
int main(void) {
%s
return 0;
}
"""


def blocks(page, language):
    """The texts of the blocks of this language."""
    with open(page) as text:
        return re.findall(rf"^```{language}\n(.*?)^```$", text.read(), re.M | re.S)


class Page:
    """The tests of one page, `page`, which its subclass names."""

    def setUp(self):
        room = tempfile.TemporaryDirectory()
        self.addCleanup(room.cleanup)
        self.room = room.name
        for name, program in ("epsim", PROGRAM), ("epaudit", AUDITOR):
            path = os.path.join(self.room, name)
            with open(path, "w") as script:
                script.write(f'#!/bin/sh\nexec {shlex.quote(os.path.abspath(program))} "$@"\n')
            os.chmod(path, 0o755)

    def run_words(self, *words):
        told = subprocess.run(words, cwd=self.room, env={**os.environ, "PYTHONPATH": HERE})
        self.assertEqual(told.returncode, 0)

    def programs(self, language):
        found = blocks(os.path.join(HERE, os.pardir, self.page), language)
        self.assertTrue(found)
        return found

    def test_python(self):
        for program in self.programs("python"):
            self.run_words(sys.executable, "-B", "-c", program)

    def test_c(self):
        for program in self.programs("c"):
            with open(os.path.join(self.room, "page.c"), "w") as text:
                text.write(program if "int main" in program else AROUND % program)
            words = ["-std=c11", "-Wall", "-Wextra", "-Werror", "-I", HERE, "-o", "page", "page.c"]
            self.run_words(os.environ.get("CC", "cc"), *words)
            self.run_words("./page")


class Readme(Page, unittest.TestCase):
    page = "README.md"


class ClientsPage(Page, unittest.TestCase):
    page = os.path.join("docs", "clients.md")


if __name__ == "__main__":
    unittest.main()
