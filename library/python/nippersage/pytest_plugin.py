"""A plugin for pytest: of a test that fails it keeps the histories of its kernels, and draws each as a picture.

    python3 -m pytest -p nippersage.pytest_plugin

`-p` isn't needed if pip installed the package. The files are in the folder `nippersage-failed` beside pytest's ini
file, or in that of `--nippersage-keep=FOLDER`, and the report of the test names them. The pictures are drawn by
`contrib/timeline/timeline`, that of the release or repository, or the one that `NIPPERSAGE_TIMELINE` names.
"""

from __future__ import annotations

import os
import re
import subprocess
import sys
import zlib
from collections import deque
from typing import Any, Deque, Iterator, List

import pytest

from . import _kernel
from ._kernel import Kernel

#: Of how many kernels of a test the histories are kept: those that were made last.
MOST_KEPT = 8
#: The most records that a picture has: the last ones of the history.
_MOST_DRAWN = 400
#: The most letters of a test's name in that of a file.
_LONGEST_NAME = 100
_HERE = os.path.dirname(os.path.abspath(__file__))

#: The kernels that were made since the test that runs began.
_made: Deque[Kernel] = deque(maxlen=MOST_KEPT)


def pytest_addoption(parser: Any) -> None:
    parser.getgroup("nippersage").addoption(
        "--nippersage-keep", metavar="FOLDER", default="nippersage-failed",
        help="where the histories and pictures of tests that fail go, from the root folder on; none are kept if empty",
    )


def pytest_configure(config: Any) -> None:
    if config.getoption("--nippersage-keep") and _made.append not in _kernel.watchers:
        _kernel.watchers.append(_made.append)


def pytest_unconfigure() -> None:
    _made.clear()
    if _made.append in _kernel.watchers:
        _kernel.watchers.remove(_made.append)


@pytest.hookimpl(hookwrapper=True)
def pytest_runtest_protocol() -> Iterator[None]:
    _made.clear()
    yield
    _made.clear()


@pytest.hookimpl(hookwrapper=True)
def pytest_runtest_makereport(item: Any) -> Iterator[None]:
    outcome = yield
    report = outcome.get_result()
    if report.failed and _made:
        folder = os.path.join(str(item.config.rootpath), item.config.getoption("--nippersage-keep"))
        report.sections.append(("kernels of Nippersage", "\n".join(_keep(folder, item.nodeid, list(_made)))))


def _keep(folder: str, test: str, kernels: List[Kernel]) -> List[str]:
    """Writes the histories and pictures of a test, and tells where they are."""
    # Two tests whose names differ in a sign only have files of their own.
    name = f"{re.sub(r'[^A-Za-z0-9_.]+', '-', test)[-_LONGEST_NAME:].strip('-')}-{zlib.crc32(test.encode()):08x}"
    told = []
    for number, kernel in enumerate(kernels, 1):
        path = os.path.join(folder, f"{name}-{number}")
        try:
            os.makedirs(folder, exist_ok=True)
            told += _keep_one(path, kernel)
        except (OSError, NotImplementedError) as error:
            told.append(f"kernel {number}: nothing is kept: {error}")
    return told


def _keep_one(path: str, kernel: Kernel) -> List[str]:
    history = kernel._backend.last_history()
    with open(f"{path}.history", "w", encoding="ascii") as file:
        file.write(history)
    return [f"history: {path}.history ({history.count(chr(10))} records)", _draw(path, history.count("\n"))]


def _draw(path: str, records: int) -> str:
    """Draws a history, and tells where the picture is, or why there is none."""
    timeline = _timeline()
    if not timeline:
        return "no picture: there is no contrib/timeline/timeline, and NIPPERSAGE_TIMELINE names none"
    first = max(1, records - _MOST_DRAWN + 1)
    words = [sys.executable, timeline, "--from", str(first), f"{path}.history"]
    drawn = subprocess.run(words, stdin=subprocess.DEVNULL, stdout=subprocess.PIPE, stderr=subprocess.PIPE)
    if drawn.returncode:
        return f"no picture: {drawn.stderr.decode(errors='replace').strip()}"
    with open(f"{path}.svg", "wb") as file:
        file.write(drawn.stdout)
    return f"picture: {path}.svg" + (f" (from record {first} on)" if first > 1 else "")


def _timeline() -> str:
    """The script that draws: the one that is named, else that of the release or repository. Empty if there is none."""
    up, script = os.pardir, os.path.join("contrib", "timeline", "timeline")
    beside = (os.path.join(_HERE, up, up, script), os.path.join(_HERE, up, up, up, script))
    named = os.environ.get("NIPPERSAGE_TIMELINE")
    for path in beside if named is None else (named,):
        if os.path.isfile(path):
            return os.path.normpath(path)
    return ""
