"""The parts of ./test: what each runs, and which of its tests failed. Nothing here proves anything."""

import contextlib
import itertools
import os
import re
import shutil
import signal
import subprocess
import tempfile
from dataclasses import dataclass, field
from pathlib import Path

TOP = Path(__file__).resolve().parent.parent
CRATES, TESTS = TOP / "crates", TOP / "tests"
DATA = TESTS / "ep_examples" / "data"
#: The programs that a user runs. The tests of the clients run them too, and a release has them.
PROGRAMS = ("epsim", "epaudit")
#: The program of tests/ that docs/embedding.md shows. It has no words, and a file with what it writes.
EMBEDDING = "ep_embed"
#: The programs that run for seconds only, so that a better code of them would not pay.
QUICK = ("ep_examples", EMBEDDING)
#: The parts that wait most of their time, for sleeps on the machine's kernel: others run as if these did not.
WAITING = ("preload",)
#: What a build of the library is called among the builds.
LIBRARY = "library"
VERSION = (TOP / "VERSION").read_text().strip()
#: The most seconds that one test of a crate may take: enough on a machine that is busy.
SECONDS = 600
#: How many characters of a line are told of what is not as it has to be.
TOLD = 160
#: Of the requests for memory each so many is refused in `sweep`, and each in `sweep_all`.
REFUSED_EACH = 10
#: How often contrib/preload/check runs a program of threads or signals again, if RUNS doesn't say it.
RUNS = 2
#: How many random scripts of a kind contrib/exclusive_oracle.py judges on a kernel.
ORACLE_SEEDS = 100
#: The scripts of the repository that test something, with their words: each counts in its last line.
SCRIPTS = {
    "compare": ["gate/compare"],
    "timeline": ["contrib/timeline/check"],
    "pictures": ["docs/pictures/draw", "--check"],
}
#: The folders whose script `check` tests the library and the shim.
CHECKED = {"library": "library", "preload": "contrib/preload"}
#: The kernels, with the words that have the program epsim take one.
KERNELS = {"PlainKernel": ["--plain"], "ReadyKernel": []}


@dataclass
class Result:
    """How many tests of a part passed, which failed, by the names that ./test takes, and what was written."""

    passed: int = 0
    failed: list = field(default_factory=list)
    said: str = ""


@dataclass
class Part:
    """A part: what runs it, and the builds that it needs."""

    run: object
    needs: tuple = ()


def names_of(file):
    """The names of the crates that this file lists."""
    lines = (it.split("#")[0] for it in file.read_text().splitlines())
    return [it.split(":")[0].split()[0] for it in lines if ":" in it]


def tested():
    """The crates of tests."""
    return [it for it in names_of(TESTS / "list.txt") if it.endswith("_tests")]


def measured():
    """The programs of tests/ that bench/ runs, too. These have words, and a file with what they write then."""
    return [it for it in names_of(TESTS / "list.txt") if (TESTS / it / "args").is_file()]


def programs():
    """The programs that ./test doesn't run by itself: on one input, with a file that has what they write then."""
    named = [it for it in names_of(TOP / "crates.txt") if it not in PROGRAMS]
    proved = [it for it in named if (CRATES / it / "stdout").is_file() and (CRATES / it / "src/main.rt").is_file()]
    return [*proved, *measured()]


def scripts():
    """The names of the scripts, with those of the files whose every line is one."""
    return sorted(it.stem for it in DATA.glob("*.answers"))


def shortened(line, place=0):
    """A line as it is told: of a long one what stands at a place."""
    if line is None or len(line) <= TOLD:
        return "nothing" if line is None else line
    start = max(0, min(place - TOLD // 4, len(line) - TOLD))
    return f"..{line[start : start + TOLD]}.. (from {start} on, of {len(line)})"


def difference(script, wanted, given):
    """Tells the first line that is not as it is wanted, and the line of the script that it answers, if there is one."""
    texts = (it.splitlines() for it in (script, wanted, given))
    for number, (asked, line, other) in enumerate(itertools.zip_longest(*texts), 1):
        if line != other:
            place = len(os.path.commonprefix([line or "", other or ""]))
            call = f": {shortened(asked)}" if script else ""
            return f"line {number}{call}\n    wanted: {shortened(line, place)}\n    given:  {shortened(other, place)}\n"
    return "" if wanted == given else "the end of the last line differs\n"


def is_script(name):
    return (DATA / f"{name}.jsonl").is_file()


def text_of(path):
    return path.read_text() if path.is_file() else ""


class Parts:
    """Runs the parts, with their files in one folder."""

    def __init__(self, room):
        self.room = Path(room)
        self.running = set()
        #: The builds that are there, by name: a program, or the folder of the library.
        self.built = {}

    def stop(self):
        for it in list(self.running):
            with contextlib.suppress(ProcessLookupError):
                os.killpg(it.pid, signal.SIGTERM)

    def run(self, name, words, given=b"", folder=TOP, **more):
        """Runs a command: its status, its output and what it wrote on standard error. Its environment has `more`."""
        room = self.room / f"{name}.files"
        room.mkdir(exist_ok=True)
        how = {"cwd": folder, "start_new_session": True}
        how["env"] = {**os.environ, "TMPDIR": str(room), **more}
        pipes = dict.fromkeys(("stdin", "stdout", "stderr"), subprocess.PIPE)
        with subprocess.Popen(words, **how, **pipes) as it:
            self.running.add(it)
            out, said = it.communicate(given)
            self.running.discard(it)
        return it.returncode, out.decode(errors="replace"), said.decode(errors="replace")

    def build(self, name):
        """Builds a program, the tests of a crate or the library without a proof: what was said if that fails. What
        bench/ runs is taken as bench/program left it, if its sources are older."""
        out = self.room / f"{name}.built"
        if name == LIBRARY:
            out.mkdir()
            status, *said = self.run(name, [TOP / "library/build", "--unproved"], OUT=str(out))
        elif name in measured():
            status, *said = self.run(name, [TOP / "bench/program", name])
            out = Path(said.pop(0).rstrip("\n"))
        else:
            how = "--test" if name in tested() else "--quick" if name in QUICK else None
            words = [how, name, out] if how else [name, out]
            status, *said = self.run(name, [TOP / "scripts/unproved", *words])
        if status == 0:
            self.built[name] = out
        return "" if status == 0 else "".join(said)

    def tests(self, name, word=""):
        """The tests of a crate, those alone whose names have the word."""
        runner = Path(shutil.which("rt")).resolve().parent / "rattle-test"
        words = ["--seconds", str(SECONDS), *(["--filter", word] if word else [])]
        status, out, said = self.run(name, [runner, *words, self.built[name]])
        said = out + said
        found = re.findall(r"^test (\S+) \.\.\. (.*)$", said, re.M)
        failed = [f"{name}::{test}" for test, how in found if how != "ok"]
        passed = len(found) - len(failed)
        is_well = status == 0 and passed and re.search(r"^test result: ok\. ", said, re.M)
        return Result(passed, failed if failed or is_well else [name], said)

    def program(self, name):
        """A program, whose output and status have to be as its files stdout and status say."""
        folder = next(it / name for it in (CRATES, TESTS) if (it / name).is_dir())
        words, wanted, status = (text_of(folder / it) for it in ("args", "stdout", "status"))
        given = text_of(folder / "stdin").encode()
        ended, out, said = self.run(name, [self.built[name], *words.splitlines()], given)
        if ended == int(status.strip() or 0) and out == wanted:
            return Result(1)
        told = difference("", wanted, out)
        return Result(0, [name], f"{said}status {ended}; beside {folder.relative_to(TOP)}/stdout:\n{told}")

    def examples(self, names):
        """Scripts, and what else their files say, on both kernels by the program ep_examples."""
        folder = Path(tempfile.mkdtemp(prefix="examples-", dir=self.room))
        for it in DATA.iterdir():
            if it.stem in names:
                shutil.copy(it, folder)
        status, out, said = self.run("ep_examples", [self.built["ep_examples"]], folder=folder)
        result, kernels, differing = Result(said=said + out), [], []
        for line in out.splitlines():
            ended = re.fullmatch(rf"(\w+): {len(names)} examples, {len(differing)} differ", line)
            if ended:
                kernels.append(ended[1])
                result.passed += len(names) - len(differing)
                result.failed += differing
                differing = []
            elif named := re.match(r"(\w+): ", line):
                differing.append(named[1])
        if status or sorted(kernels) != sorted(KERNELS) or differing:
            result.failed.append("ep_examples")
        return result

    def cases(self, names):
        """Scripts, on both kernels by the program epsim, and the version that it tells."""
        result = self.version("epsim")
        for name in names:
            given, wanted = ((DATA / f"{name}.{it}").read_bytes() for it in ("jsonl", "answers"))
            limits = text_of(DATA / f"{name}.limits").strip()
            for kernel, words in KERNELS.items():
                words = [self.built["epsim"], *words, *(["--limits", limits] if limits else [])]
                status, out, said = self.run("epsim", words, given)
                if status == 0 and out == wanted.decode():
                    result.passed += 1
                else:
                    result.failed.append(name)
                    told = difference(given.decode(errors="replace"), wanted.decode(), out)
                    result.said += f"{name} on {kernel}: status {status}\n{said}{told}"
        return result

    def audits(self):
        """The program epaudit on its own input, and the version that it tells."""
        result = self.version("epaudit")
        other = self.program("epaudit")
        return Result(result.passed + other.passed, result.failed + other.failed, result.said + other.said)

    def version(self, name):
        """Whether a program that wasn't proved says so."""
        status, out, said = self.run(name, [self.built[name], "--version"])
        if (status, out) == (0, f"{name} {VERSION}\nunproved\n"):
            return Result(1)
        return Result(0, [name], f"--version: status {status}\n{said}{out}")

    def script(self, name):
        """A script of the repository that tests something."""
        path, *words = SCRIPTS[name]
        return self.counted(name, [TOP / path, *words])

    def clients(self):
        return self.counted("clients", [TOP / "clients/check", *(self.built[it] for it in PROGRAMS)])

    def replay(self):
        """Histories played again: of scripts, of threads over the library, and of a program over the shim."""
        return self.counted("replay", [TOP / "contrib/replay/check", self.built["epsim"], self.built[LIBRARY]])

    def streams(self):
        return self.counted("streams", [TOP / "gate/streams", self.built["epsim"]])

    def oracle(self):
        """Random scripts with exclusive registrations, of both kinds on both kernels, by rules told once more."""
        result = Result()
        for kernel, kind in itertools.product(KERNELS.values(), ([], ["--general"])):
            words = [TOP / "contrib/exclusive_oracle.py", *kernel, *kind, self.built["epsim"], str(ORACLE_SEEDS)]
            found = self.counted("oracle", words)
            result = Result(result.passed + found.passed, result.failed + found.failed, result.said + found.said)
        return result

    def release(self):
        """A release of these programs and an unproved library, unpacked and used by somebody who has nothing else."""
        parts = self.room / "parts"
        shutil.copytree(self.built[LIBRARY], parts)
        for name in PROGRAMS:
            shutil.copy(self.built[name], parts / name)
        status, out, said = self.run("release", [TOP / "scripts/package", self.room], PARTS=str(parts))
        if status:
            return Result(0, ["release"], said + out)
        return self.counted("release", [TOP / "library/test_package", out.split()[-1]])

    def checked(self, name):
        """What the script `check` of a folder comes to, in a copy of it with an unproved library and shim."""
        copy = self.room / f"{name}.copy"
        shutil.copytree(TOP / CHECKED[name], copy, ignore=shutil.ignore_patterns("out", "target", "__pycache__"))
        (copy / "out").symlink_to(self.built[LIBRARY])
        how = {"RUNS": os.environ.get("RUNS", str(RUNS)), "EPAUDIT": str(self.built["epaudit"])}
        return self.counted(name, [copy / "check"], **how)

    def sweep(self, name):
        """The programs and the library with requests for memory refused, and steps of the kernels with them all."""
        words = ["--library", self.built[LIBRARY] / "libnippersage.a"]
        is_whole = name == "sweep_all"
        words += ["--steps", self.built["ep_sweep"]] if is_whole else ["--each", str(REFUSED_EACH)]
        return self.counted(name, [TOP / "gate/sweep", *words, *(self.built[it] for it in PROGRAMS)])

    def counted(self, name, words, **more):
        """A script of the repository whose last line is `N passed, N failed`, maybe with how many it skipped."""
        status, out, said = self.run(name, words, **more)
        counts = re.search(r"^(\d+) passed, (\d+) failed(?:, \d+ skipped)?\n\Z", out, re.M)
        passed, failed = (int(counts[1]), int(counts[2])) if counts else (0, 1)
        return Result(passed, [name] * max(failed, status != 0), said + out)

    def by_name(self):
        """The parts that have a name of their own, but for single scripts and tests: the longest first, with the builds
        that only they need."""
        both = (LIBRARY, *PROGRAMS)
        return {
            "preload": Part(lambda: self.checked("preload"), (LIBRARY, "epaudit")),
            "sweep_all": Part(lambda: self.sweep("sweep_all"), (*both, "ep_sweep")),
            "release": Part(self.release, both),
            **{it: Part(lambda it=it: self.tests(it), (it,)) for it in tested()},
            "ep_examples": Part(lambda: self.examples(scripts()), ("ep_examples",)),
            **{it: Part(lambda it=it: self.program(it), (it,)) for it in (EMBEDDING, *programs())},
            "library": Part(lambda: self.checked("library"), (LIBRARY, "epaudit")),
            "replay": Part(self.replay, ("epsim", LIBRARY)),
            "sweep": Part(lambda: self.sweep("sweep"), both),
            **{it: Part(lambda it=it: self.script(it)) for it in SCRIPTS},
            "oracle": Part(self.oracle, ("epsim",)),
            "clients": Part(self.clients, PROGRAMS),
            "streams": Part(self.streams, ("epsim",)),
            "epsim": Part(lambda: self.cases([it for it in scripts() if is_script(it)]), ("epsim",)),
            "epaudit": Part(self.audits, ("epaudit",)),
        }

    def named(self, word):
        """The parts that a word names, by their names."""
        crate, colons, test = word.partition("::")
        known = self.by_name()
        if word in known:
            return {word: known[word]}
        if crate in tested() and colons:
            return {word: Part(lambda: self.tests(crate, test), (crate,))}
        if word not in scripts():
            raise LookupError(word)
        found = {f"{word} by ep_examples": Part(lambda: self.examples([word]), ("ep_examples",))}
        if is_script(word):
            found[f"{word} by epsim"] = Part(lambda: self.cases([word]), ("epsim",))
        return found
