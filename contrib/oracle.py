"""What the oracles of this folder share: the words of their commands, the runs of epsim, and what is told of them."""

import argparse
import json
import os
import subprocess
import sys
import tempfile
from typing import Callable, NamedTuple

#: How many failed scripts are told, and how long a run may take.
TOLD, SECONDS = 3, 600


class Wrong(Exception):
    """What is wrong with an answer, or with a run."""


class Judge:
    """Judges the answers to one script."""

    def step(self, line, answer):
        """Looks at the answer to the next line. Raises Wrong."""
        raise NotImplementedError

    def end(self):
        """Gives back what the machine lent it."""


class Oracle(NamedTuple):
    """What one oracle has of its own."""

    #: Its help, and its options that take no value.
    page: str
    flags: tuple
    #: Of the words of a run: what its scripts are called, script N as a list of lines, and a new judge.
    kind: Callable
    script: Callable
    judge: Callable


# ---- The runs ----


def run(words, lines, room):
    """The answers of epsim to a script. Wrong, if it or the audit ends otherwise than it should."""
    history = os.path.join(room, "history")
    asks = [words.epsim, *["--plain"] * words.plain, *(["--history", history] if words.audit else [])]
    given = "".join(f"{json.dumps(it)}\n" for it in lines).encode()
    try:
        ran = subprocess.run(asks, input=given, capture_output=True, timeout=SECONDS)
    except subprocess.TimeoutExpired:
        raise Wrong(f"epsim took more than {SECONDS} s")
    if ran.returncode or ran.stderr:
        raise Wrong(f"epsim ended with {ran.returncode}: {ran.stderr.decode(errors='replace').strip()}")
    if words.audit:
        with open(history, "rb") as records:
            judged = subprocess.run([words.audit], stdin=records, capture_output=True)
        if judged.returncode:
            said = (judged.stdout + judged.stderr).decode(errors="replace").strip()
            raise Wrong(f"epaudit ended with {judged.returncode}: {said}")
    answers = ran.stdout.decode(errors="replace").splitlines()
    if len(answers) != len(lines):
        raise Wrong(f"{len(lines)} lines have {len(answers)} answers")
    return answers


def fault_of(own, words, lines, room):
    """What is wrong in the run of a script, or None."""
    try:
        answers = run(words, lines, room)
    except Wrong as wrong:
        return str(wrong)
    judge = own.judge(words)
    try:
        for number, (line, answer) in enumerate(zip(lines, answers), 1):
            try:
                judge.step(line, json.loads(answer))
            except (Wrong, ValueError, TypeError) as wrong:
                # Of the last two is an answer that is no JSON, or no answer.
                return f"line {number}: {json.dumps(line)} is answered {answer}; {wrong}"
    finally:
        judge.end()
    return None


def keep(own, words, number, lines):
    with open(os.path.join(words.keep, f"{own.kind(words)}-{words.seed}-{number}.jsonl"), "w") as file:
        file.writelines(f"{json.dumps(it)}\n" for it in lines)


def run_all(own, words, name):
    """Runs the scripts and tells which failed: how many did."""
    count, failed = 0, 0
    with tempfile.TemporaryDirectory(prefix=f"{name}-") as room:
        for number in range(words.first, words.first + words.count):
            lines = own.script(words, number)
            count += len(lines)
            fault = fault_of(own, words, lines, room)
            if fault is None:
                continue
            failed += 1
            if failed <= TOLD:
                print(f"script {number}: {fault}", flush=True)
            if words.keep:
                keep(own, words, number, lines)
    print(f"{count} lines", f"{words.count - failed} passed, {failed} failed", sep="\n")
    return failed


# ---- The command ----


def whole(text):
    if not (text.isascii() and text.isdigit()):
        raise argparse.ArgumentTypeError(f"{text!r} is no whole number")
    return int(text)


def read_words(own):
    top = argparse.ArgumentParser(usage=own.page.split("usage: ")[1].split("\n\n")[0], add_help=False)
    top.add_argument("epsim", nargs="?")
    top.add_argument("count", nargs="?", type=whole)
    for it in (*own.flags, "--plain", "--print", "--help", "-h"):
        top.add_argument(it, action="store_true")
    top.add_argument("--seed", default="1")
    top.add_argument("--first", type=whole, default=0)
    top.add_argument("--audit")
    top.add_argument("--keep")
    words = top.parse_args()
    if not (words.print or words.help or words.h) and words.count is None:
        top.error("EPSIM and COUNT are missing")
    return words


def main(own):
    """The command of an oracle: its status."""
    words, name = read_words(own), os.path.splitext(os.path.basename(sys.argv[0]))[0]
    if words.help or words.h:
        print(own.page.strip())
        return 0
    if words.print:
        print(*map(json.dumps, own.script(words, words.first)), sep="\n")
        return 0
    try:
        return 1 if run_all(own, words, name) else 0
    except OSError as fault:
        print(f"{name}: {fault}", file=sys.stderr)
        return 2
