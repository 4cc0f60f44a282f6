"""How scripts/check-edits tries edits, by the kit's rt, which is loaded as a module: where an edit is, which edits are
tried in one check, and what each comes to. The head of scripts/check-edits says what counts as refused."""
import collections
import functools
import importlib.machinery
import importlib.util
import os
import re
import shutil
import sys
import tempfile

import older_kit

# A failed goal, or an error in a proof, with its place; and what says only that something else failed.
FAILED = re.compile(r"(?:note: )?(?:\./)?((?:src|specs|proofs)/\S+?):(\d+):\d+: (?:error|it is not proved)")
OF_ANOTHER = re.compile(r"has no field|is not in scope|has no `|was not admitted")

# A type that a line declares.
DECLARED = re.compile(r"^(?:pub(?:\([^)]*\))? )?(?:struct|enum|union) (\w+)")

# How many edits are tried in one check at most: more save little, and leave processors idle.
MOST = 12

# A function of src/: its file, its first line, attributes included, those with the braces of its body, and its name.
# Lines are counted from 0.
Function = collections.namedtuple("Function", "file start first last name")


def lines_of(path):
    with open(path, encoding="utf-8") as file:
        return file.read().split("\n")


class Edit:
    """An edit: its file, what it makes of the crate's files or why it can't, and the function that it is in."""

    def __init__(self, rt, crate, path):
        self.crate, self.path = crate, path
        self.name = f"{crate.name}/{os.path.basename(path)[: -len('.edit')]}"
        self.texts, self.why = rt.read_edit(path, crate.folder)
        self.function = None if self.why else function_of(crate.folder, self.texts)


def owner_of(line):
    """Returns the name by which a check prints the impl or trait that begins in this line."""
    shorter = re.sub(r"<[^<>]*>", "", line)
    if shorter != line:
        return owner_of(shorter)
    names = [it.split("::")[-1] for it in re.findall(r"[\w:]+", line)]
    if "for" in names:
        at = names.index("for")
        return names[at + 1] + names[at - 1]
    return names[names.index("trait" if "trait" in names else "impl") + 1]


def module_of(path):
    """Returns the names of the module that a file of src/ is."""
    return [it for it in path[len("src/") : -len(".rt")].split("/") if it not in ("lib", "main", "mod")]


@functools.cache
def homes(folder):
    """Returns the module of each type that a crate declares, by its name."""
    found = {}
    for path in (os.path.relpath(f"{at}/{it}", folder) for at, _, names in os.walk(f"{folder}/src") for it in names):
        if path.endswith(".rt"):
            found |= {name: module_of(path) for line in lines_of(f"{folder}/{path}") for name in DECLARED.findall(line)}
    return found


def attributes_above(lines, number):
    """Returns the number of the first of the attributes that stand right above a line, or the line's own."""
    while number and re.match(r" *#\[", lines[number - 1]):
        number -= 1
    return number


def functions(folder, path, lines):
    """Gives the functions of a file of src/, which is laid out as rt fmt does it, but those by whose body more than
    their own goals may change: constant ones, those whose answer has a type that only the body says, and cycles.

    A type's own function is named after the file that declares the type, and one that a trait asks for after its own.
    """
    module, owner = module_of(path), []
    for number, line in enumerate(lines):
        if re.match(r"((pub(\([^)]*\))?|unsafe) )*(impl|trait)\b", line):
            name = owner_of(line)
            owner = [*(module if " for " in line else homes(folder).get(name, module)), name]
        elif line == "}":
            owner = []
        found = re.match(r"((?:    )?)(?:(?:pub(?:\([^)]*\))?|unsafe) )*fn (\w+)", line)
        if found and f"{found[1]}}}" in lines[number:]:
            last = lines.index(f"{found[1]}}}", number)
            opens = [it for it in range(number, last) if lines[it] == f"{found[1]}{{"]
            opens += [it for it in range(number, last) if lines[it].endswith("{")]
            has_type = "-> impl" not in "".join(lines[number : opens[0] + 1]) if opens else False
            if has_type and not any("#[cycle" in it for it in lines):
                name = "::".join([*(owner or module), found[2]])
                yield Function(path, attributes_above(lines, number), opens[0], last, name)


def function_of(folder, texts):
    """Returns the function in whose body alone these texts differ from the crate's files, or None."""
    path, text = next(iter(texts.items()))
    if len(texts) > 1 or not path.startswith("src/"):
        return None
    old, new = lines_of(f"{folder}/{path}"), text.split("\n")
    changed = [number for number, pair in enumerate(zip(old, new)) if pair[0] != pair[1]]
    is_around = lambda it: all(it.first < number < it.last for number in changed)
    return next(filter(is_around, functions(folder, path, old)), None) if len(old) == len(new) else None


def load_rt():
    """Returns the kit's rt as a module."""
    path = shutil.which("rt") or sys.exit("check-edits: there is no rt on the PATH")
    loader = importlib.machinery.SourceFileLoader("rt", os.path.realpath(path))
    rt = importlib.util.module_from_spec(importlib.util.spec_from_loader("rt", loader))
    sys.dont_write_bytecode = True
    loader.exec_module(rt)
    return older_kit.completed(rt)


def over_seed(rt, room, call):
    """Returns what the call gives for a copy of what a check of the crate as it stands kept."""
    over = tempfile.mkdtemp(prefix="over-", dir=room)
    try:
        rt.linked(f"{room}/seed", f"{over}/kept")
        return call(f"{over}/kept")
    finally:
        shutil.rmtree(over, ignore_errors=True)


def merged(folder, edits):
    """Returns the texts with all these edits, each of which changes lines of its own."""
    texts = {}
    for edit in edits:
        (path, text), = edit.texts.items()
        old = lines_of(f"{folder}/{path}")
        texts.setdefault(path, [*old])
        for number, line in enumerate(text.split("\n")):
            if line != old[number]:
                texts[path][number] = line
    return {path: "\n".join(lines) for path, lines in texts.items()}


def is_at(function, line):
    """Returns whether what a line of a check says has failed is a goal of the function."""
    path, number = FAILED.match(line).groups()
    is_inside = path == function.file and function.start < int(number) <= function.last + 1
    return is_inside or path.startswith(f"proofs/{function.name.replace('::', '/')}/")


def refused_in(edits, lines):
    """Returns those of the edits that one check of them all, with these lines, shows to be refused, or None if a goal
    failed anywhere else."""
    failed = [it for it in lines if FAILED.match(it) and not OF_ANOTHER.search(it)]
    if not all(any(is_at(edit.function, it) for edit in edits) for it in failed):
        return None
    unproved = {found[1] for it in lines for found in [re.match(r"fn (\S+): (?:no proof|not proved)", it)] if found}
    is_open = lambda edit: f"{edit.crate.name}::{edit.function.name}" in unproved
    return [edit for edit in edits if is_open(edit) and any(is_at(edit.function, it) for it in failed)]


def refused_together(rt, room, edits):
    """Returns those of the edits, of different functions, that one check of them all shows to be refused."""
    if len(edits) < 2:
        return []
    crate, texts = edits[0].crate, merged(edits[0].crate.folder, edits)
    ran = over_seed(rt, room, lambda kept: rt.checked(crate, texts, ["--jobs", "1"], kept))
    lines = ran.stdout.rstrip("\n").split("\n")
    is_judged = re.match(r"logic=(not-)?proved", lines[-1]) and not any(rt.unread(it, texts) for it in lines)
    refused = refused_in(edits, lines) if is_judged else None
    if refused is not None:
        return refused
    # One of them can't be compiled, say.
    half = len(edits) // 2
    return [*refused_together(rt, room, edits[:half]), *refused_together(rt, room, edits[half:])]


def try_alone(rt, room, edit):
    """Returns what a check with this edit comes to, as rt must-fail finds it, and what is said of it."""
    flags = ["--jobs", "1"]
    kind, said = over_seed(rt, room, lambda kept: rt.must_fail(edit.crate, edit.path, flags, kept))
    if kind not in rt.SETTLED:
        kind, said = rt.must_fail(edit.crate, edit.path, flags)
    why = re.sub(r"^.*?: (BAD EDIT|NOT TRIED): ", "", said, count=1, flags=re.S)
    by_names = " (only because a proof names what the edit took away)" if "because a proof file names" in said else ""
    return kind, {
        rt.REFUSED: f"refused{by_names}",
        rt.AT_LIMIT: "refused (only by a limit of the prover)",
        rt.MISSED: "NOT REFUSED",
        rt.BAD: f"BAD EDIT: {why}",
        rt.UNSURE: f"NOT TRIED: {why}",
    }[kind]


def try_group(rt, room, edits):
    """Prints and returns what each of the edits comes to, over the seed in the folder, if there is one."""
    together, kinds = refused_together(rt, room, edits) if room else [], []
    for edit in edits:
        kind, said = rt.UNSURE, "NOT TRIED: the crate isn't proved as it stands"
        if edit in together:
            kind, said = rt.REFUSED, "refused"
        elif room:
            kind, said = try_alone(rt, room, edit)
        print(f"{edit.name}: {said}\n", end="", flush=True)
        kinds.append(kind)
    return kinds


def grouped(edits):
    """Returns the edits in groups to be tried together: in each one edit of a function, and any other alone."""
    groups = []
    for edit in edits:
        taken = (None, edit.function)
        is_free = lambda it: len(it) < MOST and all(other.function not in taken for other in it)
        group = next(filter(is_free, groups), None) if edit.function else None
        if group is None:
            group = []
            groups.append(group)
        group.append(edit)
    return groups


class Tries:
    """The tries of a crate's edits, over what a check of the crate as it stands keeps: the seed."""

    def __init__(self, rt, crate):
        self.rt, self.crate, self.files = rt, crate, {}

    def seed(self, given, jobs):
        """Returns a folder with the seed, or None if the crate isn't proved."""
        start = f"{self.crate.folder}/out/incremental"
        room = self.rt.seeded(self.crate, ["--jobs", str(jobs)], start if os.path.isdir(start) else None)
        self.files = self.rt.listing(f"{room}/seed") if room else {}
        return room

    def end(self, given, jobs):
        """Removes the seed, and returns whether no try changed it, since those after that would count for nothing."""
        room = given[self.crate.name, "seed"]
        is_same = bool(room) and self.rt.listing(f"{room}/seed") == self.files
        if room and not is_same:
            print(f"{self.crate.name}: a try changed what the others began with, so none counts", flush=True)
        shutil.rmtree(room or "", ignore_errors=True)
        return is_same

    def add_to(self, tasks, edits):
        """Adds the tasks for rt to run, which are to run once those that each names have ended."""
        name, needs, groups = self.crate.name, self.rt.need(self.crate), grouped(edits)
        tasks[name, "seed"] = ([], 0, needs, self.seed)
        for number, group in enumerate(groups):
            call = lambda given, jobs, group=group: try_group(self.rt, given[name, "seed"], group)
            tasks[name, "edits", number] = ([(name, "seed")], self.crate.count(rb"\n"), self.rt.OVER * needs, call)
        tasks[name, "end"] = ([(name, "edits", it) for it in range(len(groups))], 0, 0, self.end)


def begin(rt, crate):
    """Has the crate begin with what rt check kept, builds the libraries below it that aren't built, and returns whether
    all could be."""
    crate.out = sys.stderr
    for below in crate.below():
        below.out = sys.stderr
    rt.adopt(crate, is_alone=False)
    return not any(below.build_rlib(["--jobs", "1"], anew=False) for below in crate.below())
