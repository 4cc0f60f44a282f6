"""What scripts/check-edits calls of the kit's rt, for a kit whose rt lacks it. rattle-kit-13b tries the edits of a crate one
after another and has no seed, so this makes one, as rattle-kit-13f does."""
import os
import shutil
import tempfile

# What a try of an edit comes to.
REFUSED, AT_LIMIT, MISSED, BAD, UNSURE = "refused", "at limit", "missed", "bad", "unsure"


def linked(folder, to):
    """Makes a copy of a folder. It has no hard links, since a check by an older kit writes into files that are there."""
    shutil.copytree(folder, to)


def listing(folder):
    """Returns the files of a folder with their sizes and times."""
    paths = [f"{at}/{name}" for at, _, names in os.walk(folder) for name in names]
    return {path: (os.stat(path).st_size, os.stat(path).st_mtime_ns) for path in paths}


class OlderKit:
    """The module of an older rt, with the names that a newer one has besides."""

    REFUSED, AT_LIMIT, MISSED, BAD, UNSURE = REFUSED, AT_LIMIT, MISSED, BAD, UNSURE
    #: What a try may come to that need not be tried again from nothing.
    SETTLED = (REFUSED,)
    #: How much of the memory of a crate's first check a try takes.
    OVER = 0.7
    linked, listing = staticmethod(linked), staticmethod(listing)

    def __init__(self, rt):
        self.rt = rt

    def __getattr__(self, name):
        return getattr(self.rt, name)

    def share_work(self, is_shared):
        """Does nothing: an older rt keeps no work for other checkouts."""

    def adopt(self, crate, is_alone):
        """Does nothing, for the same reason."""

    def must_fail(self, crate, path, flags, kept=None):
        """Returns what a check with the edit comes to, and what is said of it."""
        is_refused, said = self.rt.must_fail(crate, path, flags, kept)
        return REFUSED if is_refused else BAD if ": BAD EDIT:" in said else MISSED, said

    def seeded(self, crate, flags, start):
        """Returns a folder with `seed`, what a check of the crate keeps, or None if the crate isn't proved."""
        room = tempfile.mkdtemp(prefix="rt-seed-")
        if start:
            linked(start, f"{room}/seed")
        if self.rt.checked(crate, {}, flags, f"{room}/seed").returncode == 0:
            return room
        shutil.rmtree(room)
        return None


def completed(rt):
    """Returns the kit's rt with all that scripts/check-edits calls of it."""
    return rt if hasattr(rt, "seeded") else OlderKit(rt)
