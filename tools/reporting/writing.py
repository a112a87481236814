"""The page is written beside its place and takes it only when it is whole, and only from an earlier page."""
import contextlib
import os
import stat
import tempfile
import weakref

from running import Ended

# What a page begins with, and a line near its head by which it is known.
BEGIN, MARK = "<!DOCTYPE html>\n", '<meta name="generator" content="goose report"/>'
# The octets of a file in which the mark of a page stands.
HEAD = 1000


class Rows:
    """Rows of a table, kept until their place in the page comes: in memory while they are few."""

    def __init__(self):
        self.file = tempfile.SpooledTemporaryFile(max_size=1 << 22, mode="w+", encoding="utf-8", newline="\n")
        self.write = self.file.write
        weakref.finalize(self, self.file.close)

    def __iter__(self):
        self.file.seek(0)
        while piece := self.file.read(1 << 16):
            yield piece


def is_page(path):
    """Whether a file is a page of this tool, or empty."""
    try:
        with open(path, "rb") as file:
            head = file.read(HEAD)
    except OSError:
        return False
    return not head or (head.startswith(BEGIN.encode()) and MARK.encode() in head)


def place_of(path, inputs=(), is_forced=False):
    """Where a page is put. A link is followed. What is no file, what is read, and what is no page is left alone: the last unless it is
    forced."""
    asked, path = path, os.path.realpath(path)
    if not os.path.exists(path):
        return path
    if not stat.S_ISREG(os.stat(path).st_mode):
        raise Ended(f"{path} is no file that a page could be put in place of", 4)
    for it in inputs:
        if os.path.samefile(it, path):
            raise Ended(f"{asked} is the file {it}, which is read: the page needs another name", 2)
    if not is_forced and not is_page(path):
        raise Ended(f"{asked} is there and is no page of tools/report: --force replaces it", 2)
    return path


@contextlib.contextmanager
def whole(path, inputs=(), is_forced=False):
    """A file that is there under its name only if all that is done with it succeeds."""
    path = place_of(path, inputs, is_forced)
    descriptor, beside = tempfile.mkstemp(prefix=".report-", dir=os.path.dirname(path))
    try:
        with open(descriptor, "w", encoding="utf-8", errors="replace", newline="\n") as file:
            yield file
        mask = os.umask(0)
        os.umask(mask)
        os.chmod(beside, os.stat(path).st_mode & 0o777 if os.path.exists(path) else 0o666 & ~mask)
        os.replace(beside, path)
    except BaseException:
        os.unlink(beside)
        raise
