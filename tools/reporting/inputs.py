"""The captures that a page is asked for, as one file: a file as it is, and a copy of one that is compressed, of standard input, or of
several in their order.

In a copy of several each file is a section of pcapng or some of them, so that the packets of all are numbered as those of one. A
classic capture becomes a section too.
"""
import contextlib
import gzip
import hashlib
import os
import shutil
import stat
import struct
import tempfile
import zlib

from reporting.recorded import CLASSIC, ETHERNET, OLD_PACKET, PACKET, PIECE, SECTION, SIMPLE
from running import Ended, standard_input

COMPRESSED = b"\x1f\x8b"
# The most octets of a block or record of a capture that is copied.
MOST = 1 << 24
# The marks of a section's order of octets.
ORDERS = {b"\x4d\x3c\x2b\x1a": "<", b"\x1a\x2b\x3c\x4d": ">"}
NANOSECONDS = 0xA1B23C4D


class Part:
    """A file of several, or one that was copied: its name, its octets, and which packets are its own."""

    def __init__(self, name):
        self.name, self.size, self.digest, self.first, self.packets, self.is_cut = name, 0, hashlib.sha256(), 1, 0, False

    @property
    def sha256(self):
        return self.digest.hexdigest()


class Input:
    """What goose reads, what it is called, and the parts that a copy was made of."""

    def __init__(self, path, name, parts=(), given=()):
        self.path, self.name, self.parts, self.given = path, name, parts, given

    def command(self, words, quote):
        """The command line by which a person runs the same."""
        names = " ".join(map(quote, self.given))
        if len(self.given) > 1:
            return f"mergecap -a -w - {names} | {words}"
        if not self.parts:
            return f"{words} < {names}"
        return f"zcat {names} | {words}" if self.given != ["-"] else words


class Counted:
    """A file that is read once, and the octets and the digest of what was read."""

    def __init__(self, file, part):
        self.file, self.part = file, part

    def read(self, size=-1):
        piece = self.file.read(size)
        self.part.size += len(piece)
        self.part.digest.update(piece)
        return piece


@contextlib.contextmanager
def opened(paths):
    """The captures of these paths, of which `-` is standard input."""
    for path in paths:
        if path != "-" and not stat.S_ISREG(os.stat(path).st_mode):
            raise Ended(f"{path} is no file: a capture is read more than once, and - reads standard input")
    names = ["standard input" if path == "-" else os.path.basename(path) for path in paths]
    if len(paths) == 1 and paths[0] != "-" and not is_compressed(paths[0]):
        yield Input(paths[0], names[0], given=names)
        return
    if paths.count("-") > 1:
        raise Ended("standard input can be read once", 2)
    more = f" and {len(names) - 1} more" if len(names) > 1 else ""
    with tempfile.NamedTemporaryFile(prefix="report-") as copy:
        parts = []
        for path, name in zip(paths, names):
            parts.append(copied(path, name, copy, len(paths) > 1))
            parts[-1].first = sum(it.packets for it in parts[:-1]) + 1
        copy.flush()
        yield Input(copy.name, names[0] + more, parts, ["-" if path == "-" else os.path.basename(path) for path in paths])


def is_compressed(path):
    with open(path, "rb") as file:
        return file.read(2) == COMPRESSED


def copied(path, name, copy, is_one_of_several):
    """Puts the octets of a capture into a copy."""
    part = Part(name)
    with contextlib.ExitStack() as stack:
        file = standard_input().buffer if path == "-" else stack.enter_context(open(path, "rb"))
        counted = Counted(file, part)
        head = counted.read(4)
        octets = Ahead(head, counted)
        if head[:2] == COMPRESSED:
            octets = stack.enter_context(gzip.GzipFile(fileobj=octets))
        try:
            if is_one_of_several:
                part.packets, part.is_cut = append(octets, copy, name)
            else:
                shutil.copyfileobj(octets, copy, PIECE)
        except (EOFError, zlib.error, gzip.BadGzipFile) as why:
            raise Ended(f"{name} cannot be uncompressed: {why}") from None
        while counted.read(PIECE):
            pass
    return part


class Ahead:
    """A file of which some octets were read already."""

    def __init__(self, head, file):
        self.head, self.file = head, file

    def read(self, size=-1):
        if not self.head:
            return self.file.read(size)
        taken = self.head if size < 0 else self.head[:size]
        self.head = self.head[len(taken):]
        return taken + self.file.read(size if size < 0 else size - len(taken))


# ---- Sections ----------------------------------------------------------------


def append(file, copy, name):
    """Appends a capture as sections. Its packets are answered, and whether its end is cut."""
    head = file.read(24)
    for order in "<>":
        kind = struct.unpack(f"{order}I", head[:4])[0] if len(head) == 24 else 0
        if kind in CLASSIC:
            return records(file, copy, order, head)
        if kind == SECTION:
            return blocks(Ahead(head, file), copy)
    raise Ended(f"{name} is no capture that can be read")


def blocks(file, copy):
    """Copies the blocks of pcapng that are whole."""
    order, packets = "<", 0
    while head := file.read(12):
        order = ORDERS.get(head[8:12], order) if head[:4] == b"\x0a\x0d\x0d\x0a" else order
        kind, size = struct.unpack(f"{order}II", head[:8]) if len(head) == 12 else (0, 0)
        rest = file.read(size - 12) if 12 <= size <= MOST and size % 4 == 0 else b""
        if len(rest) != size - 12:
            return packets, True
        copy.write(head + rest)
        packets += kind in (OLD_PACKET, SIMPLE, PACKET)
    return packets, False


def block(kind, body):
    """A block of pcapng."""
    size = struct.pack("<I", 12 + len(body))
    return struct.pack("<I", kind) + size + body + size


def records(file, copy, order, head):
    """Copies the records of a classic capture that are whole as packets of a section of their own."""
    link, kind = struct.unpack_from(f"{order}I", head, 20)[0] & 0xFFFF, struct.unpack(f"{order}I", head[:4])[0]
    unit = 9 if kind == NANOSECONDS else 6
    copy.write(block(SECTION, struct.pack("<IHHq", 0x1A2B3C4D, 1, 0, -1)))
    copy.write(block(1, struct.pack("<HHIHHB3xI", link or ETHERNET, 0, 0, 9, 1, unit, 0)))
    packets = 0
    while head := file.read(16):
        seconds, fraction, captured, original = struct.unpack(f"{order}4I", head) if len(head) == 16 else (0, 0, MOST + 1, 0)
        octets = file.read(captured) if captured <= MOST else None
        if octets is None or len(octets) < captured:
            return packets, True
        ticks = seconds * 10**unit + fraction
        copy.write(block(PACKET, struct.pack("<IIIII", 0, ticks >> 32, ticks & 0xFFFFFFFF, captured, original) + octets + bytes(-captured % 4)))
        packets += 1
    return packets, False

