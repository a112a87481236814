"""What a capture's file says of itself: its octets, its SHA-256, its form, and the interfaces that packets came from."""
import hashlib
import math
import os
import struct
import zlib

from output import date
from reporting.malformed import HEAD, head_of
from reporting.places import Place, Tally

PIECE = 1 << 20
# What a file begins with: classic captures of both orders, in microseconds and nanoseconds, and pcapng.
CLASSIC = {0xA1B2C3D4: "microseconds", 0xA1B23C4D: "nanoseconds"}
SECTION, INTERFACE, OLD_PACKET, SIMPLE, STATISTICS, PACKET = 0x0A0D0D0A, 1, 2, 3, 5, 6
LINKS = {1: "Ethernet", 105: "Wi-Fi (IEEE 802.11)", 113: "Linux cooked (LINUX_SLL)", 127: "Wi-Fi (radiotap)", 276: "Linux cooked (LINUX_SLL2)"}
ETHERNET = 1
# Options of an interface and of a section: a comment stands in any block. Of an interface also the unit of its times and from when on they count.
COMMENT, NAME, DESCRIPTION, APPLICATION, UNIT, OFFSET = 1, 2, 3, 4, 9, 14
# Options of an interface's statistics: packets that the card and that the system dropped, from the beginning on. Of a packet: how many
# were dropped before it.
CARD_DROPS, SYSTEM_DROPS, DROPS = 5, 7, 4
# The most comments that are kept, and letters of one.
MOST_COMMENTS, MOST_LETTERS = 400, 500
# The most octets of a block that are looked into, and what is told of an interface whose names can lie behind them.
MOST = 1 << 20
UNREAD = "what its block says after 1 MiB is not read"


PACKETS = {OLD_PACKET, SIMPLE, PACKET}
TAKEN = {SECTION, INTERFACE, STATISTICS} | PACKETS


class Fields:
    """How numbers of an order of octets are read."""

    def __init__(self, order):
        self.sizes, self.interface, self.packet, self.old_packet, self.whole, self.record = (
            struct.Struct(order + form).unpack_from for form in ("II", "HHI", "IIIII", "HHIIII", "IIIIIII", "8xII"))


FIELDS = {order: Fields(order) for order in "<>"}


def checksum_of(path):
    """The CRC-32 of a file's octets."""
    checksum, piece = 0, bytearray(PIECE)
    with open(path, "rb", buffering=0) as file:
        while size := file.readinto(piece):
            checksum = zlib.crc32(memoryview(piece)[:size], checksum)
    return checksum


class Interface:
    """An interface of a capture: its names, its link type, its packets and the first of them, and what it says that was dropped."""

    def __init__(self, name, description, link, snapshot=0):
        self.name, self.description, self.link = name, description, LINKS.get(link, f"link type {link}")
        self.is_ethernet, self.snapshot, self.unit, self.offset = link == ETHERNET, snapshot, 6, 0
        self.packets, self.first, self.last, self.dropped, self.dropped_before = 0, None, None, 0, 0

    def microseconds(self, ticks):
        """The time of a packet; the unit of the interface's times is a power of ten, or of two."""
        return self.offset * 10**6 + (ticks * 10**6 >> (self.unit & 0x7F) if self.unit & 0x80 else ticks * 10**6 // 10**self.unit)

    @property
    def drops(self):
        """How many packets were dropped, by what says more: its statistics or its packets."""
        return max(self.dropped, self.dropped_before)


class Comment:
    """What somebody wrote to a packet, and its place."""

    def __init__(self, place, told):
        self.place, self.packet, self.told = place, place.packet, told


class Recorded:
    """A capture's file, read once from its beginning to its end; of its packets only those that goose has answered count. Of those with an
    error it tells the heads."""

    def __init__(self, path, packets, progress, malformed):
        self.size, self.digest, self.interfaces = os.stat(path).st_size, hashlib.sha256(), []
        self.checksum = 0
        self.form, self.application, self.numbers, self.most = "", None, 0, packets
        self.order, self.section, self.rest, self.skip, self.is_over, self.cut = "<", [], b"", 0, False, Tally()
        # The packets of blocks that have no time.
        self.simple = Tally()
        self.walk, self.fields = self.blocks, FIELDS["<"]
        # The next packet with an error, all after it, and what is told of them.
        self.after, self.heads = iter(malformed.packets), malformed.heads
        self.wanted = next(self.after, None)
        # The comments of packets in their order, those of the capture, and how many more there are.
        self.comments, self.remarks, self.more_comments = [], [], 0
        with open(path, "rb") as file:
            while piece := file.read(PIECE):
                self.digest.update(piece)
                self.checksum = zlib.crc32(piece, self.checksum)
                self.take(piece)
                progress.tell("reading the file", self.numbers, packets)

    @property
    def sha256(self):
        return self.digest.hexdigest()

    def take(self, piece):
        """The next octets of the file."""
        if not self.form:
            self.begin(piece)
        if self.skip >= len(piece) or self.is_over:
            self.skip -= len(piece)
            return
        octets, self.skip = self.rest + piece[max(self.skip, 0):], 0
        at = self.walk(octets)
        self.rest, self.skip = octets[at:], max(at - len(octets), 0)

    def begin(self, piece):
        """The form of the file by its first octets."""
        begins = [struct.unpack(f"{order}I", piece[:4])[0] for order in "<>"] if len(piece) >= 4 else []
        self.form = "pcapng" if SECTION in begins else "another"
        for order, mark in zip("<>", begins):
            if mark in CLASSIC and len(piece) >= 24:
                link = struct.unpack_from(f"{order}I", piece, 20)[0] & 0xFFFF
                self.form = f"classic (libpcap), times in {CLASSIC[mark]}"
                self.interfaces = [Interface(None, None, link)]
                self.walk, self.fields, self.skip = self.records, FIELDS[order], 24
        self.is_over = self.form != "pcapng" and not self.interfaces

    def records(self, octets):
        """Takes the records of a classic capture that begin in these octets, and answers where the next one begins."""
        at, last, it = 0, len(octets) - 16, self.interfaces[0]
        while at <= last and self.numbers < self.most:
            at = self.usual_records(octets, at, last)
            if self.numbers + 1 != self.wanted or at > last:
                continue
            captured, original = self.fields.record(octets, at)
            if at + 16 + min(captured, HEAD) > len(octets):
                break
            self.numbers = self.wanted
            self.look(octets, at + 16, captured)
            if captured < original:
                self.cut.add(self.numbers)
            at += 16 + captured
        self.is_over = self.numbers >= self.most
        it.packets, it.first, it.last = self.numbers, 1 if self.numbers else None, self.numbers or None
        return at

    def usual_records(self, octets, at, last):
        """Takes the records of which nothing is looked at, from there on up to the last place where one can begin. Answered is where the next one begins."""
        record, number = self.fields.record, self.numbers
        until = min(number + len(octets), self.most, math.inf if self.wanted is None else self.wanted - 1)
        for number in range(number + 1, until + 1):
            captured, original = record(octets, at)
            if captured < original:
                self.cut.add(number)
            at += 16 + captured
            if at > last:
                break
        self.numbers = number
        return at

    def blocks(self, octets):
        """Takes the blocks that begin in these octets, and answers where the next one begins: perhaps behind their end."""
        at = self.usual(octets, 0)
        while at + 12 <= len(octets) and not self.is_over:
            kind, size = self.fields.sizes(octets, at)
            if kind == SECTION:
                self.order = "<" if octets[at + 8:at + 12] == b"\x4d\x3c\x2b\x1a" else ">"
                self.fields = FIELDS[self.order]
                size = self.fields.sizes(octets, at)[1]
            self.is_over = size < 12 or size % 4 > 0
            if kind in TAKEN and at + min(size, MOST) > len(octets):
                return at
            if kind in PACKETS:
                self.packet(kind, octets, at, size)
            elif kind in TAKEN and not self.is_over:
                self.block(kind, octets, at, min(size, MOST + 4))
            at = self.usual(octets, at + size)
        return at

    def usual(self, octets, at):
        """Takes the packets in usual blocks that begin there: whole ones without options of which nothing is looked at. Answered is where another
        block begins."""
        numbers, section, last, whole = self.numbers, self.section, len(octets) - 32, self.fields.whole
        until = self.most if self.wanted is None else min(self.most, self.wanted - 1)
        it, before, which_before = None, numbers, None
        while numbers < until and at <= last and not self.is_over:
            kind, size, which, _, _, captured, original = whole(octets, at)
            if kind != PACKET or size % 4 or not 32 <= size <= 36 + captured or captured < original or at + size > len(octets):
                break
            if which != which_before:
                if which >= len(section):
                    break
                self.count(it, before, numbers)
                it, before, which_before = section[which], numbers, which
            numbers += 1
            at += size
        self.count(it, before, numbers)
        self.numbers = numbers
        return at

    def count(self, it, before, numbers):
        """Packets one after another of one interface: those after one number up to another."""
        if numbers > before:
            it.packets, it.first, it.last = it.packets + numbers - before, it.first or before + 1, numbers

    def block(self, kind, octets, at, size):
        if kind == SECTION:
            self.section, told = [], self.options(octets[at + 24:at + size - 4])
            self.application = self.application or self.text(told.get(APPLICATION))
            self.remark(told)
        elif kind == INTERFACE:
            told = self.options(octets[at + 16:at + size - 4])
            link, _, snapshot = self.fields.interface(octets, at + 8)
            self.section.append(Interface(self.text(told.get(NAME)), self.text(told.get(DESCRIPTION, UNREAD if size > MOST else None)), link,
                                          snapshot))
            self.interfaces.append(self.section[-1])
            self.section[-1].unit = told.get(UNIT, b"\6")[0] if told.get(UNIT) else 6
            self.section[-1].offset = int.from_bytes(told.get(OFFSET, b""), "little" if self.order == "<" else "big", signed=True)
            self.remark(told)
        else:
            self.statistics(octets, at, size)

    def packet(self, kind, octets, at, size):
        """A packet: its interface, whether it is cut, and what was dropped before it."""
        dropped, told = 0, {}
        self.is_over = self.is_over or self.numbers >= self.most or size < (16 if kind == SIMPLE else 32)
        if self.is_over:
            return
        if kind == PACKET:
            which, high, low, captured, original = self.fields.packet(octets, at + 8)
            if 36 + captured < size:
                told = self.options(octets[at + 28 + (captured + 3) // 4 * 4:at + size - 4])
                dropped = self.number(told.get(DROPS))
        elif kind == OLD_PACKET:
            which, dropped, _, _, captured, original = self.fields.old_packet(octets, at + 8)
            dropped = dropped if dropped < 0xFFFF else 0
        else:
            which, original = 0, self.fields.sizes(octets, at + 8)[0]
            captured = min(original, self.section[0].snapshot or original) if self.section else original
        if which >= len(self.section):
            self.is_over = True
            return
        self.numbers += 1
        if kind == SIMPLE:
            self.simple.add(self.numbers)
        it = self.section[which]
        it.packets, it.first, it.last = it.packets + 1, it.first or self.numbers, self.numbers
        it.dropped_before += dropped
        self.look(octets, at + (12 if kind == SIMPLE else 28), captured)
        if COMMENT in told:
            self.comment(it.microseconds(high << 32 | low), told[COMMENT])
        if captured < original:
            self.cut.add(self.numbers)

    def look(self, octets, at, captured):
        """The head of the packet that is looked at, if it is one with an error."""
        if self.numbers == self.wanted:
            self.heads[self.wanted] = head_of(octets[at:at + min(captured, HEAD)])
            self.wanted = next(self.after, None)

    def comment(self, microseconds, octets):
        """A comment of the packet that is looked at."""
        if len(self.comments) < MOST_COMMENTS:
            self.comments.append(Comment(Place(self.numbers, microseconds, date(microseconds)), self.text(octets)[:MOST_LETTERS]))
        else:
            self.more_comments += 1

    def remark(self, told):
        """The comment of a section or interface."""
        if COMMENT in told and len(self.remarks) < MOST_COMMENTS:
            self.remarks.append(self.text(told[COMMENT])[:MOST_LETTERS])

    def statistics(self, octets, at, size):
        """The statistics of an interface, which count from the beginning on."""
        which = self.fields.sizes(octets, at + 8)[0] if size >= 24 else len(self.section)
        if which < len(self.section):
            told, it = self.options(octets[at + 20:at + size - 4]), self.section[which]
            it.dropped = max(it.dropped, self.number(told.get(CARD_DROPS)) + self.number(told.get(SYSTEM_DROPS)))

    def number(self, octets):
        """A number of eight octets, or 0; all ones say that it is not known."""
        number = int.from_bytes(octets, "little" if self.order == "<" else "big") if octets and len(octets) == 8 else 0
        return number if number < 2**64 - 1 else 0

    def text(self, octets):
        """The text of an option, or what is told in place of one."""
        return octets.rstrip(b"\0").decode("utf-8", "replace") if isinstance(octets, bytes) else octets

    @property
    def drops(self):
        return sum(it.drops for it in self.interfaces)

    def options(self, octets):
        """The octets of options by their codes; the last of a code counts, and of comments all."""
        found, at = {}, 0
        while at + 4 <= len(octets):
            code, size = struct.unpack_from(f"{self.order}HH", octets, at)
            if code == 0:
                break
            told = octets[at + 4:at + 4 + size]
            found[code] = found[code] + b"; " + told if code == COMMENT and code in found else told
            at += 4 + (size + 3) // 4 * 4
        return found
