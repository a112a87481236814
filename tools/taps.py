"""The two sides that are compared: two captures, two interfaces of one, or the two networks of PRP in one."""
import array
import itertools
import math

from reporting.asking import Asked
from reporting.inputs import opened
from reporting.malformed import Malformed
from reporting.recorded import OLD_PACKET, PACKET, Recorded
from reporting.places import HEAD, Tally
from running import Ended
from tapped import BEFORE, Side

TRAILER = b'"trailer":"'
# The digits of a redundancy control trailer (IEC 62439-3): four of the number, A or B, three of the size, and 88FB.
DIGITS, SUFFIX = 12, b"88fb"


class Interfaces(Recorded):
    """Which interface each packet of a capture came from, by the interfaces' order in the file."""

    def __init__(self, path, progress):
        self.of = array.array("I")
        super().__init__(path, math.inf, progress, Malformed())

    def count(self, it, before, numbers):
        super().count(it, before, numbers)
        if numbers > before:
            self.of.extend(itertools.repeat(self.interfaces.index(it), numbers - before))

    def packet(self, kind, octets, at, size):
        before = self.numbers
        super().packet(kind, octets, at, size)
        if self.numbers > before:
            which = self.fields.sizes(octets, at + 8)[0] if kind == PACKET else self.fields.old_packet(octets, at + 8)[0] if kind == OLD_PACKET else 0
            self.of.append(len(self.interfaces) - len(self.section) + which)


def name_of(at, interface):
    return f"interface {at} ({interface.name})" if interface.name else f"interface {at}"


class Taps:
    """The two sides of captures, the messages of goose, and where a capture breaks off."""

    def __init__(self, progress):
        self.progress, self.runs, self.neither = progress, [], Tally()

    def pieces(self, source, path):
        """The lines of a capture, some at once."""
        asked = Asked(source.path, self.progress, path)
        self.runs.append((path, asked))
        return asked.pieces("reading frames", "show")

    @property
    def broken(self):
        return [(path, it.broken) for path, it in self.runs if it.broken]

    def files(self, *paths):
        """Two captures."""
        sides = []
        for path in paths:
            with opened([path]) as source:
                sides.append(Side(source.name))
                for octets in self.pieces(source, path):
                    sides[-1].see(octets)
        return sides

    def interfaces(self, path, numbers):
        """Two interfaces of a capture, by their numbers in the file."""
        with opened([path]) as source:
            held = Interfaces(source.path, self.progress)
            if not held.interfaces:
                raise Ended(f"{path} is no capture that has interfaces")
            if max(numbers) >= len(held.interfaces):
                there = ", ".join(name_of(*it) for it in enumerate(held.interfaces))
                raise Ended(f"there is no interface {max(numbers)} in {path}: it has {there}", 2)
            sides, of = [Side(name_of(it, held.interfaces[it])) for it in numbers], held.of
            chosen = dict(zip(numbers, sides))
            for octets in self.pieces(source, path):
                lines = octets.splitlines(True)
                packets = [int(line[BEFORE:line.index(b",", BEFORE)]) for line in lines]
                part(lines, [of[it - 1] if 0 < it <= len(of) else None for it in packets], chosen)
        return sides

    def lans(self, path):
        """The two networks of PRP in a capture."""
        sides = [Side("LAN A"), Side("LAN B")]
        chosen = {b"a": sides[0], b"b": sides[1]}
        with opened([path]) as source:
            for octets in self.pieces(source, path):
                lines = octets.splitlines(True)
                lans = list(map(lan_of, lines))
                part(lines, lans, chosen)
                for found in filter(None, (HEAD.match(line) for line, lan in zip(lines, lans) if lan not in chosen)):
                    if found[4] in (b"goose", b"sv"):
                        self.neither.add(int(found[1]))
        return sides


def part(lines, whose, chosen):
    """Shows the sides that were chosen their lines."""
    for own, side in chosen.items():
        side.see(b"".join([line for line, it in zip(lines, whose) if it == own]), is_whole=False)


def lan_of(line):
    """The letter of the network that a frame came by, in lower case, as its trailer ends; b"" where it has none."""
    begin = line.rfind(TRAILER)
    if begin < 0 or not line.endswith(SUFFIX + b'"}\n') or len(line) - 3 - begin - len(TRAILER) < DIGITS:
        return b""
    return line[-11:-10]
