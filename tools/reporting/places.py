"""Where in a capture something is told: the head of each object of goose."""
import re

HEAD = re.compile(rb'\{"packet":(\d+),"microseconds":(\d+),"time":(?:"([^"]*)"|null),"kind":"([a-z-]+)"')


class Place:
    """A packet and its time."""

    def __init__(self, packet, microseconds, time):
        self.packet, self.microseconds, self.time = packet, microseconds, time


def place(found):
    """The place of a line whose head was found."""
    time = found[3]
    return Place(int(found[1]), int(found[2]), time and time.decode())


class Tally:
    """How many packets have something, and which is the first."""

    def __init__(self):
        self.number, self.first = 0, None

    def add(self, packet):
        self.number, self.first = self.number + 1, self.first or packet


class Span:
    """How often something is seen, and where first and last: its lines may be given in any order."""

    def __init__(self):
        self.number, self.first, self.last = 0, None, None

    def add(self, number, first, last):
        self.number += number
        self.first = first if self.first is None or first.packet < self.first.packet else self.first
        self.last = last if self.last is None or last.packet > self.last.packet else self.last
