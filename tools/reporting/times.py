"""The clock of the capture itself: times that go back, and leaps after which all senders go on where they were."""
import bisect
import itertools
import operator

from reporting.places import HEAD, place

SECOND = 10**6
# How many runs of times that go back are told, and how many times without a packet are looked at.
MOST, MOST_GAPS = 200, 10000
# How many devices have to be silent at once, and then go on where they were, so that the capture's clock has leapt.
DEVICES = 2


class Back:
    """A run of packets whose times are a second or more before the greatest time: by how much at most, and where it begins."""

    def __init__(self, by, where, greatest):
        self.by, self.first, self.last, self.greatest = by, where, where.packet, int(greatest[1])


class Untimed:
    """The packets without a time: how many, and the first."""

    def __init__(self, number=0, first=None):
        self.number, self.first = number, first

    def told(self, packets):
        if self.number == packets:
            return "no packet has a time"
        return f"{self.number:,} {'packet has' if self.number == 1 else 'packets have'} no time, from packet\u00a0{self.first} on"


def untimed(station, recorded):
    """The packets without a time: those of blocks that have none, or of a time of 0."""
    if recorded.simple.number:
        return Untimed(recorded.simple.number, recorded.simple.first)
    if station.span == (0, 0):
        return Untimed(station.last.packet, 1)
    return Untimed(station.times.zeros, station.times.first_zero)


class Gap:
    """A second or more in which no packet came: its times, the packet that ends it, and what became of the devices in it."""

    def __init__(self, before, found):
        self.before, self.after, self.packet = before, int(found[2]), int(found[1])
        self.silent, self.is_lossy, self.is_undone = set(), False, False
        self.silences, self.outages, self.samples, self.first = 0, 0, 0, None

    def add_silence(self, device, packet):
        self.silent.add(device)
        self.silences, self.first = self.silences + 1, self.first or packet

    def add_outage(self, samples, packet):
        self.outages, self.samples, self.first = self.outages + 1, self.samples + samples, self.first or packet

    @property
    def is_leap(self):
        return len(self.silent) >= DEVICES and not self.is_lossy and not self.is_undone


class Times:
    """What is odd in the times of packets. A time of 0, at the beginning of 1970, is none: how many packets have none, the first of them, and the
    first time behind some of these."""

    def __init__(self):
        self.backs, self.gaps, self.number = [], [], 0
        self.zeros, self.first_zero, self.began = 0, None, 0
        # The first packet and the last, the least time and the greatest, and the packet of this.
        self.first, self.last, self.least, self.greatest, self.top = None, None, 0, 0, None

    def see(self, found, now):
        """A packet."""
        if self.first is None:
            self.first, self.least, self.greatest, self.top = found, now, now, found
        ahead = now - self.greatest
        if ahead > 0:
            if ahead >= SECOND:
                self.gap(self.greatest, found)
            self.greatest, self.top = now, found
        elif ahead < 0:
            self.least = min(now or self.least, self.least)
            if ahead <= -SECOND:
                self.back(-ahead, found, self.top)
        self.last = found

    def odd(self, times):
        """The places of packets, none of them the first one, whose times are a second or more before or after the greatest one so far."""
        least, greatest = min(times), max(times)
        if max(greatest, self.greatest) - min(least, self.greatest) < SECOND:
            return []
        before = (self.greatest, *times) if self.greatest <= times[0] and times == sorted(times) else itertools.accumulate(times, max, initial=self.greatest)
        ahead = list(map(operator.sub, times, before))
        return [at for at, it in enumerate(ahead) if not -SECOND < it < SECOND] if min(ahead) <= -SECOND or max(ahead) >= SECOND else []

    def see_all(self, lines, times):
        """Packets one after another, of which none is odd."""
        least, greatest = min(times), max(times)
        self.least = min(self.least, least or self.least)
        if greatest > self.greatest:
            self.greatest, self.top = greatest, HEAD.match(lines[times.index(greatest)])
        self.last = HEAD.match(lines[-1])

    @property
    def span(self):
        """The least time and the greatest, or None without a packet."""
        return (self.least or self.began, self.greatest) if self.last else None

    @property
    def ends_back(self):
        """Whether the last packet's time is a second or more before the greatest one."""
        return bool(self.last) and 0 < int(self.last[2]) <= self.greatest - SECOND

    def gap(self, before, found):
        """The packet before which no packet came for a second or more."""
        if before == 0:
            self.zeros, self.first_zero, self.began = int(found[1]) - 1, 1, int(found[2])
        elif len(self.gaps) < MOST_GAPS:
            self.gaps.append(Gap(before, found))

    def back(self, by, found, greatest):
        """A packet whose time is a second or more before the greatest one."""
        packet, now = int(found[1]), int(found[2])
        if now == 0:
            self.zeros, self.first_zero = self.zeros + 1, self.first_zero or packet
            return
        self.number += 1
        last = self.backs[-1] if self.backs else None
        if last and last.last == packet - 1:
            is_lower, last.by, last.last = by > last.by, max(by, last.by), packet
        else:
            is_lower = True
            if len(self.backs) < MOST:
                self.backs.append(Back(by, place(found), greatest))
            else:
                last.by, last.last = max(by, last.by), packet
        if is_lower:
            self.undo(now)

    def undo(self, now):
        """A gap is none where times go back over more than half of it."""
        for gap in reversed(self.gaps):
            if gap.after <= now:
                break
            gap.is_undone = gap.is_undone or now - gap.before < gap.after - now

    def gap_of(self, moment):
        """The gap in which a moment is, or None."""
        at = bisect.bisect_right(self.gaps, moment, key=lambda it: it.before) - 1 if self.gaps else -1
        return self.gaps[at] if at >= 0 and moment <= self.gaps[at].after else None

    def gap_before(self, moment):
        """The last gap that ended by then, or None."""
        at = bisect.bisect_right(self.gaps, moment, key=lambda it: it.after) - 1 if self.gaps else -1
        return self.gaps[at] if at >= 0 else None

    @property
    def leaps(self):
        return [it for it in self.gaps if it.is_leap]

    @property
    def greatest_back(self):
        return max(self.backs, key=lambda it: it.by)
