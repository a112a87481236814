"""The samples around a trip, and when the fault began: the first sample that differs from the one a period before by more than those of the
time before do."""
import array
import binascii
import bisect
import json
import math
import re
import statistics

import sample_streams
import sample_values
from reporting import samples
from reporting.places import HEAD, Place

SECOND = 10**6
# What is looked at before the trip for the fault, and drawn around the trip, in microseconds.
LOOKED, BEFORE, AFTER = 2 * SECOND, 200_000, 500_000
# How many periods tell how samples differ before; a multiple of the greatest such difference, and parts of the greatest values, in hundredths.
PERIODS, TIMES, PART_THEN, PART_AT_ALL = 10, 3, 5, 1
# How many of the samples that follow are looked at, and how many of these differ.
FOLLOWING, ENOUGH = 3, 2
ASDU = re.compile(rb'"svID":(%b),.*?"smpCnt":(\d+),.*?"sample":"([0-9a-f]*)"' % sample_streams.TEXT)
# The most octets of samples that are held around a trip.
MOST_OCTETS = 12 << 20


class Fault:
    """Where the fault begins in a stream: the sample, its channel, when it was captured, and by how much it differs."""

    def __init__(self, wave, index, count, where, channel, difference, limit):
        self.wave, self.index, self.count, self.place, self.difference, self.limit = wave, index, count, where, difference, limit
        self.channel = wave.channels[channel]


class Window:
    """The samples of a stream around the trip, by their indexes from the first of them on."""

    def __init__(self, wave):
        self.wave, self.counted, self.octets, self.present = wave, sample_streams.Counted(wave.rate), bytearray(), bytearray()
        self.frames, self.latest, self.most = [], 0, wave.rate * 4

    def see(self, counts, octets, now, packet):
        index = self.counted.first_of(counts, [now])
        if index is not None:
            self.put(index, counts[0], octets, now, packet)
            return
        self.latest = latest = max(now, self.latest, self.counted.now)
        for at, count in enumerate(counts):
            index = self.counted.index(samples.Count(count, latest))
            if index is not None and index >= 0:
                self.put(index, count, octets[at * self.wave.size:(at + 1) * self.wave.size], now, packet, len(counts) - at - 1)

    def put(self, index, count, octets, now, packet, behind=0):
        """Samples one after another, with how many of their frame are behind them."""
        size, number = self.wave.size, len(octets) // self.wave.size
        until = index + number
        if until > self.most:
            return
        if until > len(self.present):
            lacks = until - len(self.present)
            self.octets += bytes(lacks * size)
            self.present += bytes(lacks)
        if not self.present[index]:
            self.octets[index * size:until * size] = octets
            self.present[index:until] = b"\x01" * number
            self.frames.append((index, number + behind, now, packet, count))

    # ---- When ----------------------------------------------------------------

    def settle(self):
        """Once all are there: when the sample with the index 0 was captured, by the half of the frames."""
        self.frames.sort()
        self.firsts = [it[0] for it in self.frames]
        self.zero = statistics.median(now - (first + number - 1) * SECOND / self.wave.rate for first, number, now, *_ in self.frames)

    def moment(self, index):
        """When a sample was captured, by the frames around it."""
        return self.zero + index * SECOND / self.wave.rate

    def index(self, moment):
        """The first sample that is not before a moment."""
        return math.ceil((moment - self.zero) * self.wave.rate / SECOND)

    def frame(self, index):
        """The frame of a sample."""
        return self.frames[bisect.bisect_right(self.firsts, index) - 1]

    def count(self, index):
        """The smpCnt of a sample."""
        first, *_, count = self.frame(index)
        return (count + index - first) % self.wave.rate

    def place(self, index):
        """The packet of a sample, and when it was captured: its packet, less the time of the samples that follow in it."""
        first, number, now, packet, _ = self.frame(index)
        return Place(packet, now - round((first + number - 1 - index) * SECOND / self.wave.rate), None)

    # ---- What they say -------------------------------------------------------

    def columns(self):
        return samples.columns_of(self.wave.layout, self.octets)

    def values(self, columns, channel, only_good=True):
        """The values of a channel: no number is one that is missing, or not good."""
        layout, of = self.wave.layout, self.wave.channels[channel]
        a, b, at = of.a, of.b, layout.at_quality[channel]
        told = array.array("d", (it * a + b if is_there else math.nan for it, is_there in zip(columns[layout.at[channel]], self.present)))
        if only_good and at is not None and any(columns[at]):
            for place, quality in enumerate(columns[at]):
                if quality and not sample_values.is_good(quality & 0xFFFFFFFF):
                    told[place] = math.nan
        return told

    def marks(self, columns, since, until):
        """The spans in which some channel is not good: first, end, and whether it is invalid."""
        spans = []
        for at in self.wave.qualities:
            column = columns[at]
            if not any(column[since:until]):
                continue
            for place in range(since, until):
                if self.present[place] and column[place] and not sample_values.is_good(column[place] & 0xFFFFFFFF):
                    is_invalid = column[place] & 3 in (1, 2)
                    if spans and spans[-1][1] == place and spans[-1][2] == is_invalid:
                        spans[-1][1] = place + 1
                    else:
                        spans.append([place, place + 1, is_invalid])
        return sorted({tuple(it) for it in spans})

    def fault(self, trip):
        """Where the fault begins that a trip follows, or None; None too where what is before tells nothing."""
        if not self.frames or self.wave.is_raw:
            return None
        since, until = max(self.index(trip - LOOKED), 0), min(self.index(trip), len(self.present))
        columns, best = self.columns(), None
        for channel in self.wave.drawn:
            values = self.values(columns, channel)
            apart = self.apart(values)
            limit = self.limit(values, apart, channel, self.index(trip - LOOKED))
            at = None if limit is None else first_over(apart, limit, since, until)
            if at is not None:
                best, until = (at, channel, apart[at], limit), at
        if best is None:
            return None
        index, *told = best
        return Fault(self.wave, index, self.count(index), self.place(index), *told)

    def apart(self, values):
        """How far each value is from the one a period before; between two samples it is what lies on a line."""
        whole, part = divmod(self.wave.period, 1)
        lag = int(whole)
        if not part:
            return array.array("d", [math.nan] * min(lag, len(values)) + [abs(one - two) for one, two in zip(values[lag:], values)])
        early, late = values, values[1:]
        before = [one * part + two * (1 - part) for one, two in zip(early, late)]
        return array.array("d", [math.nan] * min(lag + 1, len(values)) + [abs(one - two) for one, two in zip(values[lag + 1:], before)])

    def limit(self, values, apart, channel, begin):
        """Over what a difference is more than the time before has: that of ten periods; or None where too little is there."""
        size = math.ceil(PERIODS * self.wave.period)
        since = begin - size if begin >= size else 0
        differences = [it for it in apart[since:since + size] if it == it]
        if len(differences) < self.wave.period:
            return None
        greatest = max(abs(it) for it in values[since:since + size] if it == it)
        return max(TIMES * max(differences), PART_THEN * greatest / 100, PART_AT_ALL * self.wave.greatest(channel) / 100)


def first_over(apart, limit, since, until):
    """The first place from which a difference and two of the next three are over a limit, or None."""
    for at in range(since, until):
        if apart[at] > limit and sum(it > limit for it in apart[at + 1:at + 1 + FOLLOWING]) >= ENOUGH:
            return at
    return None


def asdus_of(line, found):
    """The streams of a frame of Sampled Values, each with smpCnt and the octets of its samples."""
    frame, held = sample_streams.FRAME.match(line), {}
    for name, count, octets in ASDU.findall(line, found.end()):
        held.setdefault(name, ([], []))
        held[name][0].append(int(count))
        held[name][1].append(binascii.unhexlify(octets))
    return [((frame[4].decode(), frame[3].decode(), json.loads(name)), *told) for name, told in held.items()] if frame else []


class Around:
    """The samples of all streams around a trip, by a second run."""

    def __init__(self, waves, moment):
        self.trip, self.windows, self.held, self.more = moment, {}, 0, 0
        periods = max((1 / it.frequency for it in waves if it.layout), default=0)
        self.since, self.until = moment - LOOKED - round((PERIODS + 2) * periods * SECOND), moment + AFTER
        for wave in waves:
            if wave.layout is None:
                continue
            size = wave.rate * wave.size * 3
            if self.held + size > MOST_OCTETS:
                self.more += 1
            else:
                self.held += size
                self.windows[wave.seen.key] = Window(wave)

    def see(self, parts, packet):
        """The lines of goose show, some at once: those before and after are passed over, and the run ends behind the trip's packet."""
        for lines in parts:
            found = HEAD.match(lines[-1]) if lines else None
            if found and int(found[2]) < self.since:
                continue
            for line in lines:
                found = HEAD.match(line)
                if not found:
                    continue
                now = int(found[2])
                if self.since <= now <= self.until:
                    if found[4] == b"sv":
                        self.frame(line, found, now)
                elif now > self.until and int(found[1]) > packet:
                    parts.close()
                    self.end()
                    return
        self.end()

    def frame(self, line, found, now):
        for key, counts, octets in asdus_of(line, found):
            window = self.windows.get(key)
            if window:
                own = [(count, it) for count, it in zip(counts, octets) if len(it) == window.wave.size]
                if own:
                    window.see([it[0] for it in own], b"".join(it[1] for it in own), now, int(found[1]))

    def end(self):
        self.windows = {key: it for key, it in self.windows.items() if it.frames}
        for it in self.windows.values():
            it.settle()

    def faults(self):
        """Where the fault begins in each stream that tells it, the earliest first."""
        found = [it.fault(self.trip) for it in self.windows.values()]
        return sorted((it for it in found if it), key=lambda it: (it.place.microseconds, it.place.packet))
