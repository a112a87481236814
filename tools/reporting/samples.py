"""What the samples of streams say, while frames come: the RMS of each period, the spans of qualities that are not good, and the greatest value
of each channel. Nothing is held of a stream but its last period, and its first ones until its rate is known."""
import array
import binascii
import bisect
import itertools
import math
import operator
import re
import sys

import sample_streams
import sample_values
from reporting.places import Place
from running import Ended

SECOND = 10**6
# smpCnt and the sample of each ASDU.
SAMPLES = re.compile(rb'"smpCnt":(\d+),"confRev":\d+,"refrTm":(?:null|"[^"]*","refrTime":(?:null|"[^"]*"),"refrQuality":\{[^}]*\}),'
                     rb'"smpSynch":\d+,"smpRate":\w+,"sample":"([0-9a-f]*)"')
# The octets of a word: in fewer no channel is known but by a data set.
FEWEST_OCTETS = 4
# How many samples of a stream are looked at together.
BATCH = 512
# The most streams that are looked at, spans of one stream that are told, and octets that are held until a rate is known.
MOST_STREAMS, MOST_SPANS, MOST_HEAD = 24, 400, 1 << 19
# How many rises of smpCnt tell a rate, and how many periods a line frequency.
RISES, PERIODS = 5, 20
FREQUENCIES = (50, 60)
# The most bins of the RMS of a recording, before two become one.
MOST_BINS = 952
sum_of_products = getattr(math, "sumprod", None) or (lambda one, two: sum(map(operator.mul, one, two)))


def columns_of(layout, octets):
    """The columns of samples one behind another: what each says at each place."""
    if set(layout.form) == {"i"} or set(layout.form) == {"i", "I"}:
        words, number = array.array("i", octets), len(layout.form)
        if sys.byteorder == "little":
            words.byteswap()
        return [words[at::number] for at in range(number)]
    return list(zip(*layout.read.iter_unpack(octets)))


def told_of(frames):
    """What frames say: smpCnt and the sample of each ASDU, one behind another."""
    return list(itertools.chain.from_iterable(told for told, _, _ in frames))


class Held:
    """Frames in as little room as they take."""

    def __init__(self, frames):
        told = told_of(frames)
        self.octets, self.counts = binascii.unhexlify(b"".join(told[1::2])), array.array("H", map(int, told[::2]))
        self.sizes, self.times, self.packets = [array.array("Q", it) for it in zip(*((len(told), now, packet) for told, now, packet in frames))]

    def frames(self, size):
        told = [it for at, count in enumerate(self.counts) for it in (b"%d" % count, binascii.hexlify(self.octets[at * size:(at + 1) * size]))]
        ends = itertools.accumulate(self.sizes)
        return [(told[end - number:end], now, packet) for end, number, now, packet in zip(ends, self.sizes, self.times, self.packets)]


class Count:
    """What the index of one sample is told by."""

    __slots__ = ("count", "now")

    def __init__(self, count, now):
        self.count, self.now = count, now


def of_size(told, wide):
    """What a frame says of the samples that have so many digits."""
    return [it for pair in zip(told[::2], told[1::2]) if len(pair[1]) == wide for it in pair]


class Unlike(Exception):
    """Samples that were taken for pairs of INT32 and Quality are none."""


class Quality:
    """Samples one after another that have one quality, which is not good, in one channel."""

    def __init__(self, channels, value, place, index):
        self.channels, self.value, self.first, self.last, self.since, self.until = channels, value, place, place, index, index

    @property
    def number(self):
        return self.until - self.since + 1


class Periods:
    """The RMS of each period by its number, of several as many as there is room for: the least and the greatest of each channel."""

    def __init__(self):
        self.bins, self.width, self.open, self.whole = {}, 1, 0, 0

    def add(self, number, values, marks):
        """A period: its values, or None where a sample of it is missing, and which channels are invalid or not good otherwise."""
        key = number // self.width
        held = self.bins.get(key)
        self.whole += values is not None
        if held is None:
            self.bins[key] = (values, values, marks)
            if len(self.bins) > 2 * MOST_BINS:
                self.halve()
        else:
            self.bins[key] = joined(held, (values, values, marks))

    def halve(self):
        """Makes each two of them one."""
        before, self.bins, self.width = self.bins, {}, self.width * 2
        for key, it in before.items():
            self.bins[key // 2] = joined(self.bins[key // 2], it) if key // 2 in self.bins else it


def joined(one, two):
    """Two bins as one."""
    if one[0] is None or two[0] is None:
        least, greatest = (two if one[0] is None else one)[:2]
    else:
        least, greatest = list(map(lesser, one[0], two[0])), list(map(greater, one[1], two[1]))
    return least, greatest, one[2] | two[2]


def lesser(one, two):
    return two if one is None or (two is not None and two < one) else one


def greater(one, two):
    return two if one is None or (two is not None and two > one) else one


def is_raw(layout):
    return any(it.kind == "raw" for it in layout.channels)


class Wave:
    """The samples of one stream."""

    def __init__(self, seen, told):
        self.seen, self.told, self.head, self.held, self.why = seen, told, [], 0, None
        self.frames, self.waiting = [], 0
        self.size, self.others, self.layout, self.rate, self.frequency = None, 0, None, None, None
        self.counted, self.octets, self.firsts, self.places, self.start, self.begun, self.latest = None, bytearray(), [], [], None, None, 0
        self.is_guess, self.note = False, ""
        self.periods, self.spans, self.running, self.more_spans, self.limits = Periods(), [], {}, 0, []

    def see(self, told, now, packet):
        """What a frame says: smpCnt and the sample of each ASDU in turn, as they are written. Some frames are looked at together."""
        self.frames.append((told, now, packet))
        self.waiting += len(told)
        if self.waiting >= 2 * BATCH:
            self.look()

    def see_all(self, counts, octets, times, packets):
        """What frames one after another say, each of as many samples: at once where these are simply the next ones."""
        self.look()
        each = len(counts) // len(times)
        if self.layout is not None and set(map(len, octets)) == {2 * self.size}:
            index = self.counted.first_of(counts, times)
            if index is not None:
                self.append(index, binascii.unhexlify(b"".join(octets)), range(index, index + len(counts), each), zip(itertools.repeat(None), times, packets))
                return
        told = [it for pair in zip(counts, octets) for it in pair]
        for at, (now, packet) in enumerate(zip(times, packets)):
            self.see(told[2 * each * at:2 * each * (at + 1)], now, packet)

    def look(self):
        """Looks at the frames that wait."""
        frames, self.frames, self.waiting = self.frames, [], 0
        if self.why or not frames:
            return
        if self.size is None:
            self.size = len(frames[0][0][1]) // 2
            self.can_be_pairs = sample_values.are_pairs_of(self.size)
        wide, told = 2 * self.size, told_of(frames)
        if set(map(len, told[1::2])) != {wide}:
            frames = [(own, now, packet) for told, now, packet in frames if (own := of_size(told, wide))]
            self.others += (len(told) - len(told_of(frames))) // 2
        if self.layout is not None or not frames:
            self.put(frames)
            return
        self.head.append(Held(frames))
        self.held += len(self.head[-1].octets)
        if len(self.seen.rise.rates) >= RISES or self.held > MOST_HEAD:
            self.decide()

    # ---- What is known of it -------------------------------------------------

    def decide(self):
        """Finds the rate, the layout and the line frequency by the first samples, which are then looked at."""
        if not self.size:
            self.why = "its samples have no octets" if self.size == 0 else "it has no sample"
            return
        rate = self.told.rate_of(self.seen)
        if rate.period is None:
            self.why = rate.why
            self.head.clear()
            return
        if self.size < FEWEST_OCTETS and not self.told.layout_of(self.seen, self.size, False).channels:
            self.why = f"of samples of {self.size} octets it is not known what they say"
            self.head.clear()
            return
        self.rate, head, self.head = rate.period, self.head, []
        whole = b"".join(it.octets for it in head)
        are_pairs = self.can_be_pairs is not None and all(self.can_be_pairs(whole[at:at + self.size]) for at in range(0, len(whole), self.size))
        layout = self.told.layout_of(self.seen, self.size, False)
        self.is_guess = are_pairs and is_raw(layout)
        self.begin(self.told.layout_of(self.seen, self.size, True) if self.is_guess else layout)
        self.frequency = self.told.frequency or self.frequency_of(whole)
        self.counted = sample_streams.Counted(self.rate)
        for it in head:
            self.put(it.frames(self.size))

    def begin(self, layout):
        self.layout, self.channels = layout, layout.channels
        self.limits = [[math.inf, -math.inf] for _ in layout.channels]
        self.qualities = sorted({it for it in layout.at_quality if it is not None})
        self.by_quality = {at: [channel for channel, it in enumerate(layout.at_quality) if it == at] for at in self.qualities}
        self.periods, self.spans, self.running, self.more_spans = Periods(), [], {}, 0
        self.are_floats = "f" in layout.form or "d" in layout.form

    def frequency_of(self, octets):
        """The line frequency by which a period is most like the next one, in the first of them."""
        columns = columns_of(self.layout, octets[:(PERIODS * self.rate // min(FREQUENCIES) + 2) * self.size])
        held = [columns[it] for it in self.layout.at]
        if not held or len(held[0]) <= self.rate // min(FREQUENCIES) + 2 or self.are_floats and not all(math.isfinite(sum(it)) for it in held):
            return min(FREQUENCIES)
        return min(FREQUENCIES, key=lambda it: sample_streams.likeness(held, self.rate / it))

    @property
    def period(self):
        """The samples of a period, which need not be a whole number."""
        return self.rate / self.frequency

    def greatest(self, channel):
        """The greatest value of a channel at all, either way."""
        low, high = self.limits[channel]
        it = self.channels[channel]
        return max(abs(it.a * low + it.b), abs(it.a * high + it.b)) if low <= high else 0.0

    @property
    def drawn(self):
        """The channels that are drawn: those in a unit, where any has one."""
        held = [at for at, it in enumerate(self.channels) if it.unit]
        return held or list(range(len(self.channels)))

    @property
    def is_raw(self):
        return is_raw(self.layout)

    # ---- Its samples ---------------------------------------------------------

    def put(self, frames):
        """The samples of frames: all at once, where they are simply the next ones."""
        if not frames:
            return
        each, times, _ = zip(*frames)
        told = list(itertools.chain.from_iterable(each))
        index = self.counted.first_of(list(map(int, told[::2])), times)
        if index is not None:
            sizes = set(map(len, each))
            firsts = (range(index, index + len(told) // 2, len(each[0]) // 2) if len(sizes) == 1
                      else itertools.accumulate((len(own) // 2 for own in each[:-1]), initial=index))
            self.append(index, binascii.unhexlify(b"".join(told[1::2])), firsts, frames)
        elif len(frames) > 1:
            half = len(frames) // 2
            self.put(frames[:half])
            self.put(frames[half:])
        else:
            self.put_each(*frames[0])

    def put_each(self, told, now, packet):
        """The samples of a frame one by one. Late ones are not looked at."""
        self.latest = max(now, self.latest, self.counted.now)
        for count, sample in zip(told[::2], told[1::2]):
            index = self.counted.index(Count(int(count), self.latest))
            if index is not None and index == self.counted.newest:
                self.append(index, binascii.unhexlify(sample), [index], [(None, now, packet)])

    def append(self, index, octets, firsts, frames):
        """Samples one after another, with the first of each frame."""
        frames = list(frames)
        if self.start is None:
            self.start, self.begun = index, frames[0][1]
        elif index != self.start + len(self.octets) // self.size:
            self.end_run()
            self.start = index
            self.periods.open += 1
        self.firsts += firsts
        self.places += frames
        self.octets += octets
        until = self.start + len(self.octets) // self.size
        ends = list(itertools.takewhile(lambda it: it <= until, self.ends_of_periods()))
        if ends:
            size = (ends[-1] - self.start) * self.size
            piece = bytes(self.octets[:size])
            del self.octets[:size]
            self.see_periods(piece, ends)

    def ends_of_periods(self):
        """The indexes with which the period of the next sample and those behind it end."""
        end = self.start
        while True:
            number = end * self.frequency // self.rate + 1
            end = -(-number * self.rate // self.frequency)
            yield end

    def end_run(self):
        """What is left of a period before a gap."""
        if self.octets:
            self.see_period(bytes(self.octets))
        self.octets.clear()
        self.firsts.clear()
        self.places.clear()
        self.end_spans(list(self.running))

    def see_periods(self, octets, ends):
        """The samples of some periods, which end with these indexes: all at once, where nothing is to be said of a quality."""
        columns = None if self.are_floats or self.running else columns_of(self.layout, octets)
        if columns and all(map(self.is_usual, map(columns.__getitem__, self.qualities))):
            self.see_usual(columns, [self.start, *ends])
            self.pass_to(ends[-1])
            return
        begin = self.start
        for since, until in zip([begin, *ends], ends):
            self.see_period(octets[(since - begin) * self.size:(until - begin) * self.size])
            self.pass_to(until)

    def pass_to(self, index):
        """The next sample has this index."""
        self.start = index
        passed = bisect.bisect_right(self.firsts, index) - 1
        del self.firsts[:passed], self.places[:passed]

    def is_usual(self, column):
        """Whether a quality has one value alone, which is good."""
        value = column[0] & 0xFFFFFFFF
        is_one = column.tobytes() == column[:1].tobytes() * len(column) if isinstance(column, array.array) else column.count(column[0]) == len(column)
        return is_one and sample_values.is_good(value) and not (self.is_guess and value > sample_values.MOST_QUALITY)

    def see_usual(self, columns, bounds):
        """The values of periods of which no quality is told: the first can be a part of one."""
        values, begin = [], self.start
        for channel, at in enumerate(self.layout.at):
            column = columns[at]
            if self.told.has_trips:
                self.see_limits(self.limits[channel], column)
            values.append([self.rms(self.channels[channel], column[since - begin:until - begin]) for since, until in zip(bounds, bounds[1:])])
        for since, until, told in zip(bounds, bounds[1:], zip(*values)):
            number = since * self.frequency // self.rate
            self.periods.add(number, list(told) if self.is_whole(number, until - since) else None, 0)

    def is_whole(self, number, samples):
        """Whether a period has so many samples."""
        return samples == -(-(number + 1) * self.rate // self.frequency) + (-number * self.rate // self.frequency)

    def see_period(self, octets):
        """The samples of a period, or of a part of it."""
        number = self.start * self.frequency // self.rate
        is_whole = self.is_whole(number, len(octets) // self.size)
        columns = columns_of(self.layout, octets)
        try:
            bad, marks = self.see_qualities(columns)
        except Unlike:
            self.is_guess, self.note = False, f"; up to packet {self.places[0][2]} they could be pairs"
            self.begin(sample_values.raw(self.size))
            self.see_period(octets)
            return
        values = []
        for channel, at in enumerate(self.layout.at):
            column = columns[at]
            if self.are_floats:
                column = [it for it in column if math.isfinite(it)]
            values.append(self.rms(self.channels[channel], column) if is_whole and len(column) == len(columns[at]) else None)
            if channel in bad:
                column = [it for place, it in enumerate(columns[at]) if place not in bad[channel] and math.isfinite(it)]
            if column and self.told.has_trips:
                self.see_limits(self.limits[channel], column)
        self.periods.add(number, values if is_whole else None, marks)

    def see_limits(self, held, column):
        least, greatest = min(column), max(column)
        held[0], held[1] = least if least < held[0] else held[0], greatest if greatest > held[1] else held[1]

    def rms(self, channel, column):
        a, b = channel.a, channel.b
        if not b and not self.are_floats:
            return abs(a) * math.hypot(*column) / math.sqrt(len(column))
        squares = sum_of_products(column, column)
        if b:
            return math.sqrt(max(a * a * squares + 2 * a * b * sum(column) + b * b * len(column), 0) / len(column))
        return abs(a) * math.sqrt(squares / len(column))

    # ---- Their qualities -----------------------------------------------------

    def see_qualities(self, columns):
        """By each channel the places of a piece that are not good, and which marks a period has."""
        bad, marks = {}, 0
        for at in self.qualities:
            column = columns[at]
            first = column[0]
            if first == 0 and column.count(0) == len(column):
                if at in self.running:
                    self.end_spans((at,))
                continue
            places = self.see_column(at, column)
            if places:
                bad.update((channel, places) for channel in self.by_quality[at])
                marks |= 2 if any(column[it] & 3 in (1, 2) for it in places) else 1
        return bad, marks

    def see_column(self, at, column):
        """The qualities of a channel, of which some are other than 0."""
        places, size = set(), len(column)
        steps = [0] if column.count(column[0]) == size else [place for place in range(size) if place == 0 or column[place] != column[place - 1]]
        for place, until in zip(steps, [*steps[1:], size]):
            value, since = column[place] & 0xFFFFFFFF, self.start + place
            running = self.running.get(at)
            if running and running.value != value:
                self.end_spans((at,))
                running = None
            if self.is_guess and value > sample_values.MOST_QUALITY:
                raise Unlike
            if sample_values.is_good(value):
                continue
            places.update(range(place, until))
            if running is None:
                running = self.running[at] = Quality(self.by_quality[at], value, self.place(since), since)
            running.until = self.start + until - 1
            running.last = self.place(running.until)
        return places

    def place(self, index):
        """The packet of a sample that is held."""
        _, now, packet = self.places[max(bisect.bisect_right(self.firsts, index) - 1, 0)]
        return Place(packet, now, None)

    def end_spans(self, which):
        """Spans that have ended: those of some qualities, or all."""
        for at in which:
            it = self.running.pop(at)
            own = it.value, it.since, it.until
            alike = next((other for other in self.spans[-len(self.channels):] if (other.value, other.since, other.until) == own), None)
            if alike:
                alike.channels = sorted({*alike.channels, *it.channels})
            elif len(self.spans) < MOST_SPANS:
                self.spans.append(it)
            else:
                self.more_spans += 1

    def end(self):
        self.look()
        if self.layout is None and not self.why:
            self.decide()
        if self.layout is not None:
            self.end_run()


class Samples:
    """The streams whose samples are looked at, and what is known of each from elsewhere: its rate and its layout."""

    def __init__(self, rate_of, station=None, frequency=None, channels=None):
        self.rate_of, self.station, self.frequency, self.channels = rate_of, station, frequency, channels or {}
        # The waves of streams, how many streams more there are, and whether there can be a trip: else no greatest value is asked for.
        self.waves, self.more, self.has_trips = {}, {}, True

    def see(self, sort, line, at, now, packet, alike=None):
        """A frame of Sampled Values: what matched it tells its samples, where it is like one before."""
        told = alike.groups() if alike else [it for pair in SAMPLES.findall(line, at) for it in pair]
        if len(sort.streams) == 1:
            sort.wave = self.put(sort.streams[0][1], told, now, packet)
            return
        pairs = list(zip((it[0] for it in sort.state), told[::2], told[1::2]))
        for _, stream in sort.streams:
            self.put(stream, [it for name, *pair in pairs if name == stream.text for it in pair], now, packet)

    def wave_at(self, sort):
        """The wave of the one stream of a sort, or None where its samples are not looked at."""
        wave = sort.wave = sort.wave or self.wave_of(sort.streams[0][1])
        return wave if wave and not wave.why else None

    def put(self, stream, told, now, packet):
        """What a frame says of a stream. The wave of it is answered, or None."""
        wave = self.wave_of(stream)
        if wave and told:
            wave.see(told, now, packet)
        return wave

    def wave_of(self, stream):
        """The wave of a stream, or None where there are too many."""
        wave = self.waves.get(stream)
        if wave is None and len(self.waves) >= MOST_STREAMS:
            self.more[stream] = None
        elif wave is None:
            wave = self.waves[stream] = Wave(stream, self)
        return wave

    def layout_of(self, seen, size, are_pairs):
        """The layout of a stream. Channels that are asked for all streams are of those of that many."""
        told = self.channels.get(seen.name, self.channels.get(""))
        try:
            return sample_values.of_stream(seen.name, seen.appid, size, are_pairs, self.station, told)
        except Ended:
            if seen.name in self.channels:
                raise
            return sample_values.of_stream(seen.name, seen.appid, size, are_pairs, self.station)

    def end(self):
        """The end of the capture. The streams are in the order of their first packets."""
        self.waves = dict(sorted(self.waves.items(), key=lambda it: it[0].first.packet))
        for it in self.waves.values():
            it.end()
