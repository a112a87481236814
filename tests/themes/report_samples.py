"""The page shows what samples of streams say: currents and voltages around the trip and over the whole recording, where their qualities are not
good, and when the fault began."""
import functools
import math
import re
import types
from fractions import Fraction

from helpers import fault_station
from helpers.asked_tools import module
from helpers.fault_station import (BEGIN, DELAY, FAULT, FAULT_AT, FIRST, LOST, OPEN_AT, RATE, SECOND, TRIP_AT, Unit, capture, events, line_values,
                                   pairs,
                                   sample_of_line, steps, units)
from themes.report import Page, reported, words

SPANS, STREAMS = "Spans whose quality is not good", "Streams and what their samples say"
AROUND, WHOLE = "200 ms before to 500 ms after the trip", "RMS of each period of the whole recording"
MOST_OCTETS = 1_500_000
# Where values of the pictures are: from the left, and of how many pixels a span is.
LEFT, WIDE = 74, 914
# How wide a letter of a name and a digit of a scale are at most.
LETTER, DIGIT = 9, 8


def section(page, name):
    return next((it for it in page.root.iter("section") if it.get("aria-labelledby") == name), None)


def told_of(page, name):
    it = section(page, name)
    return "" if it is None else words(it)


def milliseconds(microseconds):
    return f"{chr(0x2212) if microseconds < 0 else '+'}{abs(microseconds) / 1000:,.1f} ms"


class Each:
    """A case that tells what is wrong with a page, one after another."""

    def __init__(self, name, sent, *asked, scd=None, status=None):
        self.name, self.sent, self.asked, self.scd, self.status = f"samples on a page: {name}", sent, asked, scd, status

    def why_wrong(self, program):
        asked = [*(["--scd", "of.scd"] if self.scd else []), *self.asked]
        octets, said, status, _ = reported(program, capture(self.sent()), *asked, scd=self.scd or "")
        return list(self.wrong(Page(octets), octets)) if octets else [f"status {status}: {said}"]


def figures(page):
    return {it.find(".//svg").get("aria-label"): it for it in page.root.iter("figure")}


def lines(figure):
    """The runs of each line of a picture: the first and the last place of each, in pixels."""
    return [[run_of(run) for run in it.get("d").split("M")[1:]] for it in figure.iter("path") if it.get("class", "").startswith("wave")]


def run_of(run):
    """How far a run of a line goes from left to right."""
    begin = int(run.split(" ")[0])
    steps_right = re.findall(r"[hl](\d+)", run)
    return begin / 10, (begin + sum(map(int, steps_right))) / 10


# ---- A fault -----------------------------------------------------------------


class Inception(Each):
    """The fault is told within one sample, by capture times; the trip table counts from it; its sentence says what it rests on."""

    def __init__(self, name, sent, channel, *asked, first=FAULT, opens=True, unit="MU01", **how):
        super().__init__(name, sent, *asked, **how)
        self.channel, self.first, self.opens, self.unit = channel, first, opens, unit

    def wrong(self, page, _octets):
        told = told_of(page, "trip")
        found = re.search(r"begins with smpCnt (\d+) of (\S+), in packet (\d+): (\S+) ", told)
        if not found:
            yield f"no inception is told: {told[:900]}"
            return
        # The sample with this smpCnt that is nearest to the one in which the fault begins.
        at = self.first + (int(found[1]) - FIRST - self.first + RATE // 2) % RATE - RATE // 2
        if abs(at - self.first) > 1 or found[2] != self.unit or found[4] != self.channel:
            yield f"it begins with sample {at} of {found[2]}, {found[4]}"
        since = BEGIN + at * SECOND // RATE + DELAY - TRIP_AT
        wanted = f"fault {milliseconds(since)}, trip 0" + (f", breaker open {milliseconds(OPEN_AT - TRIP_AT)}" if self.opens else "")
        said = wanted, "by capture times", "A load step looks alike", "delay of the merging unit"
        yield from (f"it lacks {it!r}: {told[:700]}" for it in said if it not in told)
        (caption, rows), = ((caption, rows) for caption, rows in page.tables.items() if caption.startswith("Events from 200 ms"))
        fault = [row for row in rows if row[-2] == "fault inception"]
        if [row[:3] for row in fault] != [[milliseconds(since), "0.0 ms", found[3]]]:
            yield f"{caption} has the fault as {fault}"
        trip = [row[1] for row in rows if row[0] == "0.0 ms"]
        if trip != [milliseconds(-since)] * len(trip) or not trip:
            yield f"the trip is {trip} from the fault"


class AtRate(Each):
    """At other rates and frequencies, of which a period or a sample is no whole number of microseconds, the fault is told within one sample, and
    trip and breaker by it."""

    def __init__(self, rate, frequency, a_frame):
        self.made = made = fault_station.OtherRate(rate, frequency, a_frame)
        super().__init__(f"a fault at {rate:,} samples a second and {frequency} Hz", made.packets, "--period", f"{rate}", scd=fault_station.scd())

    def wrong(self, page, _octets):
        made, told = self.made, told_of(page, "trip")
        found = re.search(r"begins with smpCnt (\d+) of MU01, in packet", told)
        at = found and (int(found[1]) - made.first) % made.rate
        if at is None or abs(at - made.fault) > 1:
            yield f"it begins with sample {at}, and not with {made.fault}: {told[:500]}"
            return
        since = float(made.exact[at]) + DELAY - made.trip_at
        lines = {f"fault {milliseconds(since + by)}, trip 0, breaker open +39.6 ms" for by in (-2, 0, 2)}
        yield from [] if any(it in told for it in lines) else [f"it lacks {lines}: {told[:500]}"]
        (row,) = [it for it in page.rows(STREAMS) if "MU01" in it[0]]
        yield from [] if f"{made.rate:,} a second, {made.frequency} Hz" in " ".join(row) else [f"the stream is {row}"]


class OpensAtOnce(Each):
    """A breaker that opens in the packet that --trip names is open at once."""

    def wrong(self, page, _octets):
        wanted = f"fault {milliseconds(FAULT_AT + DELAY - OPEN_AT)}, trip 0, breaker open 0.0 ms"
        yield from [] if wanted in told_of(page, "trip") else [f"it lacks {wanted!r}: {told_of(page, 'trip')[:700]}"]


class NoInception(Each):
    """Where nothing differs enough, no fault is told, and the table has no times from it."""

    def __init__(self, name, sent, said, *asked, **how):
        super().__init__(name, sent, *asked, **how)
        self.said = said

    def wrong(self, page, _octets):
        told = told_of(page, "trip")
        yield from [] if self.said in told else [f"it lacks {self.said!r}: {told[:700]}"]
        yield from ["it tells an inception"] if "inception" in told.replace(self.said, "") else []


def sent_of(*held, with_events=True):
    return lambda: [*(it for unit in held for it in unit.packets()), *(events() if with_events else [])]


def step(factor):
    """Samples of a line whose currents grow by a factor at the fault."""
    def sample(at):
        current, voltage = line_values(at % 80)
        return pairs(steps([it * (factor if at >= FAULT else 1) for it in current], 0.001) + steps(voltage, 0.01))
    return sample


def small_step(at):
    """Samples at 60 Hz, of which a period is no whole number, whose currents grow by 8 in 100 at the fault."""
    current = [fault_station.wave(at, 400 * (1.08 if at >= FAULT else 1), 120 * phase, 60) for phase in range(3)]
    voltage = [fault_station.wave(at, 89_800, 120 * phase, 60) for phase in range(3)]
    return pairs(steps([*current, sum(current)], 0.001) + steps([*voltage, sum(voltage)], 0.01))


def one_is_wild(at):
    """Samples of a line one of which is far off, and is not followed."""
    current, voltage = line_values(at % 80)
    return pairs(steps([it + 5000 * (at == FAULT) for it in current], 0.001) + steps(voltage, 0.01))


def noisy(at):
    """The fault, and some steps before it in the sum of the currents, which is 0 till then."""
    current, voltage = line_values(at)
    noise = 3 if FAULT - 80 <= at < FAULT else 0
    return pairs([value + noise * (place == 3) for place, value in enumerate(steps(current, 0.001))] + steps(voltage, 0.01))


def doubtful_fault(at):
    """The fault in samples that are invalid."""
    current, voltage = line_values(at)
    return pairs(steps(current, 0.001) + steps(voltage, 0.01), 1 if at >= FAULT else 0)


def unsteady(at):
    """Samples that differ in the first ten periods by a third of what they do later."""
    current, voltage = line_values(at % 80)
    factor = 1.3 if at >= FAULT else 1.1 if 400 <= at < 480 else 1.0
    return pairs(steps([it * factor for it in current], 0.001) + steps([it * 1.0 for it in voltage], 0.01))


def unit_of(sample, **how):
    return Unit("MU01", 0x4000, 1, sample, **how)


# How many samples before the others a longer recording begins: the trip is more than two seconds and ten periods behind its first one.
EARLIER = 10_000


def long_unit(*steps_at):
    """A unit of a longer recording, whose currents are at times greater: by so many hundredths from one sample up to another one."""
    def sample(at):
        current, voltage = line_values(at % 80)
        factor = 1 + max((part for since, until, part in steps_at if since <= at < until), default=0) / 100
        return pairs(steps([it * factor for it in current], 0.001) + steps(voltage, 0.01))

    return unit_of(lambda at: sample(at - EARLIER), begin=BEGIN - EARLIER * SECOND // RATE, first=(FIRST - EARLIER) % RATE, samples=EARLIER + 2200)


def long_ago():
    """The time before the fault in longer recordings: two seconds before the trip are looked at, and the ten periods before these tell how samples differ,
    whatever was before."""
    # The two seconds begin with sample -6726, and the ten periods before them with -7526.
    always, trip = EARLIER, lambda unit: f"{sum(at < TRIP_AT for at, _ in sent_of(unit)()) + 1}"
    for name, channel, first, *told in (
            ("what was before the ten periods", "I2", FAULT, (-9900, -9800, 80), (FAULT, always, 10)),
            ("a step 2.3 s before the trip", "I2", FAULT, (-7926, FAULT, 20), (FAULT, always, 40)),
            ("a fault 1.98 s before the trip", "I2", -6640, (-6640, always, 20))):
        yield Inception(name, sent_of(long_unit(*told)), channel, "--trip", trip(long_unit(*told)), first=first)
    for name, *told in (("samples that differed as much within the ten periods before", (-7400, -7300, 10), (FAULT, always, 25)),
                        ("samples that differed as much shortly before the two seconds", (-6840, -6810, 10), (FAULT, always, 25)),
                        ("a fault 2.02 s before the trip", (-6806, always, 20))):
        yield NoInception(name, sent_of(long_unit(*told)), "No fault inception", "--trip", trip(long_unit(*told)))


# ---- Pictures and qualities --------------------------------------------------


class Pictures(Each):
    """Each stream has both pictures; a line a channel; what is missing is left open, what is not good hatched, and told by channel."""

    def wrong(self, page, _octets):
        found = figures(page)
        wanted = [f"{unit}: {what}" for unit in ("MU01", "MU02") for what in (AROUND, WHOLE)]
        held = [it for it in found if it.startswith("MU0")]
        if held != wanted:
            yield f"the pictures are {held}"
            return
        for name, number in (("MU01", 8), ("MU02", 4)):
            yield from (f"{name}: {what}: {len(lines(found[f'{name}: {what}']))} lines" for what in (AROUND, WHOLE)
                        if len(lines(found[f"{name}: {what}"])) != number)
        yield from self.wrong_gap(lines(found[f"MU02: {AROUND}"]))
        whole = [len(runs) for runs in lines(found[f"MU02: {WHOLE}"])]
        if whole != [2] * 4:
            yield f"the RMS of MU02 has {whole} runs"
        for name, kinds in (("MU01", []), ("MU02", ["doubtful"])):
            for what in (AROUND, WHOLE):
                got = sorted({it.get("class") for it in found[f"{name}: {what}"].iter("path")} & {"doubtful", "invalid"})
                yield from [] if got == kinds else [f"{name}: {what} is hatched as {got}"]
        yield from self.wrong_table(page)

    def wrong_gap(self, told):
        """The gap is where the lost samples are, to a pixel or two."""
        zero = BEGIN + DELAY - TRIP_AT + 200_000
        x = lambda at: LEFT + (zero + at * SECOND / RATE) * WIDE / 700_000
        for runs in told:
            if len(runs) != 2 or abs(runs[0][1] - x(LOST[0] - 1)) > 2 or abs(runs[1][0] - x(LOST[-1] + 1)) > 2:
                yield f"a line of MU02 has the runs {runs}, and the gap is {x(LOST[0] - 1):.1f} to {x(LOST[-1] + 1):.1f}"

    def wrong_table(self, page):
        (row,) = page.rows(SPANS) or [None]
        names = ", ".join(f"I01{it}TCTR{at}.AmpSv.instMag.i" for at, it in enumerate("ABCN", 1)) if self.scd else "X1, X2, X3, X4"
        if row is None or row[:4] != ["MU02", names, "questionable oldData", f"{len(fault_station.DOUBTFUL)}"]:
            yield f"the spans are {page.rows(SPANS)}"


class Drawn(Each):
    """Read by the labels of their axes, the lines are what was sent: each point the value of its sample, and the RMS that of its period."""

    def wrong(self, page, _octets):
        found = figures(page)
        zero = (TRIP_AT - BEGIN - DELAY) / SECOND
        yield from self.wrong_marks(found[f"MU01: {AROUND}"])
        for at, points in enumerate(read_lines(found[f"MU01: {AROUND}"])):
            off = max(beyond(value, near(at, (time / 1000 + zero) * RATE)) / (3000, 100)[at // 4] for time, value in points)
            yield from [] if len(points) > 20 and off < 0.02 else [f"line {at + 1} around the trip is off by {off:.3f} of its scale"]
        for at, points in enumerate(read_lines(found[f"MU01: {WHOLE}"])):
            begun = points[0][0] - 0.5 / fault_station.FREQUENCY
            yield from [] if abs(begun) < 0.002 else [f"the RMS of line {at + 1} begins at {begun:.4f} s, and not with the first packet"]
            for time, since in ((0.2, 0), (0.33, FAULT + 80)):
                square, value = sum(sent(at, it) ** 2 for it in range(since, since + 80)) / 80, on_line(points, time)
                if abs(value - math.sqrt(square)) > 0.01 * (2500, 80)[at // 4]:
                    yield f"line {at + 1} is {value:.1f} at {time} s, and not {math.sqrt(square):.1f}"


    def wrong_marks(self, figure):
        """Names have the colours of their lines, and the moments are where they were, to a pixel or so."""
        names = [(it.get("class"), it.text) for it in figure.iter("text") if it.get("class", "").startswith("name")]
        wanted = [(f"name{at}", f"{letter}01{phase}{sort}{at}") for letter, sort in (("I", "TCTR"), ("U", "TVTR"))
                  for at, phase in enumerate("ABCN", 1)]
        yield from [] if names == wanted else [f"the names are {names}"]
        (x0, t0), (x1, t1) = time_labels(figure)
        for kind, time in (("inception", fault_station.FAULT_AT + DELAY - TRIP_AT), ("moment", 0), ("opening", OPEN_AT - TRIP_AT)):
            (x,) = [int(re.match(r"M(\d+) ", it.get("d"))[1]) for it in figure.iter("path") if it.get("class") == kind]
            if abs(t0 + (x - x0) * (t1 - t0) / (x1 - x0) - time / 1000) > 1.5:
                yield f"the {kind} is drawn {t0 + (x - x0) * (t1 - t0) / (x1 - x0):.1f} ms from the trip"


class Scaled(Each):
    """A channel with a scale, an offset and a unit of its own is drawn by these: each sample, and the RMS of a period."""

    def wrong(self, page, _octets):
        found, zero = figures(page), (TRIP_AT - BEGIN - DELAY) / SECOND
        own = lambda values: [2 * it + 5000 for it in values]
        around, whole = (read_lines(found[f"MU01: {what}"]) for what in (AROUND, WHOLE))
        for at, points in enumerate(around):
            values = lambda time: near(at, (time / 1000 + zero) * RATE)
            off = max(beyond(value, own(values(time)) if at == 0 else values(time)) / (11_000, 3000, 3000, 3000, 100, 100, 100, 100)[at]
                      for time, value in points)
            yield from [] if off < 0.02 else [f"line {at + 1} around the trip is off by {off:.3f} of its scale"]
        value, square = on_line(next(whole), 0.33), sum(it * it for it in own(sent(0, it) for it in range(FAULT + 80, FAULT + 160))) / 80
        yield from [] if abs(value - math.sqrt(square)) < 60 else [f"the RMS is {value:.1f}, and not {math.sqrt(square):.1f}"]
        units = [it.text for it in found[f"MU01: {AROUND}"].iter("text") if it.get("class") == "lane"]
        yield from [] if units == ["kA", "A", "kV"] else [f"the units are {units}"]


class Values:
    """The RMS and the greatest value of a channel are those of its values: each integer times the scale, plus the offset. One that is invalid is not the
    greatest of its channel."""

    name = "samples on a page: values of channels with an offset"

    def why_wrong(self, _program):
        return self.why_offset_wrong() + self.why_invalid_wrong()

    def why_invalid_wrong(self):
        wave = module("reporting.samples").Wave(None, types.SimpleNamespace(has_trips=True))
        wave.size, wave.rate, wave.frequency, wave.start, wave.firsts, wave.places = 24, 8, 1, 0, [0], [(None, BEGIN, 1)]
        wave.begin(module("sample_values").pairs(3, "3I"))
        wave.see_period(b"".join(pairs([9000 if at == 3 else at], at == 3) + pairs([-20]) + pairs([7000 if at == 5 else 1]) for at in range(8)))
        got = [round(wave.greatest(at), 9) for at in range(3)]
        return [] if got == [0.007, 0.02, 7] else [f"the greatest values are {got}"]

    def why_offset_wrong(self):
        values, samples = module("sample_values"), module("reporting.samples")
        for a, b, column in ((2.0, 0.0, [3, 4]), (-2.0, 5.0, [1, 2, 9]), (0.5, -7.0, [-40, 0, 4]), (1.0, 1.0, [-1, -1])):
            wave, channel = samples.Wave.__new__(samples.Wave), values.Channel("X", "i", a=a, b=b)
            wave.are_floats, wave.channels, wave.limits = False, [channel], [[min(column), max(column)]]
            told = [a * it + b for it in column]
            wanted, got = (math.sqrt(sum(it * it for it in told) / len(told)), max(map(abs, told))), (wave.rms(channel, column), wave.greatest(0))
            if any(abs(one - other) > 1e-9 for one, other in zip(wanted, got)):
                return [f"{a} times {column} plus {b}: wanted {wanted}, got {got}"]
        return []


class Periods(Each):
    """The RMS of periods that are no whole number of samples: each line has that of its wave, to a part of a sample, for each period of which no sample is
    missing, where this period was."""

    def __init__(self, rate, frequency, lost=()):
        self.rate, self.frequency, self.lost, turns = rate, frequency, lost, Fraction(frequency * RATE, rate)
        unit = unit_of(lambda at: sample_of_line(at - 10 * rate, turns), rate=rate, a_frame=1, first=0, begin=fault_station.START, samples=rate, lost=lost)
        super().__init__(f"RMS at {rate:,} samples a second and {frequency} Hz{', with a gap' if lost else ''}", lambda: list(unit.packets()),
                         "--period", f"{rate}")

    def wrong(self, page, _octets):
        figure = figures(page)[f"MU01: {WHOLE}"]
        (x0, t0), (x1, t1) = time_labels(figure)
        time = lambda x: t0 + (x - x0) * (t1 - t0) / (x1 - x0)
        for at, runs in enumerate(lines(figure)):
            off = [abs(time(x) - end) for run, ends in zip(runs, self.runs()) for x, end in zip(run, ends)]
            yield from [] if len(runs) == len(self.runs()) and max(off) < 0.003 else [f"line {at + 1} has the runs {runs}: off by {off}"]
        for at, points in enumerate(read_lines(figure)):
            size = (fault_station.AMPERES, fault_station.VOLTS)[at // 4] * (at % 4 < 3) / math.sqrt(2)
            off = max(abs(value - size) for _, value in points)
            yield from [] if off <= size * self.frequency / self.rate else [f"line {at + 1} is off by {off:.2f} of {size:.2f}"]

    def runs(self):
        """When the middles of the first and the last period of each run are."""
        bound = lambda number: math.ceil(Fraction(number * self.rate, self.frequency))
        told = [all(it not in self.lost for it in range(bound(number), bound(number + 1))) for number in range(self.frequency)]
        begins = [number for number in range(self.frequency) if told[number] and (number == 0 or not told[number - 1])]
        ends = [number for number in range(self.frequency) if told[number] and (number + 1 == self.frequency or not told[number + 1])]
        return [((one + 0.5) / self.frequency, (other + 0.5) / self.frequency) for one, other in zip(begins, ends)]


def scd_of_own():
    """An SCL file in which the first current of MU01 has a scale, an offset and a unit of its own."""
    told = ('<DOI name="AmpSv"><SDI name="sVC"><DAI name="scaleFactor"><Val>0.002</Val></DAI><DAI name="offset"><Val>5000</Val></DAI></SDI>'
            '<SDI name="units"><DAI name="multiplier"><Val>k</Val></DAI></SDI></DOI>')
    return fault_station.scd().replace(f"{NODE}</LN>", f"{NODE}{told}</LN>", 1)


def time_labels(figure):
    """Two labels of the time axis that are far apart: where they are, and their times. The last one may be moved, to be within the picture."""
    told = [(int(it.get("x")), number_of(it.text)) for it in figure.iter("text")
            if it.get("class") == "scale" and it.get("text-anchor") == "middle"]
    return told[0], told[-2]


def sent(channel, index):
    """The value of a channel in the units of the pictures: A and kV."""
    current, voltage = line_values(index)
    return [*current, *(it / 1000 for it in voltage)][channel]


def near(channel, index):
    """The values of a channel that are no further from a place than labels are rounded by, which is less than two samples."""
    return [sent(channel, it) for it in range(math.floor(index) - 2, math.ceil(index) + 3)]


def on_line(points, time):
    """The value of a line at a time between two of its points."""
    (before, one), (after, other) = next(it for it in zip(points, points[1:]) if it[0][0] <= time <= it[1][0])
    return one + (other - one) * (time - before) / (after - before)


def beyond(value, values):
    """How far a value is from those between the least and the greatest of some."""
    return max(min(values) - value, value - max(values), 0)


def read_lines(figure):
    """The points of each line of a picture, by its labels: times and values."""
    scales = [it for it in figure.iter("text") if it.get("class") == "scale"]
    marks = [number_of(it.text) for it in scales if it.get("text-anchor") == "end"]
    heights = [int(re.fullmatch(r"M\d+ (\d+)H\d+", it.get("d"))[1]) for it in figure.iter("path") if it.get("class") == "grid" and "H" in it.get("d")]
    (x0, t0), (x1, t1) = time_labels(figure)
    panel = -1
    for it in figure.iter("path"):
        if it.get("class", "").startswith("wave"):
            panel += it.get("class") == "wave1"
            (top, high), (bottom, low) = [(heights[3 * panel + at], marks[3 * panel + at]) for at in (0, 2)]
            yield [(t0 + (x / 10 - x0) * (t1 - t0) / (x1 - x0), high + (y / 10 - top) * (low - high) / (bottom - top))
                   for x, y in points_of(it.get("d"))]


def number_of(text):
    return float(text.replace(",", "").replace(chr(0x2212), "-"))


def points_of(path):
    """The points of a path of lines from one to the next."""
    x = y = 0
    for letter, right, under in re.findall(r"([Mhl])(-?\d+) ?(-?\d+)?", path):
        x, y = (int(right), int(under)) if letter == "M" else (x + int(right), y + int(under or 0))
        yield x, y


class Labels(Each):
    """Names and scales are within the picture, none is over another one, and names are drawn over all lines."""

    def wrong(self, page, _octets):
        for title, figure in figures(page).items():
            if title.startswith("MU0"):
                yield from (f"{title}: {why}" for why in self.wrong_texts([it for it in figure.iter() if it.tag in ("text", "path")]))
        sides = "primary values" in told_of(page, "samples")
        yield from [] if sides else ["it does not say that values are primary"]

    def wrong_texts(self, parts):
        names = [at for at, it in enumerate(parts) if it.get("class", "").startswith("name")]
        yield from [] if len(names) in (4, 8) else [f"it has {len(names)} names"]
        yield from [] if min(names) > max(at for at, it in enumerate(parts) if it.tag == "path") else ["a line is over a name"]
        rows = {}
        for it in (parts[at] for at in names):
            rows.setdefault(it.get("y"), []).append((float(it.get("x")), LETTER * len(it.text), it.text))
        for row in rows.values():
            ends = sorted((x, x + wide, told) for x, wide, told in row)
            yield from (f"{one[2]} reaches {other[2]}" for one, other in zip(ends, ends[1:]) if one[1] > other[0])
            yield from [] if ends[-1][1] <= 1000 else [f"{ends[-1][2]} reaches beyond the picture"]
        for it in parts:
            if it.get("class") == "scale" and it.get("text-anchor") == "middle" and float(it.get("x")) + DIGIT * len(it.text) / 2 > 1000:
                yield f"{it.text} reaches beyond the picture"


class LongGap(Each):
    """A gap of some periods is left open in both pictures."""

    def wrong(self, page, _octets):
        for what in (AROUND, WHOLE):
            got = [len(runs) for runs in lines(figures(page)[f"MU01: {what}"])]
            yield from [] if got == [2] * 8 else [f"{what}: a line has {got} runs"]


class Spans(Each):
    """Spans by channel: one that changes its quality is two, one that a gap parts is two, and `derived` alone is good."""

    wanted = [("I2", "invalid", "3"), ("I2", "questionable overflow", "2"), ("U4", "test derived", "40"), ("U4", "test derived", "32")]
    # The first and the last sample of each.
    samples = [(100, 102), (103, 104), (760, 799), (808, 839)]

    def wrong(self, page, _octets):
        got = [tuple(row[1:4]) for row in page.rows(SPANS)]
        if got != self.wanted:
            yield f"the spans are {got}"
        unit, times = unit_of(qualities), sorted(moment for moment, _ in self.sent())
        packets = [[times.index(unit.captured(it // 8 * 8 + 7)) + 1 for it in ends] for ends in self.samples]
        got = [[int(it) for it in re.findall(r"\d+", row[-1])] for row in page.rows(SPANS)]
        wanted = [[first, *([last] if last != first else [])] for first, last in packets]
        yield from [] if got == wanted else [f"the spans are in packets {got}, and not {wanted}"]


def qualities(at):
    """Samples of a line with qualities of their own."""
    current, voltage = line_values(at % 80)
    told = [0, 1 if 100 <= at < 103 else 7 if 103 <= at < 105 else 0, 0, 0x2000, 0, 0, 0, 0x2800 if 760 <= at < 840 else 0]
    values = steps(current, 0.001) + steps(voltage, 0.01)
    return b"".join(pairs([value], quality) for value, quality in zip(values, told))


class Known(Each):
    """What the samples say is told, and by what it is known."""

    def __init__(self, name, sent, wanted, *asked, **how):
        super().__init__(name, sent, *asked, **how)
        self.wanted = wanted

    def wrong(self, page, _octets):
        got = page.rows(STREAMS)
        if len(got) != len(self.wanted) or not all(ours in " ".join(theirs) for ours, theirs in zip(self.wanted, got)):
            yield f"the streams are {got}"


class Unread(Each):
    """A number of the SCL file by which samples are told and that is none is named with its line, and what is taken in its place."""

    def __init__(self, name, old, new, value, of, instead):
        before, _, after = fault_station.scd().partition(old)
        super().__init__(f"an SCL file with {name}", sent_of(*units()), scd=before + new + after)
        self.value, self.told = value, f"{value} of {of} (line {before.count(chr(10)) + 1}), and {instead} is taken"

    def wrong(self, page, _octets):
        (line, state), = [it for it in page.summary if it[0].startswith("Configuration")]
        if self.value is None:
            yield from [f"it tells what is there: {line}"] if "cannot be read" in line else []
            return
        if state != "unjudged" or f"1 value of of.scd by which samples are told cannot be read: {self.told}." not in line:
            yield f"the line is {state}: {line}, and lacks {self.told}"
        if f"of.scd: {self.told}, since it cannot be read." not in told_of(page, "station"):
            yield "the section on senders does not say it"


# The first current of MU01, in an SCL file and by its name, and the first voltages.
NODE, CURRENT = '<LN prefix="I01A" lnClass="TCTR" inst="1" lnType="TCTR_T">', "I01ATCTR1.AmpSv.instMag.i"


def unread():
    """What stands in an SCL file, what is put in its place, and what the page says of that."""
    some = lambda sort, letter, name: "; ".join(f"{letter}01{phase}{sort}{at}.{name}.instMag.i" for at, phase in enumerate("ABC", 1))
    currents, voltages = f"MU01 ({some('TCTR', 'I', 'AmpSv')}; 1 more)", f"MU01 ({some('TVTR', 'U', 'VolSv')}; 1 more)"
    for text in ("0,001", "abc", "1_000", "nan", "INF", "1e999", "0", "0x10", "\u0661"):
        yield f"the scaleFactor {text}", "<Val>0.001</Val>", f"<Val>{text}</Val>", f"scaleFactor {text!r}", currents, "0.001 A"
    offset = '<Val>0.00001</Val></BDA><BDA name="offset" bType="FLOAT32"><Val>'
    yield "an offset that is no number", f"{offset}0<", f"{offset}none<", "offset 'none'", voltages, "0"
    yield "a scaleFactor of a voltage", "<Val>0.00001</Val>", "<Val>1e-5 V</Val>", "scaleFactor '1e-5 V'", voltages, "0.01 V"
    yield "a multiplier that is a number without a word", "<Val>k</Val>", "<Val>7</Val>", "multiplier '7'", voltages, "none"
    for names, text, instead in ((("sVC", "scaleFactor"), "", "0.001 A"), (("sVC", "offset"), "-", "0")):
        own = f'<DOI name="AmpSv"><SDI name="{names[0]}"><DAI name="{names[1]}"><Val>{text}</Val></DAI></SDI></DOI>'
        yield f"a {names[1]} of one channel that is {text!r}", NODE, NODE + own, f"{names[1]} {text!r}", f"MU01 ({CURRENT})", instead
    for text in (" 0.001 ", "1E-3", "+.001", "-1.", "7"):
        yield f"the scaleFactor {text!r}, which is one", "<Val>0.001</Val>", f"<Val>{text}</Val>", None, "", ""


class NoStream(Each):
    """Without a stream there is no section, and the trip table has no times from a fault."""

    def wrong(self, page, _octets):
        yield from ["there is a section"] if section(page, "samples") is not None else []
        yield from ["it tells an inception"] if "inception" in told_of(page, "trip") else []


class NoTrip(Each):
    """Without a trip there is the picture of the whole alone."""

    def wrong(self, page, _octets):
        held = [it for it in figures(page) if it.startswith("MU0")]
        yield from [] if held == [f"MU01: {WHOLE}", f"MU02: {WHOLE}"] else [f"the pictures are {held}"]
        yield from ["it tells an inception"] if "inception" in told_of(page, "trip") else []


class Bounded(Each):
    """Many streams with spans without end: the page is at most so large, and what is not drawn is counted."""

    def wrong(self, page, octets):
        if len(octets) > MOST_OCTETS:
            yield f"it has {len(octets)} octets"
        told = told_of(page, "samples")
        yield from (f"it lacks {it!r}" for it in ("more pictures not drawn", "more spans", "more streams are not looked at") if it not in told)
        yield from [f"{len(page.rows(SPANS))} spans are listed"] if len(page.rows(SPANS)) > 200 else []


@functools.cache
def restless_of(at):
    current, voltage = line_values(at)
    return pairs(steps(current, 0.001) + steps(voltage, 0.01), 3 if at % 2 else 0)


def restless(at):
    """Samples of which every second one is questionable."""
    return restless_of(at % 80)


def long_names():
    """An SCL file in which MU01 has eight currents of long names."""
    nodes, long = fault_station.node_names, [("FEEDERNORTH", "TCTR"), ("FEEDERSOUTH", "TCTR")]
    own = fault_station.merging_unit("MU01", nodes("TCTR", "I") + nodes("TVTR", "U"))
    assert own in fault_station.scd()
    return fault_station.scd().replace(own, fault_station.merging_unit("MU01", [it for name, sort in long for it in nodes(sort, name)]))


def many():
    return [Unit(f"UNIT{it:02}", 0x4100 + it, it, restless, samples=2000) for it in range(1, 31)]


def words_of(at):
    """Samples that are no pairs."""
    return b"".join(((at * 7919 + it) % 2**32 | 0x8000).to_bytes(4, "big") for it in range(6))


def cases():
    first = "I01ATCTR1.AmpSv.instMag.i"
    yield Inception("a fault, with an SCL file", sent_of(*units()), first, scd=fault_station.scd())
    trip = f"{sum(at < TRIP_AT for at, _ in fault_station.packets()) + 1}"
    yield Inception("a fault, as 9-2LE", sent_of(*units()), "I1", "--trip", trip)
    opening = f"{sum(at < OPEN_AT for at, _ in fault_station.packets()) + 1}"
    yield OpensAtOnce("a breaker that opens in the packet that is named", sent_of(*units()), "--trip", opening)
    yield Inception("one sample a frame", sent_of(unit_of(sample_of_line, a_frame=1)), "I1", "--trip",
                    f"{sum(at < TRIP_AT for at, _ in sent_of(unit_of(sample_of_line, a_frame=1))()) + 1}")
    own = f"{sum(at < TRIP_AT for at, _ in sent_of(unit_of(sample_of_line))()) + 1}"
    yield Inception("noise in a channel that was 0", sent_of(unit_of(noisy)), "I1", "--trip", own)
    for told in ((4800, 60, 8), (14400, 60, 6), (4000, 60, 1), (5760, 60, 1), (12800, 50, 8), (15360, 60, 8)):
        yield AtRate(*told)
    both = sent_of(Unit("MU00", 0x4003, 3, lambda at: sample_of_line(at - 12)), unit_of(sample_of_line))
    yield Inception("two streams that tell it", both, "I1", "--trip", f"{sum(at < TRIP_AT for at, _ in both()) + 1}")
    yield Inception("a step of 10 in 100", sent_of(unit_of(step(1.1))), "I2", "--trip", own)
    yield Inception("a step of 8 in 100 at 60 Hz", sent_of(unit_of(small_step)), "I2", "--trip", own)
    yield from long_ago()
    yield NoInception("a step of 4 in 100", sent_of(unit_of(step(1.04))), "No fault inception", "--trip", own)
    yield NoInception("one wild sample", sent_of(unit_of(one_is_wild)), "No fault inception", "--trip", own)
    yield NoInception("a fault in invalid samples", sent_of(unit_of(doubtful_fault)), "No fault inception", "--trip", own)
    yield NoInception("samples that differed a third as much before", sent_of(unit_of(unsteady)), "No fault inception", "--trip", own)
    yield NoInception("another bay alone", sent_of(units()[1]), "No fault inception", "--trip", own)
    yield Pictures("pictures, with an SCL file", sent_of(*units()), scd=fault_station.scd())
    yield Pictures("pictures, as 9-2LE", sent_of(*units()), "--trip", trip)
    yield Drawn("values of lines", sent_of(*units()), scd=fault_station.scd())
    yield Values()
    for rate, frequency, lost in ((4000, 60, ()), (4000, 60, range(1000, 1100)), (5760, 50, ()), (4800, 60, range(1619, 1620))):
        yield Periods(rate, frequency, lost)
    yield Scaled("a channel with an offset", sent_of(*units()), scd=scd_of_own())
    yield Labels("names and scales", sent_of(*units()), scd=fault_station.scd())
    yield Labels("names and scales of long names in one unit", sent_of(*units()), scd=long_names())
    yield LongGap("a gap of five periods", sent_of(unit_of(sample_of_line, lost=range(800, 1200))), "--trip",
                  f"{sum(at < TRIP_AT for at, _ in sent_of(unit_of(sample_of_line, lost=range(800, 1200)))()) + 1}")
    yield Spans("spans of qualities", sent_of(unit_of(qualities, lost=range(800, 808))))
    yield Known("9-2LE, and four pairs", sent_of(*units()), ["pairs of INT32 and Quality, 4I4U", "it is not known what they measure"])
    yield Known("raw words", sent_of(unit_of(words_of)), ["raw words of 32 bits"])
    yield Known("four pairs with --channels", sent_of(*units()), ["I1 (A)", "I1 (A), I2 (A), I3 (A), I4 (A) 4,000"], "--channels", "MU02=4I")
    yield Known("a data set", sent_of(*units()), [f"{first} (A)", "by the data set dsSv of MU02MU/LLN0$MS$msv1 in of.scd"], scd=fault_station.scd())
    yield from (Unread(*told) for told in unread())
    yield NoStream("no stream", sent_of())
    yield NoTrip("no trip", sent_of(*units(), with_events=False))
    yield Bounded("many streams", sent_of(*many()))
