"""How many samples a second each stream sends, and by what this is known."""
import statistics

from reporting import page
from reporting.verdict import clean, found as finding, not_judged, some

SECOND = 10**6
# The time over which the rise of smpCnt is measured, in microseconds, how many of them tell a rate, and how many are held.
STRETCH, FEWEST, MOST = SECOND // 10, 3, 1000
# The rates of IEC 61850-9-2 LE and IEC 61869-9 that a capture shows, and by how much it may show another one.
USUAL = (4000, 4800, 5760, 12800, 14400, 15360)
# The rate of IEC 61869-9 that two octets cannot count.
FAST = 96000
ALIKE = 0.02
# The periods that goose judges.
LEAST, GREATEST = 2, 65536
FREQUENCIES = (50, 60)
# What smpMod says of smpRate (IEC 61850-9-2): samples a period of the nominal frequency, samples a second, seconds a sample.
PER_PERIOD, PER_SECOND, PER_SAMPLE = range(3)
FRAMES = "its frames"
MODES = {"SmpPerPeriod": PER_PERIOD, "SmpPerSec": PER_SECOND, "SecPerSmp": PER_SAMPLE}
COLUMNS = [page.Column("Stream"), page.Column("Samples a second", page.NUMBER), page.Column("By"), page.Column("The capture shows", page.NUMBER),
           page.Column("Judged")]


class Rise:
    """How fast smpCnt of a stream rises by the capture's time. Neither gaps nor copies change it."""

    def __init__(self):
        self.since, self.count, self.rates = None, None, []

    def see(self, now, count):
        """The smpCnt of a frame, of which there is one for each stretch at least."""
        time = now - self.since if self.since is not None else -1
        if 0 <= time < STRETCH:
            return
        if 0 < time < SECOND and count > self.count and len(self.rates) < MOST:
            self.rates.append((count - self.count) * SECOND / time)
        self.since, self.count = now, count

    @property
    def measured(self):
        """What is shown, or None where too little is."""
        return statistics.median(self.rates) if len(self.rates) >= FEWEST else None


def is_like(rate, measured):
    return abs(rate - measured) <= ALIKE * rate


class Rate:
    """The rate of a stream, or None; by what it is known; and why its samples are not judged, and what to do, where it is so."""

    def __init__(self, number, source, measured, why=None, todo="give --period N", is_configured=False):
        self.number, self.source, self.measured, self.todo, self.is_configured = number, source, measured, todo, is_configured
        self.why = why or self.why_not()

    def why_not(self):
        """Why samples of this rate cannot be judged, or None."""
        if self.number is None:
            return f"no rate is known{f', and the capture shows about {self.measured:,.0f} samples a second' if self.measured else ''}"
        if self.number > GREATEST:
            return f"{self.number:,} samples a second ({self.source}) are more than two octets can count"
        if self.number < LEAST:
            return f"{self.number:,} samples a second ({self.source}) are too few"
        if self.is_other:
            return f"the capture shows about {self.measured:,.0f} samples a second, and not {self.number:,} ({self.source})"
        return None

    @property
    def is_other(self):
        """Whether the capture shows another rate than was given."""
        return self.number is not None and self.measured is not None and not is_like(self.number, self.measured)

    @property
    def period(self):
        """The period by which samples are judged, or None."""
        return self.number if self.why is None else None


class Asked:
    """The rates that the arguments give: for all streams, for some by their svIDs, and the nominal frequency."""

    def __init__(self, periods=(), frequency=None):
        self.all, self.own, self.frequency = None, {}, frequency
        for text in periods:
            name, has_name, number = text.rpartition("=")
            if has_name:
                self.own[name] = int(number)
            else:
                self.all = int(number)

    def of(self, name):
        return self.own.get(name, self.all)

    def a_second(self, rate, measured):
        """Samples a second of those of a period, by the frequency that is given, else by the one that the capture shows; or None."""
        frequencies = (self.frequency,) if self.frequency else FREQUENCIES
        fitting = [it * rate for it in frequencies if measured and is_like(it * rate, measured)]
        # Where neither fits, the capture shows another rate than was given, whichever frequency it is.
        return fitting[0] if fitting else rate * frequencies[0] if self.frequency or measured else None

    def by_mode(self, rate, mode, measured, source):
        """The rate of a stream of which smpRate and smpMod are told. No stream sends 0 samples."""
        if rate == 0:
            return Rate(None, None, measured, f"smpRate of {source} is 0")
        if mode == PER_SAMPLE:
            return Rate(None, None, measured, f"{source} say{'' if source == FRAMES else 's'} that smpRate is seconds a sample")
        if mode == PER_SECOND:
            return Rate(rate, f"by {source}: smpRate {rate}, a second", measured)
        number = self.a_second(rate, measured)
        if number is None:
            return Rate(None, None, measured, f"smpRate {rate} of {source} is a period, and the capture is too short to show how long one is",
                        "give --frequency 50 or 60")
        return Rate(number, f"by {source}: smpRate {rate}, a period at {number // rate} Hz", measured)

    def rate(self, seen, configured, name):
        """The rate of a stream, by what comes first: the arguments, the SCL file of this name, its frames, the capture."""
        measured = seen.rise.measured
        given = self.of(seen.name)
        if given:
            return Rate(given, "by --period", measured)
        stated = [self.by_mode(rate, mode, measured, name) for rate, mode in configured]
        if stated:
            found = next((it for it in stated if it.why is None), stated[0])
            found.is_configured = True
            return found
        if seen.rates:
            return self.own_rate(*list(seen.rates)[-1], measured)
        return shown(measured)

    def own_rate(self, rate, mode, measured):
        """The rate by what a stream's frames tell. Where they do not say of what it is the rate, it is what fits."""
        if mode is not None or rate == 0:
            return self.by_mode(rate, mode, measured, FRAMES)
        fitting = [it for it in (rate, *(it * rate for it in FREQUENCIES)) if measured and is_like(it, measured)]
        return Rate(fitting[0], f"by {FRAMES}: smpRate {rate}", measured) if fitting else shown(measured)


def shown(measured):
    """The rate that the capture shows."""
    usual = [it for it in (*USUAL, FAST) if measured and is_like(it, measured)]
    return Rate(usual[0], "by what the capture shows", measured) if usual else Rate(None, None, measured)


def row(stream, rate):
    number = "" if rate.number is None else f"{rate.number:,}"
    return page.row(COLUMNS, [page.element("span", page.named(stream.name), class_="name"), number, rate.source or "",
                              f"about {rate.measured:,.0f}" if rate.measured else "too little to tell",
                              "yes" if rate.why is None else f"no: {rate.why}"], found=4 if rate.why else None)


def judge(found, own):
    """What of the streams is judged, and by which rate."""
    streams = found.station.of_kind("stream")
    if not streams:
        yield clean(f"there is no stream in {found.all_packets}.")
        return
    other = [f"{it.name}: {found.rates[it].why}" for it in streams if found.rates[it].is_other and found.rates[it].is_configured]
    if other:
        yield finding(f"another rate than in {own.scd}: {some(other)}.")
    unjudged = {}
    for it in streams:
        if found.rates[it].why:
            unjudged.setdefault(found.rates[it].todo, []).append(f"{it.name}, from packet\u00a0{it.first.packet} on: {found.rates[it].why}")
    for todo, told in unjudged.items():
        yield not_judged(f"samples of {page.count(len(told), 'stream')} are not judged: {some(told)}.", todo)
    if found.untimed.number:
        yield not_judged(f"samples are judged by their counts alone, since {found.untimed.told(found.packets)}: half a second that is gone cannot "
                         "be seen.", "capture with times")
    judged = [f"{it.name}: {found.rates[it].number:,} samples a second {found.rates[it].source}" for it in streams if not found.rates[it].why]
    if judged:
        yield clean(f"samples of {page.count(len(judged), 'stream')} are judged in {found.all_packets} ({some(judged)}).")
