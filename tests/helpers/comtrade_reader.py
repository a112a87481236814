"""A reader of COMTRADE (IEC 60255-24:2013), which shares nothing with what writes it: .cfg, and .dat in ASCII, BINARY32 and FLOAT32."""
import calendar
import math
import re
import struct
import time

WIDTH = {"BINARY32": 4, "FLOAT32": 4}
DATE = re.compile(r"(\d\d)/(\d\d)/(\d{4}),(\d\d):(\d\d):(\d\d)\.(\d{6})")
REAL = re.compile(r"[-+]?\d+(\.\d+)?(E[-+]?\d+)?")


class Analog:
    """A channel of values, each a number in its unit, or None where it is missing."""

    def __init__(self, line, at):
        fields = line.split(",")
        assert len(fields) == 13 and fields[0] == f"{at}", line
        assert all(map(REAL.fullmatch, fields[5:12])) and all(len(it) <= 13 for it in fields[8:10]), line
        self.name, self.phase, self.circuit, self.unit = fields[1:5]
        self.a, self.b, self.skew, self.least, self.greatest, self.primary, self.secondary = map(float, fields[5:12])
        self.side, self.values, self.stored = fields[12], [], []
        assert len(self.name) <= 128 and 1 <= len(self.unit) <= 32 and len(self.phase) <= 2 and self.side in ("P", "S"), line

    def put(self, stored):
        self.stored.append(stored)
        self.values.append(None if stored is None else self.a * stored + self.b)
        assert stored is None or not self.least > stored and not self.greatest < stored, f"{self.name} has {stored}"


class Digital:
    """A channel of zeros and ones."""

    def __init__(self, line, at):
        number, self.name, self.phase, self.circuit, self.normal = line.split(",")
        assert number == f"{at}" and self.normal in ("0", "1") and len(self.name) <= 128, line
        self.values = []


def moment(line):
    """A date in microseconds since 1970."""
    day, month, year, hour, minute, second, fraction = map(int, DATE.fullmatch(line).groups())
    return calendar.timegm(time.struct_time((year, month, day, hour, minute, second, 0, 0, 0))) * 10**6 + fraction


class Recording:
    """What the files of a recording say."""

    def __init__(self, cfg, dat):
        text = cfg.decode("utf-8")
        assert text.endswith("\r\n") and "\n" not in text.replace("\r\n", ""), "lines do not end with CR LF"
        lines = iter(text.split("\r\n")[:-1])
        self.station, self.device, year = next(lines).split(",")
        assert year == "2013"
        total, analog, digital = next(lines).split(",")
        assert analog[-1] == "A" and digital[-1] == "D" and int(total) == int(analog[:-1]) + int(digital[:-1])
        self.analog = [Analog(next(lines), at + 1) for at in range(int(analog[:-1]))]
        self.digital = [Digital(next(lines), at + 1) for at in range(int(digital[:-1]))]
        self.frequency, rates = float(next(lines)), next(lines)
        assert rates == "1"
        rate, last = next(lines).split(",")
        self.rate, self.last = float(rate), int(last)
        self.first, self.trigger, self.form = moment(next(lines)), moment(next(lines)), next(lines)
        self.multiplier, self.code, self.quality = float(next(lines)), next(lines), next(lines)
        assert not list(lines) and re.fullmatch("[0-9A-F],[0-3]", self.quality), self.quality
        self.stamps = []
        (self.text if self.form == "ASCII" else self.octets)(dat)
        assert len(self.stamps) == self.last, f"{len(self.stamps)} samples, and {self.last} in .cfg"

    def text(self, dat):
        for number, line in enumerate(dat.decode("ascii").split("\r\n")[:-1], 1):
            at, stamp, *values = line.split(",")
            assert int(at) == number and len(values) == len(self.analog) + len(self.digital), line
            self.stamps.append(int(stamp))
            for channel, it in zip(self.analog, values):
                channel.put(int(it) if it else None)
            for channel, it in zip(self.digital, values[len(self.analog):]):
                channel.values.append(int(it))

    def octets(self, dat):
        words, letter = -(-len(self.digital) // 16), {"BINARY32": "i", "FLOAT32": "f"}[self.form]
        row = struct.Struct(f"<II{len(self.analog)}{letter}{words}H")
        assert len(dat) % row.size == 0, f"{len(dat)} octets are no whole rows of {row.size}"
        for number, told in enumerate(row.iter_unpack(dat), 1):
            assert told[0] == number, told
            self.stamps.append(told[1])
            for channel, it in zip(self.analog, told[2:]):
                channel.put(None if (math.isnan(it) if letter == "f" else it == -2**31) else it)
            held = told[2 + len(self.analog):]
            for at, channel in enumerate(self.digital):
                channel.values.append(held[at // 16] >> at % 16 & 1)

    def at(self, number):
        """When a sample was, in microseconds since 1970."""
        return self.first + self.stamps[number] * self.multiplier

    def channel(self, name):
        return next(it for it in [*self.analog, *self.digital] if it.name == name)


def inception(recording, period, since=None):
    """The first sample, from 0 on, from which some channel is no longer as it was a period before."""
    for at in range(since or 12 * period, recording.last - 1):
        for channel in recording.analog:
            values = channel.values
            apart = [abs(values[it] - values[it - period]) for it in (at, at + 1) if None not in (values[it], values[it - period])]
            known = [abs(it) for it in values[at - period:at] if it is not None]
            if len(apart) == 2 and known and apart[1] > 0.05 * max(known) and apart[0] > 0.002 * max(known):
                return at
    return None
