"""Writes a recording as COMTRADE (IEC 60255-24:2013): its samples in .dat, what they are in .cfg, and how it was made in .hdr.

Each form of .dat tells how a sample is put there, and what stands for one that is missing.
"""
import array
import datetime
import decimal
import itertools
import math
import struct
import sys

from running import Ended

# Lines of .cfg and .hdr, and of .dat in ASCII, end so.
END = "\r\n"
# What a missing value is in binary32, its first octet, and the greatest number of 32 bits. All ones are no time stamp.
MISSING, HIGHEST, GREATEST, MOST_STAMP = -2**31, 0x80, 2**31 - 1, 2**32 - 2
FLOATS, MOST_FLOAT = 3.4028234663852886e38, 3.4028234e38
# The most characters of names and units.
MOST_NAME, MOST_UNIT, MOST_STATION = 128, 32, 64
# From which number on an exponent is shorter.
LONG = 10**12
# The unit of a channel that has none: the field has one letter at least.
NO_UNIT = "NONE"
EPOCH = datetime.datetime(1970, 1, 1)
SECOND = 10**6


class Binary:
    """Numbers of 32 bits, the least octet first."""

    name, letter, missing, are_text = "BINARY32", "i", MISSING, False

    def __init__(self, channels):
        self.channels = channels
        self.pack = struct.Struct(f"<II{len(channels)}{self.letter}").pack
        self.lacking = (self.missing,) * len(channels)

    def scale(self, channel):
        """a and b of a channel, and its least and greatest value."""
        least, greatest = channel.limits
        return channel.a, channel.b, max(least, -GREATEST), greatest

    def put(self, values):
        """The values as they are written."""
        return values if MISSING not in values else [max(it, -GREATEST) for it in values]

    def row(self, number, stamp, values, digital):
        return self.pack(number, stamp, *(self.lacking if values is None else self.put(values))) + digital

    def column(self, _channel, values):
        """The values of one channel, 4 octets each, as they are written, or None where one of them is not written as it is."""
        return values if HIGHEST not in little(values)[3::4] or min(values) > MISSING else None

    def rows(self, numbers, stamps, columns, digital):
        """Rows of which none is missing, by columns that `column` told, with the same digital channels."""
        size = 8 + 4 * len(columns) + len(digital)
        rows = bytearray(size * len(numbers))
        for place, column in enumerate((array.array("I", numbers), array.array("I", stamps), *columns)):
            octets = little(column)
            for at in range(4):
                rows[4 * place + at::size] = octets[at::4]
        for at, it in enumerate(digital, size - len(digital)):
            rows[at::size] = bytes((it,)) * len(numbers)
        return rows


def little(column):
    """The octets of numbers of 4 octets, the least first."""
    if sys.byteorder == "little":
        return column.tobytes()
    turned = column[:]
    turned.byteswap()
    return turned.tobytes()


class Float(Binary):
    """Numbers in single precision, in the unit of their channel."""

    name, letter, missing = "FLOAT32", "f", math.nan

    def __init__(self, channels):
        super().__init__(channels)
        self.scales = [(it.a, it.b) for it in channels]

    def scale(self, channel):
        least, greatest = sorted(channel.a * it + channel.b for it in channel.limits) if channel.form not in "fd" else (-FLOATS, FLOATS)
        return 1.0, 0.0, outward(least, math.floor), outward(greatest, math.ceil)

    def put(self, values):
        put = [a * it + b for it, (a, b) in zip(values, self.scales)]
        return put if all(-FLOATS <= it <= FLOATS for it in put) else [min(max(it, -FLOATS), FLOATS) if math.isfinite(it) else it for it in put]

    def column(self, channel, values):
        a, b = self.scales[channel]
        put = [a * it + b for it in values]
        return array.array("f", put) if -FLOATS <= min(put) and max(put) <= FLOATS else None


class Ascii(Binary):
    """Lines of decimal numbers. A missing value is an empty field."""

    name, are_text = "ASCII", True

    def __init__(self, channels):
        super().__init__(channels)
        self.lacking = [""] * len(channels)

    def scale(self, channel):
        return channel.a, channel.b, *channel.limits

    def row(self, number, stamp, values, digital):
        return (",".join(map(str, itertools.chain((number, stamp), self.lacking if values is None else values, digital))) + END).encode()

    def column(self, _channel, values):
        return values

    def rows(self, numbers, stamps, columns, digital):
        row = ",".join(["%d"] * (2 + len(columns)) + list(map(str, digital))) + END
        return "".join(map(row.__mod__, zip(numbers, stamps, *columns))).encode()


FORMS = {"binary32": Binary, "ascii": Ascii, "float32": Float}


class Digital:
    """The digital channels of one moment. In .dat each is a bit of words of 16, the first one the lowest."""

    def __init__(self, count, are_text):
        self.bits, self.words, self.are_text, self.told = [0] * count, bytearray(2 * -(-count // 16)), are_text, None

    def put(self, at, value):
        self.bits[at] = int(value)
        if value:
            self.words[at // 8] |= 1 << at % 8
        else:
            self.words[at // 8] &= ~(1 << at % 8)
        self.told = None

    def tell(self):
        """What a row has of them."""
        if self.told is None:
            self.told = tuple(self.bits) if self.are_text else bytes(self.words)
        return self.told


def outward(value, rounded):
    """A limit in seven digits, which a field of .cfg has room for: none of its side that single precision holds is beyond it."""
    value = min(max(value, -FLOATS), FLOATS)
    single = struct.unpack("<f", struct.pack("<f", value))[0]
    if not single or abs(single) >= MOST_FLOAT:
        return single
    step = 10.0 ** (math.floor(math.log10(abs(single))) - 6)
    return float(f"{rounded(single / step) * step:.7g}")


def plain(text, most):
    """A text that a field of .cfg can hold."""
    return "".join("_" if it in ",\r\n" or not it.isprintable() else it for it in text)[-most:]


def number(value):
    """A number in the fewest digits that tell it, as a number of single precision for the greatest of these."""
    text = f"{math.copysign(3.4028235e38, value)!r}" if abs(value) >= MOST_FLOAT else repr(float(value))
    if LONG <= abs(value) < MOST_FLOAT:
        text = f"{decimal.Decimal(text).normalize()}".replace("+", "")
    return text[:-2] if text.endswith(".0") else text.replace("e+", "E").replace("e", "E")


def date(moment):
    """A time in microseconds since 1970 as .cfg has it."""
    try:
        return (EPOCH + datetime.timedelta(microseconds=moment)).strftime("%d/%m/%Y,%H:%M:%S.%f")
    except OverflowError:
        raise Ended(f"a time of {moment:,} microseconds since 1970 is after the year 9999, and .cfg has four digits for a year") from None


def multiplier(most):
    """The least power of ten by which a time stamp of so many microseconds fits into 32 bits."""
    found = 1
    while most > MOST_STAMP * found:
        found *= 10
    return found


class Recording:
    """What .cfg says: the names of station and device, channels, rate, samples, times and their quality."""

    def __init__(self, station, device, channels, digital, rate, form):
        self.station, self.device, self.channels, self.digital, self.rate, self.form = station, device, channels, digital, rate, form
        self.frequency = self.samples = self.first = self.trigger = None
        self.is_timed = self.knows_leaps = False

    @property
    def multiplier(self):
        return multiplier((self.samples - 1) * SECOND // self.rate + 1)

    def stamps(self, first, number):
        """The time stamps of so many samples, from one on that is counted from 0: in units of the multiplier, to the nearest."""
        rate, unit = self.rate, self.multiplier
        step, rest = divmod(SECOND, rate * unit)
        if not rest:
            return range(first * step, (first + number) * step, step)
        return [(2 * at * SECOND + rate * unit) // (2 * rate * unit) for at in range(first, first + number)]

    def lines(self):
        """The lines of .cfg."""
        digital, count = len(self.digital), len(self.channels) + len(self.digital)
        yield f"{plain(self.station, MOST_STATION)},{plain(self.device, MOST_STATION)},2013"
        yield f"{count},{len(self.channels)}A,{digital}D"
        for at, it in enumerate(self.channels, 1):
            a, b, least, greatest = map(number, self.form.scale(it))
            yield f"{at},{plain(it.name, MOST_NAME)},{it.phase},,{plain(it.unit, MOST_UNIT) or NO_UNIT},{a},{b},0,{least},{greatest},1,1,P"
        for at, name in enumerate(self.digital, 1):
            yield f"{at},{plain(name, MOST_NAME)},,,0"
        yield from (number(self.frequency), "1", f"{number(self.rate)},{self.samples}", date(self.first), date(self.trigger), self.form.name)
        yield from (number(self.multiplier), "0,x", f"{'0' if self.is_timed else 'F'},{0 if self.knows_leaps else 3}")
