"""The samples of one stream in what goose show --json writes of a capture, and the index of each among all that were sent."""
import binascii
import json
import operator
import re

from reporting import rates
from running import Ended

SECOND = 10**6
# What a line of any event begins with, and what one of a frame of Sampled Values does.
EVENT = re.compile(rb'\{"packet":(\d+),"microseconds":(\d+),')
FRAME = re.compile(rb'\{"packet":(\d+),"microseconds":(\d+),"time":(?:null|"[^"]*"),"kind":"sv","destination":"\w+","source":"(\w+)",'
                   rb'"tag":(?:null|"\w+"),"appid":"(\w+)",')
TEXT = rb'"(?:[^"\\]|\\.)*"'
# What follows the svID of an ASDU: smpCnt, smpSynch, smpRate, sample and smpMod, of which some are groups.
REST = (rb',"datSet":(?:null|%b),"smpCnt":(\d+),"confRev":\d+,"refrTm":(?:null|"[^"]*","refrTime":(?:null|"[^"]*"),"refrQuality":\{[^}]*\}),'
        rb'"smpSynch":%%b,"smpRate":%%b,"sample":%%b,"smpMod":%%b' % TEXT)
SAMPLES, RATES = REST % (rb"(\d+)", rb"\w+", b'"([^"]*)"', b'(?:null|"[^"]*")'), REST % (rb"\d+", rb"(\w+)", b'"[^"]*"', b'(null|"[^"]*")')
# How many rises of smpCnt tell the rate.
RISES = 5


class Asdu:
    """What an ASDU says beside its sample: smpCnt, smpSynch, the octets of its sample, its packet, and when that or the sample was captured."""

    __slots__ = ("packet", "microseconds", "now", "count", "synch", "octets")

    def __init__(self, packet, microseconds, now, told):
        self.packet, self.microseconds, self.now = packet, microseconds, now
        count, synch, octets = told
        self.count, self.synch, self.octets = int(count), int(synch), binascii.unhexlify(octets)


class Stream:
    """A stream, of one svID. Two senders of that name cannot be told apart."""

    def __init__(self, svid):
        self.name, self.appid, self.source = svid, None, None
        self.begin = rb'\{"svID":%b' % re.escape(json.dumps(svid).encode())

    def frames(self, lines, fields=SAMPLES):
        """The frames of the stream: what is told of each ASDU, when they were captured, the greatest time so far of any packet, and the packet."""
        now, frame_of, asdus_in, sender = 0, FRAME.match, re.compile(self.begin + fields).findall, None
        for line in lines:
            frame = frame_of(line)
            begin = frame or EVENT.match(line)
            if not begin:
                continue
            moment = int(begin[2])
            if moment > now:
                now = moment
            told = asdus_in(line, frame.end()) if frame else ()
            if told:
                if frame.group(3, 4) != sender:
                    sender = frame.group(3, 4)
                    self.see(frame)
                yield told, moment, now, int(frame[1])

    def see(self, frame):
        """The sender of a frame."""
        sender = frame[4].decode(), frame[3].decode()
        if self.appid is None:
            self.appid, self.source = sender
        elif sender != (self.appid, self.source):
            raise Ended(f"packet {int(frame[1])}: two streams have the svID {self.name}: APPID {self.appid} of {self.source}, and "
                        f"{sender[0]} of {sender[1]}. "
                        "A filter of Wireshark leaves one of them")


class Head:
    """How fast the samples of a stream come, by those at the beginning, and what they say of it."""

    def __init__(self, stream, lines):
        self.name, self.rise, self.rates = stream.name, rates.Rise(), {}
        for told, moment, _, _ in stream.frames(lines, RATES):
            if not all(self.goes_on(moment, *it) for it in told):
                break

    def goes_on(self, moment, count, rate, mode):
        """What an ASDU says. Whether more are needed is answered."""
        if rate != b"null":
            self.rates[int(rate), None if mode == b"null" else int(mode[1:-1] or b"0", 16)] = None
        self.rise.see(moment, int(count))
        return len(self.rise.rates) < RISES


class Counted:
    """The index of each sample, from 0 on, by its smpCnt and the time since the newest one: how far it is ahead of that one is the whole
    number, of those that its smpCnt allows, that is nearest to the time between them; of two as near, the greater. None is the index of
    a copy, and of a smpCnt that is not below the rate."""

    def __init__(self, rate):
        self.rate, self.newest, self.count, self.now, self.run = rate, None, 0, 0, 0
        # Within a quarter of a second the next smpCnt is the next sample.
        self.soon = SECOND // 4 if rate >= 4 else 0
        self.samples = self.missing = self.late = self.repeated = self.out_of_range = 0

    def index(self, it):
        self.samples += 1
        if it.count >= self.rate:
            self.out_of_range += 1
            return None
        if self.newest is None:
            self.newest, self.count, self.now, self.run = 0, it.count, it.now, 1
            return 0
        if it.count == self.count + 1 and 0 <= it.now - self.now < self.soon:
            advance = 1
        else:
            advance = self.advance(it.count, it.now)
        if advance > 0:
            self.missing += advance - 1
            self.run = self.run + 1 if advance == 1 else 1
            self.newest, self.count, self.now = self.newest + advance, it.count, it.now
            return self.newest
        if -advance < self.run:
            self.repeated += 1
            return None
        # One from before the first sample is not late, as in losses: a capture of two networks may begin with the later copy.
        self.late += self.newest + advance >= 0
        return self.newest + advance

    def first_of(self, counts, times):
        """The index of the first of some samples, with the times of their packets, or None where they are not simply the next ones."""
        first, number = counts[0], len(counts)
        if self.newest is None or first != (self.count + 1) % self.rate or counts[-1] != (first + number - 1) % self.rate:
            return None
        passed = list(map(operator.sub, times, (self.now, *times)))
        if min(passed) < 0 or max(passed) >= self.soon:
            return None
        whole, rest = divmod(first + number, self.rate)
        if counts != (list(range(first, first + number)) if not whole else [*range(first, self.rate), *range(rest)]):
            return None
        self.samples, self.run, self.newest = self.samples + number, self.run + number, self.newest + number
        self.count, self.now = counts[-1], times[-1]
        return self.newest - number + 1

    def advance(self, count, now):
        rate, passed = self.rate, now - self.now
        least = (count - self.count) % rate
        # Of the least number and whole rates beside it the one nearest to passed * rate / SECOND.
        return least + rate * ((2 * (passed * rate - least * SECOND) + rate * SECOND) // (2 * rate * SECOND))


def likeness(columns, lag):
    """How unlike values are those of so many samples later, which need not be a whole number: 0 where they are equal."""
    whole, part = int(lag), lag - int(lag)
    apart = size = 0
    for column in columns:
        scale = sum(map(abs, column)) / (len(column) or 1) or 1
        for one, two, three in zip(column, column[whole:], column[whole + 1:]):
            apart += abs(two + (three - two) * part - one) / scale
            size += 1
    return apart / size if size else 0
