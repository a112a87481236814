"""tools/compare_captures: made pairs of captures whose losses, delays, copies and orders are known."""
import json
import os
import pathlib
import random
import shlex
import subprocess
import sys
import tempfile
import time
from xml.etree import ElementTree

from helpers.asked_tools import TOOLS, ask, module
from helpers.capture_parts import header, interface, option, options, packet, record, section, simple_packet
from helpers.frames import SAMPLED, asdu, element, with_asdus, with_fields
from helpers.harness import SECONDS, peak_memory, run
from helpers.kept_answers import Answers

SECOND = 10**6
START = 1_700_000_000 * SECOND
HOUR = 3600 * SECOND
TAG = bytes.fromhex("8100801f")
ARP = b"\xff" * 6 + bytes(6) + b"\x08\x06" + bytes(46)


# ---- Frames and captures -----------------------------------------------------


def number(value):
    """An INTEGER in its fewest octets."""
    return value.to_bytes(value.bit_length() // 8 + 1, "big")


def goose(sq, st=1, ref=b"G", sim=False, source=1, trailer=b"", tag=b"", **how):
    frame = with_fields(gocb_ref=element(0x80, ref), st_num=element(0x85, number(st)), sq_num=element(0x86, number(sq)),
                        simulation=element(0x87, b"\xff" if sim else b"\0"), **how)
    return frame[:11] + bytes([source]) + tag + frame[12:] + trailer


def part(count, svid=b"S"):
    return asdu(sv_id=element(0x80, svid), smp_cnt=element(0x82, count.to_bytes(2, "big")))


def sample(*parts, sim=False, source=1, trailer=b""):
    """A frame of these ASDUs, or of one with this count."""
    frame = with_asdus(*(part(it) if isinstance(it, int) else it for it in parts))
    return frame[:11] + bytes([source]) + frame[12:18] + (b"\x80\0" if sim else b"\0\0") + frame[20:] + trailer


def redundant(lan, number=7, size=0x40):
    """The trailer of PRP."""
    return number.to_bytes(2, "big") + (lan << 12 | size).to_bytes(2, "big") + b"\x88\xfb"


def captured(*packets, begin=START):
    """A classic capture of frames, each with its microseconds since the beginning."""
    return header() + b"".join(record(*divmod(begin + at, SECOND), frame) for at, frame in packets)


def beats(*times, ref=b"G", **how):
    """Retransmissions of a control block at these times."""
    return [(at, goose(sq, ref=ref, **how)) for sq, at in enumerate(times)]


def later(packets, by):
    return [(at + by, frame) for at, frame in packets]


def without(packets, *numbers):
    """All but the packets of these numbers, from 1 on."""
    return [it for at, it in enumerate(packets, 1) if at not in numbers]


def merged(*lists):
    return sorted((it for own in lists for it in own), key=lambda it: it[0])


# ---- What has to come of them ------------------------------------------------


def some(*packets, count=None):
    return {"frames": len(packets) if count is None else count, "packets": list(packets)}


def delays(least, median, percentile, greatest):
    """Delays, each with the packets of A and of B."""
    names = ("least", "median", "percentile99", "greatest")
    return {name: dict(zip(("microseconds", "packetA", "packetB"), it)) for name, it in zip(names, (least, median, percentile, greatest))}


def sender(name, counts, delay=None, a=some(), b=some(), while_a=some(), while_b=some(), turned=(), sim=False, source=1, appid=None):
    """A sender as the tool tells it."""
    is_goose = name.startswith("G")
    return {"kind": "compared-goose" if is_goose else "compared-sv", "appid": appid or ("0001" if is_goose else "4000"),
            "source": f"02000000000{source}", "gocbRef" if is_goose else "svID": name, "simulation": sim,
            "framesA": counts[0], "framesB": counts[1], "both": counts[2],
            "onlyA": a, "onlyB": b, "whileOnlyA": while_a, "whileOnlyB": while_b, "delay": delay and delays(*delay),
            "turned": {"frames": len(turned), "packets": [list(it) for it in turned]}}


class Pair:
    """Two captures, or one, and the senders that must be told, with fields of the last object and the status."""

    def __init__(self, name, captures, words, senders, status=0, said=b"", **last):
        self.name, self.captures, self.words, self.senders, self.status, self.said, self.last = name, captures, words, senders, status, said, last

    def run(self, program, *words):
        with tempfile.TemporaryDirectory() as folder:
            names = [f"{letter}.pcap" for letter, _ in zip("ab", self.captures)]
            for name, octets in zip(names, self.captures):
                (pathlib.Path(folder) / name).write_bytes(octets)
            return ask(program, "compare_captures", [*self.words, *words, *names], cwd=folder)

    def why_wrong(self, program):
        wrote, complained, status = self.run(program, "--json")
        if status not in (0, 1, 3):
            return [f"status {status}: {complained!r}"]
        *told, last = map(json.loads, wrote.decode().splitlines())
        why = [f"status {status}, and not {self.status}"] if status != self.status else []
        why += [f"{len(told)} senders, and not {len(self.senders)}"] if len(told) != len(self.senders) else []
        for got, wanted in zip(told, self.senders):
            why += [f"{name}: {got.get(name)!r}, and not {it!r}" for name, it in wanted.items() if got.get(name) != it]
            why += [f"has more: {got.keys() - wanted.keys()}"] if got.keys() != wanted.keys() else []
        why += [f"of all {name}: {last.get(name)!r}, and not {it!r}" for name, it in self.last.items() if last.get(name) != it]
        return why + ([f"said {complained!r}"] if self.said not in complained or (complained and not self.said) else [])


def two(name, a, b, *senders, words=("--same-clock",), **how):
    return Pair(name, [captured(*a), captured(*b)], words, senders, **how)


# Five beats of A and what B has of them: the second one is lost, the others come after 150, 120, 400 and 110 microseconds, and before the
# last one comes a frame that A never had.
FIVE = beats(0, 1000, 2000, 3000, 4000)
FOUR = [(150, goose(0)), (2120, goose(2)), (3400, goose(3)), (3500, goose(0, st=2)), (4110, goose(4))]


def five(by):
    return sender("G", (5, 5, 4), [(by + 110, 5, 5), (by + 120, 3, 2), (by + 400, 4, 3), (by + 400, 4, 3)], a=some(2), b=some(4))


def losses():
    """Frames of control blocks that one side lost, and how long the others took."""
    least = {"microseconds": 110, "packetA": 5, "packetB": 5}
    yield two("losses and delays", FIVE, FOUR, five(0), status=1, both=4, alone=2, least=least, sameClock=True, clocksKnown=True)
    yield two("two clocks", FIVE, later(FOUR, HOUR), five(HOUR), words=(), status=1, both=4, alone=2, sameClock=False, clocksKnown=True)
    yield two("a clock that is earlier", FIVE, later(FOUR, -HOUR), five(-HOUR), words=(), status=1, alone=2)
    yield two("nothing lost", FIVE, later(FIVE, 5), sender("G", (5, 5, 5), [(5, 1, 1), (5, 3, 3), (5, 5, 5), (5, 5, 5)]), both=5, alone=0)
    yield two("the first ten packets", beats(*range(0, 15000, 1000)), [FOUR[0], (14100, goose(14))],
              sender("G", (15, 2, 2), [(100, 15, 2), (100, 15, 2), (150, 1, 1), (150, 1, 1)], a=some(*range(2, 12), count=13)), status=1, alone=13)
    hundred = [(1000 * at, goose(at)) for at in range(200)]
    slower = [(at + sq, frame) for sq, (at, frame) in enumerate(hundred)]
    yield two("the hundredth part", hundred, slower, sender("G", (200, 200, 200), [(0, 1, 1), (99, 100, 100), (197, 198, 198), (199, 200, 200)]))
    yield two("the hundredth part of 99", hundred[:99], slower[:99], sender("G", (99, 99, 99), [(0, 1, 1), (49, 50, 50), (98, 99, 99), (98, 99, 99)]))
    ends = [(0, goose(0, ref=b"G0")), (9000, goose(1, ref=b"G0"))]
    same = sender("G0", (2, 2, 2), [(0, 1, 1), (0, 1, 1), (0, 4, 4), (0, 4, 4)])
    simulated = [(1000, goose(5)), (2000, goose(5, sim=True))]
    yield two("simulated frames are others", merged(ends, simulated), merged(ends, [simulated[0], (2000, ARP)]), same,
              sender("G", (1, 1, 1), [(0, 2, 2)] * 4), sender("G", (1, 0, 0), a=some(3), sim=True), status=1)
    other = [(2000, goose(0, st=3)), (2100, goose(0, st=4))]
    yield two("another state is another frame", [FIVE[0], other[0], FIVE[4]], [FIVE[0], other[1], FIVE[4]],
              sender("G", (3, 3, 2), [(0, 1, 1), (0, 1, 1), (0, 3, 3), (0, 3, 3)], a=some(2), b=some(2)), status=1)
    yield two("the least delay of two senders", merged(ends[:1], [(1000, goose(5))]), [(200, ends[0][1]), (1100, goose(5))],
              sender("G0", (1, 1, 1), [(200, 1, 1)] * 4), sender("G", (1, 1, 1), [(100, 2, 2)] * 4),
              least={"microseconds": 100, "packetA": 2, "packetB": 2})
    large = [(1000, goose(5, st=3)), (2000, goose(131077, st=1))]
    yield two("a sqNum of more than 16 bits", merged(ends, [large[0], (2000, ARP)]), merged(ends, [(1000, ARP), large[1]]), same,
              sender("G", (1, 1, 0), a=some(2), b=some(3)), status=1)
    own = [(1000, goose(5)), (2000, goose(5, source=2))]
    yield two("another source is another sender", merged(ends, own), merged(ends, [own[0], (2000, ARP)]), same,
              sender("G", (1, 1, 1), [(0, 2, 2)] * 4), sender("G", (1, 0, 0), a=some(3), source=2), status=1)
    large = {"entries": element(0x8A, b"\0\xc8"), "members": element(0xAB, bytes.fromhex("8403030000") * 200)}
    long = [(at, goose(sq, **large)) for sq, (at, _) in enumerate(FIVE)]
    yield two("frames of 200 members", long, without(long, 3), sender("G", (5, 4, 4), [(0, 1, 1), (0, 2, 2), (0, 5, 4), (0, 5, 4)], a=some(3)), status=1)
    tagged = [(at, goose(sq, tag=TAG, trailer=b"\0" * 9)) for sq, (at, _) in enumerate(FIVE)]
    yield two("a tag and a trailer that one side has", FIVE, tagged, sender("G", (5, 5, 5), [(0, 1, 1), (0, 3, 3), (0, 5, 5), (0, 5, 5)]))


def repeats():
    """Frames of one key more than once."""
    copied = [*FIVE[:2], (1010, goose(1)), *FIVE[2:3]]
    taken = [(100, goose(0)), (1105, goose(1)), (2100, goose(2))]
    yield two("a copy that one side has", copied, taken,
              sender("G", (4, 3, 3), [(95, 3, 2), (100, 1, 1), (100, 4, 3), (100, 4, 3)], a=some(2)), status=1)
    both = [(0, goose(0)), (1000, goose(1)), (1001, goose(1)), (2000, goose(2))]
    yield two("copies on both sides", both, later(both, 100), sender("G", (4, 4, 4), [(100, 1, 1), (100, 2, 2), (100, 4, 4), (100, 4, 4)]))
    again = [(1000, goose(5)), (5000, goose(5))]
    yield two("copies whose times go back", again, [(5100, goose(5)), (1100, goose(5))],
              sender("G", (2, 2, 2), [(100, 1, 2), (100, 1, 2), (100, 2, 1), (100, 2, 1)], turned=[(2, 1)]))
    mixed = [(0, goose(0)), (1000, goose(1)), (1001, goose(2)), (5000, goose(3))]
    turned = [(100, goose(0)), (1150, goose(2)), (1160, goose(1)), (5100, goose(3))]
    yield two("order turned round", mixed, turned, sender("G", (4, 4, 4), [(100, 1, 1), (100, 4, 4), (160, 2, 3), (160, 2, 3)], turned=[(3, 2)]))
    ends = beats(0, 40 * SECOND, ref=b"G0")
    of_ends = sender("G0", (2, 2, 2), [(100, 1, 1), (100, 1, 1), (100, 3, 3), (100, 3, 3)])
    again = [(SECOND, goose(0)), (31 * SECOND, goose(0))]
    yield two("begun anew, each side without another one", merged(ends, again[:1]), later(merged(ends, again[1:]), 100), of_ends,
              sender("G", (1, 1, 0), a=some(2), b=some(2)), status=1)
    of_all = sender("G0", (2, 2, 2), [(100, 1, 1), (100, 1, 1), (100, 4, 4), (100, 4, 4)])
    yield two("begun anew", merged(ends, again), later(merged(ends, again), 100), of_all,
              sender("G", (2, 2, 2), [(100, 2, 2), (100, 2, 2), (100, 3, 3), (100, 3, 3)]))


def far():
    """How far apart the times of one frame can be."""
    on = [(0, ARP), (60 * SECOND, ARP)]
    for kind, frame, most in (("G", goose(5), 10 * SECOND), ("S", sample(5), SECOND // 2 - 1)):
        for way in (most, most + 1, -most, -most - 1):
            is_same, moved = abs(way) <= most, 30 * SECOND + way
            delay = [(way, 2, 2)] * 4 if is_same else None
            yield two(f"a frame of {kind} {way} us later", merged(on, [(30 * SECOND, frame)]), merged(on, [(moved, frame)]),
                      sender(kind, (1, 1, int(is_same)), delay, a=some(*[2] * (not is_same)), b=some(*[2] * (not is_same))), status=int(not is_same))
        # A second frame of the key on one side alone makes no difference.
        more = [(90 * SECOND, frame)]
        yield two(f"a frame of {kind} as late as can be, and another one", merged(on, [(30 * SECOND, frame)], more), merged(on, [(30 * SECOND + most, frame)]),
                  sender(kind, (2, 1, 1), [(most, 2, 2)] * 4, while_a=some(4)))
        yield two(f"a frame of {kind} too late, and another one", merged(on, [(30 * SECOND, frame)], more), merged(on, [(30 * SECOND + most + 1, frame)]),
                  sender(kind, (2, 1, 0), a=some(2), b=some(2), while_a=some(4)), status=1)


def stream(seconds, first=0, **how):
    """Ten samples a second, whose counts come round each second."""
    return [(first + at * 100_000, sample(at % 10, **how)) for at in range(10 * seconds)]


def samples():
    """Streams, whose counts come round."""
    beat = [(at * SECOND + 50_000, goose(at, ref=b"G0")) for at in range(4)]
    a = merged(beat, stream(4))
    # Each second has 11 packets: the sample of count 0, the beat, and nine more samples.
    of_beat = sender("G0", (4, 4, 4), [(700_100, 2, 2), (700_100, 13, 13), (700_100, 35, 35), (700_100, 35, 35)])
    whole = sender("S", (40, 40, 40), [(700_100, 1, 1), (700_100, 22, 22), (700_100, 44, 44), (700_100, 44, 44)])
    yield two("counts that come round, and clocks 0.7 s apart", a, later(a, 700_100), whole, of_beat, words=())
    # A has lost count 3 of its second second (packet 16), B that of the third one (packet 27): they are no pair.
    lost = sender("S", (39, 39, 38), [(700_100, 1, 1), (700_100, 21, 22), (700_100, 43, 43), (700_100, 43, 43)], a=some(26), b=some(16))
    of_both = sender("G0", (4, 4, 4), [(700_100, 2, 2), (700_100, 13, 13), (700_100, 34, 34), (700_100, 34, 34)])
    yield two("one count lost on each side", without(a, 16), later(without(a, 27), 700_100), lost, of_both, words=(), status=1)
    told = sender("S", (40, 40, 40), [(100_000, 1, 1), (100_000, 20, 20), (100_000, 40, 40), (100_000, 40, 40)])
    yield two("no control block", stream(4), later(stream(4), 100_000), told, words=(), clocksKnown=False)
    often = [(at * 100_000 + 70_000, goose(at, ref=b"G2")) for at in range(40)]
    leaping = merged(beat, beats(*range(60_000, 4 * SECOND, SECOND), ref=b"G1"), often, stream(4))
    leapt = [(at + 2 * SECOND * (at >= 1_960_000), frame) for at, frame in leaping]
    yield Leapt("a clock that leaps", [captured(*leaping), captured(*leapt)], (), [], both=88)
    # A clock that leaps back by 2 s between two frames of one key, which are a second apart.
    steady = merged(beats(*range(50_000, 21 * SECOND, 100_000), ref=b"G0"), [(10 * SECOND, goose(5)), (11 * SECOND, goose(5))])
    back = [(at + (5 if at < 10_500_000 else 3) * SECOND + 50_000 * (frame == goose(5)), frame) for at, frame in steady]
    yield Some("a clock that leaps back", [captured(*steady), captured(*back)], (),
               {"G": {"delay": delays((3_050_000, 112, 112), (3_050_000, 112, 112), (5_050_000, 101, 101), (5_050_000, 101, 101))}})
    ten = merged(beats(*range(50_000, 10 * SECOND, SECOND), ref=b"G0"), stream(10))
    slow = merged([(at + 600_000 * (at == 4_050_000), frame) for at, frame in ten])
    yield Leapt("one beat that is slow", [captured(*ten), captured(*slow)], (), [], both=110)
    beats_of = {at: at * SECOND + 50_000 for at in range(30)}
    for number, found in ((4, True), (5, False)):
        # So many beats one after another are 0.6 s late: of nine that is less than half, or more.
        late_beats = {at: time + 600_000 * (10 <= at < 10 + number) for at, time in beats_of.items()}
        sides = [merged([(time, goose(at, ref=b"G0")) for at, time in held.items()], stream(30)) for held in (beats_of, late_beats)]
        yield Leapt(f"{number} beats that are slow", [captured(*it) for it in sides], (), [], both=330, is_all=found)
    two_ids = [(at, sample(part(at // 1000), part(at // 1000 + 1), part(at // 1000, b"T"))) for at in (0, 1000, 2000)]
    one_id = sample(part(1), part(2))
    yield two("several ASDUs, of two streams", two_ids, [two_ids[0], (1000, one_id), two_ids[2]],
              sender("S", (3, 3, 3), [(0, 1, 1), (0, 2, 2), (0, 3, 3), (0, 3, 3)]),
              sender("T", (3, 2, 2), [(0, 1, 1), (0, 1, 1), (0, 3, 3), (0, 3, 3)], a=some(2)), status=1)
    longer = [(0, sample(part(0), part(5, b"T"), part(6, b"T")))]
    yield two("the first count of a further stream", longer, [(0, sample(part(0), part(5, b"T")))],
              sender("S", (1, 1, 1), [(0, 1, 1)] * 4), sender("T", (1, 1, 1), [(0, 1, 1)] * 4))
    marked = [(at, octets[:18] + reserved + octets[20:]) for at, octets, reserved in ((0, sample(0), b"\x7f\xff"), (1000, sample(1), b"\0\0"))]
    yield two("other bits of Reserved 1", marked, marked, sender("S", (2, 2, 2), [(0, 1, 1), (0, 1, 1), (0, 2, 2), (0, 2, 2)]))
    marked = [(at, octets[:18] + reserved + octets[20:]) for at, octets, reserved in ((0, sample(0), b"\xff\xff"), (1000, sample(1), b"\x80\0"))]
    yield two("simulated, with other bits", marked, marked, sender("S", (2, 2, 2), [(0, 1, 1), (0, 1, 1), (0, 2, 2), (0, 2, 2)], sim=True))
    tested = [(0, sample(0)), (1000, sample(1)), (1500, sample(1, sim=True)), (2000, sample(2))]
    yield two("simulated samples", tested, without(tested, 3), sender("S", (3, 3, 3), [(0, 1, 1), (0, 2, 2), (0, 4, 3), (0, 4, 3)]),
              sender("S", (1, 0, 0), a=some(3), sim=True), status=1)


class Leapt(Pair):
    """Where one clock leaps forward, or some frames are late, all frames are still found on both sides, or not all."""

    def why_wrong(self, program):
        wrote, _, status = self.run(program, "--json")
        last = json.loads(wrote.splitlines()[-1])
        is_all = (status, last["both"], last["alone"]) == (0, self.last["both"], 0)
        return [] if is_all == self.last.get("is_all", True) else [f"status {status}: {last}"]


class Some(Pair):
    """Some of what is told of some senders, by their names."""

    def why_wrong(self, program):
        told = {it["gocbRef"]: it for it in map(json.loads, self.run(program, "--json")[0].splitlines()) if "gocbRef" in it}
        return [f"{sender} {name}: {told[sender][name]}, and not {it}" for sender, wanted in self.senders.items()
                for name, it in wanted.items() if told[sender][name] != it]


def drifting():
    """Clocks that drift apart are told, in either direction; one clock does not drift, and neither do a few microseconds."""
    for name, rise, words, drift in (("a clock that is faster", 50, (), 90 * 50), ("a clock that is slower", -50, (), -90 * 50),
                                     ("ways that differ", 1, (), None), ("one clock", 50, ("--same-clock",), None)):
        sent = [(at * SECOND, goose(at)) for at in range(100)]
        taken = [(at + 6000 + rise * count, frame) for count, (at, frame) in enumerate(sent)]
        yield Drifting(name, [captured(*sent), captured(*taken)], words, [], drift=drift)
    for number, drift in ((41, 36 * 50), (40, None)):
        ends = [(at * SECOND, goose(at)) for at in range(number)]
        yield Drifting(f"{5 if drift else 4} frames at each end", [captured(*ends), captured(*((at + at // 20_000, it) for at, it in ends))], (), [], drift=drift)
    for rise, drift in ((100, 100), (99, None)):
        ends = [(at * SECOND, goose(at)) for at in range(60)]
        yield Drifting(f"{rise} us more", [captured(*ends), captured(*((at + rise * (at > 30 * SECOND), it) for at, it in ends))], (), [], drift=drift)
    few = [(at * SECOND, sample(at)) for at in range(9)]
    yield Drifting("few frames", [captured(*few), captured(*((at + at // 100, frame) for at, frame in few))], (), [], drift=None)
    often = [(at * 100_000, sample(at)) for at in range(100)]
    yield Drifting("samples alone", [captured(*often), captured(*((at + at // 1000, frame) for at, frame in often))], (), [], drift=9000)


class Drifting(Pair):
    """By how much the least delay changes from the first tenth of the time to the last one."""

    def why_wrong(self, program):
        wrote, complained, status = self.run(program, "--json")
        last, drift = json.loads(wrote.splitlines()[-1]), self.last["drift"]
        text = self.run(program)[0].decode()
        way = "greater" if (drift or 0) > 0 else "less"
        line = f"to the last one the least delay becomes {abs(drift or 0) / 1000:.3f} ms {way}: clocks that drift"
        why = [f"status {status}, {complained!r}: {last}"] if (status, last["drift"], last["alone"]) != (0, drift, 0) else []
        return why + ([f"{text}"] if (line in text) != (drift is not None) or ("tenth" in text) != (drift is not None) else [])


def apart():
    """What only one side was on for."""
    a, b = beats(*(at * SECOND for at in range(6))), beats(*(at * SECOND for at in range(9)))[3:]
    yield two("each on for a while alone", a, b, sender("G", (6, 6, 3), [(0, 4, 1), (0, 5, 2), (0, 6, 3), (0, 6, 3)], while_a=some(1, 2, 3),
              while_b=some(4, 5, 6)), both=3, alone=0, whileOnlyA=3, whileOnlyB=3)
    on = [(0, ARP), (10 * SECOND, ARP)]
    yield two("a sender that is silent on one side", merged(on, beats(2 * SECOND, 3 * SECOND)), merged(on, [(SECOND, sample(0))]),
              sender("G", (2, 0, 0), a=some(2, 3)), sender("S", (0, 1, 0), b=some(2)), status=1, both=0, alone=3)
    yield two("on from and up to a packet", [(0, goose(0, ref=b"G0")), (1000, goose(5)), (9000, goose(1, ref=b"G0"))],
              [(1000, ARP), (9000, goose(1, ref=b"G0"))], sender("G0", (2, 1, 1), [(0, 3, 2)] * 4, while_a=some(1)), sender("G", (1, 0, 0), a=some(2)), status=1,
              whileOnlyA=1, whileOnlyB=0)
    yield two("at the edges of both, with ways of 0.1 ms", [(1000, goose(7, ref=b"G1")), *beats(2000, 3000, ref=b"G0"), (8950, goose(8, ref=b"G1"))],
              [(1050, goose(5, ref=b"G2")), *beats(2100, 3100, ref=b"G0"), (9000, goose(6, ref=b"G2"))],
              sender("G1", (2, 0, 0), a=some(1), while_a=some(4)), sender("G0", (2, 2, 2), [(100, 2, 2), (100, 2, 2), (100, 3, 3), (100, 3, 3)]),
              sender("G2", (0, 2, 0), b=some(4), while_b=some(1)), status=1)
    yield two("a capture whose times go back", [(5000, goose(1)), (0, goose(0)), (9000, goose(2)), (8000, goose(3))],
              [(0, goose(0)), (1000, goose(7, ref=b"G1")), (5000, goose(1)), (8000, goose(3)), (9000, goose(2)), (8500, goose(8, ref=b"G1"))],
              sender("G", (4, 4, 4), [(0, 1, 3), (0, 2, 1), (0, 4, 4), (0, 4, 4)], turned=[(2, 1), (4, 4)]),
              sender("G1", (0, 2, 0), b=some(2, 6)), status=1)
    sent = beats(*range(0, 21 * SECOND, SECOND), ref=b"G0")
    leapt = merged([(HOUR + at + 2 * SECOND * (at >= 10 * SECOND), frame) for at, frame in sent], [(HOUR + 1_500_000, goose(5, ref=b"G1"))])
    # Of 200 ways one is of 500.1 ms, and the others of 0.1 ms: the other side was on up to 0.1 ms before its last packet, and from 0.1 ms after its first.
    many = beats(*range(0, 2 * SECOND, 10_000), ref=b"G0")
    slow = merged([(at + 100 + 500_000 * (at == 50_000), frame) for at, frame in many], [(99, goose(1, ref=b"G2")), (100, goose(2, ref=b"G2"))])
    more = merged(many, [(1_990_000, goose(1, ref=b"G1")), (1_990_001, goose(2, ref=b"G1"))])
    yield Some("on up to the way of 99 in 100", [captured(*more), captured(*slow)], ("--same-clock",),
               {"G1": {"onlyA": some(201), "whileOnlyA": some(202)}, "G2": {"onlyB": some(3), "whileOnlyB": some(1)}})
    # A clock that leaps by 2 s, and ways of up to 1 s less and more: the least and the greatest way are so much beside the clocks' difference.
    even = beats(*range(0, 20 * SECOND, 100_000), ref=b"G0")
    odd = {it * SECOND: SECOND for it in (1, 3, 5, 7, 9, 15)}
    moved = merged([(at + odd.get(at, 2 * SECOND * (at >= 10 * SECOND)), frame) for at, frame in even])
    more = merged(even, [(at, goose(sq, ref=b"G1")) for sq, at in enumerate((550_000, 1_250_000, 18_850_000, 19_450_000))])
    yield Some("on by the least and the greatest way", [captured(*more), captured(*moved)], (), {"G1": {"onlyA": some(15, 192), "whileOnlyA": some(7, 199)}})
    yield two("a frame of B alone before its clock leaps", sent, leapt,
              sender("G0", (21, 21, 21), [(HOUR, 1, 1), (HOUR + 2 * SECOND, 11, 12), (HOUR + 2 * SECOND, 21, 22), (HOUR + 2 * SECOND, 21, 22)]),
              sender("G1", (0, 1, 0), b=some(3)), words=(), status=1)
    yield two("never on at once", beats(0, 1000), later(beats(0, 1000, ref=b"G0"), SECOND), sender("G", (2, 0, 0), while_a=some(1, 2)),
              sender("G0", (0, 2, 0), while_b=some(1, 2)), status=1, both=0, alone=0)
    yield two("no packets at all", [], [], status=1, both=0, alone=0)


def one_capture():
    """Two interfaces of a capture, and the networks of PRP."""
    rows = [(0, 0, 0), (1, 40, 0), (2, 45, 1), (0, 1000, 1), (0, 2000, 2), (1, 2030, 2), (1, 3000, 3), (0, 3010, 3)]
    begin = section() + interface(options=options([(2, b"north")])) + interface(options=options([(2, b"south")])) + interface()
    octets = begin + b"".join(packet(START + at, goose(sq), which=which) for which, at, sq in rows)
    # Packets 1, 4, 5, 8 of interface 0; 2, 6, 7 of interface 1.
    told = sender("G", (4, 3, 3), [(-10, 8, 7), (30, 5, 6), (40, 1, 2), (40, 1, 2)], a=some(4))
    yield Pair("interfaces", [octets], ["--interfaces", "0,1"], [told], status=1, sameClock=True)
    # Turned round: A's greatest delay is 10 and its least -40.
    back = sender("G", (3, 4, 3), [(-40, 2, 1), (-30, 6, 5), (10, 7, 8), (10, 7, 8)], b=some(4))
    yield Pair("interfaces the other way", [octets], ["--interfaces", "1,0"], [back], status=1)
    more = section("big") + interface("big") + b"".join(packet(START + at, goose(at // 1000), "big") for at in (0, 1000))
    more += simple_packet(goose(2), "big")
    # The simple packet has no time of its own: goose gives it that of the packet before.
    begin += b"".join(packet(START + at, goose(sq), which=2) for sq, at in enumerate((0, 1000, 1000)))
    yield Pair("interfaces of two sections", [begin + more],
               ["--interfaces", "2,3"], [sender("G", (3, 3, 3), [(0, 1, 4), (0, 2, 5), (0, 3, 6), (0, 3, 6)])])
    lans = [(0, 10, 0, b""), (7, 11, 0, b"\0" * 5), (1000, 10, 1, b""), (2000, 11, 2, b""), (2004, 10, 2, b"")]
    frames = [(at, goose(sq, trailer=pad + redundant(lan))) for at, lan, sq, pad in lans]
    odd = (b"", redundant(12), redundant(10)[1:], redundant(10) + b"\0", redundant(10)[:-1] + b"\xfa")
    neither = [(900 + at, goose(1, trailer=it)) for at, it in enumerate(odd)]
    told = sender("G", (3, 2, 2), [(-4, 10, 9), (-4, 10, 9), (7, 1, 2), (7, 1, 2)], a=some(8))
    yield Pair("networks of PRP", [captured(*merged(frames, neither))], ["--lans"], [told], status=1, neither=5, both=2)
    counted = [(at, sample(at // 1000, trailer=redundant(lan, at))) for at in (0, 1000, 2000) for lan in (10, 11)]
    yield Pair("samples in both networks", [captured(*counted)], ["--lans"],
               [sender("S", (3, 3, 3), [(0, 1, 2), (0, 3, 4), (0, 5, 6), (0, 5, 6)])], neither=0)


def unread():
    """What was not compared is told."""
    bad = (1500, goose(7)[:40])
    whole = sender("G", (5, 5, 5), [(0, 1, 1), (0, 4, 4), (0, 6, 6), (0, 6, 6)])
    a = merged(FIVE, [bad])
    yield two("frames with an error", a, a, whole, status=1, both=5, alone=0,
              A={"name": "a.pcap", "packets": 6, "first": START, "last": START + 4000, "errors": 1, "leftOut": 0})
    yield Listed(Senders())
    # Some thousand lines are read in parts: the earliest packet comes in the last of them, and the latest one in the first.
    many = [(at * 1000, goose(at)) for at in range(1, 4001)]
    many[20], many[3900] = (9_000_000, goose(21)), (0, goose(3901))
    told = sender("G", (4000, 4000, 4000), [(3, 1, 1), (3, 2000, 2000), (3, 3960, 3960), (3, 4000, 4000)])
    yield two("many lines whose times go back", many, later(many, 3), told, both=4000, alone=0,
              A={"name": "a.pcap", "packets": 4000, "first": START, "last": START + 9_000_000, "errors": 0, "leftOut": 0},
              B={"name": "b.pcap", "packets": 4000, "first": START + 3, "last": START + 9_000_003, "errors": 0, "leftOut": 0})
    cut = captured(*FIVE)[:-20]
    yield Pair("a capture that breaks off", [captured(*FIVE), cut], ["--same-clock"],
               [sender("G", (5, 4, 4), [(0, 1, 1), (0, 2, 2), (0, 4, 4), (0, 4, 4)], while_a=some(5))], status=3,
               said=b"b.pcap breaks off where packet 5 should be: ")


class Senders:
    """More senders than are compared, and senders that begin alike."""

    name = "many senders"

    def why_wrong(self, program):
        octets = captured(*((at, goose(1, ref=b"G%05d" % at)) for at in range(20_001)), (30_000, goose(2, ref=b"G20000")))
        pair = Pair("", [octets, octets], ["--same-clock"], [])
        wrote, _, status = pair.run(program, "--json")
        lines = wrote.splitlines()
        last = json.loads(lines[-1])
        if (status, len(lines), last["both"], last["alone"], last["A"]["leftOut"], last["B"]["leftOut"]) != (1, 20_001, 20_000, 0, 2, 2):
            yield f"status {status}, {len(lines)} lines, {last}"
        text = pair.run(program)[0].decode()
        if text.count("\n   not compared: 2 frames of further senders, from packet 20001 on\n") != 2:
            yield text[:400]
        yield from self.why_alike_wrong(program)

    def why_alike_wrong(self, program):
        """Two control blocks in turns that begin alike: their lines are told apart, although one envelope alone is held."""
        tapped, octets = module("tapped"), captured(*((at, goose(at // 2, ref=b"G" * 100 + b"01"[at % 2:at % 2 + 1])) for at in range(400)))
        lines = run(program, ["show", "--capture", "--json"], octets)[0].splitlines(True)
        before, tapped.MOST_KNOWN = tapped.MOST_KNOWN, 1
        try:
            side = tapped.Side("")
            reads, side.read = [], lambda found, read=side.read: (reads.append(found), read(found))
            for begin in range(0, 400, 50):
                side.see(b"".join(lines[begin:begin + 50]))
        finally:
            tapped.MOST_KNOWN = before
        got = {name: list(it.keys) for (_, _, _, name, _), it in side.senders.items()}
        if got != {"G" * 100 + it: [1 << 32 | at for at in range(200)] for it in "01"} or side.packets != 400 or len(side.known) > 1:
            yield f"{got}, {side.packets}, {len(side.known)}"
        if len(reads) > 150:
            yield f"{len(reads)} lines of 400 were read"


# ---- The text, arguments, sizes ----------------------------------------------


class Text(Pair):
    """The text of a comparison."""

    def __init__(self, name, captures, words, lines):
        super().__init__(name, captures, words, [])
        self.lines = lines

    def why_wrong(self, program):
        wrote, complained, _ = self.run(program)
        got = wrote.decode().splitlines()
        return [] if got == self.lines and not complained else [f"{got}: {complained!r}"]


def texts():
    octets = [captured(*FIVE), captured(*FOUR, begin=START + HOUR)]
    sides = ["A: a.pcap, 5 packets, 2023-11-14T22:13:20.000000Z to 2023-11-14T22:13:20.004000Z"]
    name, frames = "G (control block, APPID 0001, from 02-00-00-00-00-01)", "   frames: 5 in A, 5 in B, 4 in both"
    only = ["   only in A: 1 (packet 2)", "   only in B: 1 (packet 4)"]
    yield Text("the text of two clocks", octets, [], [
        *sides, "B: b.pcap, 5 packets, 2023-11-14T23:13:20.000150Z to 2023-11-14T23:13:20.004110Z",
        "The clocks differ by, or the way takes, at least 3,600,000.110 ms (packet 5 of A, 5 of B)",
        "4 frames in both, 2 in one alone", "", name, frames, *only,
        "   delay from A to B, with the clocks' difference: least 3,600,000.110 ms (packets 5 and 5), median 3,600,000.120 ms (packets 3 and 2), "
        "99 in 100 3,600,000.400 ms (packets 4 and 3), greatest 3,600,000.400 ms (packets 4 and 3)"])
    yield Text("the text of one clock", [octets[0], captured(*FOUR)], ["--same-clock"], [
        *sides, "B: b.pcap, 5 packets, 2023-11-14T22:13:20.000150Z to 2023-11-14T22:13:20.004110Z",
        "The way from A to B takes at least 0.110 ms (packet 5 of A, 5 of B)", "4 frames in both, 2 in one alone", "", name, frames, *only,
        "   delay from A to B: least 0.110 ms (packets 5 and 5), median 0.120 ms (packets 3 and 2), "
        "99 in 100 0.400 ms (packets 4 and 3), greatest 0.400 ms (packets 4 and 3)"])


    alike = [(at * 1000, goose(5)) for at in range(4)]
    yield Text("the text of frames that repeat as they are", [captured(*alike), captured(*without(alike, 2))], [], [
        "A: a.pcap, 4 packets, 2023-11-14T22:13:20.000000Z to 2023-11-14T22:13:20.003000Z",
        "B: b.pcap, 3 packets, 2023-11-14T22:13:20.000000Z to 2023-11-14T22:13:20.003000Z",
        "The clocks differ by, or the way takes, at least 0.000 ms (packet 1 of A, 1 of B)",
        "No control block tells how the clocks differ: frames were compared as if they were less than 10 s apart",
        "3 frames in both, 1 in one alone", "", name, "   frames: 4 in A, 3 in B, 3 in both", "   only in A: 1 (packet 2)",
        "   delay from A to B, with the clocks' difference: least 0.000 ms (packets 1 and 1), median 0.000 ms (packets 3 and 2), "
        "99 in 100 0.000 ms (packets 4 and 3), greatest 0.000 ms (packets 4 and 3)"])
    bad = [*FIVE[:2], (1500, goose(7)[:40]), FIVE[2], (2500, goose(8)[:41])]
    yield Said("frames with an error", [captured(*bad), captured(*bad)], "   not compared: 2 frames with an error, from packet 3 on")
    yield Said("one frame with an error", [captured(*bad[:4]), captured(*FIVE)], "   not compared: 1 frame with an error, from packet 3 on")
    yield Said("what one tap alone was on for", [captured(*FIVE), captured(*FIVE[2:])], "Apart: 2 while only A was on, 0 while only B was on")
    yield Said("what the other tap alone was on for", [captured(*FIVE[2:]), captured(*FIVE)], "Apart: 0 while only A was on, 2 while only B was on")
    yield Said("what one tap alone was on for, of a sender", [captured(*FIVE), captured(*FIVE[2:])], "   while only A was on: 2 (packets 1, 2)")
    yield Said("what the other tap alone was on for, of a sender", [captured(*FIVE[2:]), captured(*FIVE)], "   while only B was on: 2 (packets 1, 2)")
    for number in (10, 11):
        more, row = ", .." if number > 10 else "", beats(*range(0, 1000 * (number + 2), 1000))
        yield Said(f"{number} frames alone", [captured(*row), captured(row[0], row[-1])],
                   f"   only in A: {number} (packets {', '.join(map(str, range(2, 12)))}{more})")
        late_one = [*row[1:number + 1], (row[number][0] + 1, row[0][1])]
        yield Said(f"{number} frames in another order", [captured(*row[:-1]), captured(*late_one)],
                   f"   in another order: {number} frames (packets {', '.join(f'{at + 1} and {at}' for at in range(1, 11))}{more})")
    yield Said("no packets", [captured(*FIVE), captured()], "B: b.pcap, 0 packets")
    yield Said("a stream", [captured((0, sample(1))), captured((0, sample(1)))], "S (stream, APPID 4000, from 02-00-00-00-00-01)")
    lans = [(at, goose(at, trailer=redundant(lan))) for at in range(3) for lan in (10, 11)]
    yield Said("frames of neither network", [captured(*lans[:3], (2, goose(7)), (2, ARP), (3, goose(8)), *lans[3:])],
               "In neither network: 2 frames without the trailer of PRP, from packet 4 on", words=["--lans"])
    cut = [captured(*FIVE), captured(*FIVE)[:-20]]
    yield Ended("a capture that breaks off", cut, b"compare_captures: b.pcap breaks off where packet 5 should be: CaptureShort (the capture is cut off)\n")
    untimed = [captured(*stream(2)), captured(*later(stream(2), 100))]
    yield Said("samples alone", untimed, "clocks differ: samples were compared as if they were less than half a second apart")


class Said(Pair):
    """A line of the text."""

    def __init__(self, name, captures, line, words=()):
        super().__init__(f"it says of {name}", captures, words, [])
        self.line = line

    def why_wrong(self, program):
        wrote = self.run(program)[0].decode()
        return [] if f"{self.line}\n" in wrote else [wrote]


class Ended(Said):
    """What standard error begins with."""

    def why_wrong(self, program):
        said = self.run(program)[1]
        return [] if said.startswith(self.line) else [f"{said!r}"]


class Refused:
    """Arguments that make no sense end the tool with a reason."""

    def __init__(self, words, why, status=2):
        self.name, self.words, self.why, self.status = f"refused: {' '.join(words)}", words, why, status

    def why_wrong(self, program):
        with tempfile.TemporaryDirectory() as folder:
            named = section() + interface(options=options([(2, b"north")])) + packet(START, goose(0))
            for name, octets in (("a", captured(*FIVE)), ("empty", b""), ("n", named)):
                (pathlib.Path(folder) / name).write_bytes(octets)
            wrote, complained, status = ask(program, "compare_captures", self.words, cwd=folder)
        return [] if status == self.status and self.why in complained and not wrote else [f"status {status}: {complained!r}, {wrote!r}"]


def refusals():
    yield Refused(["a"], b"there is one capture")
    yield Refused(["--lans", "a", "a"], b"--lans compares within one capture, and there are two")
    yield Refused(["--interfaces", "0,1", "n", "n"], b"--interfaces compares within one capture")
    yield Refused(["--lans", "--interfaces", "0,1", "n"], b"--lans and --interfaces exclude each other")
    for words in ("0", "0,0", "0,1,2", "a,b", "", "0,-1", "0,\u00b2", "0,1234567890"):
        yield Refused(["--interfaces", words, "n"], b"--interfaces takes two numbers of interfaces")
    yield Refused(["--interfaces", "0,1", "n"], b"there is no interface 1 in n: it has interface 0 (north)")
    yield Refused(["--interfaces", "0,1", "a"], b"there is no interface 1 in a: it has interface 0\n")
    yield Refused(["--interfaces", "0,1", "/dev/null"], b"is no file", 3)
    yield Refused(["a", "/dev/null"], b"is no file", 3)
    yield Refused(["a", "empty"], b"empty is no capture that can be read", 3)
    yield Refused(["--interfaces", "0,1", "empty"], b"empty is no capture that has interfaces", 3)
    yield Refused(["-", "-"], b"standard input can be read once")
    yield Refused(["a", "missing"], b"missing: No such file", 4)


class Clean:
    """Each form closes its files and does nothing that Python warns of."""

    name = "files left open"

    def why_wrong(self, program):
        with tempfile.TemporaryDirectory() as folder:
            for name, octets in (("a", captured(*FIVE)), ("b", captured(*FOUR)), ("c", captured(*FIVE)[:-9]),
                                 ("n", section() + interface() + interface() + packet(START, goose(0)))):
                (pathlib.Path(folder) / name).write_bytes(octets)
            for words in (["a", "b"], ["--json", "a", "b"], ["a", "c"], ["--lans", "a"], ["--interfaces", "0,1", "n"], ["a", "missing"], ["a"]):
                ran = subprocess.run([sys.executable, "-X", "dev", "-W", "error", "-B", TOOLS / "compare_captures", *words], cwd=folder,
                                     stdin=subprocess.DEVNULL, stdout=subprocess.PIPE, stderr=subprocess.PIPE, timeout=SECONDS,
                                     env={**os.environ, "GOOSE": shlex.join(program)})
                if ran.returncode not in (0, 1, 2, 3, 4) or b"Warning" in ran.stderr or b"Traceback" in ran.stderr:
                    yield f"{words}: {ran!r}"


class Chance:
    """By chance frames are lost, delayed and copied: what is found is what was put in."""

    name = "losses by chance"

    def why_wrong(self, program):
        chance = random.Random(67)
        sent = [(at * 1000, goose(at // 2, ref=b"G0") if at % 2 else sample(at % 800)) for at in range(4000)]
        kept = [[it for it in sent if it in (*sent[:2], *sent[-2:]) or chance.random() > 0.02] for _ in range(2)]
        a, b = kept[0], [(at + 250 + chance.randrange(200), frame) for at, frame in kept[1]]
        both = len(set(kept[0]) & set(kept[1]))
        wrote, _, status = Pair("", [captured(*a), captured(*b, begin=START - 77 * SECOND)], (), ()).run(program, "--json")
        last = json.loads(wrote.splitlines()[-1])
        wanted = 1, both, len(a) + len(b) - 2 * both
        got = status, last["both"], last["alone"] + last["whileOnlyA"] + last["whileOnlyB"]
        return [] if got == wanted and last["whileOnlyA"] + last["whileOnlyB"] <= 1 else [f"{got}, and not {wanted}: {last}"]


class Nearest:
    """Times of one key go together as a slow search for the nearest ones says, and twice as many take no more than about twice as long."""

    name = "the nearest times, and how long they take"

    def why_wrong(self, _program):
        nearest, chance = module("pairing").nearest, random.Random(88)
        if list(nearest([0, 12], [8, 20], 10)) != [(1, 0)]:
            yield "of 0 and 12, and 8 and 20, 12 and 8 are the nearest, and the others are too far apart"
        for _ in range(400):
            ours, theirs = (sorted(chance.randrange(60) for _ in range(chance.randrange(1, 7))) for _ in range(2))
            got = list(nearest(ours, theirs, 20))
            furthest, number = slow(ours, theirs, 20)
            if len(got) != number or any(abs(ours[one] - theirs[other]) > furthest for one, other in got) or got != sorted(got):
                yield f"{ours} and {theirs}: {got}, and not {number} at most {furthest} apart"
        took = [min(seconds(nearest, number) for _ in range(3)) for number in (20000, 40000)]
        if took[1] > 3.2 * took[0]:
            yield f"{took[0]:.3f} s, and twice as many {took[1]:.3f} s"


def slow(ours, theirs, reach):
    """How many pairs there are if the nearest ones go together again and again, and the furthest one."""
    ours, theirs, pairs = list(ours), list(theirs), []
    while ours and theirs:
        apart, one, other = min((abs(it - its), it, its) for it in ours for its in theirs)
        if apart > reach:
            break
        pairs.append(apart)
        ours.remove(one)
        theirs.remove(other)
    return max(pairs, default=0), len(pairs)


def seconds(nearest, number):
    """How long times of one key take, of which one side lacks every third."""
    began = time.process_time()
    times = [at * 10 for at in range(number)]
    list(nearest(times, [it + 4 for it in times if it % 30], 1000))
    return time.process_time() - began


class SlowClock:
    """How much later another clock is: by the frames that are there once on both sides, the median of the nearest nine."""

    def __init__(self, points):
        self.points = sorted(points, key=lambda it: it[0])

    def at(self, moment):
        if not self.points:
            return 0
        apart = lambda at: (abs(self.points[at][0] - moment), self.points[at][0] >= moment, at if self.points[at][0] >= moment else -at)
        nearest = min(range(len(self.points)), key=apart)
        around = sorted(offset for _, offset in self.points[max(0, nearest - 4):nearest + 5])
        return around[len(around) // 2]

    def turned(self):
        return SlowClock([(time + self.at(time), -self.at(time)) for time, _ in self.points])


class SlowComparison:
    """What becomes of the frames of two sides, of each sender as keys and times in the order of packets, by the definitions alone."""

    def __init__(self, sides, spans, is_same_clock):
        self.sides, self.spans, self.owns = sides, spans, dict.fromkeys([*sides[0], *sides[1]])
        once = [(one, self.of(1, own, key)[0]) for own in self.owns if own[0] == "goose" for key in self.keys(own)
                if len(self.of(0, own, key)) == len(self.of(1, own, key)) == 1 for one in self.of(0, own, key)]
        self.clock = SlowClock([] if is_same_clock else [(one[1], other[1] - one[1]) for one, other in once])
        self.pairs = {own: sorted(it for key in self.keys(own) for it in self.same(own, key)) for own in self.owns}
        ways = sorted(other[1] - one[1] - self.clock.at(one[1]) for held in self.pairs.values() for one, other in held) or [0]
        self.least, self.most, self.turned = ways[0], ways[-(-99 * len(ways) // 100) - 1], self.clock.turned()

    def keys(self, own):
        return sorted({key for side in self.sides for key, _, _ in side.get(own, ())})

    def of(self, side, own, key):
        """The packets and times of a key."""
        return [(packet, time) for its, time, packet in self.sides[side].get(own, ()) if its == key]

    def same(self, own, key):
        """The frames of a key that are the same."""
        reach = 10 * SECOND if own[0] == "goose" else SECOND // 2 - 1
        ours, theirs = ([(time + (0 if side else self.clock.at(time)), packet, time) for packet, time in self.of(side, own, key)] for side in (0, 1))
        used, left = [[], []], [list(ours), list(theirs)]
        while all(left):
            one, other = min(((one, other) for one in left[0] for other in left[1]), key=lambda it: abs(it[0][0] - it[1][0]))
            if abs(one[0] - other[0]) > reach:
                break
            for side, it in enumerate((one, other)):
                used[side].append(it)
                left[side].remove(it)
        return [(one[1:], other[1:]) for one, other in zip(*map(sorted, used))]

    def is_on(self, side, time):
        begin, until = (self.least, self.most) if side == 0 else (-self.most, -self.least)
        there, span = time + (self.clock if side == 0 else self.turned).at(time), self.spans[1 - side]
        return bool(span) and span[0] <= there + begin and there + until <= span[1]

    def told(self, own):
        """What becomes of a sender: numbers of frames, delays with packets, packets of one side alone, and of those of another order."""
        pairs = self.pairs[own]
        delays = sorted((other[1] - one[1], one[0], other[0]) for one, other in pairs)
        ranks = (0, (len(delays) - 1) // 2, -(-99 * len(delays) // 100) - 1, len(delays) - 1) if delays else ()
        alone = [[(packet, self.is_on(side, time)) for _, time, packet in self.sides[side].get(own, ()) if packet not in {it[side][0] for it in pairs}]
                 for side in (0, 1)]
        turned = [(one[0], other[0]) for at, (one, other) in enumerate(pairs) if any(before[1][0] > other[0] for before in pairs[:at])]
        others = [[packet for packet, on in held if on == wanted] for wanted in (True, False) for held in alone]
        return len(pairs), [delays[it] for it in ranks], [(len(it), it[:10]) for it in (*others, turned)]


class SlowClocks:
    """The difference of two clocks at any time, as a slow one has it."""

    name = "clocks by chance, as a slow clock has them"

    def why_wrong(self, _program):
        chance, pairing = random.Random(90), module("pairing")
        for _ in range(300):
            times = chance.sample(range(60), chance.randrange(1, 25))
            offsets = [chance.randrange(9) for _ in times]
            got, wanted, moments = pairing.Difference(times, offsets), SlowClock([*zip(times, offsets)]), range(-3, 64)
            slow = [wanted.at(it) for it in moments]
            if [got.at(it) for it in moments] != slow or [after - it for it, after in zip(moments, got.moved(moments))] != slow:
                yield f"{times} and {offsets}"
            # Times by the other clock, of which no two are one.
            apart = pairing.Difference([10 * it for it in times], offsets).turned
            slow = SlowClock([(10 * time, offset) for time, offset in zip(times, offsets)]).turned()
            if [apart.at(it) for it in moments] != [slow.at(it) for it in moments]:
                yield f"{times} and {offsets}, by the other clock"


class Slow:
    """Pairs made by chance, as a slow comparison has them."""

    name = "pairs by chance, as a slow comparison has them"

    def why_wrong(self, _program):
        chance, pairing = random.Random(89), module("pairing")
        for number in range(1500):
            sides, is_same = self.made(chance), chance.random() < 0.3
            spans = [(min(times), max(times)) if (times := [time for held in side.values() for _, time, _ in held]) else None for side in sides]
            wanted = SlowComparison(sides, spans, is_same)
            got = pairing.Compared(*(self.side(*it) for it in zip(sides, spans)), is_same)
            told = {(it.kind, it.appid, it.source, it.name, it.is_simulated): it for it in got.senders}
            for own in wanted.owns:
                it = told[own]
                delays = [(held.microseconds, *held.packets) for held in it.delays.told.values()] if it.delays else []
                found = it.both, delays, [(held.number, held.first) for held in (*it.only, *it.apart, it.turned)]
                slow = wanted.told(own)
                if found != slow:
                    yield f"pair {number}, {own}: {found}, and not {slow}"

    def side(self, senders, span):
        side = module("tapped").Side("")
        side.packets, (side.first, side.last) = sum(map(len, senders.values())), span or (None, None)
        for own, held in senders.items():
            side.senders[own] = module("tapped").Frames()
            for it in held:
                side.senders[own].add(*it)
        return side

    def made(self, chance):
        """Two sides: frames of control blocks and of a stream, of which each side has some, a second clock, copies, and what is out of order."""
        owns = [("goose", "0001", "s", f"G{at}", False) for at in range(chance.randrange(3))] + [("sv", "4000", "s", "S", False)] * chance.randrange(2)
        times = sorted(chance.sample(range(8 * SECOND), chance.randrange(25)))
        sent, counts = [], dict.fromkeys(owns, 0)
        for time in times if owns else ():
            own = chance.choice(owns)
            counts[own] += chance.choice((1, 1, 1, 0, -1))
            sent.append((own, counts[own] % 4 if own[0] == "sv" else counts[own] + 99, time))
        offset, jitter, loss = chance.choice((0, -3 * SECOND, 3600 * SECOND)), chance.choice((2, 3000, 700_000)), chance.choice((0, 0.1, 0.4))
        leap, leaps, late = chance.choice((0, 0, 2 * SECOND)), chance.randrange(8 * SECOND), chance.choice((0, 12 * SECOND, -12 * SECOND))
        sides = []
        for is_second in (False, True):
            begin, end = sorted(chance.choices([-1, *times, 8 * SECOND], k=2)) if chance.random() < 0.6 else (-1, 8 * SECOND)
            held = [(own, key, time + is_second * (offset + leap * (time > leaps) + late * (chance.random() < 0.1) + chance.randrange(jitter)))
                    for own, key, time in sent if begin < time < end and chance.random() >= loss]
            held.sort(key=lambda it: it[2] if chance.random() < 0.8 else it[2] + 10_000)
            side = {}
            for packet, (own, key, time) in enumerate(held, 1):
                side.setdefault(own, []).append((key, START + time, packet))
            sides.append(side)
        return sides


class Room:
    """The memory that twice as many packets take: at most 150 octets for each."""

    PACKETS = 40000

    def __init__(self, kind, *words):
        self.name, self.kind, self.words = f"memory of each packet of {kind}", kind, words

    def why_wrong(self, program):
        environment, os.environ["GOOSE"] = os.environ.get("GOOSE"), shlex.join(program)
        try:
            took = [self.peak(number) for number in (self.PACKETS, 2 * self.PACKETS)]
        finally:
            if environment is None:
                del os.environ["GOOSE"]
            else:
                os.environ["GOOSE"] = environment
        more = (took[1] - took[0]) * 1024 / (2 * self.PACKETS)
        return [] if 0 < took[0] and more <= 150 else [f"{took} kB: {more:.0f} octets a packet"]

    def peak(self, number):
        with tempfile.TemporaryDirectory() as folder:
            path = pathlib.Path(folder) / "a"
            path.write_bytes(busy(self.kind, number))
            return peak_memory([TOOLS / "compare_captures", *self.words, path, path], subprocess.DEVNULL)


# 500,000 packets of each of two captures take at most 15 s of a machine that other programs use too. The measure is what reading the lines of both as
# JSON takes, of which those of 500,000 GOOSE frames with 20 members take 6.2 s of one processor, and those of samples 0.6 of that: so 15 s are 1.2 and
# twice as long. It takes 0.4 to 0.7 and 0.5 to 1.0 of it, the more the busier the machine.
PACKETS, FEW, BLOCKS, MEMBERS = 60_000, 1_000, 40, 20
MOST_READINGS = {"goose": 1.0, "sv": 1.5}


def busy(kind, count):
    """A capture of so many frames: of a stream, or of control blocks in turns, each of which repeats a state 25 times."""
    if kind == "sv":
        frames = [sample(count) for count in range(4000)]
        return captured(*((at * 250, frames[at % 4000]) for at in range(count)))
    members, turns = element(0xAB, bytes.fromhex("8301008403030000") * (MEMBERS // 2)), [(at // BLOCKS, at % BLOCKS) for at in range(count)]
    return captured(*((at * 250, with_fields(gocb_ref=element(0x80, b"BAY%03d/LLN0$GO$gcb" % block), st_num=element(0x85, number(turn // 25)),
                                             sq_num=element(0x86, number(turn % 25)), entries=element(0x8A, bytes([MEMBERS])), members=members))
                      for at, (turn, block) in enumerate(turns)))


class Fast:
    """Many packets of both take little processor time, which is measured by what reading their lines takes."""

    def __init__(self, kind, *words):
        self.name, self.kind, self.words = f"time for many packets of {kind}", kind, ("compare_captures", *words, "of.pcapng", "of.pcapng")

    def why_wrong(self, program):
        with tempfile.TemporaryDirectory() as folder, tempfile.TemporaryDirectory() as other:
            few, many = (Answers(program, pathlib.Path(it), busy(self.kind, number), ["show"]) for it, number in ((folder, FEW), (other, PACKETS)))
            return many.why_slow(2 * MOST_READINGS[self.kind], self.words, few)


class Page:
    """The section of a page beside another capture, its line of the summary, and the picture."""

    name = "the page beside another capture"

    def why_wrong(self, program):
        with tempfile.TemporaryDirectory() as folder:
            five = captured(*FIVE)
            yield from self.why_drift_wrong(program, pathlib.Path(folder))
            for name, octets in (("a", five), ("b", captured(*FOUR, begin=START + HOUR)), ("c", five), ("d", five[:-9])):
                (pathlib.Path(folder) / name).write_bytes(octets)
            for beside, line, state in (("b", "found: 1 frame only in this capture (first: packet 2); "
                                         "1 frame only in b (first: packet 4). more", "found"),
                                         ("c", "clean: 5 frames in both this capture and c, none in one alone while both were on. more", "clean"),
                                         ("d", "not judged: d breaks off where packet 5 should be. To do: record it again, or compare up to there. "
                                               "4 frames in both this capture and d, none in one alone while both were on. more", "unjudged")):
                _, complained, got = ask(program, "report", ["--force", "--beside", beside, "a"], cwd=folder)
                page = ElementTree.fromstring((pathlib.Path(folder) / "report.html").read_text().partition("\n")[2])
                told = [(words(it), it.get("class")) for it in page.iter("li") if words(it).startswith("Beside, ")]
                if told != [(f"Beside, {line}", state)] or complained or (state == "found" and got != 1):
                    yield f"{beside}: status {got}, {told}, {complained!r}"
                if beside == "b":
                    yield from self.why_section_wrong(page)
            for wrong, status in (("-", 2), ("missing", 4), ("report.html", 2)):
                _, complained, got = ask(program, "report", ["--force", "--beside", wrong, "a"], cwd=folder)
                if got != status or not complained:
                    yield f"--beside {wrong}: status {got}, {complained!r}"

    def why_drift_wrong(self, program, folder):
        sent = [(at * SECOND, goose(5)) for at in range(100)]
        for name, frames in (("a", sent), ("b", [(at + at // 20_000, frame) for at, frame in sent])):
            (folder / name).write_bytes(captured(*frames))
        ask(program, "report", ["--force", "--beside", "b", "a"], cwd=folder)
        told = words(ElementTree.fromstring((folder / "report.html").read_text().partition("\n")[2]))
        for part in ("frames were compared as if they were less than 10 s apart.", "to the last one the least delay becomes 4.500 ms greater: "):
            yield from [] if part in told else [f"the page lacks {part!r}"]

    def why_section_wrong(self, page):
        section = next(it for it in page.iter("section") if it.get("aria-labelledby") == "beside")
        row = [words(it) for it in next(section.iter("tbody")).iter() if it.tag in ("td", "th")]
        wanted = ["G (APPID 0001, from 02-00-00-00-00-01)", "5", "5", "4", "1 (packet 2)", "1 (packet 4)",
                  "least 3,600.000110 s (packets 5, 5)median +0.010 ms (packets 3, 2)"
                  "99 in 100 +0.290 ms (packets 4, 3)greatest +0.290 ms (packets 4, 3)", ""]
        yield from ([] if row == wanted else [f"{row}"])
        # Delays over the least: 0, 10, 40 and 290 microseconds, in bars of 5: the first, the third, the ninth and the last.
        svg = next(section.iter("svg"))
        bars = [it for it in svg.iter("rect") if it.get("class") == "flow"]
        yield from ([] if len(bars) == 4 and len({it.get("height") for it in bars}) == 1 else [f"{len(bars)} bars"])
        if "The clocks differ by, or the way takes, at least 3,600.000110 s (packets 5, 5)" not in words(section):
            yield words(section)


def words(it):
    return "".join(it.itertext()).replace("\u00a0", " ")


def cases():
    for theme in (losses, repeats, far, samples, drifting, apart, one_capture, unread, texts, refusals):
        yield from theme()
    yield from map(Listed, (Clean(), Page()))
    yield Chance()
    yield Listed(Nearest())
    yield Listed(Slow())
    yield Listed(SlowClocks())
    yield Room("goose")
    yield Room("sv", "--same-clock")
    yield Fast("goose")
    yield Fast("sv", "--same-clock")


class Listed:
    """A case whose reasons are put into a list."""

    def __init__(self, case):
        self.name, self.case = case.name, case

    def why_wrong(self, program):
        return list(self.case.why_wrong(program))
