"""What a page says of packets without times, of silences at a leap of the capture's clock, and of numbers that roll over."""
from helpers.asked_tools import module
from helpers.capture_parts import header, interface, packet, record, section, simple_packet
from helpers.page_station import SECOND, START, capture, configured_blocks, in_order, packets, stream
from helpers.trip_station import BETWEEN, GOOD, TIME, TRUE, frames
from themes.page_states import AMBER, GREEN, RED, Judged, leapt
from themes.report import FINDINGS, words

GREATEST = (1 << 32) - 1
D1 = "D1LD0/LLN0$GO$gcb1"
SENDER = f"{D1} (APPID 1001)"


class Marked(Judged):
    """A capture whose page lists these findings, each a packet, its kind, whether it is set apart as one, and words of its details."""

    def __init__(self, name, octets, told, rows, *asked, sender=None, **how):
        super().__init__(name, octets, told, *asked, **how)
        self.rows, self.sender = rows, sender

    def why_page_wrong(self, page, status):
        yield from super().why_page_wrong(page, status)
        table = next(it for it in page.root.iter("table") if words(it.find("caption")) == FINDINGS)
        rows = [(words(row[1]), words(row[3]), "found" in row[3].get("class", ""), words(row[4])) for row in table.find("tbody")
                if self.sender in (None, words(row[2]))]
        is_same = len(rows) == len(self.rows) and all(ours[:3] == theirs[:3] and ours[3] in theirs[3] for ours, theirs in zip(self.rows, rows))
        yield from [] if is_same else [f"the findings are {rows}"]


# ---- Without times -----------------------------------------------------------


def simple(held):
    return b"".join(simple_packet(octets) for _, octets in held)


def untimed():
    good = packets()
    why = "no packet has a time"
    todo = "capture with times"
    told = {"Capture": (AMBER, f"{why} (simple packet blocks, or times of 0)", todo), "Losses": (AMBER, f"silences are not judged, since {why}",
                                                                                                 todo),
            "Clocks": (AMBER, f"t is not held beside the capture's clock, since {why}"),
            "Events acted on": (AMBER, f"whether lifetimes were over is not judged, since {why}", "12 events in packets 1 to 40")}
    octets = section() + interface() + simple(good)
    yield Judged("packets of blocks that have no time", octets, told, lacks=["1970", "19,6", "100 ms before", "ahead"])
    zero = header() + b"".join(record(0, 0, it) for _, it in good)
    yield Judged("packets whose times are all 0", zero, told, lacks=["1970", "19,6", "100 ms"])
    opens = frames((3000, "input", [TRUE, GOOD]), (3050, "closing", [TRUE]), (3095, "breaker", [BETWEEN, GOOD, TIME]), until=4000)
    opening = 1 + sum(at < START + 3_095_050 for at, _ in opens)
    said = [f"The trip in packet {opening}: CTL1LD0", f"Chosen because a breaker opens in packet {opening}",
            "packets have no time, so what came shortly before is not known",
            "Events in the order of packets, which have"]
    yield Judged("a breaker that opens in packets without times", section() + interface() + simple(opens), {**told, "Events acted on": (AMBER,)},
                 says=said,
                 lacks=["busiest", "goes true and", "0.0 ms"])
    busy = frames((3000, "input", [TRUE, GOOD]), (3050, "closing", [TRUE]), until=4000)
    yield Judged("two changes in packets without times", section() + interface() + simple(busy), {**told, "Events acted on": (AMBER,)},
                 lacks=["busiest"])
    lost = section() + interface() + simple(packets(lambda it: (it.device, it.state, it.sequence) != (1, 5, 101)))
    yield Judged("packets without times, and a frame that is missing", lost, {**told, "Losses": (RED, "1 frame missing (first: packet 8)",
                                                                                                 "silences are not judged"),
                                                                             "Events acted on": (AMBER, "whether lifetimes were over")})
    scd = configured_blocks(range(1, 5)).replace("</Address>", "</Address><MinTime>1</MinTime>")
    paces = {"Configuration": (AMBER, f"pauses are not held beside MinTime and MaxTime of of.scd, since {why}")}
    yield Judged("packets without times beside MinTime", octets, {**told, **paces}, scd=scd)
    some = {"Capture": (AMBER, "8 packets have no time, from packet 1 on"), "Losses": (AMBER,
                                                                                       "silences are not judged, since 8 packets have no time"),
            "Clocks": (AMBER,), "Events acted on": (AMBER,)}
    first = section() + interface() + simple(good[:8]) + b"".join(packet(at, it) for at, it in good[8:])
    yield Judged("packets of which the first have no time", first, some, lacks=["1970", " d "], scd=None)
    started = section() + interface() + b"".join(packet(at if place > 7 else 0, it) for place, (at, it) in enumerate(good))
    yield Judged("packets of which the first have the time 0", started, some, lacks=["1970", " d "])
    middle = section() + interface() + b"".join(simple_packet(it) if 20 <= place < 28 else packet(at, it) for place, (at, it) in enumerate(good))
    yield Judged("packets of which some have no time", middle, {**some, "Capture": (AMBER, "8 packets have no time, from packet 21 on"),
                                                                  "Losses": (AMBER, "since 8 packets have no time, from packet 21 on")})
    one = section() + interface() + b"".join(packet(at if place != 20 else 0, it) for place, (at, it) in enumerate(good))
    yield Judged("one packet whose time is 0", one, {**some, "Capture": (AMBER, "1 packet has no time, from packet 21 on"),
                                                     "Losses": (AMBER, "1 packet has no time")},
                 lacks=["1970", "times go back"])
    sampled = list(stream(4000, 0.45))
    begun = section() + interface() + simple(sampled[:40]) + b"".join(packet(at, it) for at, it in sampled[40:])
    seen = {"Capture": (AMBER, "40 packets have no time"), "Losses": (AMBER,), "Clocks": (AMBER,), "Events acted on": (AMBER,),
            "Samples": (AMBER, "samples are judged by their counts alone, since 40 packets have no time", "4,000 samples a second by --period")}
    yield Judged("samples of which the first have no time", begun, seen, "--period", "4000", lacks=["samples missing (first"])
    gone = section() + interface() + simple([*sampled[:20], *sampled[21:]])
    seen = {**seen, "Capture": (AMBER, why), "Losses": (RED, "8 samples missing (first: packet 21)"),
            "Samples": (AMBER, f"by their counts alone, since {why}")}
    yield Judged("samples without times of which some are missing", gone, seen, "--period", "4000")


# ---- Silences that the capture's clock shows ---------------------------------


def leaps():
    middle = START + 5 * SECOND + 800_000
    octets = capture(leapt(packets(), 20 * SECOND, middle))
    told = {"Capture": (AMBER,), "Losses": (AMBER, "4 silences"), "Clocks": (AMBER,), "Events acted on": (RED,)}
    rows = [(f"{it}", "silent", False, "the capture's clock leapt") for it in range(29, 33)]
    yield Marked("rows of silences where the capture's clock leapt", octets, told, rows)
    sampled = list(stream(100, 12, a_frame=1))
    both = capture(leapt(in_order([*packets(), *sampled]), 20 * SECOND, middle))
    last = sum(at < middle for at, _ in in_order([*packets(), *sampled]))
    rows = [(f"{last + 1}", "samples missing", False, "2,000 samples, from smpCnt 79 on; the capture's clock leapt")]
    yield Marked("the row of samples where the capture's clock leapt", both, {**told, "Losses": (AMBER, "5 silences")}, rows, "--period", "100",
                 sender="MU1 (stream, APPID 4000, from 020000000031)")
    quiet = capture(leapt(packets(lambda it: not middle <= it.at < middle + 3 * SECOND), 20 * SECOND, middle))
    rows = [(packet, kind, True, "") for packet, kind in (("29", "silent"), ("29", "frames missing"))]
    lossy = {"Losses": (RED, "4 silences", "missing"), "Events acted on": (RED,)}
    yield Marked("rows of silences of which each leaves out frames", quiet, lossy, rows, sender=SENDER)
    hides = [it if at != 20 else (it[0] + 7200 * SECOND, it[1]) for at, it in enumerate(packets())]
    back = {"Capture": (RED,), "Losses": (AMBER, "silences after packet 21 cannot be seen; 4 silences that they show may be none"),
            "Events acted on": (RED,)}
    rows = [(f"{it}", "silent", False,
             "22:13:26.00" + f"{it - 19}000, when its lifetime was over; times go back: it may be none") for it in range(21, 25)]
    yield Marked("rows of silences that times which go back show", capture(hides), back, rows)


class Gaps:
    """A gap in all packets, held by itself: which moments are in it, when times that go back undo it, and when it is a leap."""

    name = "gaps in the times of packets"

    def why_wrong(self, _):
        return list(self.why_gaps_wrong())

    def why_gaps_wrong(self):
        times = module("reporting.times")
        for now, wanted in ((20 * SECOND, False), (20 * SECOND - 1, True), (30 * SECOND, False)):
            held = self.of(times)
            held.back(SECOND, (b"", b"9", b"%d" % now, None), (b"", b"8", b"", None))
            if held.gaps[0].is_undone != wanted:
                yield f"times that go back to {now} undo: {not wanted}"
        moments = ((10 * SECOND - 1, False), (10 * SECOND, True), (30 * SECOND, True), (30 * SECOND + 1, False))
        yield from (f"{moment} is in it: {not wanted}" for moment, wanted in moments if (self.of(times).gap_of(moment) is not None) != wanted)
        yield from (f"it has ended by {moment}: {not wanted}" for moment, wanted in ((30 * SECOND - 1, False), (30 * SECOND, True))
                    if (self.of(times).gap_before(moment) is not None) != wanted)
        for devices, is_lossy, is_undone, wanted in ((2, False, False, True), (1, False, False, False), (2, True, False, False),
                                                     (2, False, True, False)):
            (gap,) = self.of(times).gaps
            gap.is_lossy, gap.is_undone = is_lossy, is_undone
            for it in range(devices):
                gap.add_silence(f"{it}", 7)
            if gap.is_leap != wanted:
                yield f"{devices} devices, lossy {is_lossy}, undone {is_undone}: {gap.is_leap}"
        yield from self.why_backs_wrong(self.of(times))

    def why_backs_wrong(self, held):
        """Packets one after another whose times go back are one run, by its greatest; the greatest of all runs is told."""
        greatest = (b"", b"3", b"", None)
        for packet, by in ((4, 2), (5, 4), (6, 3), (9, 9), (11, 1)):
            held.back(by * SECOND, (b"", b"%d" % packet, b"%d" % (40 * SECOND), None), greatest)
        runs = [(it.first.packet, it.last, it.by) for it in held.backs]
        if runs != [(4, 6, 4 * SECOND), (9, 9, 9 * SECOND), (11, 11, SECOND)] or held.greatest_back.first.packet != 9 or held.number != 5:
            yield f"the runs are {runs}, and the greatest at {held.greatest_back.first.packet}"

    def of(self, times):
        """A gap from 10 to 30 s."""
        held = times.Times()
        held.gap(10 * SECOND, (b"", b"7", b"%d" % (30 * SECOND), None))
        return held


# ---- Numbers that roll over -------------------------------------------------


def numbered(*numbers):
    """The station, whose device 1 sends frames of these numbers, one a second, in one or more states, each of which but the first began a
    millisecond before its first frame."""
    began = {}

    def change(it):
        if it.device != 1:
            return None
        at = (it.at - START) // SECOND
        if it.sequence == 0 or at >= len(numbers) or numbers[at] is None:
            return False
        it.state, it.sequence = numbers[at]
        it.t = began.setdefault(it.state, it.at - 1000 if began else START - SECOND)
        return None
    return packets(change)


def wraps():
    allowed = f"1 wrap that the standard allows, and so no finding: {D1}, packet"
    note = f"rolled over to 1 after {GREATEST} in packet"
    run = [(5, GREATEST - 2 + it) if it < 3 else (5, it - 2) for it in range(12)]
    silent = [(f"{it}", kind, False, f"sqNum {note} 13") for it, kind in ((13, "late"), (20, "late"), (24, "silent"), (24, "restarted"))]
    yield Marked("a sqNum that rolls over after its greatest", capture(numbered(*run)), {
        "Losses": (GREEN, f"{allowed} 13: sqNum rolled over to 1 after {GREATEST}; what goose tells up to packet 24 comes",
                   "nothing else is missing")}, silent)
    zero = [(5, it[1] - 1) if it[1] < 100 else it for it in run]
    yield Judged("a sqNum that rolls over to 0 after its greatest", capture(numbered(*zero)),
                 {"Losses": (GREEN, f"{allowed} 13: sqNum rolled over to 0 after {GREATEST}")})
    states = [(GREATEST, it + 7) if it < 4 else (1, it - 4) for it in range(12)]
    yield Judged("a stNum that rolls over after its greatest", capture(numbered(*states)), {
        "Losses": (GREEN, f"{allowed} 20: stNum rolled over to 1 after {GREATEST}; what goose tells up to packet 28")},
        lacks=["a device may act here"])
    both = [(GREATEST, GREATEST - 1), (GREATEST, GREATEST), (GREATEST, 1), (GREATEST, 2), (GREATEST, 3), (GREATEST, 4)]
    yield Judged("a sqNum that rolls over in the greatest state", capture(numbered(*both, *((GREATEST, it) for it in range(5, 11)))), {
        "Losses": (GREEN, f"{allowed} 9: sqNum rolled over to 1 after {GREATEST}")})
    higher = [*run[:5], *((6, it) for it in range(7))]
    yield Judged("a new state soon after a sqNum rolled over", capture(numbered(*higher)),
                 {"Losses": (GREEN, f"{allowed} 13: sqNum rolled over to 1 after {GREATEST}; what goose tells up to packet 24")})
    ends = numbered(*run[:5])
    yield Judged("a sqNum that rolls over at the end", capture([it for it in ends if it[0] < START + 5 * SECOND]),
                 {"Losses": (GREEN, f"{allowed} 13: sqNum rolled over to 1 after {GREATEST}.")})
    gone = {"Losses": (RED, "1 sender silent at the end", "1 wrap that the standard allows, beside other findings"),
            "Events acted on": (RED, "expired")}
    yield Judged("a sqNum that rolls over, and a block that ends soon after", capture(ends), gone)
    two = [*both[:6], (GREATEST, 5), *((1, it) for it in range(5))]
    yield Judged("a sqNum that rolls over, and then stNum", capture(numbered(*two)), {
        "Losses": (RED, "2 silences", "2 restarts", "2 wraps that the standard allows, beside other findings"), "Events acted on": (RED, "expired")})
    twice = [pair for pair in numbered(*run) for _ in range(2)]
    yield Judged("a sqNum that rolls over, and all frames twice", capture(twice), {"Losses": (GREEN, allowed)})
    red = {"Losses": (RED, "1 silence (first: packet", "1 restart", "1 wrap that the standard allows, beside other findings"),
           "Events acted on": (RED, "expired")}
    yield Judged("a frame that is missing after a sqNum rolled over", capture(numbered(*run[:4], *run[5:])), red)
    silence = [*run[:4], None, None, None, None, *run[4:8]]
    yield Judged("a silence after a sqNum rolled over", capture(numbered(*silence)), red)
    silence = [*run[:3], None, None, None, None, *run[3:8]]
    yield Judged("a silence before a sqNum rolls over", capture(numbered(*silence)), {"Losses": (RED, "1 silence", "1 restart"),
                                                                                      "Events acted on": (RED, "expired")},
                 lacks=["rolled over"])
    lower = [(5, GREATEST - 3 + it) if it < 3 else (5, it - 2) for it in range(12)]
    yield Judged("a sqNum that rolls over before its greatest", capture(numbered(*lower)),
                 {"Losses": (RED, "1 restart"), "Events acted on": (RED, "old", "expired")},
                 lacks=["rolled over"])
    again = [(5, GREATEST), (5, 1), (5, 2), (5, 3), (5, GREATEST), (5, 1), (5, 2), (5, 3), (5, 4), (5, 5), (5, 6), (5, 7)]
    yield Judged("a sqNum that rolls over twice", capture(numbered(*again)), {"Losses": (RED, "missing"), "Events acted on": (RED,)})


def cases():
    yield from untimed()
    yield from leaps()
    yield Gaps()
    yield from wraps()
