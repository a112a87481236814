"""What a page says of frames that are named missing and came late or with an error, and of late ones that were never missing."""
from helpers.capture_parts import header, record
from helpers.frames import put
from helpers.page_station import HOUR, SECOND, START, Frame, capture, frames, in_order, stream
from themes.page_states import AMBER, GREEN, RED, Judged
from themes.report import FINDINGS, OWN

# Device 1 sends a frame a second: sqNum 100 to 103 of state 5, and of state 6 sqNum 1 to 4; the first frames of states 6 and 7 come half a
# second after those of 3 and 7 s.
ACTS = {"Events acted on": (RED, "old")}
COPIED = {"Events acted on": (AMBER, "copies, or overtaken by a later state")}


class Rows(Judged):
    """A capture whose page also has these findings of one block but for silences, each a packet, its kind and details; and of the frames that
    it lacks so many late, so many with an error, and so many late ones that were not missing."""

    sender, caption = "D1LD0/LLN0$GO$gcb1 (APPID 1001)", "Totals of control blocks"

    def __init__(self, name, octets, told, rows, totals, *asked, **how):
        super().__init__(name, octets, told, *asked, **how)
        self.rows, self.totals = rows, totals

    def why_page_wrong(self, page, status):
        yield from super().why_page_wrong(page, status)
        rows = [(int(packet), kind, details) for _, packet, sender, kind,
                details in page.rows(FINDINGS) if sender == self.sender and kind != "silent"]
        yield from [] if rows == self.rows else [f"the findings are {rows}"]
        caption = next(it for it in page.tables if it.startswith(self.caption))
        own = dict(zip(page.heads[caption], next(row for row in page.rows(caption) if row[0] == self.sender)))
        totals = tuple(int(own.get(it, "0")) for it in OWN)
        yield from [] if totals == self.totals else [f"the totals are {own}"]


def of(state, sequence):
    return lambda it: (it.device, it.state, it.sequence) == (1, state, sequence)


def station(without=(), *more, change=None):
    """The frames of the station, each with its time, without those of device 1 with these numbers, and with more of it: each when it comes, in
    milliseconds after the beginning, and its numbers."""
    held = [it for it in frames(change) if not any(of(*pair)(it) for pair in without)]
    held += [Frame(START + at * 1000, 1, state, sequence, START - HOUR) for at, state, sequence in more]
    return in_order((it.at, it.octets()) for it in held)


def with_state(before, after):
    """A change of device 1 from one state to another number."""
    def change(it):
        if (it.device, it.state) == (1, before):
            it.state = after
    return change


def late():
    """Packets 5 and 8 are those of device 1 after 1 and 2 s where all came."""
    one = station([(5, 101)], (2500, 5, 101))
    missing = (8, "frames missing", "state 5: sqNum 101")
    yield Rows("a frame that came late", capture(one), {"Losses": (RED, "1 frame missing, which came late (first: packet 8)"), **ACTS},
               [missing, (12, "late", "state 5, sqNum 101; missing since packet 8")], (1, 0, 0))
    two = station([(5, 101), (5, 102)], (3300, 5, 102))
    missing = (11, "frames missing", "state 5: sqNum 101 to 102")
    yield Rows("two frames missing, of which one came late", capture(two), {"Losses": (RED, "2 frames missing, 1 of these came late (first: packet 11)"), **ACTS},
               [missing, (15, "late", "state 5, sqNum 102; missing since packet 11")], (1, 0, 0))
    both = station([(5, 101), (5, 102)], (3300, 5, 102), (3310, 5, 101))
    late_two = [(15, "late", "state 5, sqNum 102; missing since packet 11"), (16, "late", "state 5, sqNum 101; missing since packet 11")]
    yield Rows("two frames that came late", capture(both), {"Losses": (RED, "2 frames missing, all of which came late (first: packet 11)"), **ACTS},
               [missing, *late_two], (2, 0, 0))
    twice = station([(5, 101), (5, 102)], (3300, 5, 102), (3310, 5, 101), (3320, 5, 102))
    copy = "late frame was not missing, first: packet"
    yield Rows("a frame that came late, and a copy of it", capture(twice), {"Losses": (RED, "2 frames missing, all of which came late", f"1 {copy} 17"), **ACTS},
               [missing, *late_two, (17, "late", "state 5, sqNum 102; it was not missing: a copy, or overtaken")], (2, 0, 1))


def between():
    """Of three frames that are missing the second one comes first, and then the others; and numbers that were missing before a restart."""
    three = station([(6, 1), (6, 2), (6, 3)], (7100, 6, 2), (7110, 6, 3), (7120, 6, 1))
    at = 1 + sum(it[0] < START + 7_100_000 for it in three)
    missing = (at - 4, "frames missing", "state 6: sqNum 1 to 3")
    told = {"Losses": (RED, "3 frames missing, all of which came late"), "Events acted on": (RED, "old", "expired")}
    yield Rows("three frames missing, of which the second came late first", capture(three),
               {**told, "Losses": (RED, "1 silence", *told["Losses"][1:])}, [
        missing, *((at + place, "late", f"state 6, sqNum {it}; missing since packet {at - 4}") for place, it in enumerate((2, 3, 1)))], (3, 0, 0))
    gone = [(state, sequence) for state in (5, 6, 7) for sequence in range(110) if (state, sequence) not in ((5, 100), (5, 102))]
    again = station(gone, *((6000 + 1000 * place, 5, 99 + place) for place in range(4)), (9100, 5, 101))
    copy = 1 + sum(it[0] < START + 9_100_000 for it in again)
    back = 1 + sum(it[0] < START + 6_000_000 for it in again)
    yield Rows("a number that was missing before a restart, and a late copy of it after", capture(again), {
        "Losses": (RED, "1 restart", "1 frame missing (first: packet 8)", "1 late frame was not missing"), "Events acted on": (RED,)}, [
        (8, "frames missing", "state 5: sqNum 101"), (back, "restarted", "with state 5, sqNum 99"),
        (copy, "late", "state 5, sqNum 101; it was not missing: a copy, or overtaken")], (0, 0, 1))


def copies():
    copy = "it was not missing: a copy, or overtaken"
    first = station([], (1500, 5, 100))
    yield Rows("a copy that came late", capture(first), {"Losses": (AMBER, "1 late frame was not missing, first: packet 9", "a ring, PRP"), **COPIED},
               [(9, "late", f"state 5, sqNum 100; {copy}")], (0, 0, 1))
    ring = station([], *[(1500 + at, 5, 100) for at in range(3)])
    yield Rows("copies that came late", capture(ring), {"Losses": (AMBER, "3 late frames were not missing, first: packet 9"), **COPIED},
               [(at, "late", f"state 5, sqNum 100; {copy}") for at in (9, 10, 11)], (0, 0, 3))
    yield Judged("copies that come at once", capture(station([], *[(at * 1000 + 1, 5, 100 + at) for at in range(3)])), {})


def states():
    """State 6 begins after 3.5 s, with what is packet 17; here it has the number 7, and what was state 7 the number 8."""
    both = lambda it: with_state(7, 8)(it) or with_state(6, 7)(it)
    more = [(3600, 6, 1), (3610, 6, 0), (3620, 6, 5)]
    told = {"Losses": (RED, "1 state missing, which came late (first: packet 17)"), **ACTS}
    rows = [(17, "states missing", "state 6")] + [(at, "late", f"state 6, sqNum {it}; missing since packet 17") for at, it in ((21, 1), (22, 0), (23, 5))]
    yield Rows("a state that came late", capture(station([], *more, change=both)), told, rows, (0, 0, 0))
    told = {"Losses": (RED, "1 state missing, which came late (first: packet 17)", "1 late frame was not missing, first: packet 22"), **ACTS}
    rows = [*rows[:2], (22, "late", "state 6, sqNum 1; it was not missing: a copy, or overtaken")]
    yield Rows("a state that came late, and a copy", capture(station([], (3600, 6, 1), (3610, 6, 1), change=both)), told, rows, (0, 0, 1))
    yield Rows("a state that is missing", capture(station(change=both)), {"Losses": (RED, "1 state missing (first: packet 17)")}, rows[:1], (0, 0, 0))


# ---- Frames with an error ----------------------------------------------------


def spoilt(held, at):
    """The packet of this number has a gocbRef with an octet that no text has."""
    time, octets = held[at - 1]
    return [*held[:at - 1], (time, put(octets, at30=0x99)), *held[at:]]


def classic(held):
    return header() + b"".join(record(*divmod(at, SECOND), octets) for at, octets in held)


def malformed():
    """Packets 5, 9 and 13 are the second to fourth of device 1."""
    good = station()
    bad = "NotVisible in 1 frame (first: packet 5)"
    told = {"Errors": (RED, bad, "control blocks lack 1 frame of these, first: packet 5"),
            "Losses": (GREEN, "1 frame that control blocks lack came with an error, first: packet 5", "nothing else is missing")}
    rows = [(9, "frames missing", "state 5: sqNum 101; came with an error: packet 5")]
    yield Rows("a frame with an error", capture(spoilt(good, 5)), told, rows, (0, 1, 0))
    yield Rows("a frame with an error in a classic capture", classic(spoilt(good, 5)), told, rows, (0, 1, 0))
    for tags in ("81008005", "892f00400001", "81008005892f00400001", "8100000581008005", "88a8000581008005", "892f00400001" * 2):
        head = bytes.fromhex(tags)
        tagged = [(at, octets[:12] + head + octets[12:]) for at, octets in good]
        time, octets = tagged[4]
        tagged[4] = time, put(octets, **{f"at{30 + len(head)}": 0x99})
        for name, held in (("", capture(tagged)), (" in a classic capture", classic(tagged))):
            yield Rows(f"a frame with an error and the tags {tags}{name}", held, told, rows, (0, 1, 0))
    again = spoilt(station([], (2500, 5, 101)), 5)
    yield Rows("a frame with an error, and a late one of its numbers", capture(again), {
        "Errors": (RED, bad), "Losses": (AMBER, "1 frame that control blocks lack", "1 late frame was not missing, first: packet 13"), **COPIED},
        [rows[0], (13, "late", "state 5, sqNum 101; it was not missing: a copy, or overtaken")], (0, 1, 1))
    two = spoilt(spoilt(good, 5), 9)
    silent = {"Events acted on": (RED, "1 expired")}
    told = {"Errors": (RED, "NotVisible in 2 frames", "control blocks lack 2 frames of these, first: packet 5"),
            "Losses": (RED, "1 silence (first: packet 13). 2 frames that control blocks lack"), **silent}
    yield Rows("two frames with an error", capture(two), told, [(13, "frames missing", "state 5: sqNum 101 to 102; came with an error: packets 5 to 9")], (0, 2, 0))
    lost = spoilt(good, 5)
    del lost[8]
    told = {"Errors": (RED, bad, "control blocks lack 1 frame of these"), **silent,
            "Losses": (RED, "1 silence (first: packet 12); 1 frame missing (first: packet 12)", "1 frame that control blocks lack")}
    rows = [(12, "frames missing", "state 5: sqNum 101 to 102; 1 of these came with an error: packet 5")]
    yield Rows("a frame with an error before one that is missing", capture(lost), told, rows, (0, 1, 0))
    whole = {"Losses": (RED, "1 frame missing (first: packet 8)")}
    rows = [(8, "frames missing", "state 5: sqNum 101")]
    other = [(START + 1_700_000, put(octets, at30=0x99)) for _, octets in good[1:2]]
    yield Rows("a frame of another block with an error", capture(in_order([*station([(5, 101)]), *other])),
               {**whole, "Losses": (RED, "1 frame missing (first: packet 9)"), "Errors": (RED, "NotVisible in 1 frame")}, [(9, *rows[0][1:])], (0, 0, 0))
    own = put(good[0][1], at30=0x99)
    for name, at in (("before the frames between which one is missing", 500_000), ("after the frames between which one is missing", 2_500_000)):
        place = 9 if at < SECOND else 8
        yield Rows(f"a frame with an error {name}", capture(in_order([*station([(5, 101)]), (START + at, own)])), {
            "Losses": (RED, f"1 frame missing (first: packet {place})") if at > SECOND else (GREEN, "1 frame that control blocks lack"),
            "Errors": (RED, "NotVisible in 1 frame")},
            [(place, "frames missing", "state 5: sqNum 101" + ("" if at > SECOND else "; came with an error: packet 5"))], (0, int(at < SECOND), 0))
    early = in_order([*station([(5, 102)]), (START + 500_000, own)])
    yield Rows("a frame with an error where nothing is missing", capture(early), {"Losses": (RED, "1 frame missing (first: packet 13)"),
               "Errors": (RED, "NotVisible in 1 frame")}, [(13, "frames missing", "state 5: sqNum 102")], (0, 0, 0))
    many = in_order([*station([(5, 101)]), *[(START + 500_000 + at, own) for at in range(3)]])
    yield Rows("more frames with an error than are missing", capture(many), {"Losses": (GREEN, "1 frame that control blocks lack"),
               "Errors": (RED, "NotVisible in 3 frames", "lack 1 frame of these")}, [(11, "frames missing", "state 5: sqNum 101; came with an error: packet 5")], (0, 1, 0))


# ---- Samples -----------------------------------------------------------------

STREAM = "MU1 (stream, APPID 4000, from 020000000031)"


class SampleRows(Rows):
    """The same of a stream: how many samples that were missing came late, and how many late ones were not missing."""

    sender, caption = STREAM, "Totals of streams"


def swapped(held, first, second):
    """Packets of which two come in each other's place."""
    held = list(held)
    (one, of_one), (other, of_other) = held[first], held[second]
    held[first], held[second] = (one, of_other), (other, of_one)
    return held


def samples():
    """A stream of 100 samples a second: packet 31 has smpCnt 30."""
    asked, good = ("--period", "100"), list(stream(100, 3, a_frame=1))
    missing = (31, "samples missing", "1 sample, from smpCnt 30 on")
    late = (32, "sample late", "smpCnt 30; missing since packet 31")
    yield SampleRows("two samples in each other's place", capture(swapped(good, 30, 31)), {
        "Losses": (RED, "1 sample missing, which came late (first: packet 31)")}, [missing, late], (1, 0, 0), *asked, lacks=["late sample"])
    frames = list(stream(4000, 0.45))
    rows = [(31, "samples missing", "8 samples, from smpCnt 240 on"), *((32, "sample late",
                                                                         f"smpCnt {it}; missing since packet 31") for it in range(240, 248))]
    yield SampleRows("two frames of samples in each other's place", capture(swapped(frames, 30, 31)), {
        "Losses": (RED, "8 samples missing, all of which came late (first: packet 31)")}, rows, (8, 0, 0), "--period", "4000")
    two = good[:30] + good[32:34] + [(good[34][0] - 5000, good[31][1])] + good[34:]
    rows = [(31, "samples missing", "2 samples, from smpCnt 30 on"), (33, "sample late", "smpCnt 31; missing since packet 31")]
    yield SampleRows("two samples missing, of which one came late", capture(two), {
        "Losses": (RED, "2 samples missing, 1 of these came late (first: packet 31)")}, rows, (1, 0, 0), *asked)
    copy = good[:30] + good[31:33] + [(good[33][0] - 5000, good[28][1])] + good[33:]
    rows = [missing, (33, "sample late", "smpCnt 28; it was not missing: a copy, or overtaken")]
    yield SampleRows("a sample missing, and a late copy of one before", capture(copy), {
        "Losses": (RED, "1 sample missing (first: packet 31)", "1 late sample was not missing, first: packet 33: copies (a ring, PRP)")}, rows,
        (0, 0, 1), *asked)
    later = good[:30] + good[31:150] + good[151:153] + [(good[153][0] - 5000, good[130][1])] + good[153:]
    rows = [missing, (150, "samples missing", "1 sample, from smpCnt 50 on"), (152, "sample late",
                                                                               "smpCnt 30; it was not missing: a copy, or overtaken")]
    yield SampleRows("a late copy of a count that was missing a second before", capture(later), {
        "Losses": (RED, "2 samples missing (first: packet 31)", "1 late sample was not missing, first: packet 152")}, rows, (0, 0, 1), *asked)
    shown = good[:30] + good[31:33] + good[34:36] + [(good[36][0] - 5000, good[31][1]), (good[36][0] - 4000, good[29][1])] + good[36:]
    rows = [missing, (33, "samples missing", "1 sample, from smpCnt 33 on"), *((at, "sample late",
                                                                                f"smpCnt {it}; it was not missing: a copy, or overtaken")
                                                                          for at, it in ((35, 31), (36, 29)))]
    yield SampleRows("late copies of the samples beside one that is missing", capture(shown), {
        "Losses": (RED, "2 samples missing (first: packet 31)", "2 late samples were not missing, first: packet 35")}, rows, (0, 0, 2), *asked)
    three = good[:98] + good[102:105] + [(good[105][0] - 5000 + place, good[it][1]) for place, it in enumerate((99, 101, 98, 100, 99))] + good[105:]
    rows = [(99, "samples missing", "4 samples, from smpCnt 98 on"), *((at, "sample late", f"smpCnt {it}; missing since packet 99")
                                                                      for at, it in ((102, 99), (103, 1), (104, 98), (105, 0))),
            (106, "sample late", "smpCnt 99; it was not missing: a copy, or overtaken")]
    yield SampleRows("four samples missing that came in another order, and a copy", capture(three), {
        "Losses": (RED, "4 samples missing, all of which came late (first: packet 99)", "1 late sample was not missing, first: packet 106")}, rows,
        (4, 0, 1), *asked)
    turned = swapped(good, 99, 100)
    rows = [(100, "samples missing", "1 sample, from smpCnt 99 on"), (101, "sample late", "smpCnt 99; missing since packet 100")]
    yield SampleRows("two samples in each other's place where counts begin again", capture(turned),
                     {"Losses": (RED, "1 sample missing, which came late")}, rows,
                     (1, 0, 0), *asked)


class Order(Judged):
    """A capture of two streams of two rates, whose findings stand in the order of packets, not stream by stream."""

    def why_page_wrong(self, page, status):
        yield from super().why_page_wrong(page, status)
        rows = [(int(row[1]), row[2].partition(" ")[0]) for row in page.rows(FINDINGS)]
        if [it for _, it in rows] != ["MU1", "MU2"] * 3 or rows != sorted(rows):
            yield f"the findings are {rows}"


def orders():
    gaps = {b"MU1": (0.11, 0.21, 0.31), b"MU2": (0.16, 0.26, 0.36)}
    held = [pair for name, rate, source in ((b"MU1", 4000, 0x31), (b"MU2", 4800, 0x32)) for pair in stream(rate, 0.45, name, source=source)
            if not any(START + at * SECOND <= pair[0] < START + (at + 0.01) * SECOND for at in gaps[name])]
    yield Order("findings of two runs, in the order of packets", capture(in_order(held)), {"Losses": (RED, "264 samples missing")})


def cases():
    yield from samples()
    yield from orders()
    yield from late()
    yield from between()
    yield from copies()
    yield from states()
    yield from malformed()
