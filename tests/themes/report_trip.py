"""The page tells the trip first: its moment by the first rule that any event meets, the events around it, and their picture."""
import re
import types

from helpers import trip_station
from helpers.asked_tools import module
from helpers.trip_station import BETWEEN, FALSE, FAULT, GOOD, OFF, ON, START, TEST, TIME, TRUE, capture, frame, frames, reference, scd
from themes.report import EVENTS, FINDINGS, Page, reported, words

TABLE = re.compile(r"Events from 200 ms before to 2 s after (the trip|this)")
# What the section says of each rule.
NAMED, OPENS, ALONE = "Chosen because the member's name says that the device trips.", "Chosen because this boolean goes true and", "no boolean goes true in the 100 ms before"
BUSIEST, NONE, ASKED = "No trip was recognised. The busiest 100 ms begin", "no event meets any of the rules", "--trip names this packet"


def section(page):
    """The section of the trip."""
    return next(it for it in page.root.iter("section") if it.get("aria-labelledby") == "trip")


def table(page):
    """The rows of the trip's table: relative time, packet, device, control block, data, old to new."""
    return next(([row[:6] for row in rows] for caption, rows in page.tables.items() if TABLE.fullmatch(caption)), [])


def packet_of(sent, change):
    """The packet of a change: the last frame of its time and control block."""
    at, name, _ = change
    moment = START + round(at * 1000) + 50 * list(trip_station.BLOCKS).index(name)
    return max(number for number, (when, octets) in enumerate(sent, 1) if when == moment and reference(name).encode() in octets)


class Moment:
    """A recording of which the page finds the moment in the packet of a change by a rule, and in the table stands what is at 0.0 ms."""

    def __init__(self, name, changes, said, which, *asked, zero=None, lacks=(), has_scd=False, status=0):
        self.name, self.sent, self.said, self.asked = f"the trip: {name}", frames(*changes), said, asked
        self.packet = None if which is None else packet_of(self.sent, changes[which])
        self.zero, self.lacks, self.has_scd, self.status = zero, lacks, has_scd, status

    def why_wrong(self, program):
        asked = [*(["--scd", "of.scd"] if self.has_scd else []), *self.asked]
        octets, said, status, _ = reported(program, capture(self.sent), *asked, scd=scd() if self.has_scd else "")
        return list(self.why_page_wrong(Page(octets), status)) if octets else [f"status {status}: {said}"]

    def why_page_wrong(self, page, status):
        told = words(section(page))
        yield from (f"it lacks {it!r}: {told[:600]}" for it in [self.said, *([f"in packet {self.packet}, at "] if self.packet else [])] if it not in told)
        yield from (f"it says {it!r}: {told[:600]}" for it in self.lacks if it in told)
        zero = [row[2:] for row in table(page) if row[0] == "0.0 ms"]
        if self.zero and self.zero not in zero:
            yield f"at 0.0 ms are {zero}"
        if status != self.status:
            yield f"ended with status {status}"


class Around:
    """The table and the picture of a fault: all events in order of time, with names and words, and a lane a block."""

    name = "the trip: what is around it"
    wanted = [
        ("\u221218.4 ms", "PROT1", "LD0/LLN0$GO$gcb_trip", "PTOC1.Str.general", "false \u2192 true"),
        ("0.0 ms", "PROT1", "LD0/LLN0$GO$gcb_trip", "PTRC1.Tr.general", "false \u2192 true"),
        ("+6.8 ms", "IO1", "LD0/LLN0$GO$gcb_input", "GGIO1.Ind1.stVal", "false \u2192 true"),
        ("+11.7 ms", "CTL1", "LD0/LLN0$GO$gcb_isolator", "XSWI1.Pos.stVal", "on \u2192 intermediate"),
        ("+36.9 ms", "CTL1", "LD0/LLN0$GO$gcb_breaker", "XCBR1.Pos.stVal", "on \u2192 intermediate"),
        ("+51.6 ms", "CTL1", "LD0/LLN0$GO$gcb_breaker", "XCBR1.Pos.stVal", "intermediate \u2192 off"),
        ("+481.8 ms", "PROT2", "LD0/LLN0$GO$gcb_closing", "RREC1.Op.general", "false \u2192 true"),
        ("+541.6 ms", "CTL1", "LD0/LLN0$GO$gcb_breaker", "XCBR1.Pos.stVal", "off \u2192 on"),
        ("+581.6 ms", "PROT1", "LD0/LLN0$GO$gcb_trip", "PTRC1.Tr.general", "true \u2192 false"),
        ("+581.6 ms", "PROT1", "LD0/LLN0$GO$gcb_trip", "PTOC1.Str.general", "true \u2192 false")]
    lanes = ["CTL1 LD0/LLN0$GO$gcb_breaker", "CTL1 LD0/LLN0$GO$gcb_isolator", "IO1 LD0/LLN0$GO$gcb_input", "PROT1 LD0/LLN0$GO$gcb_trip",
             "PROT2 LD0/LLN0$GO$gcb_closing"]

    def why_wrong(self, program):
        octets, said, status, _ = reported(program, capture(frames(*FAULT)), "--scd", "of.scd", scd=scd())
        return list(self.why_page_wrong(Page(octets))) if octets else [f"status {status}: {said}"]

    def why_page_wrong(self, page):
        got = [(row[0], *row[2:]) for row in table(page)]
        if got != self.wanted:
            yield f"the table is {got}"
        figure = next(section(page).iter("figure"), None)
        told = [it.text for it in figure.iter("text")] if figure is not None else []
        lanes = [it.text for it in figure.iter("text") if it.get("class") == "lane"] if figure is not None else []
        if lanes != self.lanes:
            yield f"the lanes are {lanes}"
        yield from (f"the picture lacks {it}" for it in ("XCBR1.Pos.stVal: on \u2192 intermediate", "PTRC1.Tr.general: false \u2192 true") if it not in told)
        if page.root.find(".//figure") is not figure:
            yield "another picture comes before"


class Simulated:
    """A test set that stops is no silent sender, and the lane of the block is what its own frames say: no silence is drawn."""

    name = "a page of simulated frames that end"

    def why_wrong(self, program):
        sent = frames(until=9000)
        sent += [(START + 1_000_000 * at + 400_000, frame("trip", [FALSE, GOOD, FALSE], 1, at, simulated=True, source=9, live=1500)) for at in (1, 2, 3)]
        octets, said, status, _ = reported(program, capture(sorted(sent, key=lambda it: it[0])))
        return list(self.why_page_wrong(Page(octets))) if octets else [f"status {status}: {said}"]

    def why_page_wrong(self, page):
        got = [(row[2].partition(" ")[0], row[3]) for row in page.rows(FINDINGS)]
        if got != [(reference("trip"), "simulated frames ended")]:
            yield f"the findings are {got}"
        losses = next(text for text, _ in page.summary if text.startswith("Losses"))
        if "clean" not in losses:
            yield f"the summary says {losses}"
        drawn = [it.get("class") for it in page.root.iter("rect")]
        if "silent" in drawn:
            yield "a silence is drawn"


class Restarted:
    """A device that restarts within its lifetime sends a younger t with a lower stNum: old to these rules, and the page says what other
    devices may do."""

    name = "a page of a restart within the lifetime"

    def why_wrong(self, program):
        sent = frames((2000, "trip", [TRUE, GOOD, FALSE]), (3000, "trip", [FALSE, GOOD, FALSE]), until=4000)
        again = [(START + 4_000_000 + 100_000 * at, frame("trip", [TRUE, GOOD, FALSE], 1, at, START + 4_000_000)) for at in range(3)]
        late = [(START + 4_700_000, frame("trip", [TRUE, GOOD, FALSE], 2, 0, START + 2_000_000))]
        octets, said, status, _ = reported(program, capture(sent + again + late))
        page = Page(octets) if octets else None
        rows = [row[6] for row in page.rows(EVENTS) if row[6].startswith("old")] if page else [said, f"{status}"]
        wanted = ["old, 4 frames; a device may act here: restart within the lifetime"]
        return [] if rows == wanted and "any change of stNum acts earlier" in words(page.root.find(".//main")) else [f"{rows}"]


class Folded:
    """First states are folded with their count, a member t is no change, and lifetimes are told by the least and the greatest."""

    name = "a page of first states, of a time that changes, and of lifetimes"

    def why_wrong(self, program):
        sent = frames((2000, "breaker", [ON, GOOD, TIME[:-1] + b"\x0a"]), until=3000)
        sent = [(at, octets) for at, octets in sent]
        lives = [(START + 3_000_000 + 10_000 * at, frame("trip", [FALSE, GOOD, FALSE], 1, 3 + at, live=live)) for at, live in enumerate((4000, 2500, 4000, 3000))]
        octets, said, status, _ = reported(program, capture(sent + lives))
        return list(self.why_page_wrong(Page(octets))) if octets else [f"status {status}: {said}"]

    def why_page_wrong(self, page):
        folded = [words(it.find("summary")) for it in page.root.iter("details")]
        if folded != [f"{len(trip_station.BLOCKS)} first states"]:
            yield f"folded: {folded}"
        rows = [row[6] for row in page.rows(EVENTS)]
        if rows != ["none"]:
            yield f"the events are {rows}"
        lives = next(row[3] for row in page.rows("Control blocks (GOOSE)") if row[0] == reference("trip"))
        if lives.splitlines() != ["2,500 ms (packet 22 on)", "4,000 ms (packet 21 on)", "changed 4 times"]:
            yield f"lifetimes: {lives}"


class Looked(dict):
    """A member that counts how often it is looked at."""

    number = 0

    def get(self, *asked):
        Looked.number += 1
        return super().get(*asked)


class Qualities:
    """Whether a member is in test is known by one look at each member of an event, however many change."""

    name = "the bit test of an event of many members"

    def why_wrong(self, _):
        return list(self.why_looks_wrong())

    def why_looks_wrong(self):
        events, many = module("reporting.events"), 400
        members = [Looked(bits="10") for _ in range(many)]
        is_test = events.is_of_test(members, [(f"{at}", "01", "10") for at in range(1, many + 1)])
        if Looked.number > 2 * many or is_test:
            yield f"{many} members are looked at {Looked.number} times, test: {is_test}"
        good, test = {"bits": "0" * 13}, {"bits": "0" * 11 + "10"}
        for members, path, wanted in (([True, test], "1", True), ([True, good, test], "1", False), ([True, good, True, test], "3", True), ([True], "1", False),
                                      ([{"structure": [True, test]}, True, good], "1.1", True), ([{"structure": [True, test]}, True, good], "2", False)):
            if events.is_of_test(members, [(path, False, True)]) != wanted:
                yield f"member {path} of {members}: test {not wanted}"
        if not events.is_of_test([True, test, True, good], [("1", False, True), ("3", False, True)]):
            yield "one of two members that changed is of a test, and the event is not"
        yield from self.why_rises_wrong()

    def why_rises_wrong(self):
        """A boolean goes true from false alone, and not from what was no boolean."""
        for old, wanted in ((False, 1), ({"bits": "00"}, 0), ("", 0)):
            trip = module("reporting.trip").Trip(None)
            trip.see(types.SimpleNamespace(changes=[("1", old, True)], names=module("member_names").NONE, block=None,
                                           place=types.SimpleNamespace(microseconds=5, packet=1)))
            if len(trip.rises) != wanted:
                yield f"{old} to true: {len(trip.rises)} booleans go true"


class Bounds:
    """The table has events from exactly 200 ms before to exactly 2 s after, and none beyond. A block's frames come 50 us later than those of the
    block before it, which these times take away."""

    name = "the trip: the bounds of its table"
    changes = [(2299.799, "closing", [TRUE]), (2299.9, "isolator", [OFF]), (2500, "trip", [TRUE, GOOD, FALSE]), (4499.9, "isolator", [ON]),
               (4499.801, "closing", [FALSE])]

    def why_wrong(self, program):
        octets, said, status, _ = reported(program, capture(frames(*self.changes)), "--scd", "of.scd", scd=scd())
        got = [(row[0], row[3]) for row in table(Page(octets))] if octets else [said]
        wanted = [("\u2212200.0 ms", reference("isolator")[4:]), ("0.0 ms", reference("trip")[5:]), ("+2,000.0 ms", reference("isolator")[4:])]
        return [] if got == wanted else [f"the table is {got}"]


class Lanes:
    """Words beside marks stand below one another where they would meet, up to six lines; at the right edge they stand left of their mark. Of many
    members some are told, and how many more there are; of many lanes too."""

    name = "the trip: words and lanes of its picture"

    def why_wrong(self, _):
        return list(self.why_lanes_wrong())

    def why_lanes_wrong(self):
        drawn, page = module("reporting.trip_picture"), module("reporting.page")
        lane = drawn.Lane("a lane")
        for at in range(8):
            lane.add("act", 100, [f"word {at}"])
        rows = [row for row, *_ in lane.words]
        if rows != list(range(6)) or lane.height != 17 + 15 * 7:
            yield f"eight words at one mark stand in the lines {rows}, {lane.height} high"
        lane = drawn.Lane("a lane")
        for x in (100, 300, 990, 990):
            lane.add("act", x, ["ten letter"])
        if [(row, anchor) for row, _, anchor, _ in lane.words] != [(0, None), (0, None), (0, "end"), (1, "end")]:
            yield f"words stand as {lane.words}"
        long = lambda number: types.SimpleNamespace(words=lambda: [(f"m{it}", "0" * 70, "1") for it in range(number)], told=lambda: "none")
        told = [drawn.words_of(long(number)) for number in (0, 3, 5)]
        if [len(it) for it in told] != [1, 3, 4] or told[2][3] != "and 2 more" or {len(it) for it in told[1]} != {63}:
            yield f"events are told as {told}"
        yield from self.why_many_wrong(drawn, page)

    def why_many_wrong(self, drawn, page):
        blocks = [types.SimpleNamespace(name=f"D{it:02}/b", appid="0001") for it in reversed(range(23))]
        events = [types.SimpleNamespace(block=it, kind="act", place=types.SimpleNamespace(microseconds=5, packet=1), words=lambda: [],
                                        told=lambda: "none")
                  for it in blocks]
        moment = types.SimpleNamespace(in_order=lambda: events, place=events[0].place)
        svg, more = drawn.drawn(moment, module("reporting.naming").Devices(), "a title")
        lanes = re.findall(r'class="lane">([^<]*)<', svg)
        if more != 3 or lanes != [f"D{it:02} b" for it in range(20)]:
            yield f"{more} more than {lanes}"


class Beyond:
    """Of very many events around a moment some are kept, and the others are counted on the page; so are later trips."""

    name = "the trip: very many events around it, and trips after it"

    def why_wrong(self, _):
        return list(self.why_counts_wrong())

    def why_counts_wrong(self):
        trip, part = module("reporting.trip"), module("reporting.trip_section")
        at = lambda microseconds: types.SimpleNamespace(microseconds=microseconds, packet=1)
        moment = trip.Moment(at(0), None, ())
        for number in range(403):
            moment.add(types.SimpleNamespace(place=at(number)))
        left = types.SimpleNamespace(left_out=lambda *_: "")
        told = "".join(part.more_of(left, moment, "here to there"))
        if len(moment.events) != 400 or "3 more events from here to there are not listed here." not in told:
            yield f"{len(moment.events)} events are kept, and it says {told!r}"
        for number in range(1, 24):
            moment.again(types.SimpleNamespace(microseconds=number * 200_000))
        if (len(moment.later), moment.more_later) != (20, 3):
            yield f"{len(moment.later)} later trips are kept, and {moment.more_later} more counted"


BREAKER = [(3000, "input", [TRUE, GOOD]), (3090, "isolator", [ON]), (3095, "breaker", [BETWEEN, GOOD, TIME])]


def cases():
    trip, cause = ["PROT1", "LD0/LLN0$GO$gcb_trip", "PTRC1.Tr.general", "false \u2192 true"], ["IO1", "LD0/LLN0$GO$gcb_input", "GGIO1.Ind1.stVal", "false \u2192 true"]
    sent = frames(*FAULT)
    closing, last = packet_of(sent, FAULT[6]), packet_of(sent, FAULT[-1])
    yield Moment("by the name of a member", FAULT, NAMED, 1, zero=trip, has_scd=True)
    yield Moment("later ones are told", FAULT, f"Later by the same rule: packet {last} (", 1, has_scd=True)
    yield Moment("a member that --trip names", FAULT, "the member that --trip names goes true", 2, "--trip", "GGIO1.Ind1", zero=cause, has_scd=True)
    yield Moment("a packet that --trip names", FAULT, ASKED, 6, "--trip", f"{closing}", has_scd=True)
    yield Moment("a packet that is not there", FAULT, "There is no packet 999, which --trip names.", 1, "--trip", "999", has_scd=True, status=6)
    yield Moment("digits of another kind name no packet", FAULT, "No member \u00b2, which --trip names, goes true.", 1, "--trip", "\u00b2", has_scd=True, status=6)
    yield Moment("a member that does not go true", FAULT, "No member XCBR9.Pos, which --trip names, goes true.", 1, "--trip", "XCBR9.Pos", has_scd=True, status=6)
    yield Moment("a breaker that opens, by its name", BREAKER, OPENS, 0, zero=cause, has_scd=True)
    yield Moment("a breaker that opens, without names", BREAKER, "94.8 ms later a breaker opens", 0)
    yield Moment("a boolean too long before", [(2900, "input", [TRUE, GOOD]), *BREAKER[1:]], ALONE, 2, has_scd=True)
    yield Moment("an isolator is no breaker", [(3000, "isolator", [OFF])], NONE, None, has_scd=True)
    yield Moment("any two bits without names", [(3000, "isolator", [OFF])], ALONE, 0)
    yield Moment("the busiest 100 ms", [(2000, "input", [TRUE, GOOD]), (4000, "closing", [TRUE]), (4050, "failure", [FALSE, TRUE])], BUSIEST, 1, has_scd=True)
    yield Moment("one block alone is not busy", [(2000, "input", [TRUE, GOOD]), (2010, "input", [FALSE, GOOD])], NONE, None)
    yield Moment("a quiet recording", [], NONE, None)
    yield Moment("a start and a reclosing are no trips", [(2000, "trip", [FALSE, GOOD, TRUE]), (3000, "closing", [TRUE])], NONE, None, has_scd=True)
    yield Moment("a test", [(2000, "trip", [TRUE, TEST, FALSE])], "(test)", 0, has_scd=True, zero=[*trip[:2], "PTRC1.Tr.general test", trip[3]])
    yield Moment("no test", [(2000, "trip", [TRUE, GOOD, FALSE])], NAMED, 0, has_scd=True, lacks=["test"])
    # A frame of "input" comes 200 us after one of "breaker" of the same time, which these times take away.
    yield Moment("a boolean exactly 100 ms before", [(2994.8, "input", [TRUE, GOOD]), *BREAKER[1:]], "100.0 ms later a breaker opens", 0)
    yield Moment("a boolean over 100 ms before", [(2994.799, "input", [TRUE, GOOD]), *BREAKER[1:]], ALONE, 2)
    yield Moment("two changes exactly 100 ms apart", [(2000, "input", [TRUE, GOOD]), (2100.05, "closing", [TRUE])], BUSIEST, 0)
    yield Moment("two changes over 100 ms apart", [(2000, "input", [TRUE, GOOD]), (2100.051, "closing", [TRUE])], NONE, None)
    twice = [(at + more, *what) for at in (2000, 5000) for more, *what in ((0, "input", [at == 2000, GOOD]), (10, "closing", [at == 2000]))]
    twice = [(at, name, [TRUE if it is True else FALSE if it is False else it for it in members]) for at, name, members in twice]
    yield Moment("the first of two times as busy", twice, BUSIEST, 0)
    pulse = [(at, "trip", [TRUE if at % 100 == 0 else FALSE, GOOD, FALSE]) for at in (2000, 2050, 2200, 2250)]
    yield Moment("a trip again after exactly 200 ms", pulse, "Later by the same rule: packet", 0, has_scd=True)
    pulse = [(at, "trip", [TRUE if at % 100 else FALSE, GOOD, FALSE]) for at in (2001, 2100, 2199, 2300, 2398)]
    yield Moment("trips each less than 200 ms after the one before", pulse, NAMED, 0, has_scd=True, lacks=["Later by the same rule"])
    bouncing = [*BREAKER, (3150, "breaker", [ON, GOOD, TIME]), (3245, "breaker", [BETWEEN, GOOD, TIME])]
    yield Moment("a breaker that bounces within 200 ms of its opening", bouncing, OPENS, 0, has_scd=True, lacks=["Later by the same rule"])
    yield from (Around(), Bounds(), Lanes(), Beyond(), Simulated(), Restarted(), Folded(), Qualities())
