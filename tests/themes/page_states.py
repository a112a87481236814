"""A page is never green where it has not looked: for each fault that is put into a station it says what in which state, and where
nothing is wrong nothing is red."""
import types

from helpers import page_station
from helpers.asked_tools import module
from helpers.capture_parts import block, fours, header, interface, old_packet, option, packet, record, section, statistics, twos
from helpers.frames import element
from helpers.page_station import (FAILED, HOUR, SECOND, START, UNSYNCHRONIZED, Frame, capture, configured_blocks, configured_stream, in_order,
                                  packets,
                                  stream)
from themes.report import STATUSES, Page, reported, words

# The states of statements, by the words of the tables below.
RED, AMBER, GREEN = "found", "unjudged", "clean"
TOPICS = {"Capture", "Received", "Losses", "Samples", "Errors", "Configuration", "Subscriptions", "Clocks", "Source addresses", "Simulation", "Synchronisation",
          "Events acted on"}


class Judged:
    """A capture, and what its page says of some topics: the state of each, and words of it. All other topics are green. The page has all of
    the words in `says`, and none of those in `lacks`."""

    def __init__(self, name, octets, told, *asked, scd=None, says=(), lacks=()):
        self.name, self.octets, self.told, self.asked, self.scd = f"a page of {name}", octets, told, asked, scd
        self.says, self.lacks = says, lacks

    def why_wrong(self, program):
        asked = (*self.asked, *(("--scd", "of.scd") if self.scd else ()))
        octets, said, status, _ = reported(program, self.octets, *asked, scd=self.scd or "")
        return [f"status {status}: {said}"] if octets is None or said else list(self.why_page_wrong(Page(octets), status))

    def why_page_wrong(self, page, status):
        lines = {told.partition(",")[0]: (state, told) for told, state in page.summary}
        if not lines.keys() <= TOPICS:
            yield f"the topics are {sorted(lines)}"
        for topic, (state, line) in lines.items():
            wanted, *parts = self.told.get(topic, (GREEN,))
            yield from [] if state == wanted else [f"{topic} is {state}: {line}"]
            yield from (f"{topic} lacks {part!r}: {line}" for part in parts if part not in line)
        yield from (f"there is no line on {topic}" for topic in self.told.keys() - lines.keys())
        worst = min((it[0] for it in self.told.values()), key=list(STATUSES).index, default=GREEN)
        yield from [] if status == STATUSES[worst] else [f"ended with status {status}"]
        text = words(page.root.find(".//main"))
        yield from (f"it says {it!r}" for it in self.lacks if it in text)
        yield from (f"it lacks {it!r}" for it in self.says if it not in text)


def changed(which, **fields):
    """What is done with the frames that `which` holds for: these fields are set, or made of the frame."""
    def change(it):
        for name, value in fields.items() if which(it) else ():
            setattr(it, name, value(it) if callable(value) else value)
    return change


def without(which):
    return packets(lambda it: not which(it))


def of(*devices):
    return lambda it: it.device in devices


def later(seconds):
    """From so many seconds after the beginning on."""
    return lambda it: it.at >= START + seconds * SECOND


# ---- What was not captured, or not read --------------------------------------


def carried(frame, head):
    """A frame behind a head of its EtherType."""
    return frame[:12] + bytes.fromhex(head) + frame[12:]


def recorded():
    good = packets()
    yield Judged("a station in which nothing is wrong", capture(good), {})
    yield Judged("a classic capture in which nothing is wrong", header() + b"".join(record(*divmod(at, SECOND), it) for at, it in good), {})
    for link, name in ((113, "LINUX_SLL"), (276, "LINUX_SLL2")):
        told = {"Capture": (AMBER, f"{len(good)} packets of Linux cooked ({name}), from packet 1 on", "capture on the network card itself")}
        yield Judged(f"the interface any, link type {link}", capture(good, link), told)
    both = section() + interface() + interface(link=113) + b"".join(packet(at, it) for at, it in good) + packet(good[-1][0], good[0][1], which=1)
    yield Judged("one packet of the interface any", both, {"Capture": (AMBER,
        f"1 packet of Linux cooked (LINUX_SLL), from packet {len(good) + 1} on")})
    for order in ((2, 1, 1), (1, 2, 2)):
        several = section() + interface() + interface(link=113) * 2 + b"".join(packet(at, it) for at, it in good)
        several += b"".join(packet(good[-1][0], good[0][1], which=it) for it in order)
        yield Judged(f"packets of two interfaces any, {order[0]} first", several, {"Capture": (AMBER,
            f"3 packets of Linux cooked (LINUX_SLL), from packet {len(good) + 1} on")})
    for name, head in (("an HSR ring", "892f00400001"), ("an HSR ring with VLAN tags", "81000005892f00400001"),
                       ("frames with a tag in a tag", "8100000581000006"), ("frames with an outer tag before another", "88a8000581000006"),
                       ("an HSR ring within another", "892f00400001892f00400002")):
        held = [(at, carried(it, head)) for at, it in good]
        yield Judged(f"{name}, of which all frames are read", capture(held), {}, says=[" --unwrap "])
        yield Judged(f"{name}, in which a frame is missing", capture(held[:20] + held[21:]), {"Losses": (RED, "1 frame missing")})
    yield Judged("an HSR ring in which each frame comes both ways round",
                 capture((at + late, carried(it, f"892f{way}0400001")) for at, it in good for late, way in ((0, 0), (50, 1))), {})
    cut = (good[-1][0], carried(good[-1][1], "892f00400001")[:19])
    yield Judged("a frame of an HSR ring that ends in the tag", capture([*good, cut]), {"Capture": (AMBER, "1 frame of 892f (HSR)", "not read")})
    for name, head, what in (("frames with an outer tag", "88a80005", "88a8 (an outer VLAN tag)"),
                             ("frames of MACsec", "88e5000000000001", "88e5 (MACsec)"), ("frames with an old outer tag", "91000005", "9100"),
                             ("frames with an outer tag of 9200", "92000005", "9200 (an outer VLAN tag)"),
                             ("frames with an outer tag of 9300", "93000005", "9300"),
                             ("MPLS frames", "884700001140", "8847 (MPLS)"), ("MPLS frames to a group", "884800001140", "8848 (MPLS)"),
                             ("MPLS frames with a VLAN tag", "81000005884700001140", "8847 (MPLS)"),
                             ("frames of a backbone", "88e70000000a", "88e7 (a provider's backbone, PBB)"),
                             ("frames with a tag of a port extender", "893f000000000000", "893f (a tag of IEEE 802.1BR)"),
                             ("frames with a redundancy tag", "f1c100000001", "f1c1 (a redundancy tag, IEEE 802.1CB)")):
        told = {"Capture": (AMBER, f"{len(good)} frames of {what}", "from packet 1 on", "may carry GOOSE: not read")}
        yield Judged(f"{name}, of which no frame is read", capture((at, carried(it, head)) for at, it in good), told)
        one = [*good, (good[-1][0], carried(good[-1][1], head))]
        told = {"Capture": (AMBER, f"1 frame of {what}", f"from packet {len(one)} on")}
        yield Judged(f"{name}, one of many", capture(one), told)
    kinds = [(good[-1][0], b"\xff" * 6 + bytes([2, 0, 0, 0, 0, 9, 0x77, it]) + bytes(46)) for it in range(18)]
    yield Judged("frames of more than sixteen protocols", capture([*good, *kinds]), {"Capture": (AMBER, "2 frames of other protocols", "not read")})
    yield Judged("frames of sixteen protocols", capture([*good, *kinds[:16]]), {})


def dropped():
    good, octets = packets(), capture(packets())
    told = {"Capture": (AMBER, "the recorder dropped 5 packets", "what is missing may be its own")}
    for name, options in (("card", option(5, (5).to_bytes(8, "little"))), ("system", option(7, (5).to_bytes(8, "little"))),
                          ("card and the system", option(5, (2).to_bytes(8, "little")) + option(7, (3).to_bytes(8, "little")))):
        yield Judged(f"packets that the {name} dropped", octets + block(5, fours("little", 0, 0, 7) + options), told)
    yield Judged("one packet that was dropped", octets + block(5, fours("little", 0, 0, 7) + option(5, (1).to_bytes(8, "little"))), {
        "Capture": (AMBER, "the recorder dropped 1 packet at")})
    yield Judged("statistics of which the last counts", octets + b"".join(
        block(5, fours("little", 0, 0, 7) + option(5, it.to_bytes(8, "little"))) for it in (3, 5)), told)
    yield Judged("statistics in which nothing was dropped", octets + statistics() + block(5, fours("little", 0, 0, 7) + option(5, bytes(8))), {})
    drops = [option(4, it.to_bytes(8, "little")) for it in (2, 3)]
    counted = section() + interface() + b"".join(packet(at, it, options=drops[place] if place < 2 else b"") for place, (at, it) in enumerate(good))
    yield Judged("packets that say how many were dropped before them", counted, told)
    turned = section("big") + interface("big") + b"".join(packet(at, it, "big") for at, it in good)
    turned += block(5, fours("big", 0, 0, 7) + twos("big", 5, 8) + (5).to_bytes(8, "big"), "big")
    yield Judged("statistics in the other order", turned, told)
    old = section() + interface() + b"".join(old_packet(at, it, drops=5 if place == 3 else 0) for place, (at, it) in enumerate(good))
    yield Judged("old packets that say how many were dropped", old, told)
    other = b"\xff" * 6 + bytes([2, 0, 0, 0, 0, 9, 8, 6]) + bytes(46)
    told = {"Capture": (AMBER, "the recorder cut 1 packet", f"from packet {len(good) + 1} on")}
    yield Judged("a packet that is cut", octets + packet(good[-1][0], other, original=90), told)
    cut = header() + b"".join(record(*divmod(at, SECOND), it) for at, it in good)
    end = good[-1][0]
    cut += b"".join(it.to_bytes(4, "little") for it in (*divmod(end, SECOND), len(other), 90)) + other
    yield Judged("a packet that is cut in a classic capture", cut, told)


# ---- Times -------------------------------------------------------------------


def leapt(held, by, since):
    """Packets whose times are later by so much from some time on."""
    return [(at + by if at >= since else at, it) for at, it in held]


def times():
    middle = START + 5 * SECOND + 800_000
    quiet = lambda it: not middle <= it.at < middle + 3 * SECOND
    shifted = capture(leapt(packets(), 20 * SECOND, middle))
    yield Judged("a capture whose clock leaps by 20 s", shifted, {
        "Capture": (AMBER, "the capture's clock leapt by 20", "none left out a sqNum"), "Losses": (AMBER,
            "4 silences where the capture's clock leapt"),
        "Clocks": (AMBER, "the capture's clock is off, or the station's"), "Events acted on": (RED, "expired")})
    sampled = list(stream(100, 12, a_frame=1))
    told = {"Losses": (AMBER, "5 silences where the capture's clock leapt"), "Capture": (AMBER, "leapt"), "Clocks": (AMBER,),
            "Events acted on": (RED,)}
    yield Judged("a clock that leaps in a capture with a stream", capture(leapt(in_order([*packets(), *sampled]), 20 * SECOND, middle)), told,
                 "--period", "100")
    sampled = [it for it in sampled if not middle - 300_000 <= it[0] < middle]
    told = {"Losses": (RED, "4 silences", "samples missing"), "Clocks": (RED, "20.001 s behind"), "Events acted on": (RED,)}
    yield Judged("all senders silent, and a part of a second of samples gone", capture(leapt(in_order([*packets(), *sampled]), 20 * SECOND, middle)),
                 told,
                 "--period", "100")
    yield Judged("all senders silent, each of which leaves out frames", capture(leapt(packets(quiet), 20 * SECOND, middle)), {
        "Losses": (RED, "4 silences", "missing"), "Events acted on": (RED,)})
    alone = packets(lambda it: it.device < 3 and setattr(it, "source", 0x55) is None)
    yield Judged("a device that pauses for 20 s, and with it both of its blocks", capture(leapt(alone, 20 * SECOND, middle)), {
        "Losses": (RED, "2 silences"), "Clocks": (RED, "20"), "Events acted on": (RED,)})
    one = [it if at != 20 else (it[0] + 2 * HOUR, it[1]) for at, it in enumerate(packets())]
    hides = lambda it: it.device != 2 or not START + 5 * SECOND <= it.at < START + 9 * SECOND
    ahead = in_order((it.at, it.octets()) for it in page_station.frames(hides))
    back = {"Capture": (RED, "times go back, at packet 22 by up to 1 h 59 min 59 s", "from that of packet 21"), "Losses": (AMBER,
        "silences after packet 21 cannot be seen"),
            "Events acted on": (RED,)}
    yield Judged("one packet two hours ahead", capture(one), back)
    one = [it if at != 20 else (it[0] + 2 * HOUR, it[1]) for at, it in enumerate(ahead)]
    yield Judged("a silence behind one packet two hours ahead", capture(one), {**back, "Losses": (RED, "cannot be seen")})
    one = [(at - 1_000_000 if place == 20 else at, it) for place, (at, it) in enumerate(packets())]
    one[20] = (one[19][0] - 1_000_000, one[20][1])
    yield Judged("a time that goes back by a second", capture(one), {
        "Capture": (RED, "times go back, at packet 21 by up to 1.000 s from that of packet 20"), "Losses": (AMBER, "cannot be seen")})
    # The frame that ends the silence stands a place later, so that its time goes back by a millisecond.
    late = next(place for place, (at, it) in enumerate(ahead) if at >= START + 9 * SECOND and it[11] == 2)
    swapped = [*ahead[:late], ahead[late + 1], ahead[late], *ahead[late + 2:]]
    yield Judged("a silence that ends where a time goes back by a millisecond", capture(swapped), {"Losses": (RED, "1 silence"),
        "Events acted on": (RED,)})
    back = [(at - 3 * HOUR if place >= 30 else at, it) for place, (at, it) in enumerate(packets())]
    yield Judged("times that go back by three hours for good", capture(back), {
        "Capture": (RED, "times go back, at packet 31"), "Losses": (AMBER,), "Clocks": (AMBER, "t of most devices is 2 h 59 min 59 s ahead", "from packet 31 on")})
    one[20] = (one[19][0] - 999_999, one[20][1])
    yield Judged("a time that goes back by less than a second", capture(one), {})


# ---- Clocks, sources, simulation ---------------------------------------------


def shifted(devices, seconds, **fields):
    return capture(packets(changed(of(*devices), t=lambda it: it.t + seconds * SECOND, **fields)))


def clocks():
    d2 = "02-00-00-00-01-02 (D2LD0/LLN0$GO$gcb1): t is"
    for seconds, words in ((37, "36.999 s ahead (as far as TAI is from UTC)"), (18, "17.999 s ahead (as far as GPS time is from UTC)"),
                           (3600, "ahead (quarters of an hour: a time zone)"), (5, "4.999 s ahead, packet"), (-12, "12.001 s behind, packet"),
                           (-3600, "behind (quarters of an hour: a time zone)")):
        yield Judged(f"a device whose t is off by {seconds} s", shifted([2], seconds), {"Clocks": (RED, d2, words)})
    yield Judged("a device whose t is off by less than is judged", shifted([2], -9), {})
    yield Judged("a device of which one frame is ahead", capture(packets(changed(lambda it: it.device == 2 and it.state == 6,
        t=lambda it: it.t + 37 * SECOND))),
                 {"Clocks": (RED, d2, "36.999 s ahead")})
    told = {"Clocks": (GREEN,), "Losses": (RED,), "Events acted on": (RED,)}
    again = changed(lambda it: it.device == 2 and later(8)(it), state=1, sequence=lambda it: (it.at - START) // SECOND - 8, t=START - HOUR)
    yield Judged("a device that restarts with an old state", capture(packets(again)), told)
    headless = packets(lambda it: not (it.device == 2 and it.state > 5) or (it.sequence > 0 and setattr(it, "t", it.t - 30 * SECOND) is None))
    yield Judged("old states whose first frames are lost", capture(headless), {"Clocks": (GREEN,), "Losses": (RED, "frames missing")})
    def skipping(it):
        """Device 2 leaves out a state, and the next one began long before."""
        if it.device == 2 and it.state > 5:
            it.state, it.t = it.state + 1, it.t - 30 * SECOND * (it.state == 6)

    yield Judged("an old state behind one that is missing", capture(packets(skipping)), {"Clocks": (GREEN,), "Losses": (RED, "1 state missing")})
    for name, quality in (("failed", FAILED), ("not synchronized", UNSYNCHRONIZED)):
        yield Judged(f"a clock that says it is {name}", shifted([2], 37, quality=quality), {"Clocks": (GREEN, "1 control block with a clock")})
    told = {"Simulation": (RED,), "Events acted on": (RED, "Simulated")}
    yield Judged("simulated frames whose t is ahead", shifted([2], 37, simulated=True), told)
    yield Judged("a station whose devices all are ahead", shifted([1, 2, 3, 4], 37), {"Clocks": (AMBER,
        "36.999 s ahead (as far as TAI is from UTC) alike",
                                                                                               "the capture's clock is off, or the station's")})
    yield Judged("a station of which three devices of four are ahead", shifted([1, 3, 4], 37), {
        "Clocks": (RED, d2, "37.000 s behind", "the capture's clock is off, or the station's")})
    yield Judged("two devices of four that are ahead", shifted([1, 2], 37), {"Clocks": (RED, d2, "36.999 s ahead", "D1LD0/LLN0$GO$gcb1")})
    yield from quiet()
    yield Judged("a device of very many states, one of which is ahead", many_states(1050), {"Clocks": (RED, "36.999 s ahead", "packet 1051")})
    behind = many_states(None) + packet(START + 11 * SECOND, Frame(START, 1, 1101, 0, START - 37 * SECOND).octets())
    yield Judged("a device of very many states, one of which is behind", behind, {"Clocks": (RED, "48.000 s behind", "packet 1101")})
    yield Offsets()
    yield Judged("two devices of four that are behind", shifted([1, 2], -20), {"Clocks": (RED, d2, "20.001 s behind", "D1LD0/LLN0$GO$gcb1")})


class Offsets:
    """How far clocks are apart, held by itself: what is off, by which frame, what most devices have in common, and which other time that is."""

    name = "how far clocks are off"
    # Offsets in seconds of devices with new states, the greatest of those with older ones alone, and what is common.
    commons = (((37, 37, 37, 0), (), 37), ((37, 37, 0, 0), (), 0), ((37, 37, 0), (), 37), ((37, 37), (), 0), ((37, 38, 0), (), 37.5),
               ((37, 38.1, 0), (), 0),
               ((0, 0, 0), (), 0), ((1, 1, 1), (), 0), ((1.1, 1.1, 1.1), (), 1.1), ((-10, -10, -10), (), 0), ((-11, -11, 5), (), -11),
               ((40,), (41, 30), 40), ((40,), (41.1, 41.1), 0), ((40,), (41, 41.1), 40), ((40,), (30,), 0), ((-20, -20), (5, 5), 0),
               ((40, 40), (50, 50), 0),
               ((40,), (1, -50, 2), 0), ((40, -30), (30, 1), 40))
    reasons = ((36, "TAI"), (38, "TAI"), (38.1, ""), (-37, "TAI"), (17, "GPS"), (19, "GPS"), (19.1, ""), (900, "quarters"), (901, "quarters"),
               (901.1, ""),
               (899, "quarters"), (450, ""), (-3600, "quarters"), (0.5, ""))

    def why_wrong(self, _):
        clocks = module("reporting.clocks")
        return [*self.why_off_wrong(clocks), *self.why_worst_wrong(clocks), *self.why_common_wrong(clocks), *self.why_stretch_wrong(clocks)]

    def why_off_wrong(self, clocks):
        for offset, wanted in ((SECOND, False), (SECOND + 1, True), (-10 * SECOND, False), (-10 * SECOND - 1, True)):
            if clocks.is_off(offset) != wanted:
                yield f"{offset} is off: {not wanted}"
            if (self.device(clocks, (offset, True)).worst(0) is not None) != wanted:
                yield f"a new state of {offset} is off: {not wanted}"
            if self.device(clocks, (offset, True)).agrees == wanted:
                yield f"a new state of {offset} agrees: {wanted}"
        yield from (f"{seconds} is {clocks.reason(round(seconds * SECOND))!r}" for seconds, wanted in self.reasons
                    if wanted not in clocks.reason(round(seconds * SECOND)) or bool(wanted) != bool(clocks.reason(round(seconds * SECOND))))

    def device(self, clocks, *moments):
        it = clocks.Device("020000000101")
        it.add("a block", [clocks.Moment(offset, at, is_new) for at, (offset, is_new) in enumerate(moments)])
        return it

    def why_worst_wrong(self, clocks):
        """An older state is off only where it is ahead; of those off the first that is about as far as the furthest is told."""
        for moments, common, wanted in ((((-20, False),), 0, None), (((2, False),), 0, 0), (((2, True), (9, True), (9.5, True)), 0, 1),
                                        (((2, True), (3, True)), 2, None),
                                        (((5, True), (-40, True)), 0, 1), (((5, True), (-40, False)), 0, 0), (((30, True), (-2, True)), 15, 1)):
            worst = self.device(clocks, *((offset * SECOND, is_new) for offset, is_new in moments)).worst(common * SECOND)
            if (worst and worst.where) != wanted:
                yield f"of {moments} beside {common} the worst is {worst and worst.where}"
        told = self.device(clocks, (9, True), (1, True), (5, True), (99, False))
        if (told.offset, told.most, told.is_older_alone) != (5, 99, False) or not self.device(clocks, (99, False)).is_older_alone:
            yield f"a device is off by {told.offset}, {told.most} at most"

    def why_stretch_wrong(self, clocks):
        """A part of a capture has the packets from its first one on, without that of the next part."""
        moments = [clocks.Moment(0, types.SimpleNamespace(packet=it), True) for it in (4, 5, 8, 9)]
        (device,) = clocks.Stretch([types.SimpleNamespace(source="020000000101", name="a block", moments=moments)], 5, 9).devices
        if device.moments != moments[1:3]:
            yield f"a part has the packets {[it.where.packet for it in device.moments]}"

    def why_common_wrong(self, clocks):
        for offsets, older, wanted in self.commons:
            devices = [self.device(clocks, (round(it * SECOND), True)) for it in offsets] + [self.device(clocks,
                                                                                                         (round(it * SECOND), False)) for it in older]
            if clocks.common_of(devices) != round(wanted * SECOND):
                yield f"{offsets} and {older} have {clocks.common_of(devices)} in common"


def many_states(ahead):
    """Very many new states of one device, one of which is ahead."""
    held = [Frame(START + at * 10_000, 1, at + 1, 0, START + at * 10_000 - 1000 + (37 * SECOND if at == ahead else 0)) for at in range(1100)]
    return capture((it.at, it.octets()) for it in held)


DAY = 24 * HOUR


def of_ages(*ages, events=()):
    """The station, in which of these devices alone new states came; the others are in the state that began so many hours before."""
    def change(it):
        if it.device not in events and (it.state > 5 and it.sequence == 0):
            return False
        if it.device not in events or it.state == 5:
            it.t = START - round(ages[it.device - 1] * HOUR)
        if it.device not in events:
            it.state, it.sequence = 5, 100 + (it.at - START) // SECOND
        return None
    return packets(change)


def captured(held, later):
    return capture((at + later, it) for at, it in held)


def quiet():
    """What a state that began before the capture tells of the clocks: nothing of how they are now, but that they differ where its t is ahead."""
    no_event = of_ages(1, 2, 3, 30)
    todo = "look at the clock of the computer that captured"
    nothing = {"Clocks": (AMBER, "no state began in packets 1 to 48, and older ones tell nothing of the clocks of 4 devices", todo)}
    yield Judged("a recorder a day ahead, and no event", captured(no_event, DAY), nothing)
    yield Judged("a recorder whose clock is right, and no event", captured(no_event, 0), nothing)
    older = "D1LD0/LLN0$GO$gcb1): t is 22 h 59 min 59 s ahead (quarters of an hour: a time zone) or more, packet 1;"
    behind = {"Clocks": (AMBER, "the capture's clock is behind, or these are ahead: ", older, "No state began while it was captured", todo)}
    yield Judged("a recorder a day behind, and no event", captured(no_event, -DAY), behind, lacks=["Found: Clocks"])
    yield Judged("a recorder a day behind, one device, and no event", captured([it for it in no_event if it[1][5] == 1], -DAY),
                 {"Clocks": (AMBER, older[:-1])})
    one = of_ages(1, 2, 3, 30, events=[1])
    alike = {"Clocks": (AMBER, "t of most devices is 23 h 59 min 59 s ahead (quarters of an hour: a time zone) alike: "
                        "the capture's clock is off, or the station's")}
    yield Judged("a recorder a day behind, and an event of one device of four", captured(one, -DAY), alike)
    yield Judged("a recorder whose clock is right, and an event of one device of four", captured(one, 0), {
        "Clocks": (GREEN, "t of 1 device agrees with the capture's clock in packets 1 to 50; 3 others sent no state that began in it")})
    ahead = of_ages(1, -30 / 3600, 3, 30, events=[1])
    yield Judged("an older state that is ahead, and an event of another device that is not", captured(ahead, 0), {
        "Clocks": (RED, "02-00-00-00-01-02 (D2LD0/LLN0$GO$gcb1): t is 29.998 s ahead, packet 2")})
    fresh = of_ages(5 / 3600, 2, 3, -30 / 3600)
    yield Judged("an older state that is ahead, and one that began just before", captured(fresh, 0),
                 {"Clocks": (RED, "t is 29.996 s ahead, packet 4")})
    further = captured(of_ages(1, -90 / 3600, 3, -30 / 3600, events=[1, 3]), -40 * SECOND)
    yield Judged("older states that are further ahead than new ones", further, {
        "Clocks": (RED, "t is 39.999 s ahead, packet 17", "the capture's clock is behind, or these are ahead: 02-00-00-00-01-02",
                   "t is 129.998 s ahead or more")})
    less = captured(of_ages(1, -90 / 3600, 3, 20 / 3600, events=[1, 3]), -40 * SECOND)
    yield Judged("older states of which one is no further ahead than new ones", less, {
        "Clocks": (RED, "clock: 02-00-00-00-01-02 (D2LD0/LLN0$GO$gcb1): t is 89.999 s ahead, packet 2", "t of most devices is 39.999 s ahead alike")})


def sources():
    turns = capture(packets(changed(lambda it: it.device == 3 and it.sequence % 2 == 0, source=0x99)))
    yield Judged("two sources in turns", turns, {"Source addresses": (RED, "D3LD0/LLN0$GO$gcb1", "02-00-00-00-01-03 from packet",
        "02-00-00-00-01-99 from packet")})
    taken = capture(packets(changed(lambda it: it.device == 3 and later(6)(it), source=0x99)))
    yield Judged("a source that takes over", taken, {"Source addresses": (AMBER, "took over for good", "02-00-00-00-01-99 from packet")})
    twin = in_order([*packets(), *packets(lambda it: it.device == 3 and setattr(it, "simulated", True) is None and setattr(it, "source",
        0x99) is None)])
    yield Judged("a simulated copy from a test set", capture(twin), {"Simulation": (RED, "D3LD0/LLN0$GO$gcb1", "still on at the end"),
        "Events acted on": (RED,)})
    streams = in_order([*stream(100, 1, a_frame=1), *stream(100, 1, a_frame=1, source=0x32)])
    yield Judged("a stream of two sources in turns", capture(streams), {"Source addresses": (RED, "MU1: 02-00-00-00-00-31 from packet 1 on")},
                 "--period", "100")


def simulation():
    some = changed(lambda it: it.device == 2 and START + 3 * SECOND < it.at < START + 5 * SECOND, simulated=True)
    yield Judged("simulated frames for a while", capture(packets(some)), {
        "Simulation": (RED, "D2LD0/LLN0$GO$gcb1: 3 frames from packet 14, 22:13:23.002000 UTC, to packet 22, 22:13:24.002000 UTC"),
        "Losses": (RED,), "Events acted on": (RED,)})
    needing = changed(lambda it: it.device == 2 and later(9)(it), commissioning=True)
    yield Judged("a block that needs commissioning", capture(packets(needing)), {"Simulation": (RED, "ndsCom is true: D2LD0", "still on at the end"),
                                                                                "Events acted on": (RED,)})
    early = changed(lambda it: it.device == 2 and not later(2)(it), commissioning=True)
    yield Judged("a block that needed commissioning", capture(packets(early)), {"Simulation": (RED, "ndsCom is true: D2LD0", "to packet"),
                                                                               "Events acted on": (RED,)})
    for later_by, until in ((0, "to packet 44"), (1, "still on at the end")):
        lives = changed(lambda it: it.device == 2 and it.at == START + 8 * SECOND + 2000, simulated=True, at=START + 8 * SECOND + 504_000 + later_by)
        yield Judged(f"a simulated frame whose lifetime is over {later_by} \u03bcs behind the last packet", capture(packets(lives)), {
            "Simulation": (RED, "1 frame from packet 44", until), "Losses": (RED,), "Events acted on": (RED,)})
    marked = capture((at, it[:18] + b"\x80" + it[19:] if it[11] == 2 else it) for at, it in packets())
    told = {"Simulation": (AMBER, "Reserved 1 says simulated, and the APDU does not: D2LD0/LLN0$GO$gcb1: 14 frames from packet 2 on")}
    yield Judged("frames that Reserved 1 alone calls simulated", marked, told)


def copied():
    """The frames of two paths, of which the second is slower than what a state's frames are apart."""
    good = packets()
    both = in_order([*good, *((at + 1_600_000, it) for at, it in good)])
    old = {"Losses": (AMBER, "copies"), "Events acted on": (AMBER, "old, first: packet", "copies, or overtaken by a later state")}
    yield Judged("copies that come late", capture(both), old)


def synchronised():
    def sampled(*values):
        """Three seconds of samples, each part of them with another smpSynch."""
        held = list(stream(100, 3, a_frame=1))
        size = len(held) // len(values)
        return capture((at, it.replace(b"\x85\x01\x02", bytes([0x85, 1, values[min(place // size, len(values) - 1)]]))) for place, (at,
            it) in enumerate(held))

    for name, octets, *told in (
            ("samples by a global clock", sampled(2), GREEN, "2 (global clock)"), ("samples by a local clock", sampled(1), GREEN, "1 (local clock)"),
            ("samples of another clock", sampled(2, 1), AMBER, "smpSynch changes: MU1: 2 from packet 1 on",
             "1 from packet 151 on (22:13:21.510000 UTC)"),
            ("samples of another clock for a while", sampled(1, 254, 1), AMBER, "254 from packet 101 on", "1 from packet 201 on"),
            ("samples that are not synchronised", sampled(0), AMBER, "smpSynch is 0", "from packet 1 on"),
            *((f"samples whose smpSynch is {it}", sampled(it), AMBER, "smpSynch is reserved", f"MU1: {it} from packet 1 on (22:13:20.010000 UTC)")
              for it in (3, 4, 255)),
            *((f"samples whose smpSynch is {it}", sampled(it), GREEN, f"{it} (local clock)") for it in (5, 254)),
            ("samples of a reserved clock for a while", sampled(2, 255, 2), AMBER, "smpSynch is reserved", "MU1: 255 from packet 101 on",
             "smpSynch changes"),
            ("samples that lose their clock after many changes", sampled(*[1, 2] * 30, 0), RED, "smpSynch goes to 0", "MU1: 0 from packet 241 on"),
            ("samples that are synchronised later", sampled(0, 2), AMBER, "smpSynch is 0", "2 from packet 151 on"),
            ("samples that lose a local clock", sampled(1, 0), RED, "smpSynch goes to 0", "MU1: 0 from packet 151 on"),
            ("samples that lose their clock", sampled(2, 0), RED, "smpSynch goes to 0", "MU1: 0 from packet 151 on (22:13:21.510000 UTC)")):
        yield Judged(name, octets, {"Synchronisation": told}, "--period", "100")
    one = [(at, it.replace(b"\x85\1\2", b"\x85\1\0", 1) if place == 3 else it) for place, (at, it) in enumerate(stream(4000, SHORT))]
    yield Judged("one sample of a frame that is not synchronised", capture(one), {"Synchronisation": (RED, "MU1: 0 from packet 4 on")})
    differing = in_order([*stream(100, 1, a_frame=1), *stream(100, 1, b"MU2", a_frame=1, smp_synch=element(0x85, b"\1"))])
    yield Judged("streams of two clocks", capture(differing), {"Synchronisation": (AMBER, "differs between streams",
        "1 (local clock); 2 (global clock)")},
                 "--period", "100")


# ---- Rates -------------------------------------------------------------------

# As many seconds of a stream show its rate.
SHORT = 0.45


def gone(held, since, until):
    """Samples without those of some time, in seconds."""
    return [it for it in held if not START + since * SECOND <= it[0] < START + until * SECOND]


def shown_rates():
    """A capture shows a rate to 2 in 100: just within it, and just beyond it either way."""
    for shown, is_like in ((3922, True), (4078, True), (3918, False), (4082, False)):
        octets = capture([(START + (at - START) * 4000 // shown, it) for at, it in stream(4000, SHORT)])
        about = f"the capture shows about {shown:,} samples a second"
        for asked, source, other in (((), "by what the capture shows", f"no rate is known, and {about}"),
                                     (("--period", "4000"), "by --period", f"{about}, and not 4,000 (by --period)")):
            told = (GREEN, f"MU1: 4,000 samples a second {source}") if is_like else (AMBER, other)
            yield Judged(f"a stream of {shown} samples a second by its times, {source}", octets, {"Samples": told}, *asked)


def rates():
    yield from shown_rates()
    good = capture(stream(4000, SHORT))
    lost = capture(gone(stream(4000, 1.45), 0.21, 1.21))
    yield Judged("a stream whose rate the capture shows", good, {"Samples": (GREEN, "MU1: 4,000 samples a second by what the capture shows")})
    yield Judged("a whole second of samples gone, and no rate given", lost, {"Losses": (RED, "4,000 samples missing")})
    yield Judged("another rate than is given", lost, {"Samples": (AMBER,
        "the capture shows about 4,000 samples a second, and not 4,800 (by --period)")},
                 "--period", "4800")
    yield Judged("the rate that is given", good, {"Samples": (GREEN, "4,000 samples a second by --period")}, "--period", "4000")
    slow = capture(stream(200, 1, a_frame=1))
    yield Judged("a stream of no usual rate", slow, {"Samples": (AMBER, "samples of 1 stream are not judged: MU1", "no rate is known",
        "give --period N")})
    yield Judged("a stream of no usual rate that is given", slow, {}, "--period", "200")
    two = capture(in_order([*gone(stream(4000, 0.5), 0.2, 0.25), *stream(4800, 0.45, b"MU2", source=0x32)]))
    both = [f"{name}: {rate} samples a second by what the capture shows" for name, rate in (("MU1", "4,000"), ("MU2", "4,800"))]
    yield Judged("two streams of two rates", two, {"Losses": (RED, "200 samples missing"), "Samples": (GREEN, *both)},
                 says=["losses --capture --json --skip-other --unwrap --period=MU2=4800 --period=MU1=4000 <"])
    yield Judged("two streams of two rates that are given", two, {"Losses": (RED, "200 samples missing"), "Samples": (GREEN,
        "MU2: 4,800 samples a second by --period")},
                 "--period", "MU2=4800", "--period", "4000")
    whole = in_order([*stream(4000, SHORT), *stream(4800, SHORT, b"MU2", source=0x32, count=4000)])
    yield Judged("two streams of two rates, of which nothing is missing", capture(whole), {"Losses": (GREEN,), "Samples": (GREEN, *both)})
    lacking = without(lambda it: it.device == 2 and it.sequence == 101)
    yield Judged("two streams of two rates beside a lost frame", capture(in_order([*whole, *lacking])), {"Losses": (RED, "1 frame missing (")})
    unknown = in_order([*gone(stream(4000, 0.5), 0.2, 0.25), *stream(200, 1, b"MU2", a_frame=1, source=0x32)])
    yield Judged("a stream of a rate beside one of none", capture(unknown), {"Losses": (RED, "200 samples missing"), "Samples": (AMBER, "MU2")},
                 says=["losses --capture --json --skip-other --unwrap --period=MU1=4000 <"])
    yield Judged("a rate that is given twice", two, {"Losses": (RED, "200 samples missing")}, "--period", "MU1=50", "--period", "MU1=4000")
    for rate, mode, words in ((80, None, "smpRate 80, a period at 50 Hz"), (80, "SmpPerPeriod", "smpRate 80, a period at 50 Hz"), (4000, "SmpPerSec",
        "smpRate 4000, a second")):
        yield Judged(f"the rate of an SCL file, {rate} of {mode}", capture(stream(4000, SHORT)), {"Samples": (GREEN,
            f"4,000 samples a second by of.scd: {words}")},
                     scd=configured_stream("MU1", rate, mode))
    other = {"Samples": (RED, "another rate than in of.scd: MU1", "the capture shows about 4,000 samples a second, and not 4,800")}
    yield Judged("another rate than in the SCL file", capture(stream(4000, SHORT)), other, scd=configured_stream("MU1", 4800, "SmpPerSec"))
    yield Judged("a rate of the SCL file that --frequency makes another", capture(stream(4000, SHORT)), other, "--frequency", "60",
                 scd=configured_stream("MU1", 80))
    yield Judged("a rate of the SCL file at 60 Hz", capture(stream(4800, SHORT)), {"Samples": (GREEN, "smpRate 80, a period at 60 Hz")},
                 scd=configured_stream("MU1", 80))
    yield Judged("seconds a sample", capture(stream(4000, SHORT)), {"Samples": (AMBER, "smpRate is seconds a sample")}, scd=configured_stream("MU1",
        2, "SecPerSmp"))
    yield Judged("96,000 samples a second", capture(stream(4000, 0.1)), {"Samples": (AMBER, "96,000 samples a second",
        "more than two octets can count")},
                 scd=configured_stream("MU1", 96000, "SmpPerSec"))
    short = capture(stream(4000, 0.2))
    yield Judged("a recording too short to show the frequency", short, {"Samples": (AMBER, "give --frequency 50 or 60")},
                 scd=configured_stream("MU1", 80))
    yield Judged("a frequency that is given", short, {"Samples": (GREEN, "a period at 60 Hz")}, "--frequency", "60", scd=configured_stream("MU1", 80))
    for rate, mode, words in ((80, 0, "smpRate 80, a period at 50 Hz"), (4000, 1, "smpRate 4000, a second")):
        fields = {"smp_rate": element(0x86, rate.to_bytes(2, "big")), "smp_mod": element(0x88, bytes([0, mode]))}
        yield Judged(f"the rate that frames tell, {mode}", capture(stream(4000, SHORT, **fields)), {"Samples": (GREEN, f"by its frames: {words}")})
    fields = {"smp_rate": element(0x86, (80).to_bytes(2, "big")), "smp_mod": b""}
    yield Judged("the rate that frames tell without smpMod", capture(stream(4000, SHORT, **fields)), {"Samples": (GREEN,
        "4,000 samples a second by its frames: smpRate 80")})


# ---- What a device receives --------------------------------------------------


def received():
    scd, clean = configured_blocks(range(1, 6)), configured_blocks(range(1, 5))
    good = capture(packets())
    asked = ("--ied", "SUB")
    yield Judged("a device that receives all", good, {"Received": (GREEN, "4 of 4 control blocks that SUB receives")}, *asked, scd=clean)
    refused = capture(packets(changed(of(1, 2, 3, 4), revision=7)))
    names = [f"SUB accepts no frame of D{it}LD0/LLN0$GO$gcb1: 14 frames refused (ConfRev)" for it in range(1, 5)]
    yield Judged("a device that accepts no frame", refused, {"Received": (RED, *names), "Configuration": (RED,), "Events acted on": (RED,)}, *asked,
                 scd=clean)
    never = {"Received": (AMBER, "no frame of D5LD0/LLN0$GO$gcb1 came", "capture for longer"), "Configuration": (RED,)}
    yield Judged("a block that did not come in a short recording", good, never, *asked, scd=scd)
    young = {**never, "Received": (AMBER, "no frame of D5LD0/LLN0$GO$gcb1 (MaxTime is 20,000 ms) came", "capture for longer")}
    yield Judged("a block that did not come in less than its MaxTime", good, young, *asked, scd=configured_blocks(range(1, 6), 20000))
    told = {"Received": (RED, "no frame of D5LD0/LLN0$GO$gcb1 came"), "Configuration": (RED,)}
    yield Judged("a block that did not come in its MaxTime", good, told, *asked, scd=configured_blocks(range(1, 6), 5000))
    # From the first packet to the last one it is 11.003 s; and just a minute, or a microsecond less.
    yield Judged("a block that did not come in just its MaxTime", good, told, *asked, scd=configured_blocks(range(1, 6), 11003))
    young = {**never, "Received": (AMBER, "no frame of D5LD0/LLN0$GO$gcb1 (MaxTime is 11,004 ms) came", "capture for longer")}
    yield Judged("a block that did not come in just less than its MaxTime", good, young, *asked, scd=configured_blocks(range(1, 6), 11004))
    for early, wanted in ((0, told), (1, never)):
        sent = [Frame(START + second * SECOND + 1000 * which - early * (second == 60), which, 5, 100 + second, START - HOUR)
                for second in range(61) for which in range(1, 5) if second < 60 or which == 1]
        yield Judged(f"a block that did not come in a minute less {early} \u03bcs", capture([(it.at, it.octets()) for it in sent]),
                     {**wanted, "Clocks": (AMBER, "no state began")}, *asked, scd=scd)
    more = "no frame of D5LD0/LLN0$GO$gcb1 (MaxTime is 20,000 ms); D6LD0/LLN0$GO$gcb1 (MaxTime is 20,000 ms); D7LD0/LLN0$GO$gcb1 (MaxTime is 20,000 ms); 3 more came"
    yield Judged("many blocks that did not come in less than their MaxTime", good, {**never, "Received": (AMBER, more)}, *asked,
                 scd=configured_blocks(range(1, 11), 20000))
    gone = "; ".join(f"D{it}LD0/LLN0$GO$gcb1" for it in range(5, 11))
    yield Judged("many blocks that did not come in their MaxTime", good, {**told, "Received": (RED, f"no frame of {gone} came")}, *asked,
                 scd=configured_blocks(range(1, 11), 5000))
    yield Judged("a capture without a packet, and a device", capture([]), {**never, "Capture": (AMBER, "no frame of GOOSE or Sampled Values")}, *asked,
                 scd=configured_blocks([5]))


def with_inputs(scd, more=(), **inputs):
    """The SCL file of blocks, in which no block names SUB: D1 sends more of them, each with its APPID or without one; SUB has these inputs, each of
    which is data, or a block by its name."""
    scd = scd.replace("<IEDName>SUB</IEDName>", "")
    own = '<FCDA ldInst="LD0" lnClass="GGIO" lnInst="{}" doName="Ind1" daName="stVal" fc="ST"/>'.format
    access, device = "".join(
        f'<GSE ldInst="LD0" cbName="{name}"><Address>' + (f'<P type="APPID">{appid}</P>' if appid else "") + "</Address></GSE>" for name, appid,
        _ in more), "".join(
        f'<DataSet name="of_{name}">{"".join(map(own, data))}</DataSet><GSEControl name="{name}" datSet="of_{name}" confRev="1"/>' for name, _,
        data in more)
    scd = scd.replace('<DataSet name="ds1"><FCDA/></DataSet>', f'<DataSet name="ds1">{own(1)}</DataSet>')
    scd = scd.replace('<ConnectedAP iedName="D1" apName="P1">', f'<ConnectedAP iedName="D1" apName="P1">{access}')
    scd = scd.replace('<IED name="D1"><AccessPoint name="P1"><Server><LDevice inst="LD0"><LN0 lnClass="LLN0" inst="">', 
                      f'<IED name="D1"><AccessPoint name="P1"><Server><LDevice inst="LD0"><LN0 lnClass="LLN0" inst="">{device}')
    refs = "".join(f'<ExtRef iedName="{ied}" ldInst="LD0" lnClass="GGIO" lnInst="{at}" doName="Ind1" daName="stVal"/>' for ied,
                   at in inputs.get("data", ()))
    refs += "".join(f'<ExtRef iedName="{ied}" ldInst="LD0" srcCBName="{name}"/>' for ied, name in inputs.get("blocks", ()))
    return scd.replace('<IED name="SUB"><AccessPoint name="P1"/></IED>',
                       '<IED name="SUB"><AccessPoint name="P1"><Server><LDevice inst="LD0"><LN0 lnClass="LLN0" '
                       f'inst=""><Inputs>{refs}</Inputs></LN0></LDevice></Server></AccessPoint></IED>')


def several():
    """An input without srcCBName is served by any block with its data."""
    scd, good, asked = configured_blocks(range(1, 5)), capture(packets()), ("--ied", "SUB", "--subscriptions")
    block = "D1LD0/LLN0$GO$".__add__
    missed = {"Configuration": (RED, "1 is missing")}
    second = with_inputs(scd, [("gcb2", "1009", [1])], data=[("D1", 1)])
    yield Judged("an input that one of two blocks serves", good, {
        **missed, "Received": (GREEN, "1 of 1 control block that SUB receives came and were accepted in packets 1 to 56; 1 more is not needed, "
                             "since others serve."), "Subscriptions": (GREEN,)}, *asked, scd=second, lacks=["gcb2 came"])
    refused = capture(packets(changed(of(1), revision=7)))
    told = (f"SUB accepts no frame of {block('gcb2')} or {block('gcb1')}, of which one has to serve: "
            f"{block('gcb2')}: no frame came; {block('gcb1')}: 14 frames refused (ConfRev)")
    yield Judged("an input that neither of two blocks serves", refused, {"Received": (RED, told, "0 of 2 control blocks"), "Configuration": (RED,),
                                                                         "Subscriptions": (RED,),
                 "Events acted on": (RED,)}, *asked, scd=second)
    gone = capture(without(of(1)))
    told = f"no frame of {block('gcb2')} or {block('gcb1')}, of which SUB receives one, came in packets 1 to 42"
    never = {"Configuration": (RED, "2 are missing"), "Subscriptions": (AMBER,)}
    yield Judged("an input of which neither block came", gone, {**never, "Received": (AMBER, f"{told}, 11.", "capture for longer")}, *asked,
                 scd=second)
    long = second.replace("</Address>", "</Address><MaxTime>5000</MaxTime>")
    one = long.replace("<MaxTime>5000</MaxTime>", "", 1)
    yield Judged("an input of which neither block came in its MaxTime", gone, {**never, "Received": (RED, f"{told}."), "Configuration": (RED,)},
                 *asked, scd=long)
    yield Judged("an input of which neither block came, one of which has no MaxTime", gone, {**never, "Received": (AMBER, told)}, *asked, scd=one)
    two = with_inputs(scd, [("gcb2", "1009", [1, 2]), ("gcb3", "100A", [2])], data=[("D1", 1), ("D1", 2)])
    told = f"no frame of {block('gcb2')} or {block('gcb3')}, of which SUB receives one, came"
    yield Judged("two inputs, of which one block serves one alone", good, {"Configuration": (RED, "2 are missing"),
                                                                           "Received": (AMBER, told, "1 of 3 control blocks"),
                 "Subscriptions": (AMBER, f"{block('gcb2')} (SUB); {block('gcb3')} (SUB)")}, *asked, scd=two)
    named = with_inputs(scd, [("gcb2", "1009", [1])], data=[("D1", 1)], blocks=[("D1", "gcb2")])
    yield Judged("an input that one block serves, and another that is named itself", good,
                 {**missed, "Received": (AMBER, f"no frame of {block('gcb2')} came", "1 of 2 control"),
                 "Subscriptions": (AMBER,)}, *asked, scd=named)
    spared = with_inputs(scd, [("gcb2", "1009", [1])], data=[("D1", 1)], blocks=[("D1", "gcb1")])
    yield Judged("an input beside a block that is named itself and did not come", gone, {**never,
                                                                                         "Received": (AMBER, f"no frame of {block('gcb1')} came",
                                                                                                      "0 of 1 control block",
                 "1 more is not needed")}, *asked, scd=spared, lacks=[f"no frame of {block('gcb2')} came"])
    own = with_inputs(scd, [("gcb2", "1009", [1])], data=[("D1", 1)]).replace('<IED name="SUB">',
                                                                              '<IED name="D1X">').replace("</LN0></LDevice></Server></AccessPoint></IED>",
                      '<Inputs><ExtRef iedName="D1" ldInst="LD0" lnClass="GGIO" lnInst="1" doName="Ind1"/></Inputs></LN0></LDevice></Server></AccessPoint></IED>', 1)
    yield Judged("a device with an input of its own", good, {**missed, "Received": (AMBER, f"no frame of {block('gcb2')} came",
                                                                                    "1 of 2 control blocks")}, "--ied", "D1", scd=own)
    bare = with_inputs(scd, [("gcb2", None, [1])], data=[("D1", 1)])
    yield Judged("an input that one of two blocks serves, of which the other has no APPID", good, {"Received": (GREEN, "1 of 1 control block"),
                 "Configuration": (AMBER, "cannot be compared")}, *asked, scd=bare, lacks=["cannot be judged"])


def received_streams():
    """A device that receives a stream and no control block."""
    inside = 'smpRate="80" nofASDU="8"'
    scd = configured_stream("MU1", 80).replace(f"{inside}/>", f"{inside}><IEDName>SUB</IEDName></SampledValueControl>")
    scd, asked = scd.replace("</SCL>", '<IED name="SUB"><AccessPoint name="P1"/></IED></SCL>'), ("--ied", "SUB", "--subscriptions")
    good = list(stream(4000, SHORT))
    served = {"Subscriptions": (GREEN, "1 of 1 subscription is served")}
    yield Judged("a device that receives a stream", capture(good), {"Received": (GREEN, "1 of 1 control block or stream that SUB receives"), **served}, *asked, scd=scd)
    never = {"Received": (AMBER, "no frame of MU1 (stream) came"), "Configuration": (RED,), "Subscriptions": (AMBER, "1 block or stream that is subscribed to")}
    yield Judged("a stream that did not come", capture(packets()), never, *asked, scd=scd)
    for name, held, reason, line in (("only simulated samples", ((at, it[:18] + b"\x80" + it[19:]) for at, it in good), "Simulated), first: packet 1", "Simulation"),
                                     ("samples of another confRev", stream(4000, SHORT, conf_rev=element(0x83, b"\0\0\0\7")), "confRev 7", "Configuration")):
        told = {"Received": (RED, "SUB accepts no frame of MU1 (stream): 225 refused (", reason), "Subscriptions": (RED, reason), line: (RED,)}
        yield Judged(f"a device that receives {name}", capture(held), told, *asked, scd=scd)


def unjudged():
    """What cannot be told of a block, or of a device, is not clean."""
    good, clean = packets(), configured_blocks(range(1, 5))
    told = {"Received": (AMBER, "of.scd has no control block that D1 receives")}
    yield Judged("a device that receives nothing", capture(good), told, "--ied", "D1", scd=clean)
    without_appid = configured_blocks(range(1, 6)).replace('<P type="APPID">1005</P>', "")
    block = "D5LD0/LLN0$GO$gcb1 (line 1"
    compared = {"Configuration": (AMBER, f"1 control block of of.scd cannot be compared: {block}): it has no GSE address with an APPID")}
    yield Judged("a block of the SCL file that has no APPID", capture(good), compared, scd=without_appid)
    told = {"Received": (AMBER, f"1 input of SUB cannot be judged: {block} of the SCL file): it has no GSE address with an APPID"), **compared}
    yield Judged("a block without APPID that a device receives", capture(good), told, "--ied", "SUB", scd=without_appid)
    comma = capture((at, it.replace(b"D2LD0/LLN0$GO$gcb1", b"D2LD0/LLN0$GO$gcb,")) for at, it in good)
    yield Judged("a block whose name has a comma", comma, {"Events acted on": (AMBER, "no event is told of D2LD0/LLN0$GO$gcb,: its texts")})


def cases():
    yield from recorded()
    yield from dropped()
    yield from times()
    yield from clocks()
    yield from sources()
    yield from simulation()
    yield from copied()
    yield from synchronised()
    yield from rates()
    yield from received()
    yield from several()
    yield from received_streams()
    yield from unjudged()
