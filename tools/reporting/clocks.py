"""The clocks of devices beside the capture's: t of their states, and when these came."""
import bisect
import re
import statistics

import output
import senders
from reporting import page
from reporting.places import place
from reporting.verdict import clean, found as finding, not_judged, some

STATE = re.compile(rb',"t":"([0-9a-f]{16})","tTime":(?:null|"[^"]*"),"tQuality":\{"leapSecondsKnown":\w+,"clockFailure":(\w+),'
                   rb'"clockNotSynchronized":(\w+),"timeAccuracy":\d+\},"stNum":(\d+),"sqNum":(\d+)')
SECOND = 10**6
# How far t may be after the capture's time of any frame, and how far before that of a new state's first frame.
AHEAD, BEHIND = SECOND, 10 * SECOND
# How many states of a sender are held; of the others only those further ahead or behind.
MOST = 1000
# At how many steps of the capture's clock the devices are looked at anew.
MOST_STEPS = 20
# How many devices tell whether they or the capture are off.
DEVICES = 3
# How far other times are from UTC, in seconds.
TAI, GPS, QUARTER = 37, 18, 15 * 60
COLUMNS = [page.Column("Device"), page.Column("Control blocks"), page.Column("t beside the capture", page.NUMBER), page.Column("Packet", page.NUMBER),
           page.Column("Time"), page.Column("How")]


class Moment:
    """How far t is after the capture's time, at which packet, and whether it is of a new state's first frame."""

    def __init__(self, offset, where, is_new):
        self.offset, self.where, self.is_new = offset, where, is_new


class Clock:
    """The clock of a control block, and the packet of its first frame: the frames whose t calls itself good, the first of each state."""

    def __init__(self, source, name, first):
        self.source, self.name, self.first, self.state, self.moments, self.unsynchronized = source, name, first, None, [], 0
        self.most, self.least = None, None

    def see(self, found, line, at):
        """The first frame of a state, or one that comes before it."""
        told = STATE.match(line, at)
        state = int(told[4])
        is_new, self.state = told[5] == b"0" and self.state is not None and state == self.state + 1, state
        if b"true" in told.group(2, 3):
            self.unsynchronized += 1
            return
        offset = output.change(told[1].decode()) - int(found[2])
        is_most, is_least = self.most is None or offset > self.most, is_new and (self.least is None or offset < self.least)
        if len(self.moments) < MOST or is_most or is_least:
            self.moments.append(Moment(offset, place(found), is_new))
        self.most, self.least = offset if is_most else self.most, offset if is_least else self.least


class Device:
    """The clock of a device over some packets: what its t says, by how much it is off, and by which frame."""

    def __init__(self, source):
        self.source, self.names, self.moments = source, {}, []

    def add(self, name, moments):
        self.names[name] = None
        self.moments += moments

    @property
    def offset(self):
        """How far its clock is from the capture's, where it told a new state; or None."""
        new = [it.offset for it in self.moments if it.is_new]
        return statistics.median_high(new) if new else None

    @property
    def most(self):
        return max(it.offset for it in self.moments)

    @property
    def is_older_alone(self):
        """Whether all its states may have begun before the capture: one whose t is ahead then says only how far the two clocks differ at least."""
        return self.offset is None

    @property
    def agrees(self):
        """Whether a state began when it came, by both clocks."""
        return any(not is_off(it.offset) for it in self.moments)

    def worst(self, common):
        """The frame by which it is furthest off, beside what is common to all, or None."""
        wrong = [it for it in self.moments if it.offset - common > AHEAD or (it.is_new and it.offset - common < -BEHIND)]
        if not wrong:
            return None
        furthest = max(abs(it.offset - common) for it in wrong)
        # The first of those that are as far off, but for what a frame is on its way.
        return next(it for it in wrong if abs(it.offset - common) > furthest - SECOND)

    def told(self):
        """The device by its address and blocks."""
        first, *more = self.names
        return f"{senders.hyphened(self.source)} ({first}{f' and {len(more)} more' if more else ''})"


def is_off(offset):
    return offset > AHEAD or offset < -BEHIND


def common_of(devices):
    """How far over half of the devices are off alike, or 0. Those whose older states alone are ahead, by no more, may be so too."""
    offsets = sorted(it.offset for it in devices if it.offset is not None)
    least = [it.most for it in devices if it.is_older_alone and it.most > AHEAD]
    many = (len(offsets) + len(least)) // 2 + 1
    if len(offsets) + len(least) < DEVICES:
        return 0
    for at, offset in enumerate(offsets):
        alike = offsets[at:bisect.bisect_right(offsets, offset + SECOND)]
        common = statistics.median(alike)
        if len(alike) + sum(it <= common + AHEAD for it in least if common > AHEAD) >= many:
            return round(common) if is_off(common) else 0
    return 0


def reason(offset):
    """Which other time a clock may have."""
    seconds = abs(offset) / SECOND
    for size, words in ((TAI, "as far as TAI is from UTC"), (GPS, "as far as GPS time is from UTC")):
        if abs(seconds - size) <= 1:
            return words
    is_zone = seconds > QUARTER / 2 and abs((seconds + QUARTER / 2) % QUARTER - QUARTER / 2) <= 1
    return "quarters of an hour: a time zone" if is_zone else ""


def told(offset):
    """How far t is off, to a millisecond, in words."""
    why = reason(offset)
    return f"{page.duration(round(abs(offset), -3))} {'ahead' if offset > 0 else 'behind'}{f' ({why})' if why else ''}"


class Stretch:
    """A part of a capture whose clock makes no step: the devices in it, and how they are beside it."""

    def __init__(self, clocks, first, last):
        devices = {}
        for it in clocks:
            own = [moment for moment in it.moments if first <= moment.where.packet < last]
            if own:
                devices.setdefault(it.source, Device(it.source)).add(it.name, own)
        self.first, self.devices = first, list(devices.values())
        self.common = common_of(self.devices)
        # Where no device agrees with the capture, a state that is older than the capture does not tell which of the two clocks is off.
        is_known = self.common or any(it.agrees for it in self.devices)
        off = [(it, worst) for it in self.devices for worst in [it.worst(self.common)] if worst]
        self.off = [(it, worst) for it, worst in off if is_known or not it.is_older_alone]
        self.unsure = [pair for pair in off if pair not in self.off]

    def rows(self, short):
        """A row for each device that is off."""
        for device, worst in self.off:
            beside = " beside the other devices" if self.common else ""
            yield page.row(COLUMNS, [page.element("span", senders.hyphened(device.source), class_="whole"), page.Raw("<br/>".join(map(page.text,
                device.names))),
                                     page.duration(round(worst.offset, -3)), worst.where.packet, page.when(worst.where, short),
                                     f"{told(worst.offset - self.common)}{beside}"], found=5)


def stretches(clocks, times):
    """The parts of a capture, each up to the next step of its clock: a leap, or times that go back."""
    steps = sorted({*(it.packet for it in times.leaps), *(it.first.packet for it in times.backs)})
    clocks, starts = list(clocks), [0, *steps[:MOST_STEPS]]
    return [Stretch(clocks, first, last) for first, last in zip(starts, [*starts[1:], float("inf")])]


def judge(found, _own):
    if found.untimed.number:
        yield not_judged(f"t is not held beside the capture's clock, since {found.untimed.told(found.packets)}.", "capture with times")
        return
    parts = found.clocks
    off = [f"{device.told()}: t is {told(worst.offset - part.common)}, packet\u00a0{worst.where.packet}" for part in parts for device,
           worst in part.off]
    common = [f"t of most devices is {told(part.common)} alike{f' from packet {part.first} on' if part.first else ''}"
              for part in parts if part.common]
    unsure = [f"{device.told()}: t is {told(worst.offset)} or more, packet\u00a0{worst.where.packet}" for part in parts
              for device, worst in part.unsure]
    todo = "look at the clock of the computer that captured"
    if off:
        yield finding(f"clock: {some(off)}.")
    if common:
        yield not_judged(f"{some(common)}: the capture's clock is off, or the station's; each device is held beside the others.", todo)
    if unsure:
        yield not_judged(f"the capture's clock is behind, or these are ahead: {some(unsure)}. No state began while it was captured by which "
                         "one of them could be judged.", todo)
    if not off and not common and not unsure:
        yield from agreeing(found, todo)


def agreeing(found, todo):
    """What of the clocks is known where none is off."""
    told = found.station.clocks.values()
    unsynchronized = sum(it.unsynchronized > 0 for it in told)
    beside = f"; {page.count(unsynchronized, 'control block')} with a clock that says it is not synchronized" if unsynchronized else ""
    devices = {it.source for it in told if it.moments}
    agree = {device.source for part in found.clocks for device in part.devices if device.agrees}
    if devices and not agree:
        yield not_judged(f"no state began in {found.all_packets}, and older ones tell nothing of the clocks of {page.count(len(devices), 'device')}"
                         f"{beside}.", todo)
        return
    older = f"; {page.count(len(devices - agree), 'other')} sent no state that began in it" if devices - agree else ""
    yield clean(f"t of {page.count(len(agree), 'device')} agrees with the capture's clock in {found.all_packets}{older}{beside}.")
