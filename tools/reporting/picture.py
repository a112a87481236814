"""Pictures on a time axis as SVG: lanes of control blocks and streams one above another, and a second picture of each burst of events."""
import bisect
import collections
import itertools
import math

from output import date
from reporting import page
from time_axis import places_of, step_of

WIDTH, SIDE, TOP, LANE, BAR, TRACK, UNDER = 1000, 24, 34, 46, 14, 28, 15
PLACES = range(WIDTH)
# The most octets of pictures, and the most marks and bars of one lane.
MOST_OCTETS, MOST_DRAWN = 250_000, 150
# How each entry is drawn around (0, 0), in the order of the legend, and what it is.
MARKS = {
    "act": ('<circle class="act" {at} r="5"/>', "act: the device takes a new state; its stNum below"),
    "refreshed": ('<path class="refreshed" {at} d="M0-7V7"/>', "refreshed: a retransmission"),
    "repeated": ('<circle class="repeated" {at} r="3.5"/>', "repeated"),
    "old": ('<path class="old" {at} d="M-4.5-4h9l-4.5 8z"/>', "old"),
    "refused": ('<path class="refused" {at} d="M-4-4L4 4M4-4L-4 4"/>', "refused"),
    "switched": ('<path class="switched" {at} d="M0-7L7 0L0 7L-7 0z"/>', "switched between real and simulated frames"),
    "expired": ('<path class="expired" {at} d="M0-11V11"/>', "expired: valid data ends"),
    "lost": ('<path class="lost" {at} d="M-5-9h10L0 0z"/>', "frames, states or samples missing before this"),
    "late": ('<path class="late" {at} d="M-4.5-8h9L0 0z"/>', "late, restarted or out of range"),
}
# Which are drawn over which: the ones that matter most come last.
ORDER = ("act", "switched", "expired", "repeated", "old", "refused", "late", "lost")
ABOVE = ("repeated", "old", "refused", "lost", "late")
BARS = {"valid": "valid data is held", "flow": "samples come", "silent": "silence"}
# The findings that are marks of their own.
FINDINGS = {"states-missing": "lost", "frames-missing": "lost", "samples-missing": "lost", "late": "late", "restarted": "late",
            "sample-late": "late", "count-out-of-range": "late"}
# A burst begins so long before its first event and goes on so long after its last one; a longer one is cut, in microseconds.
BEFORE, AFTER, LONGEST = 20_000, 250_000, 1_000_000
# The most letters of a lane's name.
LONGEST_NAME = 100
# The most pictures of bursts, marks in one of them, and lanes of one picture.
MOST_BURSTS, MOST_MARKS, MOST_LANES, MOST_CLOSE = 4, 5000, 24, 24


class Axis:
    """A span of time, and where a moment of it is."""

    def __init__(self, first, last):
        self.first, self.span = first, max(last - first, 1)

    def x(self, moment):
        since = moment - self.first
        return SIDE + (0 if since < 0 else since if since < self.span else self.span) * (WIDTH - 2 * SIDE) // self.span


    def until(self, x):
        """The first moment that is behind a place."""
        return self.first + -((SIDE - 1 - x) * self.span // (WIDTH - 2 * SIDE))


class Lane:
    """What is drawn of one sender over the whole capture: of marks and bars that cover one another one is kept. Of each kind of marks an octet
    a place tells whether one is there, and a bar is one number."""

    __slots__ = ("key", "name", "axis", "drawn", "labels", "wide", "since")

    def __init__(self, key, name, axis):
        self.key, self.name, self.axis, self.drawn, self.labels, self.wide, self.since = key, name, axis, {}, {}, {}, None

    def mark(self, kind, moment, label):
        """A mark, whose place is answered."""
        x = self.axis.x(moment)
        drawn = self.drawn.get(kind)
        if drawn is None:
            drawn = self.drawn[kind] = bytearray(WIDTH)
        if not drawn[x]:
            drawn[x] = 1
            if label:
                self.labels[x] = label
        if self.since is None:
            if kind in ("act", "refreshed"):
                self.since = moment
        elif kind in ("expired", "switched"):
            self.bar("valid", self.since, moment)
            self.since = None
        return x

    def bar(self, kind, since, until):
        x = self.axis.x(since)
        self.wide.setdefault(kind, {})[x * WIDTH + max(self.axis.x(until) - x, 1)] = None

    @property
    def marks(self):
        """The marks by their kind and place, each with its label, which states that are acted on have alone."""
        return {(kind, x): self.labels.get(x, "") if kind == "act" else "" for kind, drawn in self.drawn.items() for x in itertools.compress(PLACES, drawn)}

    @property
    def bars(self):
        """The bars: their kind, place and width."""
        return [(kind, *divmod(it, WIDTH)) for kind, held in self.wide.items() for it in held]

    def end(self, moment):
        if self.since is not None:
            self.bar("valid", self.since, moment)
            self.since = None


class Burst:
    """Events that follow one another closely, and all marks around them."""

    def __init__(self, moment, packet, recent, held):
        self.first, self.last, self.packets, self.until, self.bars = moment, moment, [packet, packet], moment + AFTER, []
        self.marks, self.held = [it for it in recent if it[2] >= moment - BEFORE], held

    def add(self, moment, packet):
        """One more event, unless that would make the burst too long."""
        if moment - self.first > LONGEST:
            return False
        self.last, self.packets[1], self.until = moment, packet, moment + AFTER
        return True


class Picture:
    """The lanes of a capture, and its bursts."""

    def __init__(self, span):
        self.axis, self.lanes, self.now = Axis(*span), {}, span[0]
        self.bursts, self.more, self.beyond, self.burst, self.recent = [], 0, None, None, collections.deque(maxlen=MOST_MARKS)

    def lane(self, key, name):
        if key not in self.lanes:
            self.lanes[key] = Lane(key, name, self.axis)
        return self.lanes[key]

    def mark(self, key, kind, moment, state, packet, is_first=False):
        """An entry of a control block. Times that go back count as the greatest so far. The first state of a block begins no burst. Answered is up to
        when entries of this kind have its place."""
        if moment > self.now:
            self.now = moment
        now, lane, label = self.now, self.lanes.get(key) or self.lane(key, key[1]), "" if state is None else str(state)
        if self.burst and now > self.burst.until:
            self.burst = None
        if kind == "act" and not is_first and not (self.burst and self.burst.add(now, packet)):
            self.begin(packet)
        x = lane.mark(kind, now, label)
        if self.recent is not None:
            self.recent.append((lane, kind, now, label))
        if self.burst and len(self.burst.marks) < MOST_MARKS:
            self.burst.marks.append((lane, kind, now, label))
        return self.axis.until(x)

    def free(self, moment):
        """Up to when an entry that is no event, at a place that is marked, changes nothing, if the next other entry comes at a moment."""
        return 0 if self.burst else math.inf if self.recent is None else moment - BEFORE

    def is_marked(self, key, moment):
        """Whether an entry that is no event, at a moment before the last answer of `mark` for its kind, changes nothing."""
        if self.recent is not None or self.burst or self.lanes[key].since is None or moment < self.now:
            return False
        self.now = moment
        return True

    def begin(self, packet):
        """A new burst, which begins with an event."""
        if len(self.bursts) >= MOST_BURSTS:
            self.more, self.beyond, self.burst = self.more + 1, self.beyond or packet, None
            return
        held = {it.key for it in self.lanes.values() if it.since is not None}
        self.burst = Burst(self.now, packet, self.recent, held)
        self.bursts.append(self.burst)
        # Marks before a burst are those that are drawn around it: no further one is.
        if len(self.bursts) >= MOST_BURSTS:
            self.recent = None

    def flow(self, key, name, first, last):
        """A stream, from its first sample to its last."""
        self.lane(key, name).bar("flow", first, last)

    def finding(self, record, where):
        """A finding of goose losses. What simulated frames lack is nothing that the lane of a block's own frames shows."""
        if record.get("simulation"):
            return
        if "svID" in record:
            lane = self.lanes.get((record["appid"], record["source"], record["svID"]))
        else:
            lane = self.lanes.get((record["appid"], record["gocbRef"]))
        if lane is None:
            return
        kind, moment = record["kind"], where.microseconds
        if kind in ("silent", "end-silent"):
            lane.bar("silent", record["since"], record["since"] + record["for"])
            for burst in self.bursts_of(record["since"], record["since"] + record["for"]):
                burst.bars.append((lane, "silent", record["since"], record["since"] + record["for"]))
        elif kind in FINDINGS:
            lane.mark(FINDINGS[kind], moment, "")
            for burst in self.bursts_of(moment, moment):
                burst.marks.append((lane, FINDINGS[kind], moment, ""))

    def bursts_of(self, since, until):
        """The bursts that a time meets."""
        firsts = [it.first - BEFORE for it in self.bursts]
        return [it for it in self.bursts[:bisect.bisect_right(firsts, until)] if it.until >= since]

    def sort(self, order):
        """Puts the lanes in order: control blocks by device and name, then streams."""
        self.lanes = dict(sorted(self.lanes.items(), key=lambda it: (len(it[0]), *order(it[0][-1], *it[0]))))

    def end(self):
        """The end of the capture: what has not expired by then is still valid."""
        for lane in self.lanes.values():
            lane.end(self.axis.first + self.axis.span)


class Limited:
    """Figures as long as there is room for them. The others are counted. One at least is drawn."""

    def __init__(self, is_all, most=MOST_OCTETS):
        self.is_all, self.most, self.octets, self.more = is_all, most, 0, 0

    def some(self, figures):
        for it in figures:
            if self.octets == 0 or self.is_all or (not self.more and self.octets + len(it) <= self.most):
                self.octets += len(it)
                yield it
            else:
                self.more += 1

    def left_out(self):
        """A sentence on those that are not drawn, which is known behind them."""
        if self.more:
            yield page.Raw(page.element("p", f"{page.count(self.more, 'more picture')} not drawn: --all draws all.", class_="soft") + "\n")


# ---- Drawing -----------------------------------------------------------------


def text(x, y, words, **how):
    return page.element("text", words, x=x, y=y, **how)


def drawn_mark(kind, x, y):
    return MARKS[kind][0].format(at=f'transform="translate({x} {y - 12 if kind in ABOVE else y})"')


def scale(axis, height, zero, unit, places):
    """The axis with its steps, counted from a moment in a unit of so many microseconds."""
    step = step_of(axis.span)
    first = -((zero - axis.first) // step) * step
    for since in range(first, axis.first + axis.span - zero + 1, step):
        x = axis.x(zero + since)
        yield f'<path class="grid" d="M{x} {TOP - 8}V{height}"/>'
        yield text(x, TOP - 14, f"{since / unit:.{places}f}", class_="scale", text_anchor="middle")


def labels(marks, y):
    """The stNums of events, where there is room."""
    free = 0
    for (kind, x), label in sorted(marks.items(), key=lambda it: it[0][1]):
        half = 4 * len(label) + 2
        if label and x - half >= free:
            yield text(x, y + UNDER, label, class_="act", text_anchor="middle")
            free = x + half


def thinned(marks):
    """The marks of a lane, of which those close to another of their kind are left out where there are very many. Retransmissions are one
    path, and stay."""
    step, held, rest = 1, {key: label for key, label in marks.items() if key[0] != "refreshed"}, {}
    while len(held) > MOST_DRAWN:
        step, rest = step * 2, {}
        for (kind, x), label in sorted(held.items(), key=lambda it: it[0][1]):
            rest.setdefault((kind, x // step), ((kind, x), label))
        held = dict(rest.values())
    return {**held, **{key: label for key, label in marks.items() if key[0] == "refreshed"}}


def joined(bars):
    """The bars of a lane: where there are very many, those close to the next of their kind are one with it."""
    gap, held = 1, list(bars)
    while len(held) > MOST_DRAWN:
        gap, before, held = gap * 2, held, []
        for kind, x, wide in sorted(before):
            if held and held[-1][0] == kind and x - held[-1][1] - held[-1][2] <= gap:
                held[-1] = (kind, held[-1][1], max(held[-1][2], x + wide - held[-1][1]))
            else:
                held.append((kind, x, wide))
    return held


def lane_of(lane, top):
    """One lane: its name, bars, and marks over them."""
    y, name = top + TRACK, lane.name
    yield text(SIDE, top + 11, name if len(name) <= LONGEST_NAME else f"{name[:LONGEST_NAME]} ..", class_="lane")
    marks, bars = thinned(lane.marks), joined(lane.bars)
    for kind, x, wide in sorted(bars, key=lambda it: list(BARS).index(it[0])):
        yield f'<rect class="{kind}" x="{x}" y="{y - BAR // 2}" width="{wide}" height="{BAR}"/>'
    # Retransmissions are many: they are one path, and lie under the other marks.
    ticks = "".join(f"M{x} {y - 7}v14" for kind, x in sorted(marks) if kind == "refreshed")
    yield f'<path class="refreshed" d="{ticks}"/>' if ticks else ""
    for kind, x in sorted((it for it in marks if it[0] != "refreshed"), key=lambda it: (ORDER.index(it[0]), it[1])):
        yield drawn_mark(kind, x, y)
    yield from labels(marks, y)


def svg(title, axis, lanes, zero, unit):
    """A picture of lanes: names, marks and bars."""
    height = TOP + LANE * len(lanes) + 6
    inside = [page.element("title", title), *map(page.Raw, scale(axis, height, zero, unit, places_of(step_of(axis.span), unit)))]
    for at, lane in enumerate(lanes):
        inside += map(page.Raw, lane_of(lane, TOP + LANE * at))
    return page.element("svg", inside, viewBox=f"0 0 {WIDTH} {height}", width=WIDTH, height=height, role="img", aria_label=title)


def figure(caption, title, *drawn):
    """A picture under its caption; where there is no room for it, it can be moved sideways."""
    moved = page.element("div", svg(title, *drawn), class_="scroll", tabindex="0", role="group", aria_label=title)
    return page.Raw(page.element("figure", [page.element("figcaption", caption), moved]) + "\n")


def parted(lanes, most):
    """Lanes in parts of so many that each fits a page."""
    return [lanes[at:at + most] for at in range(0, len(lanes), most)]


def overviews(picture, zero):
    """The lanes over the whole capture."""
    lanes = list(picture.lanes.values())
    for number, some in enumerate(parted(lanes, MOST_LANES)):
        at = number * MOST_LANES
        of = f", {at + 1} to {at + len(some)} of {len(lanes)}" if len(lanes) > MOST_LANES else ""
        title = f"Control blocks and streams over the whole capture{of}"
        yield figure(f"{title}. Seconds from {zero.time or zero.microseconds} (packet\u00a0{zero.packet}).", title, picture.axis, some,
                     zero.microseconds, 1_000_000)


def lanes_of(burst, axis, places):
    """The lanes of a burst in the order of all lanes: those that have marks in it. Data that was valid before it is so until the first mark that says otherwise."""
    lanes = {}
    for lane, kind, moment, label in sorted(burst.marks, key=lambda it: it[2]):
        if lane.key not in lanes:
            lanes[lane.key] = Lane(lane.key, lane.name, axis)
            lanes[lane.key].since = axis.first if lane.key in burst.held or kind in ("expired", "switched") else None
        lanes[lane.key].mark(kind, moment, label)
    for lane, kind, since, until in burst.bars:
        if lane.key in lanes:
            lanes[lane.key].bar(kind, since, until)
    for lane in lanes.values():
        lane.end(axis.first + axis.span)
    return sorted(lanes.values(), key=lambda it: places[it.key])


def zooms(picture, short):
    """A picture of each burst."""
    places = {key: at for at, key in enumerate(picture.lanes)}
    for number, burst in enumerate(picture.bursts, 1):
        axis = Axis(burst.first - BEFORE, min(burst.until, picture.axis.first + picture.axis.span))
        at, what = page.packets(*burst.packets), "Event" if burst.packets[0] == burst.packets[1] else "Events"
        told = page.element("span", [f"{what} at {at}. Milliseconds from ", page.moment(date(burst.first), short), f" (packet\u00a0{burst.packets[0]})."])
        for some in parted(lanes_of(burst, axis, places), MOST_CLOSE):
            yield figure(told, f"Burst {number}, {at}", axis, some, burst.first, 1000)


def legend(kinds, bars):
    """What the marks mean that are there."""
    icon = lambda inside: page.Raw(f'<svg viewBox="-12 -12 24 24" aria-hidden="true">{inside}</svg>')
    told = [page.element("li", [icon(MARKS[kind][0].format(at="")), MARKS[kind][1]]) for kind in MARKS if kind in kinds]
    told += [page.element("li", [icon(f'<rect class="{kind}" x="-12" y="-7" width="24" height="14"/>'), BARS[kind]]) for kind in BARS if kind in bars]
    return page.Raw(page.element("ul", told, class_="legend") + "\n")
