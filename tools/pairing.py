"""The frames of two taps side by side: which of them are the same, and how much later the second tap has each.

Frames are the same where source, kind, APPID and key are: gocbRef, simulation, stNum and sqNum, or svID and smpCnt of a frame's
first ASDU with this svID. Of several with one key those that are nearest in time are, each once.
"""
import array
import bisect
import functools
import heapq
import itertools
import operator

from tapped import Frames

SECOND = 10**6
# How far apart the times of one frame can be, after the clocks' difference: a count of samples comes round each second, and a control
# block takes longer to begin again.
REACH = {"goose": 10 * SECOND, "sv": SECOND // 2 - 1}
# Over how many frames the clocks' difference is taken, so that single ones count for nothing.
WINDOW = 9
# How many packets are named, and of how many frames the same ones are looked for at once.
MOST_NAMED, TOGETHER = 10, 4096
# Over how much of a comparison at its beginning and end the least delay tells whether clocks drift: a part in so many, with so many frames; and
# from how many microseconds on it is told.
PART, FEWEST, DRIFT = 10, 5, 100


# ---- The clocks --------------------------------------------------------------


class Difference:
    """How much later than one clock another one is, as frames tell that are there once on both sides: the median of some, by time."""

    def __init__(self, times, offsets):
        order = sorted(range(len(times)), key=times.__getitem__)
        self.times, self.told = (array.array("q", map(held.__getitem__, order)) for held in (times, offsets))
        # Between these is each difference.
        self.least, self.greatest = min(offsets, default=0), max(offsets, default=0)

    def __bool__(self):
        return bool(self.times)

    @functools.cached_property
    def ends(self):
        """Up to where each frame is the nearest one: up to the half of the way to the next, that included."""
        return array.array("q", (it // 2 for it in map(operator.add, self.times, itertools.islice(self.times, 1, None))))

    @functools.cached_property
    def offsets(self):
        """The difference by each frame."""
        return array.array("q", medians(self.told))

    def at(self, moment):
        """The difference by the frame nearest to a time."""
        if not self.times:
            return 0
        at = bisect.bisect_left(self.ends, moment)
        around = sorted(self.told[max(0, at - WINDOW // 2):at + WINDOW // 2 + 1])
        return around[len(around) // 2]

    def moved(self, times):
        """Times by the other clock."""
        if not self.times:
            return times
        nearest = map(bisect.bisect_left, itertools.repeat(self.ends), times)
        return array.array("q", map(operator.add, times, map(self.offsets.__getitem__, nearest)))

    @functools.cached_property
    def turned(self):
        """How much later the one clock is than the other."""
        return Difference(self.moved(self.times), array.array("q", map(operator.neg, self.offsets)))


def medians(values):
    """The median of each value and the nearest ones around it, of two the greater."""
    half, held = WINDOW // 2, sorted(values[:WINDOW // 2])
    for at in range(len(values)):
        if at + half < len(values):
            bisect.insort(held, values[at + half])
        if at > half:
            del held[bisect.bisect_left(held, values[at - half - 1])]
        yield held[len(held) // 2]


SAME = Difference((), ())


def difference(senders):
    """How much later the clock of one side is than that of the other, as control blocks tell."""
    times, offsets = array.array("q"), array.array("q")
    for it in senders:
        if it.kind == "goose":
            sent = array.array("q", map(it.a.times.__getitem__, it.single[0]))
            times += sent
            offsets.extend(map(operator.sub, map(it.b.times.__getitem__, it.single[1]), sent))
    return Difference(times, offsets)


# ---- The same frames ---------------------------------------------------------


def is_ascending(values):
    """Whether no value is less than the one before."""
    return all(map(operator.le, values, itertools.islice(values, 1, None)))


class ByKey:
    """The frames of a sender ordered by key: their numbers, and their keys; those alone whose key no other one has; and the other keys."""

    def __init__(self, frames):
        keys, self.times = frames.keys, frames.times
        self.numbers, self.keys = range(len(keys)), keys
        if not is_ascending(keys):
            self.numbers = array.array("I", sorted(self.numbers, key=keys.__getitem__))
            self.keys = array.array("Q", map(keys.__getitem__, self.numbers))
        begins = bytes(itertools.chain(b"\1", map(operator.ne, self.keys, itertools.islice(self.keys, 1, None))))
        is_one = bytes(map(operator.and_, begins, itertools.chain(begins[1:], b"\1")))
        self.single, self.single_keys, self.several = self.numbers, self.keys, ()
        if 0 in is_one:
            self.single, self.single_keys = (array.array(it, itertools.compress(held, is_one)) for it, held in (("I", self.numbers), ("Q", self.keys)))
            self.several = array.array("Q", itertools.compress(self.keys, map(operator.gt, begins, is_one)))

    def of(self, key):
        """The frames of a key, ordered by time."""
        begin = bisect.bisect_left(self.keys, key)
        found = self.numbers[begin:bisect.bisect_right(self.keys, key, begin)]
        return sorted(found, key=self.times.__getitem__) if len(found) > 1 else found


def single(a, b):
    """The frames whose key each side has once, on the one and the other side, in the order of their keys."""
    one, other = array.array("I"), array.array("I")
    for begin in range(0, len(a.single_keys), TOGETHER):
        keys = a.single_keys[begin:begin + TOGETHER]
        part = slice(bisect.bisect_left(b.single_keys, keys[0]), bisect.bisect_right(b.single_keys, keys[-1]))
        its = dict(zip(b.single_keys[part], b.single[part]))
        is_both = list(map(its.__contains__, keys))
        one.extend(itertools.compress(a.single[begin:begin + TOGETHER], is_both))
        other.extend(map(its.__getitem__, itertools.compress(keys, is_both)))
    return one, other


def several(a, b):
    """The frames of each other key that both sides have, ordered by time."""
    for key in a.several:
        other = b.of(key)
        if other:
            yield a.of(key), other
    for key in b.several:
        one = a.of(key)
        if len(one) == 1:
            yield one, b.of(key)


def nearest(ours, theirs, reach):
    """Which times of two ordered lists belong together, each used once: the nearest ones first. Those that are used go together in order,
    which brings none further apart than the furthest were."""
    if len(ours) == len(theirs) and are_near(ours, theirs, reach):
        return enumerate(range(len(ours)))
    places = sorted([(time, 0, at) for at, time in enumerate(ours)] + [(time, 1, at) for at, time in enumerate(theirs)])
    before, after = list(range(-1, len(places) - 1)), [*range(1, len(places)), -1]
    heap, used = [], [[], []]

    def consider(left, right):
        if left >= 0 <= right and places[left][1] != places[right][1] and places[right][0] - places[left][0] <= reach:
            heapq.heappush(heap, (places[right][0] - places[left][0], left, right))

    for at in range(len(places) - 1):
        consider(at, at + 1)
    is_used = bytearray(len(places))
    while heap:
        _, left, right = heapq.heappop(heap)
        if is_used[left] or is_used[right]:
            continue
        is_used[left] = is_used[right] = True
        for at in (left, right):
            used[places[at][1]].append(places[at][2])
        if before[left] >= 0:
            after[before[left]] = after[right]
        if after[right] >= 0:
            before[after[right]] = before[left]
        consider(before[left], after[right])
    return zip(sorted(used[0]), sorted(used[1]))


def are_near(ours, theirs, reach):
    """Whether each time is nearer to the one in its place than half of the way to any other."""
    apart = [abs(one - other) for one, other in zip(ours, theirs)]
    gaps = [later - earlier for times in (ours, theirs) for earlier, later in zip(times, times[1:])]
    furthest = max(apart)
    return furthest <= reach and 2 * furthest < min(gaps, default=2 * furthest + 1)


# ---- What comes of it --------------------------------------------------------


class Delay:
    """How much later the other side has a frame, and its packet on both."""

    def __init__(self, microseconds, packet, other):
        self.microseconds, self.packets = microseconds, (packet, other)


class Delays:
    """The delays of frames: the least, the median, that of 99 in 100, and the greatest."""

    NAMES = ("least", "median", "percentile99", "greatest")

    def __init__(self, delays, packets_of):
        order, last = sorted(range(len(delays)), key=delays.__getitem__), len(delays) - 1
        # The median is the lower one of two; that of 99 in 100 is the least that as many have at most.
        places = (0, last // 2, share(len(delays)), last)
        self.told = {name: Delay(delays[order[at]], *packets_of(order[at])) for name, at in zip(self.NAMES, places)}

    @property
    def least(self):
        return self.told["least"]


def share(number):
    """Where in an order of so many the first one is that 99 in 100 do not exceed."""
    return (99 * number + 99) // 100 - 1


class Packets:
    """Some packets: how many, and the first of them."""

    def __init__(self, packets=()):
        packets = iter(packets)
        self.first = list(itertools.islice(packets, MOST_NAMED))
        self.number = len(self.first) + sum(1 for _ in packets)


class Sender:
    """What became of the frames of one sender."""

    def __init__(self, own, a, b):
        self.kind, self.appid, self.source, self.name, self.is_simulated = own
        self.a, self.b, self.numbers, self.by_key = a, b, (a.number, b.number), (ByKey(a), ByKey(b))
        self.single, self.ours, self.theirs, self.both, self.delays, self.delayed = single(*self.by_key), (), (), 0, None, array.array("q")
        self.only, self.apart, self.turned = (Packets(), Packets()), (Packets(), Packets()), Packets()

    def match(self, clocks):
        """Finds the same frames."""
        a, b, reach, partners = self.a, self.b, REACH[self.kind], array.array("i", [-1]) * self.a.number
        for at, its in zip(*self.near(clocks, reach)):
            partners[at] = its
        moved = clocks.moved(a.times) if 2 * len(self.by_key[0].single) < a.number else None
        for one, other in several(*self.by_key):
            ours = {at: moved[at] if moved else a.times[at] + clocks.at(a.times[at]) for at in one}
            one = sorted(one, key=ours.__getitem__)
            for at, its in nearest([ours[it] for it in one], [b.times[it] for it in other], reach):
                partners[one[at]] = other[its]
        self.theirs = array.array("I", (it for it in partners if it >= 0))
        self.ours = range(a.number) if len(self.theirs) == a.number else array.array("I", (at for at, it in enumerate(partners) if it >= 0))
        self.both, self.by_key, self.single = len(self.ours), None, None

    def near(self, clocks, reach):
        """The frames whose key each side has once, and whose times are near by the other clock."""
        one, other = self.single
        sent = array.array("q", map(self.a.times.__getitem__, one))
        ways = array.array("q", map(operator.sub, map(self.b.times.__getitem__, other), sent))
        if not ways or (-reach <= min(ways) - clocks.greatest and max(ways) - clocks.least <= reach):
            return one, other
        is_near = [-reach <= its - now <= reach for its, now in zip(map(self.b.times.__getitem__, other), clocks.moved(sent))]
        return itertools.compress(one, is_near), itertools.compress(other, is_near)

    def since(self, times):
        """How much later the other side has each frame that both have than these times of the first side are."""
        return map(operator.sub, map(self.b.times.__getitem__, self.theirs), map(times.__getitem__, self.ours))

    def measure(self):
        """The delays, and the frames whose order is turned round: on the other side they come before one that was before them."""
        a, b, ours, theirs = self.a, self.b, self.ours, self.theirs
        self.delayed = array.array("q", self.since(a.times))
        if ours:
            self.delays = Delays(self.delayed, lambda at: (a.packets[ours[at]], b.packets[theirs[at]]))
        if not is_ascending(theirs):
            greatest = itertools.accumulate(theirs, max)
            self.turned = Packets((a.packets[at], b.packets[its]) for at, its, most in zip(ours, theirs, greatest) if its < most)

    def leave(self, is_on):
        """Parts the frames of one side alone: those for which the other one was on, and the others."""
        told = []
        for side, (frames, used) in enumerate(((self.a, self.ours), (self.b, self.theirs))):
            alone = others(used, frames.number)
            on = [is_on(side, frames.times[at]) for at in alone]
            told.append([Packets(frames.packets[at] for at, it in zip(alone, on) if it == wanted) for wanted in (True, False)])
        self.only, self.apart = zip(*told)

    def forget(self):
        """Gives up the frames, of which all is told."""
        self.a = self.b = self.ours = self.theirs = None


def others(used, number):
    """Which of so many numbers are not among these."""
    if len(used) == number:
        return ()
    is_used = bytearray(number)
    for at in used:
        is_used[at] = True
    return [at for at, it in enumerate(is_used) if not it]


def drift(senders):
    """By how much the least delay is greater at the end than at the beginning of what both sides have, where that is told; else None."""
    held = [(it.a.times if it.both == it.a.number else array.array("q", map(it.a.times.__getitem__, it.ours)), it.delayed) for it in senders if it.ours]
    if not held:
        return None
    first, last = min(min(times) for times, _ in held), max(max(times) for times, _ in held)
    early, late = first + (last - first) // PART, last - (last - first) // PART
    before = [delay for times, delays in held for time, delay in zip(times, delays) if time <= early]
    after = [delay for times, delays in held for time, delay in zip(times, delays) if time >= late]
    found = min(after) - min(before)
    return found if min(len(before), len(after)) >= FEWEST and abs(found) >= DRIFT else None


class Compared:
    """Two sides, and what became of the frames of each sender."""

    def __init__(self, a, b, is_same_clock):
        self.sides, self.is_same_clock = (a, b), is_same_clock
        self.senders = [Sender(own, *(it.senders.get(own) or Frames() for it in self.sides)) for own in dict.fromkeys([*a.senders, *b.senders])]
        self.clocks = SAME if is_same_clock else difference(self.senders)
        for it in self.senders:
            it.match(self.clocks)
            it.measure()
        self.drift = None if is_same_clock else drift(self.senders)
        self.part()

    @functools.cached_property
    def ways(self):
        """The least way, and the one that 99 in 100 do not exceed, after the clocks' difference."""
        ways = sorted(itertools.chain.from_iterable(it.since(self.clocks.moved(it.a.times)) for it in self.senders)) or [0]
        return ways[0], ways[share(len(ways))]

    def part(self):
        """Parts frames of one side by the other's first and last packet, after the clocks' difference and the least and greatest ways."""
        clocks, delays, least, most = self.clocks, [it.delays.told for it in self.senders if it.delays], 0, 0
        if delays:
            least = min(it["least"].microseconds for it in delays) - clocks.greatest
            most = max(it["greatest"].microseconds for it in delays) - clocks.least
        # Between these is how much later the other side is, with the difference of the clocks.
        bounds = (clocks.least + least, clocks.greatest + most), (-clocks.greatest - most, -clocks.least - least)

        def is_on(side, time):
            other, (early, late) = self.sides[1 - side], bounds[side]
            if not other.packets or time + late < other.first or other.last < time + early:
                return False
            return other.first <= time + early and time + late <= other.last or self.is_on(side, other, time)

        for it in self.senders:
            it.leave(is_on)
        for it in self.senders:
            it.forget()

    def is_on(self, side, other, time):
        """Whether the other side was on when it had a frame of this time, for the least and the greatest way."""
        (least, most), clocks = self.ways, self.clocks if side == 0 else self.clocks.turned
        begin, until = (least, most) if side == 0 else (-most, -least)
        there = time + clocks.at(time)
        return other.first <= there + begin and there + until <= other.last

    @property
    def unknown_clocks(self):
        """What was assumed of clocks of which no control block tells how they differ."""
        has = {it.kind for it in self.senders if it.both}
        told = (["frames were compared as if they were less than 10 s apart"] if "goose" in has else []) + (
            ["samples were compared as if they were less than half a second apart"] if "sv" in has else [])
        return f"No control block tells how the clocks differ: {', and '.join(told)}"

    @property
    def both(self):
        return sum(it.both for it in self.senders)

    @property
    def alone(self):
        """How many frames are on one side alone although the other one was on."""
        return sum(it.only[0].number + it.only[1].number for it in self.senders)

    @property
    def apart(self):
        """How many frames each side has of times in which the other one was not on."""
        return tuple(sum(it.apart[side].number for it in self.senders) for side in (0, 1))

    @property
    def least(self):
        """The least delay of all."""
        return min((it.delays.least for it in self.senders if it.delays), key=lambda it: it.microseconds, default=None)

    @property
    def is_whole(self):
        """Whether no frame had to be left out."""
        return not any(it.errors.number or it.left_out.number for it in self.sides)

    @property
    def is_alike(self):
        """Whether frames were compared, and each is on both sides."""
        return bool(self.both) and not self.alone and self.is_whole
