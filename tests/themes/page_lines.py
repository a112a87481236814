"""A page that looks at many lines of goose at once finds what it does one by one: of senders, samples, events and pictures."""
import json
import random
import re

from helpers import fault_station, made_station
from helpers.asked_tools import module
from helpers.capture_parts import header, record
from helpers.fault_station import Unit, pairs
from helpers.frames import asdu, element, with_asdus
from helpers.harness import run
from themes.report import OPTIONS

SECOND, PARTS = 10**6, (1, 70, 300, 5000)
# What of the objects says only how they came to what they say.
HOW = {"shapes", "owners", "going", "looks", "together", "flows", "frames", "waiting", "sorts", "state", "since", "told", "until",
       "renewals", "of_block", "excuse", "steps", "text_before", "names", "recent", "now", "head", "rate_of", "line", "samples", "paces", "text", "qualities", "burst"}
# Those whose order says nothing.
UNORDERED = {"senders", "held", "kinds"}


def plain(it, held=()):
    """What an object says, as lists, numbers and texts."""
    if isinstance(it, re.Match):
        return it[0]
    if it is None or isinstance(it, (bool, int, float, str, bytes, bytearray)):
        return it
    if id(it) in held:
        return "again"
    held = (*held, id(it))
    if isinstance(it, dict):
        return [(plain(key, held), plain(value, held)) for key, value in it.items()]
    if isinstance(it, (list, tuple)) or hasattr(it, "popleft"):
        return [plain(part, held) for part in it]
    if isinstance(it, (set, frozenset)):
        return sorted(map(repr, it))
    names = [*getattr(it, "__dict__", ()), *getattr(it, "__slots__", ())]
    told = [(name, plain(getattr(it, name), held)) for name in names if name not in HOW]
    return [(name, sorted(value, key=repr) if name in UNORDERED else value) for name, value in told] if names else None


def unlike(one, other, path=""):
    """Where two of these differ first, or None."""
    if isinstance(one, (list, tuple)) and isinstance(other, (list, tuple)) and len(one) == len(other):
        name = one[0] if len(one) == 2 and isinstance(one[0], str) else ""
        found = (unlike(ours, theirs, f"{path}/{name or at}") for at, (ours, theirs) in enumerate(zip(one, other)))
        return next(filter(None, found), None)
    return None if one == other else f"{path}: {repr(one)[:200]} and {repr(other)[:200]}"


def parts_of(lines, size):
    return (lines[at:at + size] for at in range(0, len(lines), size))


class Alike:
    """A capture whose lines are taken in parts of several sizes."""

    def __init__(self, name, made, period):
        self.name, self.made, self.period = f"lines together and one by one: {name}", made, period

    def why_wrong(self, program):
        octets = header() + b"".join(record(*divmod(moment, SECOND), frame) for moment, frame in self.made())
        lines = lambda *words: run(program, [words[0], *OPTIONS, *words[1:]], octets)[0].splitlines()
        blocks = [json.loads(it)["text"] for it in lines("blocks") if b'"kind":"block"' in it]
        shown, replayed = lines("show"), lines("replay", "--", *blocks) if blocks else []
        wanted, *others = [self.found(shown, replayed, blocks, size) for size in PARTS]
        return [f"in parts of {size}: {why}" for size, got in zip(PARTS[1:], others) for why in [unlike(wanted, got)] if why]

    def found(self, shown, replayed, blocks, size):
        """What is found of lines in parts of so many."""
        rates, pace, looking = module("reporting.rates"), module("reporting.pace"), module("reporting.station")
        # What changed is held of states that come again, but one by one of the last alone.
        module("reporting.events").MOST_TOLD = 0 if size == 1 else 8
        asked = rates.Asked([str(self.period)])
        samples = module("reporting.samples").Samples(lambda stream: asked.rate(stream, (), None))
        paces = {tuple(it.split(",")[:2]): pace.Pace() for it in blocks}
        station = looking.Station(paces, samples)
        station.see_frames(parts_of(shown, size))
        samples.end()
        picture = module("reporting.picture").Picture(station.span)
        events = module("reporting.events").Events(picture, module("reporting.trip").Trip(None))
        for block in blocks:
            picture.lane(tuple(block.split(",")[:2]), block)
        events.see(parts_of(replayed, size))
        bursts = [[(lane.name, kind, moment) for lane, kind, moment, _ in it.marks if it.first - 20_000 <= moment <= it.until] for it in picture.bursts]
        waves = [(it.why, it.layout and it.layout.why, it.periods, it.spans, it.more_spans, it.limits, it.others, it.counted) for it in samples.waves.values()]
        return plain([station, paces, waves, samples.more, events.blocks, events.listed, events.firsts, events.acts, picture.lanes, bursts, len(events.trip.moments)])


# ---- Captures ----------------------------------------------------------------


def again(times):
    """The made station some times."""
    return lambda: [(moment + 11 * SECOND * at, frame) for at in range(times) for moment, frame in made_station.packets()]


def by_chance(seed):
    """Control blocks whose states, lifetimes, simulation and errors change by chance; packets that are lost, twice, late, without time, or hours off."""
    def made():
        chance = random.Random(seed)
        devices, now, told = [made_station.Device(at) for at in (1, 2, 3, 4, 5, 10, 13, 16, 17, 19)], made_station.START, []
        for _ in range(2500):
            now += chance.choice((90, 1_000, 40_000, 40_000, 200_000))
            now += chance.choice((0,) * 300 + (1_500_000, 7 * SECOND))
            it = chance.choice(devices)
            it.sequence += chance.choice((1,) * 60 + (2, 0))
            if chance.random() < 0.006:
                it.state, it.sequence, it.value, it.changed = it.state + chance.choice((1, 1, 2)), 0, not it.value, now - 300
            it.live = 3000 if chance.random() < 0.002 else 1500 if chance.random() < 0.01 else it.live
            it.sequence = 2**32 - 30 if chance.random() < 0.001 else min(it.sequence, 2**32 - 1)
            live, it.live = it.live, 3000 if chance.random() < 0.01 else it.live
            frame, it.live = it.frame(sim=chance.random() < 0.002), live
            moment = now if chance.random() > 0.001 else chance.choice((0, now - 5 * SECOND, now - 2_000))
            told.append((moment, frame[:40] + b"\x07" + frame[41:] if chance.random() < 0.002 else frame))
        return told
    return made


class Switches(made_station.Device):
    """A control block of three booleans, each with its quality."""

    held = b"".join(b"\x83\x01\x00\x84\x03\x03\x00\x00" for _ in range(3))

    def members(self):
        return [self.held[at:at + 3 + 2 * (at % 8 > 0)] for at in (0, 3, 8, 11, 16, 19)]


def states_by_chance(seed):
    """States of which some come again and again, behind others each time, and of which some have the bit test."""
    def made():
        chance, devices = random.Random(seed), [Switches(at) for at in (1, 2, 3)]
        states = [b"".join(b"\x83\x01" + chance.choice((b"\x00", b"\xff")) + b"\x84\x03\x03\x00" + chance.choice((b"\x00", b"\x10")) for _ in range(3))
                  for _ in range(6)]
        for at in range(900):
            it, now = chance.choice(devices), made_station.START + at * 20_000
            it.state, it.sequence, it.held, it.changed = it.state + 1, 0, chance.choice(states), now - 300
            yield now, it.frame()
    return lambda: list(made())


def samples_by_chance(seed, a_frame):
    """Two streams with samples that are lost, late or twice, with other qualities and other smpSynch."""
    def made():
        chance = random.Random(seed)
        quality = lambda: chance.choice((0,) * 400 + (1, 3, 0x2000))
        sample = lambda at: b"".join(pairs([round(9000 * value)], quality()) for value in (at % 80, -at % 80, 1, 2, 3, 4, 5, at))
        synch = lambda: chance.choice((2,) * 200 + (1, 0))
        units = [Unit(name, 0x4000 + at, at, sample, a_frame=a_frame, synch=2) for at, name in enumerate(("S", "T\\"), 1)]
        told = []
        for at in range(0, 1600 * a_frame, a_frame):
            for unit in units:
                unit.synch = synch()
                frame, moment = unit.frame(*range(at, at + a_frame)), unit.captured(at + a_frame - 1) + unit.last * 7
                told += [(moment, frame)] * chance.choice((1,) * 150 + (0, 2))
            if chance.random() < 0.006 and len(told) > 3:
                told[-1], told[-3] = (told[-1][0], told[-3][1]), (told[-3][0], told[-1][1])
        return told
    return made


def of_one(numbers, change=lambda it, at: 0, step=10_000):
    """The frames of one control block with these sqNums; what is changed with each also answers by how much it comes later, or earlier."""
    it = made_station.Device(3)
    for at, it.sequence in enumerate(numbers):
        moment = made_station.START + at * step + change(it, at)
        yield moment, it.frame()


def in_turns(numbers, change):
    """The same with what changes after each hundred frames, and comes back after the next."""
    return lambda: list(of_one(numbers, lambda it, at: change(it, at // 100 % 2 == 1)))


def live_longer(it, is_other):
    """A lifetime of other digits."""
    it.live = 15000 if is_other else 1500
    return 0


def have_other_revision(it, is_other):
    """Another confRev of as many digits, in the same state."""
    it.confrev = 2 if is_other else 1
    return 0


def few(at):
    """Whether a frame is one of a few that come between two silences, and by how much it comes later."""
    return 400 <= at <= 430, 1_500_000 * ((at >= 400) + (at >= 430))


def few_live_longer():
    """A few frames of a longer lifetime between two silences: they are looked at one by one, and those before and after them together."""
    def change(it, at):
        is_other, later = few(at)
        live_longer(it, is_other)
        return later
    return list(of_one(range(100, 900), change))


def errors_between():
    """Frames that go on, and between them some with an error."""
    for at, (moment, frame) in enumerate(of_one(range(100, 900))):
        yield moment, frame
        if at % 90 == 45:
            yield moment + 10, frame[:40] + b"\x07" + frame[41:]


def come_earlier():
    """Frames whose times are before that of their state's first one, by less than a second."""
    return list(of_one(range(100, 900), lambda it, at: -900_000 if at >= 300 else 0, 1000))


def rolled_over(greatest):
    """sqNum rolls over: the numbers that come then have come before."""
    return lambda: list(of_one([*range(1, 200), *range(greatest - 99, greatest + 1), *range(1, 200)]))


def last_state(greatest):
    """The last stNum, of which a frame is lost before the last one of seventy lines; behind two hundred frames more the first stNum."""
    def change(it, at):
        it.state, it.changed = (1, made_station.START + 3_500_000 - 300) if at >= 350 else (greatest, it.changed)
        return 0
    return lambda: list(of_one([*range(100, 309), *range(310, 451), *range(100)], change))


def samples_in_turns(change, svids=lambda _: (b"S",)):
    """A stream, or what has these svIDs in each frame; what changes after each hundred frames comes back after the next. It answers by how much they come later."""
    def made():
        for at in range(900):
            fields, later = change(at, at // 100 % 2 == 1)
            sample = pairs([round(9000 * (at % 80 + channel)) for channel in range(8)])
            frame = with_asdus(*(asdu(sv_id=element(0x80, it), smp_cnt=element(0x82, (1000 + at).to_bytes(2, "big")),
                                      **{"sample": element(0x87, sample), **fields}) for it in svids(at)))
            yield made_station.START + at * 250 + later, frame
    return lambda: list(made())


def odd_captures():
    """What no longer is as it was when a sort of frames was known, and comes back."""
    yield Alike("a lifetime that changes and comes back", in_turns(range(100, 900), live_longer), 4000)
    yield Alike("a confRev that changes and comes back", in_turns(range(100, 900), have_other_revision), 4000)
    yield Alike("a lifetime of a few frames between silences", few_live_longer, 4000)
    yield Alike("errors between frames that go on", lambda: list(errors_between()), 4000)
    yield Alike("times before a state's first frame", come_earlier, 4000)
    yield Alike("sqNum that rolls over", rolled_over(2**32 - 1), 4000)
    yield Alike("the last stNum, and a lost frame", last_state(2**32 - 1), 4000)
    synch = lambda is_other: {"smp_synch": element(0x85, b"\x0a" if is_other else b"\x02")}
    yield Alike("smpSynch that changes and comes back", samples_in_turns(lambda _, is_other: (synch(is_other), 0)), 4000)
    yield Alike("smpSynch of a few frames between silences", samples_in_turns(lambda at, _: (synch(few(at)[0]), few(at)[1])), 4000)
    yield Alike("samples whose times go back", samples_in_turns(lambda at, _: ({}, -300_000 if at % 90 > 80 else 0)), 4000)
    yield Alike("two streams a frame", samples_in_turns(lambda at, _: ({}, 0), lambda _: (b"S", b"T")), 4000)
    yield Alike("a second sample in each frame that comes and goes", samples_in_turns(lambda at, _: ({}, 0), lambda at: (b"S",) * (1 + at // 100 % 2)), 4000)


def cases():
    yield from odd_captures()
    yield Alike("the made station", again(2), made_station.PERIOD)
    yield Alike("a fault", fault_station.packets, fault_station.RATE)
    yield from (Alike(f"control blocks by chance, {seed}", by_chance(seed), 4000) for seed in range(4))
    yield from (Alike(f"states by chance, {seed}", states_by_chance(seed), 4000) for seed in range(2))
    yield from (Alike(f"samples by chance, {seed}, {a_frame} a frame", samples_by_chance(seed, a_frame), 4000) for seed, a_frame in ((1, 1), (2, 8)))
