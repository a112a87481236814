"""Lines behind the dates of their events, by --time: dates from 1970 to 9999, each command on lists and captures beside the slow
programs, and without its dates as without the option; reading and writing that fail, lines that come live, and memory."""
import calendar
import datetime
import functools
import itertools
import random

from helpers import by_chance as made_by_chance
from helpers.asked_tools import EXAMPLES
from helpers.capture_parts import header, interface, offset, packet, record, section
from helpers.captured import ASKED, EachOf, Read, asking, in_turn, why_differs
from helpers.frames import SAMPLED, WORKED, put
from helpers.harness import Case, first_difference, listed, run, text
from oracles import reading
from oracles.dates import date
from oracles.packets import LAST_MOMENT
from oracles.reading import CAPTURE, SKIP, TIME
from themes import replaying, watching
from themes.capture_streams import START, FailsAtEach, WritesAtMost
from themes.captures import ARP, FORMS
from themes.devices import FAULT, Directory, FailsAfter, Full, TriedOnce, Unread
from themes.live import InTurn
from themes.mutations import damaged, good_goose, good_sampled
from themes.replaying import line, state
from themes.skipping import other
from themes.streaming import DoesNotGrow, WantsMemory

SEED, COUNT = 1582, 2000
LAST_DATED = 253_402_300_799_999_999
DAY = 86_400_000_000
MOST = 3072  # kilobytes
# The days, counted from 1970, that begin months and years around leap days, and the last that has a date.
DAYS = {0: "1970-01-01", 58: "1970-02-28", 59: "1970-03-01", 364: "1970-12-31", 365: "1971-01-01", 789: "1972-02-29", 790: "1972-03-01",
        10956: "1999-12-31", 10957: "2000-01-01", 11016: "2000-02-29", 11017: "2000-03-01", 19417: "2023-03-01", 19782: "2024-02-29",
        24855: "2038-01-19", 47540: "2100-02-28", 47541: "2100-03-01", 157113: "2400-02-29", 2932896: "9999-12-31"}
TIMES = {0: "00:00:00.000000", 1: "00:00:00.000001", 999_999: "00:00:00.999999", 59_999_999: "00:00:59.999999",
         3_600_000_000: "01:00:00.000000", 43_199_999_999: "11:59:59.999999", DAY - 1: "23:59:59.999999"}


class Clocks:
    """A list of clock times, each of which has its date by Python's calendar."""

    def __init__(self, name, moments):
        self.name, self.moments = name, moments

    def why_wrong(self, program):
        moments = list(self.moments())
        octets = text(["V2", *(f"C {moment}" for moment in moments)])
        wanted = text(f"{date(moment) or '-'} {number} clock {moment}" for number, moment in enumerate(moments, 2))
        return Case("", ["show", TIME], octets, wanted).why_wrong(program)


def borders():
    """The first and the last microsecond of each month that has a date."""
    for year, month in itertools.product(range(1970, 10000), range(1, 13)):
        first = calendar.timegm((year, month, 1, 0, 0, 0)) * 10**6
        last = datetime.date(year, month, calendar.monthrange(year, month)[1]) - datetime.date(1970, 1, 1)
        yield from (first, (last.days + 1) * DAY - 1)


def drawn(most):
    chance = random.Random(SEED)
    return (chance.randrange(most + 1) for _ in range(COUNT))


def calendars():
    yield Clocks("the first and the last microsecond of each month", borders)
    for name, most in (("of all", LAST_MOMENT), ("that have a date", LAST_DATED), ("of these years", 4 * 10**15), ("of a day", DAY)):
        yield Clocks(f"{COUNT} times by chance, {name}", functools.partial(drawn, most))
    yield Clocks("times that go back, and that come again", lambda: [7, 7, 6, 10**15, 10**15 + 1, 0, LAST_MOMENT, 0])


def worked():
    for day, date in DAYS.items():
        moments = {day * DAY + at: f"{date}T{time}Z" for at, time in TIMES.items()}
        octets = b"V2\n" + b"".join(b"C %d\n" % moment for moment in moments)
        yield Case(f"times of {date}", ["show", TIME], octets, text(
            f"{dated} {at} clock {moment}" for at, (moment, dated) in enumerate(moments.items(), 2)))
    late = (2932897 * DAY, 3_000_000 * DAY, 10**18 - 1)
    yield Case("moments that have no date", ["show", TIME], b"V2\n" + b"".join(b"C %d\n" % moment for moment in late), text(
        f"- {at} clock {moment}" for at, moment in enumerate(late, 2)))
    yield Case("a block that is given twice", ["replay", TIME, "0001,G,D,,1,1", "0001,G,D,,1,1"], listed(WORKED),
               b"- blocks SameBlockTwice 1\n", 3)


def every(*options):
    """The command lines of all commands with these options and --time."""
    return [asking(command, *options, TIME) for command in ASKED]


def recorded(count=12, start=1_700_000_000_000_000):
    """Frames of all sorts, with their moments, of which some go back."""
    frames = [WORKED, ARP, state(1, 1), SAMPLED, put(WORKED, at66=1), WORKED[:40], b"\1", state(2, 0), state(1, 5), WORKED, state(3, 0), ARP]
    return [(start + 900_000 * at - (2_500_000 if at % 5 == 4 else 0), frame) for at, frame in enumerate(frames[:count])]


def inputs():
    """The same as a list and as captures."""
    events = recorded()
    yield "a list", b"V2\n" + b"".join(line(moment, frame) for moment, frame in events) + b"C 1700000099000000\nM 1700000099000001 on\n", ()
    yield "a classic capture", header() + b"".join(record(moment // 10**6, moment % 10**6, frame) for moment, frame in events), (CAPTURE,)
    yield "pcapng", START + b"".join(packet(moment, frame) for moment, frame in events), (CAPTURE,)
    for example in sorted(EXAMPLES.glob("*.list")):
        yield example.name, example.read_bytes(), ()
    for example in sorted(EXAMPLES.glob("*.pcap*")):
        yield example.name, example.read_bytes(), (CAPTURE,)
    yield from some_inputs()
    yield "classic, the greatest time", header() + record(2**32 - 1, 2**32 - 1, WORKED) + record(0, 0, b""), (CAPTURE,)
    yield "an interface whose times begin later", section() + interface(options=offset(LAST_DATED // 10**6)) + packet(
        999_999, WORKED) + packet(10**6, SAMPLED), (CAPTURE,)
    yield "no capture", b"abcd", (CAPTURE,)


def some_inputs():
    """Lists and captures by chance."""
    chance = random.Random(SEED)
    for at in range(20):
        yield f"a replay by chance, {at}", replaying.some_list(chance, 60), ()
        yield f"samples by chance, {at}", watching.some_list(chance, 4000, 30), ()
    for name, made in (("GOOSE", made_by_chance.goose), ("Sampled Values", made_by_chance.sampled)):
        frames = [(chance.randrange(2 * 10**18) % (LAST_MOMENT + 1), made(chance)) for _ in range(200)]
        yield f"{name} by chance", b"V2\n" + b"".join(line(*it) for it in frames), ()
        yield f"{name} by chance, in pcapng", START + b"".join(packet(*it) for it in frames), (CAPTURE,)


def both_ways():
    for name, octets, options in inputs():
        for more in ((), (SKIP,)):
            yield Read(f"{name} {' '.join(more)}", octets, *every(*options, *more))
            yield Undated(f"{name} {' '.join(more)}", octets, *options, *more)
        yield Read(f"{name}, cut", octets[:-7], *every(*options))
    yield Read("a list of milliseconds", b"C 1700000000123\n" + listed(WORKED) + b"X", *every())
    yield Read("nothing", b"", *every(), *every(CAPTURE))


class Undated:
    """Without its first word each line is the one that is written without the option."""

    def __init__(self, name, octets, *options):
        self.name, self.octets, self.options = f"{name}: without the dates", octets, options

    def why_wrong(self, program):
        why = []
        for command in ASKED:
            plain, told, status = run(program, asking(command, *self.options), self.octets)
            wrote, also_told, also = run(program, asking(command, *self.options, TIME), self.octets)
            undated = b"".join(it.partition(b" ")[2] for it in wrote.splitlines(keepends=True))
            difference = first_difference(plain, undated)
            why += [f"{command}: {difference}"] if difference else []
            why += [f"{command} says {also_told!r}, and ends with {also}"] if (told, status) != (also_told, also) else []
        return why


def by_chance():
    """Lists of damaged frames at moments by chance, up to some that have no date."""
    chance = random.Random(SEED)
    good = good_goose(chance) + good_sampled(chance)
    for at in range(60):
        frames = [damaged(chance, good) if chance.random() < 0.7 else other(chance.randrange(65536)) for _ in range(30)]
        most = 10 ** chance.randrange(6, 19)
        yield f"list {at}", b"V2\n" + b"".join(line(chance.randrange(most), frame) for frame in frames)


class EndsAtEach:
    """Reading a short list fails after each of its octets."""

    def __init__(self, octets):
        self.name, self.octets = "a list: reading fails after each octet", octets

    def why_wrong(self, program):
        why, asked = [], every() + every(SKIP)
        for size in range(len(self.octets) + 1):
            words = asked[size % len(asked)]
            octets = self.octets[:size]
            lines, status, _ = reading.answered(words, octets, has_failed=True)
            written = reading.written(words, lines, octets, has_failed=True)
            why += why_differs(words, (lines, status), FailsAfter("", words, octets).run(program), written=written)
        return why[:5]


def failing():
    yield EndsAtEach(b"V2\n" + line(1_700_000_000_000_000, WORKED) + line(2, b"\1"))
    for form, made in FORMS.items():
        if "little" in form:
            yield FailsAtEach(form, made, TIME)
            for command in ASKED:
                yield WritesAtMost(command, form, made, TIME)
    faulty = listed(b"\1", WORKED, SAMPLED)
    for command in ASKED:
        asked = asking(command, TIME)
        yield Directory(f"{command} of a directory is a read fault", asked, b"", b"- 1 list ReadFailed\n", 4, FAULT)
        yield Directory(f"{command} of a directory, as a capture", asking(command, CAPTURE, TIME), b"", b"- 0 capture ReadFailed\n", 4, FAULT)
        yield Full(f"{command} on a full disk", asked, faulty, None, 4, FAULT)
        yield Full(f"{command} of a fault on a full disk", asked, b"X\n", None, 4, FAULT)
        yield Full(f"{command} of nothing on a full disk", asked, b"", None)
        yield Unread(f"{command} to nobody", asked, faulty)
        yield TriedOnce(f"{command} tries no failed write again", asked, faulty)


def live():
    for command in ASKED:
        asked = asking(command, TIME)
        yield InTurn(f"{command}: each line is answered before the next", asked, *in_turn(asked, [b"V2\n", *(line(*it) for it in recorded())]))


def memory():
    fault = b"F 1 01\n"
    for command in ASKED:
        asked, capturing = asking(command, TIME), asking(command, CAPTURE, TIME)
        frame = SAMPLED if command == "watch" else WORKED
        yield WantsMemory(asked, fault + listed(frame) + b"X", f"{command}, dated")
        yield WantsMemory(capturing, START + packet(1, b"\1") + packet(2, frame) + b"X", f"{command}, a capture, dated")
        yield DoesNotGrow(f"a list under {command}, dated,", asked, listed(frame), b"", MOST)
        yield DoesNotGrow(f"a capture under {command}, dated,", capturing, packet(1, frame), START, MOST)
    yield DoesNotGrow("a list of faults, dated,", asking("check", TIME), fault, b"", MOST)


def cases():
    yield from (*calendars(), *worked(), *both_ways(), EachOf("lists by chance", by_chance, TIME), *failing(), *live(), *memory())
