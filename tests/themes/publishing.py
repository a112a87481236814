"""What a publisher sends by a script: worked scripts, and scripts made by chance of which the slow publisher says what comes."""
import itertools
import pathlib
import random

from helpers import by_chance
from helpers.frames import BOOLEAN, element, put
from helpers.harness import Case, first_difference, run, text, why_told
from oracles import publisher
from themes.replaying import flag, number, state

SEED = 81802
EXAMPLE = pathlib.Path(__file__).resolve().parent.parent.parent / "examples" / "publisher.script"
GREATEST = 2**32 - 1

# The fields of the worked `control` line, of which the first frame is that of `state(1, 0)`.
FIELDS = {
    "destination": b"010ccd010001",
    "source": b"020000000001",
    "tag": b"",
    "app_id": b"0001",
    "gocb_ref": b"G",
    "dat_set": b"D",
    "go_id": b"",
    "conf_rev": b"1",
    "entries": b"1",
    "simulation": b"0",
    "nds_com": b"0",
    "first": b"1",
}


def control(**fields):
    """The worked `control` line with other fields."""
    return b"control," + b",".join({**FIELDS, **fields}.values())


def step(wait, live):
    return b"step,%d,%d" % (wait, live)


def change(moment, members=BOOLEAN.hex().encode(), t=b"0" * 16):
    return b"change,%d,%s,%s" % (moment, t, members)


def poll(moment):
    return b"poll,%d" % moment


def script(*lines, ending=b"\n"):
    return b"".join(line + ending for line in lines)


# A script up to its calls: a wait of 10 ms, then waits of 1,000 ms. And one that has no room for a step more.
START = [control(), step(10, 2000), step(1000, 3000)]
FULL = [control(), *[step(1, 2)] * 16]


def sent(*frames, fault=None):
    """The list of these frames, each behind its moment in microseconds, and perhaps the script's error."""
    return text(["V2", *[f"F {moment} {frame.hex()}" for moment, frame in frames], *([f"# {fault}"] if fault else [])])


class Publishes:
    """A script of which the program writes what the slow publisher writes. Where the text is known, both write that."""

    def __init__(self, name, octets, known=None):
        self.name, self.octets, self.known = name, octets, known

    def why_wrong(self, program):
        lines, wanted_status = publisher.publish(self.octets)
        wrote, complained, status = run(program, ["publish"], self.octets)
        difference = first_difference(text(lines), wrote)
        why = [difference] if difference else []
        why += why_told("publish", wrote, complained, status)
        why += [f"ended with status {status}, and not {wanted_status}"] if status != wanted_status else []
        difference = self.known is not None and first_difference(self.known, text(lines))
        return why + ([f"the slow publisher is wrong: {difference}"] if difference else [])


def end_script(name, before, line, cause, *frames):
    """A script that these lines end: the last one by its cause. What comes behind is not read."""
    return Publishes(name, script(*before, line, b"X" * 5000), sent(*frames, fault=f"{len(before) + 1} script {cause}"))


# ---- What is sent -----------------------------------------------------------


def retransmissions():
    """When frames come, by the waits of their steps, and with the lifetimes."""
    yield Publishes("the example", EXAMPLE.read_bytes())
    calls = [change(0), poll(9), poll(10), poll(1009), poll(1010), change(1500, b"830100")]
    frames = [(0, state(1, 0)), (10000, state(1, 1, 3000)), (1010000, state(1, 2, 3000)),
              (1500000, state(2, 0, members=element(0xAB, b"\x83\1\0")))]
    yield Publishes("two states", script(*START, *calls), sent(*frames))
    yield Publishes("two states, without a last LF", script(*START, *calls)[:-1], sent(*frames))
    calls = [change(0), poll(5000), poll(5000), poll(5999), poll(6000)]
    yield Publishes("a poll that comes late sends one frame", script(*START, *calls), sent(
        (0, state(1, 0)), (5000000, state(1, 1, 3000)), (6000000, state(1, 2, 3000))))
    calls = [change(0), poll(10), change(11), poll(20), poll(21)]
    yield Publishes("a change inside a wait", script(*START, *calls), sent(
        (0, state(1, 0)), (10000, state(1, 1, 3000)), (11000, state(2, 0)), (21000, state(2, 1, 3000))))
    yield Publishes("changes at one moment", script(*START, change(7), change(7), poll(7), change(7)), sent(
        *[(7000, state(st, 0)) for st in (1, 2, 3)]))
    calls = [poll(0), poll(10), poll(5000), change(5000), poll(5009), poll(5010)]
    yield Publishes("polls before the first change", script(*START, *calls), sent(
        (5000000, state(1, 0)), (5010000, state(1, 1, 3000))))
    yield Publishes("polls alone", script(*START, poll(0), poll(10), poll(2000)), sent())
    yield Publishes("no call", script(*START), sent())


def ends_of_waits():
    """Waits and lifetimes at both ends: polls one unit of the version before a wait is over, and when it is."""
    for version, unit in ((b"", 1000), (b"V2\n", 1)):
        for wait, live in ((1, 2), (1, GREATEST), (127, 128), (32767, 32768), (GREATEST - 1, GREATEST)):
            due = 1000 * wait // unit
            polls = [poll(moment) for moment in (due - 1, due, 2 * due - 1, 2 * due)]
            frames = [(1000 * wait * sq, state(1, sq, live)) for sq in range(3)]
            yield Publishes(f"a wait of {wait} ms in units of {unit} and a lifetime of {live} ms",
                            version + script(control(), step(wait, live), change(0), *polls), sent(*frames))


def steps():
    """1 to 16 steps, each with its own wait and lifetime: polls 1 ms before a wait is over, and when it is."""
    for count in range(1, 17):
        waits = [3 + 7 * at % 16 for at in range(count)]
        calls, frames, moment = [change(0)], [(0, state(1, 0, 100))], 0
        for sq in range(1, count + 4):
            moment += waits[min(sq - 1, count - 1)]
            calls += [poll(moment - 1), poll(moment)]
            frames.append((1000 * moment, state(1, sq, 100 + min(sq, count - 1))))
        table = [step(wait, 100 + at) for at, wait in enumerate(waits)]
        yield Publishes(f"a table of steps, {count} of them", script(control(), *table, *calls), sent(*frames))


def moments_that_go_back():
    calls = [change(100), poll(50), poll(120), poll(110), change(7), poll(0), poll(130)]
    yield Publishes("moments that go back", script(*START, *calls), sent(
        (100000, state(1, 0)), (120000, state(1, 1, 3000)), (120000, state(2, 0)), (130000, state(2, 1, 3000))))
    yield Publishes("a poll that sends nothing counts", script(*START, change(0), poll(9), change(5), poll(18), poll(19)), sent(
        (0, state(1, 0)), (9000, state(2, 0)), (19000, state(2, 1, 3000))))
    yield Publishes("a poll before the first change counts", script(*START, poll(9), change(5), poll(18), poll(19)), sent(
        (9000, state(1, 0)), (19000, state(1, 1, 3000))))


def moments():
    """Moments of both versions at both ends."""
    for version, digits, unit in (([], 15, 1000), ([b"V2"], 18, 1)):
        start, greatest = [*version, *START], 10**digits - 1
        before = greatest - 10000 // unit
        yield Publishes(f"the greatest moment of {digits} digits", script(
            *start, change(before), poll(greatest - 1), poll(greatest), change(greatest), poll(0)), sent(
            (before * unit, state(1, 0)), (greatest * unit, state(1, 1, 3000)), (greatest * unit, state(2, 0))))
        zeros = change(0).replace(b"change,0", b"change," + b"0" * digits)
        yield Publishes(f"a moment of zeros in {digits} digits", script(*start, zeros), sent((0, state(1, 0))))


def numbers():
    """Status and sequence numbers of each size, and what comes behind the greatest status number."""
    for before in (126, 127, 128, 255, 32767, 8388607, 2**31 - 1, GREATEST - 2, GREATEST - 1, GREATEST):
        states = [(before + at - 1) % GREATEST + 1 for at in range(3)]
        yield Publishes(f"states from {before} on", script(
            control(first=b"%d" % before), START[1], change(0), change(1), change(2), poll(12)), sent(
            *[(1000 * at, state(st, 0)) for at, st in enumerate(states)], (12000, state(states[-1], 1))))
    count = 33000
    yield Case("sequence numbers up to three octets", ["publish"], script(
        control(), step(1, 2), change(0), *map(poll, range(1, count))), sent(
        *[(1000 * sq, state(1, sq, 2)) for sq in range(count)]))


def first_of(name, frame, members=b"8301ff", t=b"0" * 16, **fields):
    """The first frame of a script whose `control` line has other fields, or whose change says something else."""
    return Publishes(name, script(control(**fields), START[1], change(0, members, t)), sent((0, frame)))


def tagged(frame, tag):
    """An untagged frame with this control information."""
    return frame[:12] + b"\x81\0" + bytes.fromhex(tag.decode()) + frame[12:]


def envelopes():
    """Addresses, tags, APPIDs and flags."""
    plain = state(1, 0)
    yield first_of("no tag", plain)
    addresses = b"\xff" * 6 + bytes.fromhex("abcdef000000")
    yield first_of("addresses", addresses + plain[12:], destination=b"f" * 12, source=b"aBcDeF000000")
    for tag in (b"0000", b"8004", b"ffff", b"aBcD"):
        yield first_of(f"a tag {tag.decode()}", tagged(plain, tag), tag=tag)
    for app_id in (b"0000", b"3FFF", b"ffff"):
        yield first_of(f"APPID {app_id.decode()}", plain[:14] + bytes.fromhex(app_id.decode()) + plain[16:], app_id=app_id)
    yield first_of("simulation", put(state(1, 0, simulation=True), at18=0x80), simulation=b"1")
    yield first_of("ndsCom", state(1, 0, nds_com=flag(0x89, True)), nds_com=b"1")
    both = put(state(1, 0, simulation=True, nds_com=flag(0x89, True)), at18=0x80)
    yield first_of("simulation and ndsCom, with a tag", tagged(both, b"8004"), simulation=b"1", nds_com=b"1", tag=b"8004")


def fields():
    """Texts, numbers and times of change at both ends."""
    letters = bytes(letter for letter in range(0x20, 0x7F) if letter not in b",")
    for name, identifier in (("gocb_ref", 0x80), ("dat_set", 0x82), ("go_id", 0x83)):
        for it in (b"", b"#", b" ", b' "\\~;', letters, b"x" * 127, b"x" * 128, b"x" * 256):
            written = element(identifier, it) if it or name != "go_id" else b""
            yield first_of(f"{name} of {len(it)}: {it[:5]!r}", state(1, 0, **{name: written}), **{name: it})
    absent = {"gocb_ref": element(0x80, b""), "dat_set": element(0x82, b""), "go_id": b"\x83\1I"}
    yield first_of("no text but goID", state(1, 0, **absent), gocb_ref=b"", dat_set=b"", go_id=b"I")
    for it in (0, 1, 127, 128, 65535, GREATEST):
        yield first_of(f"confRev {it}", state(1, 0, conf_rev=number(0x88, it)), conf_rev=b"%d" % it)
    ten = {name: b"0000000001" for name in ("conf_rev", "entries", "first")}
    yield first_of("numbers in ten digits", state(1, 0), **ten)
    yield Publishes("steps in ten digits", script(control(), b"step,0000000010,0000002000", change(0), poll(9), poll(10)), sent(
        (0, state(1, 0)), (10000, state(1, 1))))
    for t in (b"f" * 16, b"6553F1018000000a"):
        yield first_of(f"T {t.decode()}", state(1, 0, t=element(0x84, bytes.fromhex(t.decode()))), t=t)


# Members: how many, an encoding, and the canonical one where that is another.
MEMBERS = {
    "none": (0, ""),
    "a boolean of one": (1, "830101", "8301ff"),
    "upper case": (1, "8A024a4B"),
    "lengths of each form": (4, "838101ff 83820001ff 8383000001ff 838400000001ff", "8301ff 8301ff 8301ff 8301ff"),
    "integers": (4, "85050000000001 8502007f 85020080 8505ffffffffff", "850101 85017f 85020080 8501ff"),
    "unsigned numbers": (3, "86050000000000 860900ffffffffffffffff 86020080", "860100 860900ffffffffffffffff 86020080"),
    "unused bits": (3, "840207ff 840100 8403037fff", "84020780 840100 8403037ff8"),
    "an array in a structure": (1, "a2810d a18400000003830101 8502007f", "a208 a1038301ff 85017f"),
    "empty arrays and structures": (3, "a18100 a200 a105a28100a200", "a100 a200 a104a200a200"),
    "every other kind": (7, "87050800000000 8900 8a00 8c0400000000 8c06000000000000 9002ffff 91086553f1000000000a"),
    "sixteen levels": (1, "".join(f"a1{size:02x}" for size in range(31, 1, -2)) + "8301ff"),
    "strings of 127 and 128": (2, "897f" + "00" * 127 + "898180" + "00" * 128),
    "strings of 255 and 256": (2, "8981ff" + "00" * 255 + "89820100" + "00" * 256),
    "257 booleans": (257, "8301ff" * 257),
}


def members():
    """Members in any encoding are sent in the canonical one."""
    for name, (count, given, *canonical) in MEMBERS.items():
        inside = bytes.fromhex(canonical[0] if canonical else given)
        frame = state(1, 0, entries=number(0x8A, count), members=element(0xAB, inside))
        yield first_of(f"members: {name}", frame, given.replace(" ", "").encode(), entries=b"%d" % count)
    given, start = b"838400000001ff" * 290 + b"83820001ff", [control(entries=b"291"), START[1]]
    line = change(0, given)
    assert len(line) == 4096
    frame = state(1, 0, entries=number(0x8A, 291), members=element(0xAB, BOOLEAN * 291))
    yield first_of("members: as many octets as a line holds", frame, given, entries=b"291")
    yield end_script("members: a line of a digit too many", start, line.replace(b"change,0", b"change,00"), "LineTooLong")
    yield end_script("members: a line of a CR too many", start, line + b"\r", "LineTooLong")


def of_string(size):
    """An octet string of zeros by its digits, of 256 octets or more."""
    return b"8982%04x" % size + b"00" * size


def of_state(st, size, live=2000):
    """The first frame of a state of such an octet string."""
    return state(st, 0, live, members=element(0xAB, bytes.fromhex(of_string(size).decode())))


def fits(name, size, lives, first=1, **fields):
    """The longest octet string that fits with these lifetimes, and one octet more, of which nothing is sent."""
    start = [control(first=b"%d" % first, **fields), *[step(1, live) for live in lives]]
    frame = of_state(first, size, lives[0])
    frame = tagged(frame, fields["tag"]) if fields else frame
    yield Publishes(f"the longest state: {name}", script(*start, change(0, of_string(size))), sent((0, frame)))
    yield end_script(f"an octet more: {name}", start, change(0, of_string(size + 1)), "WouldNotFit")


def longest():
    """A state fits where its longest retransmission has a Length of 1,500: beside an octet string of 1,438 octets and a
    lifetime of two octets, that is the one of sqNum 4294967295. The first frame, of 1,496, would fit with more."""
    assert int.from_bytes(of_state(1, 1438)[16:18], "big") == 1496
    yield from fits("a lifetime of two octets", 1438, [2000])
    yield from fits("a tag", 1438, [2000], tag=b"8004")
    yield from fits("the longest lifetime", 1435, [GREATEST])
    yield from fits("the shortest lifetime", 1439, [2])
    yield from fits("the longest lifetime before the last step", 1439, [GREATEST, 2])
    yield from fits("the longest lifetime in the last of sixteen steps", 1435, [2] * 15 + [GREATEST])
    yield from fits("the longest lifetime before the last of sixteen steps", 1439, [2] * 14 + [GREATEST, 2])
    yield from fits("the greatest status number", 1434, [2000], GREATEST)
    start = [control(first=b"127"), step(1, 2000), change(0, of_string(1438))]
    yield end_script("a status number that grows", start, start[-1], "WouldNotFit", (0, of_state(127, 1438)))
    start = [control(first=b"%d" % GREATEST), step(1, 2000), change(0, of_string(1434)), change(0, of_string(1438))]
    yield end_script("a status number that shrinks", start, change(0, of_string(1439)), "WouldNotFit",
                     (0, of_state(GREATEST, 1434)), (0, of_state(1, 1438)))
    for name in ("gocb_ref", "dat_set", "go_id"):
        start = [control(**{name: b"x" * 4000}), START[1], poll(0)]
        yield end_script(f"no state fits beside such a {name}", start, change(0), "WouldNotFit")
    for size in range(1425, 1450):
        for lives in ([2], [2, 200], [40000, 3], [GREATEST, 2, GREATEST]):
            start = [control(first=b"32766"), *[step(1, live) for live in lives]]
            calls = [*[change(at, of_string(size)) for at in range(4)], poll(9)]
            yield Publishes(f"an octet string of {size} with lifetimes {lives}", script(*start, *calls))


def line_ends():
    """CR, comments and empty lines, and how many lines there can be."""
    given, frames = [*START, change(0), poll(10)], sent((0, state(1, 0)), (10000, state(1, 1, 3000)))
    yield Publishes("CR and LF", script(*given, ending=b"\r\n"), frames)
    yield Publishes("CR and LF behind a version", b"V2\r\n" + script(*START, change(0), poll(10000), ending=b"\r\n"), frames)
    yield Publishes("a last CR without LF", script(*given)[:-1] + b"\r", frames)
    passed_over = [b"", b"\r", b"# x", b"#", b"#,\xff\0\r\t", b"#" * 4096, b"#" * 4095 + b"\r"]
    between = [it for line in given for it in (*passed_over, line)]
    yield Publishes("comments and empty lines", script(*between, *passed_over), frames)
    yield Publishes("a comment that is too long", script(*given, b"#" * 4096 + b"\r"), frames + b"# 6 script LineTooLong\n")
    yield Publishes("comments count as lines", script(b"# x", b"", *given, b"# x", b"X"), frames + b"# 9 script ScriptForm\n")
    for at, cause in enumerate(["ScriptForm", "ScriptForm", "ScriptForm", "Hex", "Moment"]):
        frames = [(0, state(1, 0))] * (at == 4)
        yield end_script(f"two CR behind line {at + 1}", given[:at], given[at] + b"\r\r", cause, *frames)
    million = script(*START) + b"\n" * (1000000 - len(START) - 1) + poll(0)
    yield Publishes("a million lines", million + b"\n", sent())
    yield Publishes("a line more than a million", million + b"\n\n", sent(fault="1000001 script ListTooLong"))


# ---- Every short script -----------------------------------------------------


class EachFive:
    """Every script of five calls, of which the program writes what the slow publisher writes. A call is a change to one boolean
    or the other, a poll at its moment, one a microsecond before, or one at 20 ms; call n comes at 10 ms times n."""

    name = "each script of five calls"

    def why_wrong(self, program):
        start = [b"V2", control(), step(10, 2000), step(20, 3000)]
        drawn = [[change(at), change(at, b"830100"), poll(at), poll(max(at - 1, 0)), poll(20000)] for at in range(0, 50000, 10000)]
        for calls in itertools.product(*drawn):
            why = Publishes("", script(*start, *calls)).why_wrong(program)
            if why:
                return [b" ".join(calls).decode(), *why]
        return []


# ---- By chance --------------------------------------------------------------


def digits_of(chance, octets):
    """Octets by their digits, of either case."""
    digits = octets.hex().encode()
    return chance.choice([digits, digits, digits.upper()])


def some_digits(chance, count):
    """So many octets by their digits."""
    return digits_of(chance, by_chance.some(chance, count))


def some_number(chance):
    """A number from 1 on by its digits, sometimes with zeros in front."""
    digits = b"%d" % max(1, by_chance.number(chance, 32))
    return chance.choice([digits, digits, digits, digits.rjust(10, b"0")])


def some_text(chance):
    """A visible text without commas."""
    return by_chance.text(chance, 60).replace(b",", b";")


def some_control(chance, entries):
    """A `control` line of any addresses, numbers, texts and flags."""
    return control(
        destination=some_digits(chance, 6),
        source=some_digits(chance, 6),
        tag=some_digits(chance, chance.choice([0, 2])),
        app_id=some_digits(chance, 2),
        gocb_ref=some_text(chance),
        dat_set=some_text(chance),
        go_id=chance.choice([b"", some_text(chance)]),
        conf_rev=chance.choice([b"0", some_number(chance)]),
        entries=b"%d" % entries,
        simulation=chance.choice([b"0", b"1"]),
        nds_com=chance.choice([b"0", b"1"]),
        first=chance.choice([b"1", b"%d" % (GREATEST - 1), some_number(chance)]),
    )


def some_step(chance):
    """A wait and a lifetime."""
    wait = chance.choice([1, 2, 4, 10, 127, 1000, chance.randrange(1, 5000), chance.randrange(1, GREATEST)])
    return wait, min(GREATEST, chance.choice([wait + 1, 2 * wait + 1, wait + 200, GREATEST]))


def some_member(chance):
    """A member of any kind and encoding, seldom a deep one, or one so long that a frame can be too long."""
    sort = chance.randrange(100)
    if sort == 0:
        return element(0x89, by_chance.some(chance, chance.randrange(1250, 1440)))
    return by_chance.nested(chance) if sort < 6 else by_chance.member(chance)


def some_change(chance, moment, entries):
    made = b"".join(some_member(chance) for _ in range(entries))
    return change(moment, digits_of(chance, made), some_digits(chance, 8))


def some_calls(chance, waits, entries, is_fine):
    """Changes and polls, many of them when a retransmission is due, or one unit of the version before or behind."""
    units, most = (1000, 10**18 - 1) if is_fine else (1, 10**15 - 1)
    moment, position, calls = chance.choice([0, 0, 5, most - 50 * units]), 0, []
    for _ in range(chance.randrange(1, 40)):
        wait = waits[min(position, len(waits) - 1)] * units
        moment += chance.choice([wait] * 6 + [wait - 1, wait + 1, 0, 1, -1, -wait, chance.randrange(3 * wait)])
        moment, position = min(max(moment, 0), most), position + 1
        if chance.random() < 0.25:
            calls.append(some_change(chance, moment, entries))
            position = 0
        else:
            calls.append(poll(moment))
    return calls


# Fields to stand in the place of others.
ODD = [b"", b"0", b"1", b"2", b"x", b"-1", b" ", b"00", b"0" * 11, b"4294967295", b"4294967296", b"1" * 15, b"1" * 16, b"1" * 19,
       b"010ccd010001", b"0" * 16, b"83", b"8301ff", b"8301ff8301ff", b"a1" * 17, b"G\x7f", of_string(1400), b"step", b"poll"]


def damaged(chance, line):
    """A line with a field more, less or another, or with an octet more, less or another in a field."""
    parts = line.split(b",")
    at = chance.randrange(len(parts))
    it, odd, octet = parts[at], chance.choice(ODD), bytes([chance.choice([*b"0189af,\r \xff"])])
    cut = chance.randrange(len(it) + 1)
    parts[at:at + 1] = chance.choice([
        [], [it, odd], [odd], [it[:cut] + octet + it[cut:]], [it[:cut] + it[cut + 1:]], [it[:cut] + octet + it[cut + 1:]]])
    return b",".join(parts)


def with_damage(chance, lines):
    """Lines of which one is damaged, left out, twice there or in another place. Half the time it is a change, if there is one."""
    changes = [at for at, line in enumerate(lines) if line.startswith(b"change")]
    places = chance.choice([range(len(lines)), changes or range(len(lines))])
    at, to, sort = chance.choice(places), chance.randrange(len(lines)), chance.randrange(8)
    before, line, behind = lines[:at], lines[at], lines[at + 1:]
    if sort > 2:
        return [*before, damaged(chance, line), *behind]
    rest = [*lines] if sort == 1 else [*before, *behind]
    return rest[:to] + [line] * (sort > 0) + rest[to:]


def some_script(chance):
    """A script of either version with comments and empty lines. One in four has damage."""
    is_fine, entries = chance.choice([False, True]), chance.choice([0, 1, 1, 2, 3, 6])
    table = [some_step(chance) for _ in range(chance.choice([1, 1, 2, 3, 4, 15, 16]))]
    calls = some_calls(chance, [wait for wait, _ in table], entries, is_fine)
    lines = [some_control(chance, entries), *[step(*times) for times in table], *calls]
    lines = with_damage(chance, lines) if chance.random() < 0.25 else lines
    lines = [it for line in lines for it in [chance.choice([b"", b"# x", b"#,\xff"])] * (chance.random() < 0.1) + [line]]
    octets = script(*[b"V2"] * is_fine, *lines, ending=chance.choice([b"\n", b"\n", b"\r\n"]))
    return octets[:-1] if chance.random() < 0.2 else octets


def cases():
    for made in (retransmissions, ends_of_waits, steps, moments_that_go_back, moments, numbers):
        yield from made()
    for made in (envelopes, fields, members, longest, line_ends):
        yield from made()
    yield EachFive()
    chance = random.Random(SEED)
    for at in range(400):
        yield Publishes(f"a script by chance, {at}", some_script(chance))
