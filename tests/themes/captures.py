"""Captures as they are: `show`, `check`, `blocks`, `replay` and `watch` with --capture, over captures of both forms, beside the
slow programs: worked ones, broken ones, each of their octets changed, by chance, beside `import`, and beside other tools."""
import functools
import json
import os
import pathlib
import random
import shutil
import subprocess
import tempfile

from helpers.capture_parts import (block, custom, fours, header, interface, names, offset, old_packet, option, packet, padded, record,
                                   resolution, section, simple_packet, statistics, twos)
from helpers.captured import ASKED, EachOf, Read, asking, before_the_end, capturing, why_wrong_of
from helpers.frames import SAMPLED, WORKED, put
from helpers.harness import SECONDS, Case, Skipped, first_difference, run, text
from oracles import packets
from oracles.captures import MICROSECONDS, NANOSECONDS
from oracles.packets import LAST_MOMENT, LONGEST_BLOCK, MOST_CAPTURED, MOST_INTERFACES
from themes.replaying import state
from themes.watching import asdu, sampled

SEED = 2004
ORDERS = ("little", "big")
MAGICS = (MICROSECONDS, NANOSECONDS)
EXAMPLES = pathlib.Path(__file__).resolve().parent.parent.parent / "examples"
ARP = bytes.fromhex("ffffffffffff 020000000001 0806") + bytes(46)

# What two bays might send: states and retransmissions, samples, other protocols, a frame with an error, one of no octets and one
# that is too long, each so many microseconds after the one before.
EVENTS = [(0, state(1, 0)), (700, ARP), (4000, state(1, 1)), (100, sampled(asdu(3999))), (100, b""), (200, sampled(asdu(0), asdu(2))),
          (2100000, state(2, 0)), (50, put(WORKED, at46=0xFF)), (0, bytes(1601)), (100000, state(1, 2)), (1, SAMPLED[:40]), (900, WORKED)]


def moments():
    """The same with their times, from a day in 2023 on."""
    moment = 1_700_000_000_000_000
    for step, octets in EVENTS:
        moment += step
        yield moment, octets


def classic(order="little", magic=MICROSECONDS, events=None):
    """These events as a classic capture."""
    factor = 1000 if magic == NANOSECONDS else 1
    return header(order, magic) + b"".join(
        record(moment // 10**6, moment % 10**6 * factor + factor // 2, octets, order) for moment, octets in events or moments())


def blocks(order="little"):
    """These events as a section of three interfaces, with blocks of other types between them."""
    start = section(order) + interface(order) + interface(order, options=resolution(9, order) + option(2, b"eth1", order)) + interface(
        order, options=resolution(0x8A, order) + offset(1_600_000_000, order))
    made = [start]
    for at, (moment, octets) in enumerate(moments()):
        ticks = [moment, moment * 1000 + 999, -(-(moment - 1_600_000_000 * 10**6) * 1024 // 10**6)][at % 3]
        made += [packet(ticks, octets, order, at % 3, options=[b"", option(2, fours(order, 1), order)][at % 2])]
        made += [[], [names(order)], [custom(order, 4 * at)], [statistics(order), block(0x0BAD + at, b"", order)]][at % 4]
    return b"".join(made)


# ---- Worked captures ---------------------------------------------------------


def worked():
    for order in ORDERS:
        for magic in MAGICS:
            yield Read(f"classic, {order} endian, magic {magic:08x}", classic(order, magic))
        yield Read(f"pcapng, {order} endian", blocks(order))
        yield Read(f"pcapng, {order} endian, then the other order, then no packet", blocks(order) + blocks(
            "big" if order == "little" else "little") + section(order))
    for name in ("two_frames.pcap", "two_frames.pcapng", "two_bays.pcapng"):
        file = EXAMPLES / name
        if file.is_file():
            yield Read(f"the example {name}", file.read_bytes())
    yield Read("no octets", b"")
    for head in (b"\x0a", b"\x0a\x0d\x0d", b"\xd4\xc3\xb2", b"F 0", b"\x1f\x8b", b"abcd", b"V2\n#", bytes(24)):
        yield Read(f"the octets {head.hex()}", head)
    for size in (1, 2000, 2001, 65535, MOST_CAPTURED):
        octets = b"\x5a" * size
        yield Read(f"a record of {size} octets", header() + record(5, 6, octets) + record(7, 8, WORKED))
        yield Read(f"a packet of {size} octets", section() + interface() + packet(5, octets) + old_packet(6, octets) + packet(7, WORKED))
    for size in (MOST_CAPTURED + 1, 2**31, 2**32 - 1):
        yield Read(f"a record that says {size} octets", header() + record(1, 2, WORKED) + record(5, 6, b"", captured=size))
        for kind, made in (("a packet", packet), ("an obsolete packet", old_packet)):
            yield Read(f"{kind} that says {size} octets", section() + interface() + packet(1, WORKED) + made(2, WORKED, captured=size))
        yield Read(f"a simple packet that says {size} octets", section() + interface() + simple_packet(WORKED, original=size))
    yield Read("another version", header(version=(2, 3)) + record(0, 0, WORKED))
    for link in (0, 101, 105, 113, 127, 276, 0x10001, 0xFFFF0001, 0x10000):
        yield Read(f"a classic capture of link type {link}", header(link=link) + record(0, 0, WORKED))
    yield Case("a block that is given twice: nothing is read", ["replay", "--capture", "0001,G,D,,1,1", "0001,G,D,,1,1"], b"abcd",
               b"blocks SameBlockTwice 1\n", 3)


def sections():
    """Interfaces, their units and offsets, and sections in other orders."""
    start = section() + interface()
    yield Read("a section without interfaces", section() + packet(1, WORKED))
    yield Read("the interfaces of a section are its own", start + packet(1, WORKED) + section() + packet(2, WORKED))
    yield Read("a later section has other units", start + packet(10**6, WORKED) + section("big") + interface(
        "big", options=resolution(3, "big")) + packet(5000, b"", "big") + packet(3000, state(9, 9), "big"))
    yield Read("an interface after a packet of it", section() + packet(1, WORKED) + interface())
    yield Read("an interface that comes between packets", start + packet(1, b"") + interface(options=resolution(0)) + packet(
        7, b"", which=1) + packet(8, b"", which=0) + packet(9, b"", which=2))
    other = section() + interface(link=113) + interface() + packet(10**6, WORKED) + packet(2 * 10**6, WORKED, which=1) + old_packet(
        3 * 10**6, WORKED) + packet(5 * 10**6, b"", which=1)
    yield Read("packets of another link type tell that time has passed", other)
    yield Read("the link type has 16 bits, and what is reserved is not looked at", section() + block(
        1, twos("little", 1, 0xFFFF) + fours("little", 0)) + packet(3, WORKED))
    for version in ((0, 0), (1, 7), (2, 0), (256, 0)):
        yield Read(f"version {version} in the first section", section(version=version) + interface() + packet(1, WORKED))
        yield Read(f"version {version} in a later section", start + packet(1, b"") + section(version=version) + interface() + packet(1, WORKED))
    for mark in (0, 0x1A2B3C4E, 0x4D3C2B1A, 0x2B1A4D3C):
        yield Read(f"the byte-order magic {mark:08x}", section(mark=mark) + interface() + packet(1, WORKED))
        yield Read(f"the byte-order magic {mark:08x} in a later section", start + packet(1, b"") + section(mark=mark) + interface() + packet(1, b""))
    yield Read("a section length that lies, and options", start[:16] + fours("little", 1, 0) + start[24:] + packet(1, WORKED))
    yield Read("options of a section", section(options=option(3, b"Linux") + option(4, b"dumpcap") + bytes(4)) + interface() + packet(1, WORKED))
    yield Read("a first block of another type", custom() + start + packet(1, WORKED))


def times():
    """Units of packets' times: powers of ten and of two, offsets of either sign, and the most ticks."""
    moment = 1_700_000_000_123_456
    for r in (0, 1, 3, 6, 7, 9, 12, 18, 19, 20, 26, 38, 39, 64, 100, 127, 0x80, 0x81, 0x94, 0xA0, 0xBF, 0xC0, 0xC1, 0xFE, 0xFF):
        units = 10**r if r < 128 else 2**(r - 128)
        made = [section() + interface(options=resolution(r))]
        for ticks in sorted({0, 1, 999, units - 1, units, units + 1, moment * units // 10**6, -(-(moment * units) // 10**6), 2**32 - 1,
                             2**32, 2**63, 2**64 - 1}):
            if ticks < 2**64 and ticks * 10**6 // units <= LAST_MOMENT:
                made.append(packet(ticks, b""))
        made.append(packet(2**64 - 1, WORKED))
        yield Read(f"the resolution {r:02x}", b"".join(made))
    for ticks in (LAST_MOMENT, LAST_MOMENT + 1, 2**63, 2**64 - 1):
        yield Read(f"{ticks} microseconds", section() + interface() + packet(ticks, b"") + packet(1, b""))
    for seconds in (0, 1, -1, 86400, -86400, 10**11, 999_999_999_999, 10**12, 2**63 - 1, -2**63, -10**12):
        for ticks in (0, 999_999, 10**6, 86_400_000_000, LAST_MOMENT):
            yield Read(f"an offset of {seconds} s, and {ticks} microseconds", section() + interface(options=offset(seconds)) + packet(
                ticks, WORKED) + packet(10**6, b""))
        yield Read(f"an offset of {seconds} s, and the most ticks, of which one is a second", section() + interface(
            options=offset(seconds) + resolution(0)) + packet(2**64 - 1, b"") + packet(0, b""))
    for seconds in (-1, -2, 1):
        sixty = section() + interface(options=resolution(0x85) + offset(seconds))
        yield Read(f"an offset of {seconds} s, where a second has 32 ticks", sixty + packet(31, b"") + packet(63, b"") + packet(32, b""))
    yield Read("times that go back", section() + interface() + packet(5 * 10**6, WORKED) + packet(10**6, state(1, 1)) + packet(
        6 * 10**6, state(1, 2)) + packet(9 * 10**6, b""))


def options():
    """Options of interfaces: of several of one code the last counts, and none reaches past its block."""
    for name, made in (
        ("none", b""), ("the end alone", option(0, b"")), ("what follows the end", option(0, b"") + resolution(0) + b"\xff" * 8),
        ("an end that has octets", option(0, b"1234") + resolution(0)), ("other codes", option(2, b"eth0") + option(3, b"x" * 5) + resolution(3)),
        ("two resolutions", resolution(3) + resolution(9)), ("two offsets", offset(-10**9) + offset(5)),
        ("a resolution behind an offset", offset(7) + resolution(3)), ("no end", resolution(3) + offset(1)),
        ("a resolution of no octets", option(9, b"")), ("a resolution of 2 octets", option(9, b"\3\0")),
        ("a resolution of 2 octets, and a right one", option(9, b"\3\0") + resolution(3)),
        ("an offset of 4 octets", option(14, bytes(4))), ("an offset of 9 octets", option(14, bytes(9))),
        ("an option that reaches out", option(2, b"eth0", size=5)), ("one that reaches out by 64 KiB", option(2, b"eth0", size=65535)),
        ("a padding that is not there", option(2, b"eth0eth", size=9)), ("one that ends with the block", option(2, b"eth0eth", size=8)),
        ("a right one, and one that reaches out", resolution(3) + option(2, b"", size=1)),
        ("an end, and one that reaches out", option(0, b"") + option(2, b"", size=1)),
    ):
        yield Read(f"the options of an interface: {name}", section() + interface(options=made) + packet(4000, WORKED) + packet(9000, b""))
    for size in range(0, 12):
        yield Read(f"an interface of {size} octets", section() + block(1, (twos("little", 1, 0) + bytes(8))[:size] + bytes(-size % 4)) + packet(1, b""))
    for rest in range(1, 4):
        body = twos("little", 1, 0) + fours("little", 0) + option(9, b"\3")
        yield Read(f"an interface whose block ends {rest} octets behind an option", section() + block(1, body + bytes(rest), total=12 + len(
            body) + rest) + packet(1, b""))


def packet_blocks():
    """The three kinds of packets, and what is passed over."""
    start = section() + interface()
    for made, name, kind in ((packet, "a packet", 6), (old_packet, "an obsolete packet", 2)):
        yield Read(f"{name} of an unknown interface", start + made(1, WORKED) + made(2, WORKED, which=1))
        for size in range(0, 24, 4):
            yield Read(f"{name} of {size} octets", start + packet(1, b"") + block(kind, bytes(size)))
        for captured in (0, 1, 64, 66, 67, 68, 69, 72, 73):
            yield Read(f"{name} that says {captured} octets of 67", start + made(1, WORKED, captured=captured))
        yield Read(f"{name} whose octets reach out is judged before its time", start + made(2**64 - 1, WORKED, captured=69))
        yield Read(f"{name} whose size is judged before its octets", start + made(2**64 - 1, WORKED, captured=MOST_CAPTURED + 1))
    yield Read("an unknown interface is judged first", start + packet(2**64 - 1, WORKED, which=1, captured=2**32 - 1))
    yield Read("the original length is not looked at", start + packet(1, WORKED, original=0) + packet(2, WORKED, original=2**32 - 1))
    yield Read("drops are not looked at", start + old_packet(1, WORKED, drops=65535) + old_packet(2, WORKED))
    for size in range(64, 69):
        yield Read(f"padding behind {size} octets", start + packet(1, (WORKED + b"\xff")[:size]) + packet(2, WORKED))
    for snapshot in (0, 1, 64, 66, 67, 68, 65535):
        simple = section() + interface(snapshot=snapshot)
        yield Read(f"simple packets, of at most {snapshot} octets", simple + packet(7, b"") + simple_packet(WORKED) + simple_packet(
            b"") + simple_packet(WORKED, original=1500) + packet(9, WORKED))
    yield Read("a simple packet before another has time 0", start + simple_packet(b"") + packet(9, b"") + simple_packet(b"") + simple_packet(WORKED))
    yield Read("a simple packet has the time before it, of any interface and section", start + interface() + packet(8, b"") + packet(
        5, b"", which=1) + simple_packet(b"") + section("big") + interface("big") + simple_packet(b"", "big"))
    yield Read("a simple packet before an interface", section() + simple_packet(WORKED))
    yield Read("a simple packet of no body", start + packet(1, WORKED) + block(3, b""))
    yield Read("a simple packet of another link type", section() + interface(link=105) + simple_packet(WORKED))
    kinds = (0, 4, 5, 7, 8, 9, 10, 11, 0x0BAD, 0x40000BAD, 0x0A0D0D00, 0x80000001, 2**32 - 1)
    others = b"".join(block(kind, bytes(4 * at)) for at, kind in enumerate(kinds))
    yield Read("blocks of other types have no number", start + others + packet(1, WORKED) + others + names() + statistics() + custom() + packet(2, SAMPLED))
    yield Read("a long block of another type", start + custom(size=10**6) + packet(1, WORKED))
    yield Read("the longest block of another type", start + custom(size=LONGEST_BLOCK - 16) + packet(1, WORKED))


def totals():
    """Lengths of blocks that lie."""
    start = section() + interface() + packet(1, WORKED)
    for total in (0, 1, 4, 8, 11, 13, 14, 99, 101, 103, 104, 96, LONGEST_BLOCK - 4, LONGEST_BLOCK, LONGEST_BLOCK + 4, 2**31, 2**32 - 4, 2**32 - 1):
        yield Read(f"a packet whose block says {total}", start + packet(2, WORKED, total=total) + packet(3, WORKED))
        yield Read(f"a packet whose block says {total} behind it", start + packet(2, WORKED, after=total) + packet(3, WORKED))
        yield Read(f"another block that says {total}", start + custom(size=84)[:4] + fours("little", total) + custom(size=84)[8:] + packet(3, WORKED))
        yield Read(f"a first section that says {total}", section(total=total) + start[28:])
        yield Read(f"a later section that says {total}", start + section(total=total) + interface())
        yield Read(f"a later section that says {total} behind it", start + section(after=total) + interface())
    for total in (12, 16, 24):
        yield Read(f"a section of {total} octets", start + section()[:4] + fours("little", total) + section()[8:total - 4] + fours("little", total))
    yield Read("a length in the other order", start + packet(2, WORKED)[:4] + packet(2, WORKED)[4:8][::-1] + packet(2, WORKED)[8:])
    yield Read("the end of a block is judged before its body", start + packet(2, WORKED, which=1, after=96))
    yield Read("the end of a section is judged before its version", start + section(version=(9, 9), after=32))
    yield Read("the order of a section is judged before its length", start + section(mark=0, total=3))
    yield Read("a length over the limit is judged before the body comes", start + fours("little", 6, LONGEST_BLOCK + 4))


def many_interfaces():
    """65,536 interfaces, and one more."""
    plain, last = interface(), interface(options=resolution(3))
    most = section() + plain * (MOST_INTERFACES - 1) + last
    shown = [capturing("show"), capturing("replay")]
    yield Read("65,536 interfaces", most + packet(5, WORKED, which=MOST_INTERFACES - 1) + packet(7, b"", which=0) + old_packet(
        9, b"", which=MOST_INTERFACES - 1) + packet(5, b"", which=MOST_INTERFACES), *shown)
    yield Read("65,537 interfaces", most + packet(5, WORKED) + plain + packet(6, WORKED), *shown)
    yield Read("65,536 interfaces in two sections each", most + most + packet(1, WORKED), *shown)


# ---- Damage ------------------------------------------------------------------


def short_classic(order="little", magic=MICROSECONDS):
    """A short capture whose octets all matter."""
    return header(order, magic) + record(1, 2, put(WORKED, at66=1), order) + record(3, 4, b"", order) + record(9, 8, SAMPLED[:13], order)


def short_blocks(order="little"):
    """The same in pcapng, in two sections, with a block of each type."""
    other = "big" if order == "little" else "little"
    frame = WORKED[:15]
    return b"".join((section(order, options=option(4, b"x", order)), interface(order, options=resolution(3, order) + offset(5, order) + bytes(4)),
                     interface(order, link=113), packet(7, frame, order), names(order), packet(8, frame, order, which=1),
                     old_packet(2000, frame, order), custom(order), simple_packet(frame, order), section(other),
                     interface(other, snapshot=12), statistics(other), simple_packet(frame, other, original=15), packet(9, frame, other)))


FORMS = {
    **{f"classic, {order} endian, magic {magic:08x}": functools.partial(short_classic, order, magic) for order in ORDERS for magic in MAGICS},
    **{f"pcapng, {order} endian": functools.partial(short_blocks, order) for order in ORDERS},
}


def cuts(made):
    octets = made()
    return ((f"cut to {size}", octets[:size]) for size in range(len(octets) + 1))


def changed(made):
    """Each octet with a few other values."""
    octets, chance = made(), random.Random(SEED)
    for at, octet in enumerate(octets):
        for value in sorted({octet ^ 1, octet ^ 0x80, 0, 0xFF, chance.randrange(256)} - {octet}):
            yield f"octet {at} as {value:02x}", octets[:at] + bytes([value]) + octets[at + 1:]


def moved(made):
    """Octets left out or put in."""
    octets, chance = made(), random.Random(SEED)
    for _ in range(200):
        at, size = chance.randrange(len(octets)), chance.choice([1, 2, 3, 4, 4, 8, 12, 16])
        yield f"without {size} octets at {at}", octets[:at] + octets[at + size:]
        yield f"with {size} more octets at {at}", octets[:at] + chance.choice([bytes(size), octets[at:at + size], b"\xff" * size]) + octets[at:]


def some_options(chance, order):
    """Options of an interface, mostly without a fault."""
    made = [resolution(chance.choice([0, 3, 6, 9, 9, 0x80, 0x8A, 0x94, 0xBF, chance.randrange(256)]), order),
            offset(chance.choice([0, 1, 1_700_000_000, -1, chance.randrange(-2**63, 2**63)]), order),
            option(chance.choice([1, 2, 3, 4, 8, 11, 12]), bytes(chance.randrange(9)), order), option(0, b"", order)]
    found = b"".join(chance.choice(made) for _ in range(chance.randrange(4)))
    return found + (option(2, b"", order, size=chance.randrange(9)) if chance.random() < 0.02 else b"")


def some_packet(chance, order, count):
    """A packet block of one of so many interfaces, mostly without a fault."""
    octets = chance.choice([WORKED, SAMPLED, ARP, b"", state(chance.randrange(1, 4), chance.randrange(3)), sampled(asdu(chance.randrange(5)))])
    which = chance.randrange(count + 1) if chance.random() < 0.03 else chance.randrange(max(count, 1))
    ticks = chance.choice([0, chance.randrange(10**7), chance.randrange(10**7), 1_700_000_000_000_000 + chance.randrange(10**7),
                           chance.randrange(2**64)] if chance.random() < 0.2 else [chance.randrange(10**7)])
    captured = chance.choice([0, len(octets) + 1, 262144, 2**32 - 1]) if chance.random() < 0.03 else None
    sort = chance.randrange(4)
    if sort == 3:
        return simple_packet(octets, order, original=captured)
    return [packet, packet, old_packet][sort](ticks, octets, order, which=which, captured=captured)


def some_blocks(chance):
    """A capture in pcapng of a few sections, mostly with a fault somewhere."""
    made = []
    for _ in range(chance.choice([1, 1, 2, 3])):
        order, count = chance.choice(ORDERS), chance.choice([1, 1, 2, 3, 0])
        made.append(section(order, version=(1, chance.choice([0, 0, 2])), options=chance.choice([b"", option(4, b"dumpcap", order)])))
        made += [interface(order, chance.choice([1, 1, 1, 113]), chance.choice([0, 0, 65535, 60]), some_options(chance, order)) for _ in range(count)]
        for _ in range(chance.randrange(9)):
            sort = chance.randrange(8)
            made.append(some_packet(chance, order, count) if sort < 6 else chance.choice([names, statistics, custom])(order))
    return damaged(chance, b"".join(made))


def some_records(chance):
    """A classic capture, mostly with a fault somewhere."""
    order, magic = chance.choice(ORDERS), chance.choice(MAGICS)
    octets = header(order, magic, link=chance.choice([1] * 9 + [113]))
    for _ in range(chance.randrange(9)):
        made = chance.choice([WORKED, SAMPLED, ARP, b"", state(chance.randrange(1, 4), chance.randrange(3)), bytes(2001)])
        octets += record(chance.randrange(9), chance.choice([0, 999, 999_999_999, 2**32 - 1]), made, order,
                         chance.choice([262145, 2**32 - 1]) if chance.random() < 0.02 else None)
    return damaged(chance, octets)


def damaged(chance, octets):
    """Octets, sometimes cut or with another octet."""
    sort = chance.randrange(4)
    if sort == 0:
        return octets[:chance.randrange(len(octets) + 1)]
    if sort == 1:
        at = chance.randrange(len(octets))
        return octets[:at] + bytes([chance.randrange(256)]) + octets[at + 1:]
    return octets


def by_chance(made, count):
    chance = random.Random(SEED)
    return ((f"capture {at}", made(chance)) for at in range(count))


def broken():
    for form, made in FORMS.items():
        yield EachOf(f"{form}: cut at each octet", functools.partial(cuts, made), "--capture")
        yield EachOf(f"{form}: each octet changed", functools.partial(changed, made), "--capture")
    for order in ORDERS:
        yield EachOf(f"pcapng, {order} endian: octets left out and put in", functools.partial(moved, functools.partial(short_blocks, order)), "--capture")
    yield EachOf("classic captures by chance", functools.partial(by_chance, some_records, 400), "--capture")
    yield EachOf("captures in pcapng by chance", functools.partial(by_chance, some_blocks, 1200), "--capture")


# ---- Beside `import` ---------------------------------------------------------


class AsImported:
    """A classic capture whose records a list can hold: a command writes of it what it writes of the list that `import` makes, with
    numbers that are one less, and stops by the error that `import` tells."""

    def __init__(self, name, octets, commands=tuple(ASKED)):
        self.name, self.octets, self.commands = f"as imported: {name}", octets, commands

    def why_wrong(self, program):
        listed, _, ended = run(program, ["import"], self.octets)
        why = [] if ended in (0, 3) else [f"import ended with status {ended}"]
        error = listed.splitlines(keepends=True)[-1].removeprefix(b"# ") if ended == 3 else b""
        for command in self.commands:
            of_list, _, wanted = run(program, asking(command), listed)
            of_capture, _, status = run(program, capturing(command), self.octets)
            told = of_list.decode().splitlines()
            lines = [it.split(" ", 1) for it in (before_the_end(told) if error else told)]
            renumbered = text(f"{int(number) - 1 if number.isdigit() else number} {rest}" for number, rest in lines)
            difference = first_difference(renumbered + error, of_capture)
            why += [f"{command}: {difference}"] if difference else []
            why += [f"{command} ended with status {status}, and not {ended or wanted}"] if status != (ended or wanted) else []
        return why


def as_imported():
    for order in ORDERS:
        for magic in MAGICS:
            octets = header(order, magic) + b"".join(record(at, at * 77, octets, order) for at, (_, octets) in enumerate(EVENTS) if octets)
            yield AsImported(f"{order} endian, magic {magic:08x}", octets)
    good = header() + record(1, 2, WORKED) + record(2, 3, ARP)
    for name, more in (("cut in a record", record(4, 5, WORKED)[:-1]), ("cut before a record", bytes(15)),
                       ("with a length that is too great", record(4, 5, b"", captured=262145))):
        yield AsImported(name, good + more)
    yield AsImported("with another version", header(version=(1, 0)) + record(1, 2, WORKED))
    chance = random.Random(SEED)
    for at in range(10):
        yield AsImported(f"by chance, {at}", header() + b"".join(
            record(moment // 500, chance.randrange(10**6), chance.choice([state(chance.randrange(1, 5), chance.randrange(5)), ARP, bytes(
                chance.randrange(1, 2001)), sampled(asdu(chance.randrange(4)))])) for moment in range(500)))
    yield AsImported("999,999 records", header() + record(1, 2, b"\1") * 999_998 + record(9, 9, WORKED), ("check", "blocks", "replay"))


# ---- Beside other tools ------------------------------------------------------


def told_by_tshark(tshark, file):
    """The packets of a capture as events, as `tshark` tells their numbers, times and octets. It numbers custom blocks too, which have
    no time."""
    def ask(*words):
        return subprocess.run([tshark, "-n", "-r", file, *words], stdin=subprocess.DEVNULL, stdout=subprocess.PIPE, stderr=subprocess.PIPE,
                              timeout=SECONDS, env={**os.environ, "HOME": str(file.parent), "XDG_CONFIG_HOME": str(file.parent)}, check=True).stdout
    fields = ["frame.number", "frame.time_epoch", "frame.encap_type", "frame.cap_len"]
    rows = [line.split("\t") for line in ask("-T", "fields", *[it for name in fields for it in ("-e", name)]).decode().splitlines()]
    raw = [it["_source"]["layers"].get("frame_raw") for it in json.loads(ask("-T", "jsonraw", "-J", "frame"))]
    others = 0
    for (number, time, link, size), held in zip(rows, raw, strict=True):
        if not time:
            others += 1
            continue
        seconds, _, fraction = time.partition(".")
        moment, octets = int(seconds) * 10**6 + int(f"{fraction:<06}"[:6]), bytes.fromhex(held[0]) if int(size) else b""
        is_frame = octets and int(link) == 1
        yield int(number) - others, ("frame", moment, octets) if is_frame else ("clock", moment, None)


class BesideTools:
    """A capture that other tools made of one that is given: of its packets `tshark` tells the numbers, times and octets that the slow
    reader finds, and the program writes what the slow programs write of these events. With --skip-other lines tell times too."""

    def __init__(self, name, steps, **given):
        self.name, self.steps, self.given = f"beside other tools: {name}", steps, given

    def why_wrong(self, program):
        tools = {name: shutil.which(name) for name in {"tshark", *(step[0] for step in self.steps)}}
        missing = [name for name, path in tools.items() if not path]
        if missing:
            raise Skipped(f"there is no {' and no '.join(sorted(missing))}: run tests/get_tools")
        with tempfile.TemporaryDirectory() as folder:
            place = pathlib.Path(folder)
            for name, octets in self.given.items():
                (place / name).write_bytes(octets)
            for tool, *words in self.steps:
                given = self.given["frames"] if "-" in words else b""
                made = subprocess.run([tools[tool], *words], cwd=place, input=given, stdout=subprocess.PIPE,
                                      stderr=subprocess.STDOUT, timeout=SECONDS)
                if made.returncode:
                    return [f"{tool}: {made.stdout!r}"]
            octets = (place / "made").read_bytes()
            told = list(told_by_tshark(tools["tshark"], place / "made"))
        found = list(packets.events(octets))
        why = [f"tshark tells {len(told)} packets, and the slow reader {len(found)}"] if len(told) != len(found) else []
        why += [f"tshark says {b}, and the slow reader {a}" for a, b in zip(found, told) if a != b][:2]
        for command in ASKED:
            for more in ((), ("--skip-other",)):
                why += why_wrong_of(program, capturing(command, *more), octets, lambda *_: iter(told))
        return why + ([] if told else ["there is no packet"])


def beside_tools():
    first, second = classic(), classic("big", NANOSECONDS)
    dump = "".join(f"{moment // 10**6}.{moment % 10**6:06}\n000000 {octets[:1600].hex(' ')}\n" for moment, octets in moments() if octets)
    # Of a packet without octets dumpcap writes half a block.
    frames = classic(events=[it for it in moments() if it[1]])
    given = {"one": first, "two": second, "three": blocks("big"), "frames": frames, "dump": dump.encode()}
    for name, steps in (
        ("editcap writes pcapng", [["editcap", "-F", "pcapng", "one", "made"]]),
        ("editcap writes nanoseconds", [["editcap", "-F", "nsecpcap", "two", "made"]]),
        ("editcap writes classic captures", [["editcap", "-F", "pcap", "one", "made"]]),
        ("editcap moves the times", [["editcap", "-F", "pcapng", "-t", "-1000.25", "two", "made"]]),
        ("editcap cuts packets", [["editcap", "-F", "pcapng", "-s", "60", "one", "made"]]),
        ("mergecap merges three", [["mergecap", "-F", "pcapng", "-I", "none", "-w", "made", "one", "two", "three"]]),
        ("mergecap appends", [["mergecap", "-F", "pcapng", "-a", "-w", "made", "two", "one"]]),
        ("text2pcap writes pcapng", [["text2pcap", "-q", "-F", "pcapng", "-t", "%s.%f", "dump", "made"]]),
        ("text2pcap writes classic captures", [["text2pcap", "-q", "-F", "nsecpcap", "-t", "%s.%f", "dump", "made"]]),
        ("dumpcap captures from a pipe", [["dumpcap", "-q", "-i", "-", "-w", "made"]]),
        ("another link type beside Ethernet", [["editcap", "-F", "pcapng", "-T", "linux-sll", "one", "sll"],
                                               ["mergecap", "-F", "pcapng", "-w", "made", "sll", "two"]]),
    ):
        yield BesideTools(name, steps, **given)
    yield BesideTools("tshark reads what the tests made", [], made=blocks())
    yield BesideTools("tshark reads what the tests made, in the other order", [], made=blocks("big"))


def cases():
    yield from (*worked(), *sections(), *times(), *options(), *packet_blocks(), *totals(), *many_interfaces())
    yield from (*broken(), *as_imported(), *beside_tools())
