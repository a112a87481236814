"""Frames of other protocols, passed over by --skip-other, in lists and captures: each tells only that time has passed, and standard error
says how many there were of each EtherType, from which number on."""
import random
from itertools import product

from helpers.capture_parts import header, interface, packet, record, section
from helpers.captured import ASKED, EachOf, Read, asking, why_wrong_of
from helpers.frames import SAMPLED, WORKED, put
from helpers.harness import Case, listed, text
from oracles.skipping import NAMES, usual_name
from themes.mutations import damaged, good_goose, good_sampled
from themes.replaying import line, state
from themes.watching import asdu, sampled

SEED = 802
ADDRESSES = WORKED[:12]
TAG = b"\x81\x00\x80\x05"


def other(kind, rest=bytes(46), tag=b""):
    """A frame of this EtherType."""
    return ADDRESSES + tag + kind.to_bytes(2, "big") + rest


def long(frame, size):
    """A frame with zeros behind it, of so many octets."""
    return frame + bytes(size - len(frame))


ARP, PTP, TWICE = other(0x0806), other(0x88F7, tag=TAG), other(0x88A8, b"\0\5" + WORKED[12:])


def both_inputs(name, timed, options=()):
    """The same frames at times, in microseconds, as a list, a classic capture and pcapng, under each command."""
    moments = list(timed)
    inputs = {
        "list": (b"V2\n" + b"".join(line(moment, frame) for moment, frame in moments), []),
        "classic": (header() + b"".join(record(moment // 10**6, moment % 10**6, frame) for moment, frame in moments), ["--capture"]),
        "pcapng": (section() + interface() + b"".join(packet(moment, frame) for moment, frame in moments), ["--capture"]),
    }
    for form, (octets, more) in inputs.items():
        yield Read(f"{name}: {form}", octets, *[asking(command, *more, *options, "--skip-other") for command in ASKED])


def worked():
    frames = [WORKED, ARP, PTP, state(1, 1), ARP, SAMPLED, TWICE, put(WORKED, at66=1), WORKED[:40], ARP[:14], ARP[:13], bytes(1600), bytes(1601),
              other(0x88B9), other(0x0026, bytes(38)), other(0x88E1), sampled(asdu(0)), TAG * 5, ADDRESSES + TAG, ADDRESSES + TAG + b"\x88"]
    yield from both_inputs("frames of each sort", ((700 * at, frame) for at, frame in enumerate(frames)))
    yield from both_inputs("a lifetime that ends at a frame of another protocol", [(0, WORKED), (1999999, ARP), (2000000, ARP), (2000001, state(1, 2))])
    yield from both_inputs("a time that goes back in a frame of another protocol", [(5000000, WORKED), (1, ARP), (6999999, ARP), (0, ARP), (7000000, PTP)])
    each = product((ARP, PTP, WORKED, WORKED[:12] + TAG + WORKED[12:], SAMPLED), (1599, 1600, 1601, 2000))
    yield from both_inputs("long frames of other protocols and of GOOSE and Sampled Values",
                           ((at, long(frame, size)) for at, (frame, size) in enumerate(each)))
    yield from both_inputs("a lifetime that ends at a long frame of another protocol",
                           [(0, WORKED), (2000000, long(other(0x0800), 2000)), (2000001, state(1, 2))])
    yield from long_frames()
    yield from both_inputs("nothing to pass over", [(0, WORKED), (5, SAMPLED)])
    yield from both_inputs("frames of other protocols alone", [(at, ARP) for at in range(30)])
    for count in (15, 16, 17, 18, 40):
        kinds = [0x0600 + 7 * at for at in range(count)]
        yield from both_inputs(f"{count} kinds", ((at, other(kind)) for at, kind in enumerate(kinds + kinds[::-1] + kinds[::3])))
    yield Read("modes and clocks stay", b"M 1 on\nC 2\n" + listed(ARP, state(1, 0, simulation=True)) + b"M 9 off\nC 3000\n",
               *[asking(command, "--skip-other") for command in ASKED])
    yield Read("the error of a list", listed(ARP, WORKED) + b"X\n", *[asking(command, "--skip-other") for command in ASKED])
    yield Read("the error of a capture", header() + record(1, 2, ARP) + record(3, 4, WORKED)[:-1],
               *[asking(command, "--capture", "--skip-other") for command in ASKED])
    shown = text(["1 clock 0"])
    for words in (["show", "--skip-other"], ["show", "--skip-other", "--"]):
        yield Case(f"an ARP, under {words}", words, listed(ARP), shown, 0, [b"passed over: 1 of EtherType 0806 (ARP), from 1 on"])
    for kind in (*NAMES, 0x0027, 0x05FF, 0):
        name = usual_name(kind)
        yield Case(f"the name of EtherType {kind:04x}", ["check", "--skip-other"], b"\n" + listed(other(kind)) * 3, b"", 0,
                   [b"passed over: 3 of EtherType %04x (" % kind, name.encode(), b"), from 2 on"])
    yield Case("a second VLAN tag is not read, which is said", ["check", "--skip-other"], listed(ARP, TWICE, ARP), b"", 0,
               [b"2 of EtherType 0806 (ARP), from 1 on; 1 of 88a8 (a second VLAN tag: not read), from 2 on"])
    for words in (["check", "--skip-other", "--capture"], ["check", "--capture", "--skip-other"]):
        yield Case(f"both options, {words}", words, header() + record(1, 2, WORKED) + record(1, 2, ARP), b"", 0,
                   [b"passed over: 1 of EtherType 0806 (ARP), from 2 on"])


def long_frames():
    """Frames that a network card put together: those of other protocols are passed over, and those of GOOSE are too long."""
    over = [b"passed over: 1 of EtherType 0800 (IPv4), from 1 on"]
    for size in (1600, 1601, 3000, 65549, 262144):
        goose = (b"", 0) if size == 1600 else (b"1 fault 1600 FrameTooLong\n", 1)
        frames = {"MMS": (other(0x0800), b"", 0, over), "MMS behind a tag": (other(0x0800, tag=TAG), b"", 0, over), "GOOSE": (WORKED, *goose)}
        for name, (frame, *wanted) in frames.items():
            captured = header() + record(1, 2, long(frame, size))
            yield Case(f"{name}, {size} octets, captured", ["check", "--capture", "--skip-other"], captured, *wanted)
            if size < 2000:
                yield Case(f"{name}, {size} octets, in a list", ["check", "--skip-other"], listed(long(frame, size)), *wanted)
    yield Case("without the option MMS is too long", ["check"], listed(long(other(0x0800), 1601)), b"1 fault 1600 FrameTooLong\n", 1)


def tagged_and_cut():
    """A frame with a tag and one without, of each EtherType near the two that are read, cut at each octet."""
    for kind in (0x88B7, 0x88B8, 0x88B9, 0x88BA, 0x88BB, 0x8100, 0x0000, 0xFFFF):
        for tag in (b"", TAG):
            frame = other(kind, WORKED[14:20], tag)
            for size in range(1, len(frame) + 1):
                yield f"{kind:04x}, {len(tag)} octets of tag, cut to {size}", listed(frame[:size], moment=3)


def by_chance():
    """Lists of damaged frames, and of frames of other protocols."""
    chance = random.Random(SEED)
    good = good_goose(chance) + good_sampled(chance)
    for at in range(100):
        frames = [damaged(chance, good) if chance.random() < 0.6 else other(chance.choice([*NAMES, chance.randrange(65536)])) for _ in range(40)]
        yield f"list {at}", b"V2\n" + b"".join(line(chance.randrange(5 * 10**6), frame) for frame in frames)


class Unchanged:
    """Without frames of other protocols the option changes nothing: neither text, nor status, nor message."""

    def __init__(self, name, octets, *options):
        self.name, self.octets, self.options = f"nothing changes: {name}", octets, options

    def why_wrong(self, program):
        return [why for command in ASKED for why in why_wrong_of(program, asking(command, *self.options, "--skip-other"), self.octets)
                + why_wrong_of(program, asking(command, *self.options), self.octets)]


def cases():
    yield from worked()
    yield EachOf("tags, cut at each octet", tagged_and_cut, "--skip-other")
    yield EachOf("lists by chance", by_chance, "--skip-other")
    yield Unchanged("a list", listed(WORKED, SAMPLED, put(WORKED, at66=1), WORKED[:30]))
    yield Unchanged("a capture", header() + record(1, 2, WORKED) + record(1, 2, b"") + record(1, 3, SAMPLED[:20]), "--capture")
