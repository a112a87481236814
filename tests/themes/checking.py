"""What `check` notes: faults, encodings that are not the canonical one, destinations outside the recommended ranges."""
import itertools

from helpers.frames import SAMPLED, WORKED, asdu, element, framed, put, with_asdus, with_fields, with_members
from helpers.harness import Case, check, keep, listed, text
from oracles.reference import APDUS_READ
from themes import faults, sampled, spellings

# IEC 61850-8-1 and IEC 61850-9-2: the octets of destinations inside and outside the ranges that they recommend.
DESTINATIONS = {
    "goose": (
        ("010ccd010000", "010ccd010001", "010ccd0100ff", "010ccd010100", "010ccd0101fe", "010ccd0101ff"),
        ("010ccd00ffff", "010ccd010200", "010ccd0102ff", "010ccd020000", "010ccd040000", "010ccd0401ff", "000ccd010000",
         "020ccd010000", "010bcd010000", "010dcd010000", "010ccc010000", "010cce010000", "000000000000", "ffffffffffff",
         "0100cd010ccd"),
    ),
    "sv": (
        ("010ccd040000", "010ccd040001", "010ccd0400ff", "010ccd040100", "010ccd0401fe", "010ccd0401ff"),
        ("010ccd03ffff", "010ccd040200", "010ccd0402ff", "010ccd050000", "010ccd010000", "010ccd0101ff", "000ccd040000",
         "020ccd040000", "010bcd040000", "010dcd040000", "010ccc040000", "010cce040000", "000000000000", "ffffffffffff",
         "0100cd040ccd"),
    ),
}


def to(destination, frame):
    """A frame that is sent to another destination."""
    return bytes.fromhex(destination) + frame[6:]


def destinations():
    for name, frame in (("goose", WORKED), ("sv", SAMPLED)):
        if name not in APDUS_READ:
            continue
        inside, outside = DESTINATIONS[name]
        for destination in inside:
            yield check(f"{name} to {destination} is recommended", to(destination, frame))
        for destination in outside:
            yield check(f"{name} to {destination} is noted", to(destination, frame), "destination")
            tagged = framed(frame[22:], tag=b"\x81\x00\x80\x04", trailer=b"\1\2", envelope=frame[:22])
            yield check(f"tagged {name} to {destination} is noted", to(destination, tagged), "destination")
        yield check(f"{name} from any source", frame[:6] + bytes.fromhex("010ccd010200") + frame[12:])


def encodings():
    """Encodings that devices send, none of which is an error."""
    yield check("true as 01 in a member", put(WORKED, at66=1), "not-written")
    yield check("true as 01 in simulation", put(WORKED, at52=1), "not-written")
    yield check("true as 01 in ndsCom", put(WORKED, at58=1), "not-written")
    yield check("true as FF in simulation and ndsCom", put(WORKED, at52=0xFF, at58=0xFF))
    for name in ("live", "st_num", "sq_num", "conf_rev", "entries"):
        identifier = {"live": 0x81, "st_num": 0x85, "sq_num": 0x86, "conf_rev": 0x88, "entries": 0x8A}[name]
        frame = with_fields(**{name: element(identifier, b"\0\0\0\0\1")})
        yield check(f"{name} in five octets", frame, "not-written")
    yield check("a number that needs five octets", with_fields(st_num=element(0x85, b"\0\xff\xff\xff\xff")))
    yield check("unused bits that are set", with_members(bytes.fromhex("84 02 01 ff")), "not-written")
    yield check("unused bits that are clear", with_members(bytes.fromhex("84 02 01 fe")))
    yield check("a long length at level 16", with_members(nested(element(0x83, b"\xff", 1))), "not-written")
    yield check("no such length at level 16", with_members(nested(element(0x83, b"\xff"))))
    yield check("an edition 1 frame, without simulation and ndsCom", with_fields(simulation=b"", nds_com=b""), "not-written")
    trailing = WORKED + bytes(1600 - len(WORKED))
    yield check("1,600 octets", trailing)
    yield check("any APPID, reserved fields and trailer", put(trailing, at14=0xFF, at15=0xFF, at18=0xFF, at21=0xFF, at1599=0xFF))


def nested(member):
    """A member inside fifteen arrays."""
    for _ in range(15):
        member = element(0xA1, member)
    return member


def too_long():
    """Frames that are read and whose written form is too long to write."""
    for name, frame in spellings.too_long_when_written():
        foreign = to("010ccd010200", frame)
        yield check(f"{name}: both notes", foreign, "not-written", "destination")
        yield keep(f"{name}: kept", foreign)
    full = with_asdus(asdu(sample=element(0x87, bytes(1454))), count=b"\1")
    assert full[16:18] == (1500).to_bytes(2, "big")
    yield check("the longest frame of Sampled Values", full)


def several():
    both = to("010ccd040001", put(WORKED, at66=1))
    yield check("both notes in their order", both, "not-written", "destination")
    yield check("a faulty frame has its fault alone", to("010ccd040001", put(WORKED, at51=2)), "fault 51 BooleanLength")
    yield check("a faulty frame that is not in written form", put(WORKED, at51=2, at66=1), "fault 51 BooleanLength")
    yield check("a frame of one octet", b"\1", "fault 1 Truncated")
    yield Case("a good list", ["check"], b"# x\nC 0\n\nM 1 on\n" + listed(WORKED, SAMPLED) + b"M 2 off\nC 3")
    octets = b"# x\n" + listed(both, WORKED, b"\1") + b"\nM 3 on\n" + listed(put(WORKED, at66=1)) + b"C 4\n" + listed(to("010ccd040001", WORKED))
    yield Case("each note has its line's number", ["check"], octets, text(
        ["2 not-written", "2 destination", "4 fault 1 Truncated", "7 not-written", "9 destination"]), 1)
    yield Case("a note in version 2", ["check"], b"V2\r\n" + listed(both), b"2 not-written\n2 destination\n", 1)
    yield Case("a good frame behind a finding", ["check"], listed(b"\1", WORKED), b"1 fault 1 Truncated\n", 1)
    yield Case("notes stand before a list's fault", ["check"], listed(both) + b"V2\n",
               b"1 not-written\n1 destination\n2 list LineForm\n", 3)
    numbers = range(1, 5001)
    yield Case("many notes", ["check"], listed(*[both] * 5000), text(
        itertools.chain.from_iterable((f"{number} not-written", f"{number} destination") for number in numbers)), 1)


def of_faulty_frames():
    """Each fault of the other themes is told by `check` as by `show`, whatever the destination."""
    shown = [case for theme in (faults, sampled) for case in theme.cases() if case.words == ["show"]]
    refused = [case for case in shown if case.stdout.startswith(b"1 fault ") and case.stdout.count(b"\n") == 1]
    frames = [bytes.fromhex(case.stdin.split()[2].decode()) for case in refused]
    wanted = [case.stdout.decode().rstrip("\n")[2:] for case in refused]
    for name, given in (
        ("as they are", frames), ("to nobody", [frame if len(frame) < 6 else bytes(6) + frame[6:] for frame in frames]),
    ):
        yield Case(f"faulty frames, {name}", ["check"], listed(*given), text(f"{n} {line}" for n, line in enumerate(wanted, 1)), 1)
    assert len(refused) > 100


def cases():
    return [*destinations(), *encodings(), *too_long(), *several(), *of_faulty_frames()]
