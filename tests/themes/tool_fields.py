"""tools/field_at: which field each octet of a frame lies in."""
from helpers.asked_tools import Asked, ask
from helpers.frames import SAMPLED, WORKED, framed, with_members
from helpers.harness import listed, text

# The parts of the worked frames: where each ends, and what is told of it.
ENVELOPE = [(6, "destination"), (12, "source"), (14, "EtherType"), (16, "APPID"), (18, "Length"), (20, "Reserved 1"), (22, "Reserved 2")]


def fields(*pairs):
    """The parts of fields: their identifiers, one octet of length, and so many octets of contents."""
    for name, size in pairs:
        yield from [(1, f"{name}, its identifier"), (1, f"{name}, its length")]
        if size:
            yield size, f"{name}, its contents"


def ends(start, sizes):
    for size, name in sizes:
        start += size
        yield start, name


GOOSE = [*ENVELOPE, *ends(22, fields(
    ("IECGoosePdu", 0), ("gocbRef", 1), ("timeAllowedtoLive", 2), ("datSet", 1), ("t", 8), ("stNum", 1), ("sqNum", 1), ("simulation", 1),
    ("confRev", 1), ("ndsCom", 1), ("numDatSetEntries", 1), ("allData", 0), ("member 1", 1)))]
VALUES = [*ENVELOPE, *ends(22, fields(
    ("savPdu", 0), ("noASDU", 1), ("asdu", 0), ("ASDU 1", 0), ("svID of ASDU 1", 1), ("smpCnt of ASDU 1", 2), ("confRev of ASDU 1", 4),
    ("smpSynch of ASDU 1", 1), ("sample of ASDU 1", 2), ("smpMod of ASDU 1", 1)))]


class Told:
    """Each octet of a frame, and the part that it lies in."""

    def __init__(self, name, frame, parts):
        self.name, self.frame, self.parts = f"field_at: {name}", frame, parts

    def why_wrong(self, program):
        return [why for at in range(len(self.frame)) for why in self.why_octet_wrong(program, at)][:3]

    def why_octet_wrong(self, program, at):
        start, (end, name) = next((since, part) for since, part in zip([0, *(it[0] for it in self.parts)], self.parts) if at < part[0])
        wanted = text([f"offset {at} = {self.frame[at]:02x}: {name}: octet {at - start + 1} of {end - start}",
                       f"in Wireshark: bytes row {at // 16 * 16:04x}, column {at % 16}; packet 1 of an imported capture"])
        wrote, complained, status = ask(program, "field_at", ["2", str(at)], b"V2\n" + listed(self.frame))
        return [] if (wrote, status) == (wanted, 0) else [f"wanted {wanted}, got {wrote} and status {status}: {complained!r}"]


def told(frame, offset, place):
    """One octet of one frame, and what is told of it."""
    octet = f" = {frame[offset]:02x}" if offset < len(frame) else ""
    return Asked(f"{offset}, {place}", "field_at", ["1", str(offset)], listed(frame), text([
        f"offset {offset}{octet}: {place}", f"in Wireshark: bytes row {offset // 16 * 16:04x}, column {offset % 16}; packet 0 of an imported capture"]))


def cases():
    yield Told("a frame of GOOSE", WORKED, GOOSE)
    yield Told("a frame of Sampled Values", SAMPLED, VALUES)
    nested = with_members(bytes.fromhex("a208 8301ff a203 8301ff 830100".replace(" ", "")), 2)
    yield told(nested, 64, "member 1, its identifier: octet 1 of 1")
    yield told(nested, 68, "member 1.1, its contents: octet 1 of 1")
    yield told(nested, 73, "member 1.2.1, its contents: octet 1 of 1")
    yield told(nested, 76, "member 2, its contents: octet 1 of 1")
    tagged = framed(WORKED[22:], trailer=b"abc", tag=b"\x81\x00\x80\x04")
    yield told(tagged, 15, "VLAN tag: octet 4 of 4")
    yield told(tagged, 50, "stNum, its contents: octet 1 of 1")
    yield told(tagged, 73, "the trailer, which follows what Length counts: octet 3 of 3")
    longer = framed(b"\x61\x82\x00\x2b" + WORKED[24:])
    yield told(longer, 25, "IECGoosePdu, its length: octet 3 of 3")
    yield told(longer, 48, "stNum, its contents: octet 1 of 1")
    extra = framed(WORKED[22:] + b"\0")
    yield told(extra, 67, "what follows the APDU within Length: octet 1 of 1")
    yield told(WORKED[:40], 39, "t, its contents: octet 4 of 4")
    yield told(WORKED[:40], 40, "after the last octet: the frame has 40 octets")
    yield told(WORKED[:13] + b"\x06" + WORKED[14:], 30, "another protocol: octet 9 of 45")
    yield told(WORKED[:44] + b"\x99" + WORKED[45:], 44, "a field 99 that is none, its identifier: octet 1 of 1")
    yield told(WORKED[:9], 7, "source: octet 2 of 3")
    yield Asked("a line without a frame", "field_at", ["2", "0"], listed(WORKED) + b"C 0\n", status=3, stderr=[b"line 2 of the list holds no frame"])
    yield Asked("a list that ends before", "field_at", ["2", "0"], b"x\n" + listed(WORKED), status=3, stderr=[b"line 1: LineForm"])
