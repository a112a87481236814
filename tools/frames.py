"""The parts of a frame: which field each octet belongs to, in valid frames and, as far as their octets tell it, in
faulty ones."""

GOOSE = {0x80: "gocbRef", 0x81: "timeAllowedtoLive", 0x82: "datSet", 0x83: "goID", 0x84: "t", 0x85: "stNum", 0x86: "sqNum",
         0x87: "simulation", 0x88: "confRev", 0x89: "ndsCom", 0x8A: "numDatSetEntries", 0xAB: "allData"}
SAMPLED = {0x80: "noASDU", 0xA2: "asdu"}
ASDU = {0x80: "svID", 0x81: "datSet", 0x82: "smpCnt", 0x83: "confRev", 0x84: "refrTm", 0x85: "smpSynch", 0x86: "smpRate",
        0x87: "sample", 0x88: "smpMod", 0x89: "field 89"}
HOLDS_MEMBERS = (0xA1, 0xA2)


class Part:
    """A run of octets: where it begins and ends, its field, and whether it is that field's identifier, length or contents."""

    def __init__(self, start, end, name, what="field"):
        self.start, self.end, self.name, self.what = start, end, name, what


def parts(frame):
    """The parts of a frame in order, up to its last octet."""
    at = 12
    yield from (Part(0, 6, "destination"), Part(6, 12, "source"))
    if frame[at:at + 2] == b"\x81\x00":
        yield Part(at, at + 4, "VLAN tag")
        at += 4
    announced = frame[at:at + 2]
    for name in ("EtherType", "APPID", "Length", "Reserved 1", "Reserved 2"):
        yield Part(at, at + 2, name)
        at += 2
    if announced not in APDUS:
        yield Part(at, len(frame), "another protocol")
        return
    until = min(len(frame), at - 8 + int.from_bytes(frame[at - 6:at - 4], "big"))
    if at < until:
        for part in element(frame, at, until, *APDUS[announced]):
            yield part
            at = part.end
    yield Part(at, until, "what follows the APDU within Length")
    yield Part(max(at, until), len(frame), "the trailer, which follows what Length counts")


def element(frame, at, until, name, inside=None):
    """The parts of the element that begins here in a region: identifier, length, and contents or the parts of those."""
    first = frame[at + 1] if at + 1 < until else 0
    following = first & 0x7F if first > 0x80 else 0
    contents = min(until, at + 2 + following)
    size = int.from_bytes(frame[at + 2:contents], "big") if following else first
    end = min(until, contents + size)
    yield Part(at, at + 1, name, "identifier")
    yield Part(at + 1, contents, name, "length")
    if inside:
        yield from inside(frame, contents, end)
    else:
        yield Part(contents, end, name, "contents")


def elements(frame, at, until, named):
    """The parts of the elements that follow one another in a region. Each is named by its identifier and its position."""
    position = 1
    while at < until:
        for part in element(frame, at, until, *named(frame[at], position)):
            yield part
            at = max(at, part.end)
        position += 1


def fields(names, inside):
    """A reader of fields, which are named by their identifiers; those in `inside` hold others."""
    named = lambda identifier, _: (names.get(identifier, f"a field {identifier:02x} that is none"), inside.get(identifier))
    return lambda frame, at, until: elements(frame, at, until, named)


def members(path):
    """A reader of members, which are named by their positions: member 2, and in that member 2.1."""
    def named(identifier, position):
        return f"{path}{position}", members(f"{path}{position}.") if identifier in HOLDS_MEMBERS else None
    return lambda frame, at, until: elements(frame, at, until, named)


def asdus(frame, at, until):
    def named(_, position):
        return f"ASDU {position}", fields({it: f"{name} of ASDU {position}" for it, name in ASDU.items()}, {})
    return elements(frame, at, until, named)


# The name of the APDU that an EtherType announces, and a reader of what it holds.
APDUS = {b"\x88\xb8": ("IECGoosePdu", fields(GOOSE, {0xAB: members("member ")})),
         b"\x88\xba": ("savPdu", fields(SAMPLED, {0xA2: asdus}))}


def bounds(frame, at):
    """Where the contents of the element that begins here begin and end."""
    first = frame[at + 1] if at + 1 < len(frame) else 0
    following = first & 0x7F if first > 0x80 else 0
    start = at + 2 + following
    size = int.from_bytes(frame[at + 2:start], "big") if following else first
    return start, min(len(frame), start + size)


def values(frame):
    """The contents of the fields of a valid GOOSE frame, by their names: nothing of a frame of another protocol."""
    at = 16 if frame[12:14] == b"\x81\x00" else 12
    if frame[at:at + 2] != b"\x88\xb8":
        return {}
    at, end = bounds(frame, at + 10)
    found = {}
    while at < end:
        start, stop = bounds(frame, at)
        found.setdefault(GOOSE.get(frame[at]), frame[start:stop])
        at = stop
    return found
