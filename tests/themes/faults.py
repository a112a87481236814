"""Each cause of a frame's fault at its place, and which of two faults is the first."""
from helpers.frames import BOOLEAN, ENVELOPE, WORKED, element, framed, put, with_fields, with_length, with_members
from helpers.harness import refuse, show
from oracles.reference import APDUS_READ, KINDS_READ


def cut(frame, count):
    """The frame's first octets, the field Length made to fit."""
    return with_length(frame[:count], count - 14)


def member(name, octets, place, cause, kind):
    """A member with a fault, counted from its identifier; it is unexpected where its kind is not read."""
    place, cause = (64 + place, cause) if kind in KINDS_READ else (64, "UnexpectedTag")
    return refuse(name, with_members(octets), place, cause)


def sampled(name, octets, type_at):
    """A GOOSE APDU under the EtherType of Sampled Values, which is refused itself where these are not read."""
    if "sv" in APDUS_READ:
        return refuse(name, octets, type_at + 10, "UnexpectedTag")
    return refuse(name, octets, type_at, "EtherType")


def each_cause():
    yield refuse("no length octet is left", put(cut(WORKED, 24), at23=0x82), 24, "Ends")
    yield refuse("an identifier of more octets", put(WORKED, at24=0x9F), 24, "HighTag")
    yield refuse("an indefinite length", put(WORKED, at23=0x80), 23, "Indefinite")
    yield refuse("five length octets follow", put(WORKED, at23=0x85), 23, "LengthForm")
    yield refuse("the reserved length octet", put(WORKED, at23=0xFF), 23, "LengthForm")
    yield refuse("an element past its region", put(WORKED, at23=0x2C), 23, "LengthPastEnd")
    yield refuse("a member past its region", put(WORKED, at23=0x2A), 63, "LengthPastEnd")
    yield refuse("an integer of no octets", put(WORKED, at45=0), 45, "IntegerLength")
    yield refuse("an integer of ten octets", with_fields(st_num=element(0x85, bytes(10))), 45, "IntegerLength")
    yield refuse("the APDU of another protocol", put(WORKED, at22=0x60), 22, "UnexpectedTag")
    yield refuse("a member of no kind", put(WORKED, at64=0x88), 64, "UnexpectedTag")
    yield refuse("a boolean of two octets", put(WORKED, at51=2), 51, "BooleanLength")
    yield refuse("a negative number", put(WORKED, at46=0xFF), 46, "IntegerRange")
    yield refuse("a number of 33 bits", with_fields(st_num=element(0x85, b"\1" + bytes(4))), 46, "IntegerRange")
    yield member("unused bits without bits", b"\x84\x01\x01", 2, "BitUnused", "bits")
    yield refuse("a time of seven octets", put(WORKED, at35=7), 35, "FixedLength")
    yield refuse("a text with a bell", put(WORKED, at26=7), 26, "NotVisible")
    yield refuse("a text with a delete", put(WORKED, at26=0x7F), 26, "NotVisible")
    yield refuse("a missing field at the end", put(cut(WORKED, 27), at23=3), 27, "ElementMissing")
    yield refuse("octets behind the APDU", with_length(WORKED, 0x36) + b"\0", 67, "ExtraOctets")
    yield refuse("another count of members", put(WORKED, at61=2), 59, "EntryCount")
    yield refuse("more than 1,600 octets", WORKED + bytes(1534), 1600, "FrameTooLong")
    yield refuse("another protocol", put(WORKED, at12=8, at13=0), 12, "EtherType")
    yield sampled("the EtherType of Sampled Values", put(WORKED, at13=0xBA), 12)
    yield refuse("a Length of seven", with_length(WORKED, 7), 16, "LengthField")
    yield refuse("a Length of 1,501", with_length(WORKED, 1501), 16, "LengthField")
    yield refuse("a Length past the frame", with_length(WORKED, 0x36), 67, "Truncated")
    yield refuse("a Length before the APDU's end", with_length(WORKED, 0x34), 23, "LengthPastEnd")
    yield refuse("a length in five following octets", framed(b"\x61\x85\0\0\0\0\x2b" + WORKED[24:]), 23, "LengthForm")


def levels():
    sixteen, empty = BOOLEAN, b""
    for _ in range(15):
        sixteen = element(0xA1, sixteen)
    for _ in range(16):
        empty = element(0xA1, empty)
    seventeen = element(0xA1, sixteen)
    high = seventeen[:-3] + b"\x1f" + seventeen[-2:]
    is_read = "array" in KINDS_READ
    for name, octets in (("a member at level 17", seventeen), ("level 17 before an identifier of more octets", high)):
        yield member(name, octets, 32, "TooDeep", "array")
    for name, octets, text in (
        ("a member at level 16", sixteen, "[" * 15 + "true" + "]" * 15),
        ("an empty array at level 16", empty, "[" * 16 + "]" * 16),
    ):
        if is_read:
            yield show(name, with_members(octets), show_line(text))
        else:
            yield member(name, octets, 0, "", "array")


def show_line(members):
    from helpers.frames import WORKED_LINE

    return WORKED_LINE.replace("{true}", "{" + members + "}")


def first_of_two():
    tag = b"\x81\x00\x80\x00"
    tagged = framed(WORKED[22:], tag=tag)
    yield refuse("an octet more before a wrong count", put(with_length(WORKED, 0x36), at61=2) + b"\0", 67, "ExtraOctets")
    yield refuse("a wrong count behind a goID", put(with_fields(go_id=b"\x83\x01I"), at64=2), 62, "EntryCount")
    yield refuse("a wrong count without booleans", put(with_fields(simulation=b"", nds_com=b""), at55=2), 53, "EntryCount")
    yield refuse("a wrong count in a tagged frame", put(tagged, at65=2), 63, "EntryCount")
    yield refuse("another protocol behind a tag", put(tagged, at16=8, at17=0), 16, "EtherType")
    yield sampled("the EtherType of Sampled Values behind a tag", put(tagged, at17=0xBA), 16)
    yield refuse("two tags", WORKED[:12] + tag + tag + WORKED[12:], 16, "EtherType")
    yield refuse("the other tag type", WORKED[:12] + b"\x88\xa8\x80\x00" + WORKED[12:], 12, "EtherType")
    yield refuse("a Length of seven behind a tag", put(tagged, at21=7), 20, "LengthField")
    yield refuse("another protocol before what is cut", put(WORKED, at12=8)[:15], 12, "EtherType")
    yield refuse("the eight octets before what Length says", with_length(WORKED, 7)[:20], 20, "Truncated")
    yield refuse("a tag that is cut", tagged[:17], 17, "Truncated")
    yield refuse("a needed field with another in its place", with_fields(conf_rev=b""), 53, "UnexpectedTag")
    yield refuse("a goID behind t", with_fields(t=element(0x84, bytes(8)) + b"\x83\x01I"), 44, "UnexpectedTag")
    yield refuse("a field twice", with_fields(go_id=b"\x83\x01I\x83\x01I"), 37, "UnexpectedTag")
    yield refuse("a long identifier behind the last field", with_fields(members=element(0xAB, BOOLEAN) + b"\x9f\x01"), 67, "ExtraOctets")
    yield refuse("a security field behind the members", with_fields(members=element(0xAB, BOOLEAN) + b"\x8c\x00"), 67, "ExtraOctets")
    yield refuse("a long identifier behind the APDU", framed(WORKED[22:] + b"\x1f"), 67, "ExtraOctets")
    yield refuse("no APDU", ENVELOPE[:16] + b"\x00\x08" + bytes(4), 22, "ElementMissing")
    yield refuse("an APDU of a long identifier", put(WORKED, at22=0x7F), 22, "HighTag")
    yield refuse("a length of 2^32 - 1", framed(b"\x61\x84\xff\xff\xff\xff" + WORKED[24:]), 23, "LengthPastEnd")
    yield refuse("a boolean's length before a wrong count", put(WORKED, at51=2, at61=2), 51, "BooleanLength")
    yield refuse("too many octets before all else", put(WORKED, at12=8) + bytes(1534), 1600, "FrameTooLong")


def cases():
    return [*each_cause(), *levels(), *first_of_two()]
