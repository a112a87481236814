"""The worked frames of the tests, and frames made from parts."""

# One GOOSE frame of 67 octets: APDU at 22, its length octet at 23, stNum's contents at 46, sqNum's at 49, simulation's
# at 52, confRev's at 55, ndsCom's at 58, numDatSetEntries at 59, allData at 62 and its one member at 64.
ENVELOPE = bytes.fromhex("010ccd010001 020000000001 88b8 0001 0035 0000 0000")
APDU = bytes.fromhex(
    "612b 800147 810207d0 820144 84080000000000000000 850101 860100 870100 880101 890100 8a0101 ab038301ff"
)
WORKED = ENVELOPE + APDU
WORKED_LINE = (
    "goose 010ccd010001 020000000001 tag=- appid=0001 r1=0000 r2=0000 "
    'ref="G" live=2000 set="D" id=- t=0000000000000000 st=1 sq=0 sim=false rev=1 com=false {true} trailer=-'
)
BOOLEAN = bytes.fromhex("8301ff")

# One Sampled Values frame of 54 octets: APDU at 22, noASDU at 24, the ASDUs at 27, the one ASDU at 29, its svID at 31,
# smpCnt at 34, confRev at 38, smpSynch at 44, sample at 47 and smpMod at 51.
SAMPLED_ENVELOPE = bytes.fromhex("010ccd040001 020000000001 88ba 4000 0028 0000 0000")
SAMPLED = SAMPLED_ENVELOPE + bytes.fromhex(
    "601e 800101 a219 3017 800153 82020f9e 830400000001 850102 8702002a 880100"
)
SAMPLED_LINE = (
    "sv 010ccd040001 020000000001 tag=- appid=4000 r1=0000 r2=0000 "
    '{(id="S" set=- cnt=3998 rev=1 t=- synch=2 rate=- sample=002a mod=00 f89=-)} trailer=-'
)


def put(frame, **octets):
    """A frame with other octets: put(frame, at46=1, at49=0)."""
    changed = bytearray(frame)
    for name, octet in octets.items():
        changed[int(name[2:])] = octet
    return bytes(changed)


def with_length(frame, length):
    """An untagged frame with another field Length."""
    return frame[:16] + length.to_bytes(2, "big") + frame[18:]


def size_octets(size, following=None):
    """The length octets of a size: the fewest, or with so many following octets."""
    if following is None:
        following = 0 if size < 128 else (size.bit_length() + 7) // 8
    return bytes([0x80 + following]) + size.to_bytes(following, "big") if following else bytes([size])


def element(identifier, contents, following=None):
    """An element, with so many octets that follow its first length octet."""
    return bytes([identifier]) + size_octets(len(contents), following) + contents


def framed(apdu, trailer=b"", tag=b"", envelope=ENVELOPE):
    """An APDU in its envelope, with the Length that it asks for."""
    length = (8 + len(apdu)).to_bytes(2, "big")
    return envelope[:12] + tag + envelope[12:16] + length + envelope[18:22] + apdu + trailer


FIELDS = {
    "gocb_ref": element(0x80, b"G"),
    "live": element(0x81, b"\x07\xd0"),
    "dat_set": element(0x82, b"D"),
    "go_id": b"",
    "t": element(0x84, bytes(8)),
    "st_num": element(0x85, b"\x01"),
    "sq_num": element(0x86, b"\x00"),
    "simulation": element(0x87, b"\x00"),
    "conf_rev": element(0x88, b"\x01"),
    "nds_com": element(0x89, b"\x00"),
    "entries": element(0x8A, b"\x01"),
    "members": element(0xAB, BOOLEAN),
}


def with_fields(following=None, **fields):
    """The worked frame with other octets for some fields; an absent field is given as no octets."""
    inside = b"".join({**FIELDS, **fields}.values())
    return framed(element(0x61, inside, following))


def with_members(members, count=1):
    """The worked frame with other contents of allData and another number of entries."""
    return with_fields(entries=element(0x8A, bytes([count])), members=element(0xAB, members))


ASDU_FIELDS = {
    "sv_id": element(0x80, b"S"),
    "dat_set": b"",
    "smp_cnt": element(0x82, b"\x0f\x9e"),
    "conf_rev": element(0x83, b"\0\0\0\1"),
    "refr_tm": b"",
    "smp_synch": element(0x85, b"\2"),
    "smp_rate": b"",
    "sample": element(0x87, b"\x00\x2a"),
    "smp_mod": element(0x88, b"\0"),
    "field_89": b"",
}


def asdu(following=None, **fields):
    """The worked ASDU with other octets for some fields; an absent field is given as no octets."""
    return element(0x30, b"".join({**ASDU_FIELDS, **fields}.values()), following)


def with_asdus(*asdus, count=None, following=None, **how):
    """A Sampled Values frame of these ASDUs, with the contents of noASDU where they are another count."""
    count = bytes([len(asdus)]) if count is None else count
    inside = element(0x80, count, following) + element(0xA2, b"".join(asdus), following)
    return framed(element(0x60, inside, following), envelope=SAMPLED_ENVELOPE, **how)


assert len(SAMPLED) == 54 and with_asdus(asdu()) == SAMPLED
assert len(WORKED) == 67 and with_fields() == WORKED and with_members(BOOLEAN) == WORKED
