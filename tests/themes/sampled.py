"""Sampled Values: fields and their texts, spellings, and each fault at its place. Where they are not read, each frame is
refused by its EtherType."""
from helpers.frames import SAMPLED, SAMPLED_ENVELOPE, SAMPLED_LINE, asdu, element, framed, put, with_asdus, with_length
from helpers.harness import Case, check, listed, refuse, rewrite, show, text
from oracles.reference import APDUS_READ

TAG = b"\x81\x00\x80\x00"
TEXT = '(id="S" set=- cnt=3998 rev=1 t=- synch=2 rate=- sample=002a mod=00 f89=-)'
WHOLE = {
    "dat_set": b"\x81\x02D1",
    "refr_tm": b"\x84\x08\x65\x53\xf1\x00\x80\x00\x00\x0a",
    "smp_rate": b"\x86\x02\x0f\xa0",
    "field_89": b"\x89\x08\x00\x01\x02\x03\x04\x05\x06\x07",
}
WHOLE_TEXT = (
    '(id="S" set="D1" cnt=3998 rev=1 t=6553f1008000000a synch=2 rate=4000 sample=002a mod=00 f89=0001020304050607)'
)


def line(*asdus):
    """The worked frame's line with other ASDUs."""
    return SAMPLED_LINE.replace(TEXT, " ".join(asdus))


def good_frames():
    """A name, a frame in written form, and its line."""
    yield "one ASDU", SAMPLED, SAMPLED_LINE
    counts = [asdu(smp_cnt=element(0x82, bytes([0, count]))) for count in range(8)]
    eight = with_asdus(*counts)
    assert eight[16:18] == b"\x00\xd9" and eight[22:31] == bytes.fromhex("60 81ce 80 01 08 a2 81c8")
    yield "eight ASDUs", eight, line(*[TEXT.replace("3998", str(count)) for count in range(8)])
    yield "every field that may be absent", with_asdus(asdu(**WHOLE)), line(WHOLE_TEXT)
    yield "no such field", with_asdus(asdu(smp_mod=b"")), line(TEXT.replace("mod=00", "mod=-"))
    yield "field 89 alone", with_asdus(asdu(smp_mod=b"", field_89=b"\x89\x01\x07")), line(
        TEXT.replace("mod=00 f89=-", "mod=- f89=07"))
    yield "an empty sample", with_asdus(asdu(sample=b"\x87\x00")), line(TEXT.replace("sample=002a", "sample="))
    yield "empty texts", with_asdus(asdu(sv_id=b"\x80\x00", dat_set=b"\x81\x00")), line(
        TEXT.replace('id="S" set=-', 'id="" set=""'))
    yield "quotes in an svID", with_asdus(asdu(sv_id=b'\x80\x03a"\\')), line(TEXT.replace('"S"', '"a\\"\\\\"'))
    greatest = asdu(smp_cnt=b"\x82\2\xff\xff", conf_rev=b"\x83\4" + b"\xff" * 4, smp_synch=b"\x85\1\xff",
                    smp_rate=b"\x86\2\xff\xff")
    yield "the greatest numbers", with_asdus(greatest), line(
        TEXT.replace("cnt=3998 rev=1", "cnt=65535 rev=4294967295").replace("synch=2 rate=-", "synch=255 rate=65535"))
    raw = asdu(smp_mod=b"\x88\x10" + bytes(16), field_89=b"\x89\x10" + b"\xff" * 16)
    yield "sixteen octets", with_asdus(raw), line(TEXT.replace("mod=00 f89=-", "mod=" + "00" * 16 + " f89=" + "ff" * 16))
    yield "a tag and a trailer", with_asdus(asdu(), tag=TAG, trailer=b"\1\2"), SAMPLED_LINE.replace(
        "tag=-", "tag=8000").replace("trailer=-", "trailer=0102")
    longest = with_asdus(asdu(sample=element(0x87, bytes(1454))))
    assert longest[16:18] == (1500).to_bytes(2, "big")
    yield "a Length of 1,500", longest, line(TEXT.replace("002a", "00" * 1454))


def spellings():
    """The worked frame, spelled otherwise."""
    for following in (1, 2, 3, 4):
        yield f"lengths of the APDU in {following} following octets", with_asdus(asdu(), following=following)
        yield f"an ASDU's length in {following} following octets", with_asdus(asdu(following))
        fields = asdu(sv_id=element(0x80, b"S", following), smp_cnt=element(0x82, b"\x0f\x9e", following),
                      sample=element(0x87, b"\x00\x2a", following), smp_mod=element(0x88, b"\0", following))
        yield f"lengths of fields in {following} following octets", with_asdus(fields)
    for count in (2, 9):
        yield f"noASDU in {count} octets", with_asdus(asdu(), count=b"\1".rjust(count, b"\0"))


def inside(octets):
    """The worked frame with other contents of the APDU."""
    return framed(element(0x60, octets), envelope=SAMPLED_ENVELOPE)


def faults_of_the_apdu():
    one = b"\x80\1\1"
    yield "another count", put(SAMPLED, at26=2), 24, "AsduCount"
    yield "another count behind a tag", with_asdus(asdu(), count=b"\2", tag=TAG), 28, "AsduCount"
    yield "another count, spelled long", with_asdus(asdu(), count=b"\0\2", following=4), 28, "AsduCount"
    yield "the greatest count", with_asdus(asdu(), count=b"\0\xff\xff"), 24, "AsduCount"
    yield "no ASDU where one is said", with_asdus(count=b"\1"), 24, "AsduCount"
    yield "a count of 0", put(SAMPLED, at26=0), 26, "IntegerRange"
    yield "a count of 0 of no ASDU", with_asdus(count=b"\0"), 26, "IntegerRange"
    yield "a negative count", put(SAMPLED, at26=0xFF), 26, "IntegerRange"
    yield "a count of 65,536", with_asdus(asdu(), count=b"\1\0\0"), 26, "IntegerRange"
    yield "a count of no octets", with_asdus(asdu(), count=b""), 25, "IntegerLength"
    yield "a count of ten octets", with_asdus(asdu(), count=b"\1".rjust(10, b"\0")), 25, "IntegerLength"
    yield "a GOOSE APDU", put(SAMPLED, at22=0x61), 22, "UnexpectedTag"
    yield "an APDU of a long identifier", put(SAMPLED, at22=0x7F), 22, "HighTag"
    yield "no APDU", with_length(SAMPLED[:22], 8), 22, "ElementMissing"
    yield "an empty APDU", inside(b""), 24, "ElementMissing"
    yield "no count", put(SAMPLED, at24=0xA2), 24, "UnexpectedTag"
    yield "a long identifier for the count", put(SAMPLED, at24=0x9F), 24, "HighTag"
    yield "a count alone", inside(one), 27, "ElementMissing"
    yield "a security field", inside(one + b"\x81\0" + SAMPLED[27:]), 27, "UnexpectedTag"
    yield "a long identifier for the ASDUs", put(SAMPLED, at27=0xBF), 27, "HighTag"
    yield "the ASDUs past the APDU", put(SAMPLED, at23=0x1D), 28, "LengthPastEnd"
    yield "octets behind the ASDUs", inside(SAMPLED[24:] + b"\x1f"), 54, "ExtraOctets"
    yield "octets behind the APDU", framed(SAMPLED[22:] + b"\0", envelope=SAMPLED_ENVELOPE), 54, "ExtraOctets"
    yield "a Length past the frame", with_length(SAMPLED, 0x29), 54, "Truncated"
    yield "a Length before the APDU's end", with_length(SAMPLED, 0x27), 23, "LengthPastEnd"
    yield "octets behind the APDU before another count", put(with_length(SAMPLED, 0x29), at26=2) + b"\0", 54, "ExtraOctets"


def faults_of_the_asdus():
    one = b"\x80\1\1"
    yield "another element for an ASDU", put(SAMPLED, at29=0x31), 29, "UnexpectedTag"
    yield "a long identifier for an ASDU", put(SAMPLED, at29=0x3F), 29, "HighTag"
    yield "a long identifier behind an ASDU", inside(one + element(0xA2, SAMPLED[29:] + b"\x3f\0")), 54, "HighTag"
    yield "an ASDU's first octet alone", inside(one + b"\xa2\1\x30"), 30, "Ends"
    yield "an ASDU past its region", put(SAMPLED, at28=0x18), 30, "LengthPastEnd"
    yield "an ASDU of indefinite length", put(SAMPLED, at30=0x80), 30, "Indefinite"
    yield "an ASDU of the reserved length", put(SAMPLED, at30=0xFF), 30, "LengthForm"
    yield "an empty ASDU", inside(one + b"\xa2\2\x30\0"), 31, "ElementMissing"
    yield "a field past its ASDU", put(SAMPLED, at30=0x16), 52, "LengthPastEnd"
    yield "the second ASDU's fault", with_asdus(asdu(), asdu(smp_cnt=b"\x82\1\0")), 60, "FixedLength"
    yield "a fault before another count", with_asdus(asdu(smp_synch=b"\x85\0"), count=b"\2"), 45, "FixedLength"


def faults_of_fields():
    whole = lambda **fields: with_asdus(asdu(**{**WHOLE, **fields}))
    yield "no svID", with_asdus(asdu(sv_id=b"")), 31, "UnexpectedTag"
    yield "an svID with a bell", put(SAMPLED, at33=7), 33, "NotVisible"
    yield "a datSet with an octet E9", whole(dat_set=b"\x81\2D\xe9"), 37, "NotVisible"
    yield "a long identifier for a datSet", put(SAMPLED, at34=0x9F), 34, "HighTag"
    yield "no smpCnt", with_asdus(asdu(smp_cnt=b"")), 34, "UnexpectedTag"
    yield "no smpCnt behind a datSet", whole(smp_cnt=b""), 38, "UnexpectedTag"
    yield "smpCnt of one octet", with_asdus(asdu(smp_cnt=b"\x82\1\0")), 35, "FixedLength"
    yield "smpCnt of three octets", with_asdus(asdu(smp_cnt=b"\x82\3\0\0\0")), 35, "FixedLength"
    yield "no confRev", with_asdus(asdu(conf_rev=b"")), 38, "UnexpectedTag"
    yield "confRev of three octets", with_asdus(asdu(conf_rev=b"\x83\3\0\0\0")), 39, "FixedLength"
    yield "confRev of five octets", with_asdus(asdu(conf_rev=b"\x83\5\0\0\0\0\1")), 39, "FixedLength"
    yield "refrTm of seven octets", with_asdus(asdu(refr_tm=b"\x84\7" + bytes(7))), 45, "FixedLength"
    yield "refrTm behind smpSynch", with_asdus(asdu(smp_rate=WHOLE["refr_tm"])), 47, "UnexpectedTag"
    yield "no smpSynch", with_asdus(asdu(smp_synch=b"")), 44, "UnexpectedTag"
    yield "smpSynch of two octets", with_asdus(asdu(smp_synch=b"\x85\2\0\2")), 45, "FixedLength"
    yield "smpRate of one octet", with_asdus(asdu(smp_rate=b"\x86\1\0")), 48, "FixedLength"
    yield "no sample", with_asdus(asdu(sample=b"")), 47, "UnexpectedTag"
    yield "no sample at the end", with_asdus(asdu(sample=b"", smp_mod=b"")), 47, "ElementMissing"
    yield "two samples", with_asdus(asdu(smp_mod=b"\x87\0")), 51, "ExtraOctets"
    yield "a long identifier behind the sample", with_asdus(asdu(smp_mod=b"\x9f\1")), 51, "ExtraOctets"
    yield "smpMod of no octets", with_asdus(asdu(smp_mod=b"\x88\0")), 52, "FixedLength"
    yield "smpMod of seventeen octets", with_asdus(asdu(smp_mod=b"\x88\x11" + bytes(17))), 52, "FixedLength"
    yield "field 89 of no octets", with_asdus(asdu(field_89=b"\x89\0")), 55, "FixedLength"
    yield "field 89 of seventeen octets", with_asdus(asdu(field_89=b"\x89\x11" + bytes(17))), 55, "FixedLength"
    yield "smpMod behind field 89", with_asdus(asdu(smp_mod=b"\x89\1\0", field_89=b"\x88\1\0")), 54, "ExtraOctets"
    yield "a field behind field 89", with_asdus(asdu(field_89=b"\x89\1\0\x8a\1\0")), 57, "ExtraOctets"
    yield "an indefinite length", put(SAMPLED, at32=0x80), 32, "Indefinite"
    yield "five length octets", put(SAMPLED, at32=0x85), 32, "LengthForm"


def cases():
    is_read = "sv" in APDUS_READ
    unread = lambda name, frame: refuse(name, frame, 16 if frame[12:14] == TAG[:2] else 12, "EtherType")
    for name, frame, shown in good_frames():
        yield show(name, frame, shown) if is_read else unread(name, frame)
        yield rewrite(f"{name}, rewritten", frame, frame) if is_read else unread(f"{name}, not rewritten", frame)
        yield check(f"{name}, checked", frame) if is_read else unread(f"{name}, not checked", frame)
    for name, frame in spellings():
        yield show(name, frame, SAMPLED_LINE) if is_read else unread(name, frame)
        yield rewrite(f"{name}, rewritten", frame, SAMPLED) if is_read else unread(f"{name}, not rewritten", frame)
        yield check(f"{name}, checked", frame, "not-written") if is_read else unread(f"{name}, not checked", frame)
    for name, frame, place, cause in [*faults_of_the_apdu(), *faults_of_the_asdus(), *faults_of_fields()]:
        yield refuse(name, frame, place, cause) if is_read else unread(name, frame)
    for name, frame in (("each cut", SAMPLED), ("each cut of eight ASDUs", with_asdus(*[asdu()] * 8))):
        sizes = range(1, len(frame))
        lines = [f"{size} fault {size if is_read or size < 14 else 12} {cause}" for size in sizes
                 for cause in ["Truncated" if is_read or size < 14 else "EtherType"]]
        yield Case(name, ["show"], listed(*[frame[:size] for size in sizes]), text(lines))
