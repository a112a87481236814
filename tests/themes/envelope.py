"""Addresses, tag, reserved fields and trailer are shown and kept."""
from helpers.frames import SAMPLED, WORKED, WORKED_LINE, framed, put, with_fields
from helpers.harness import Case, listed, relisted, rewrite, show

APDU = WORKED[22:]


def frames():
    """A name, a frame in written form, and its line."""
    trailer = WORKED + bytes(4)
    yield "a trailer", trailer, WORKED_LINE.replace("trailer=-", "trailer=00000000")
    tagged = framed(APDU, tag=b"\x81\x00\x80\x00", trailer=bytes(4))
    line = WORKED_LINE.replace("tag=-", "tag=8000").replace("trailer=-", "trailer=00000000")
    yield "a tag and a trailer", tagged, line
    for control in (0x0000, 0x1FFF, 0x6001, 0xFFFF):
        frame = framed(APDU, tag=b"\x81\x00" + control.to_bytes(2, "big"))
        yield f"the tag control {control:04x}", frame, WORKED_LINE.replace("tag=-", f"tag={control:04x}")
    reserved = put(WORKED, at14=0xAB, at15=0xCD, at18=0x80, at21=0x5A)
    yield "APPID and reserved fields", reserved, WORKED_LINE.replace("appid=0001 r1=0000 r2=0000", "appid=abcd r1=8000 r2=005a")
    addresses = bytes(range(0xF0, 0xFC)) + WORKED[12:]
    yield "any addresses", addresses, WORKED_LINE.replace("010ccd010001 020000000001", "f0f1f2f3f4f5 f6f7f8f9fafb")
    full = WORKED + bytes(1600 - len(WORKED))
    yield "1,600 octets", full, WORKED_LINE.replace("trailer=-", "trailer=" + "00" * (1600 - len(WORKED)))
    go_id = with_fields(go_id=b"\x83\x01I")
    yield "a goID", go_id, WORKED_LINE.replace("id=-", 'id="I"')
    empty = with_fields(gocb_ref=b"\x80\x00", dat_set=b"\x82\x00", go_id=b"\x83\x00")
    yield "empty texts", empty, WORKED_LINE.replace('"G"', '""').replace('"D"', '""').replace("id=-", 'id=""')
    quotes = with_fields(gocb_ref=b'\x80\x04a"\\ ')
    yield "quotes and backslashes", quotes, WORKED_LINE.replace('"G"', '"a\\"\\\\ "')
    flags = put(WORKED, at52=0xFF, at58=0xFF)
    yield "simulation and ndsCom", flags, WORKED_LINE.replace("sim=false", "sim=true").replace("com=false", "com=true")
    time = with_fields(t=b"\x84\x08" + bytes.fromhex("6553f1008000000a"))
    yield "a time", time, WORKED_LINE.replace("t=0000000000000000", "t=6553f1008000000a")


def never_judged():
    """A name, and frames in written form in which an octet of the envelope that is never judged has each value."""
    for sort, frame in (("GOOSE", WORKED), ("Sampled Values", SAMPLED)):
        tagged = framed(frame[22:], tag=b"\x81\x00\x80\x04", trailer=b"\1\2", envelope=frame[:22])
        for name, places in (
            ("destination", range(6)), ("source", range(6, 12)), ("tag control", range(14, 16)), ("APPID", range(18, 20)),
            ("reserved fields", range(22, 26)), ("trailer", range(len(tagged) - 2, len(tagged))),
        ):
            yield f"{name} of {sort}", [put(tagged, **{f"at{at}": octet}) for at in places for octet in range(256)]
        sizes = [1, 2, 3, 46, 255, 1600 - len(frame)]
        yield f"trailer's size of {sort}", [frame + (bytes(range(256)) * 7)[:size] for size in sizes]


def cases():
    for name, frame, line in frames():
        yield show(name, frame, line)
        yield rewrite(f"{name}, rewritten", frame, frame)
    for name, kept in never_judged():
        yield Case(f"any {name} is kept", ["rewrite"], listed(*kept), relisted(*kept))
