"""Every spelling of one frame is shown alike, and rewriting gives the one written form."""
from helpers.frames import WORKED, WORKED_LINE, element, framed, put, size_octets, with_fields, with_members
from helpers.harness import Case, check, keep, listed, relisted, rewrite, show


def spellings():
    """The worked frame, spelled otherwise."""
    for following in (1, 2, 3, 4):
        yield f"the APDU's length in {following} following octets", with_fields(following)
        members = element(0xAB, element(0x83, b"\xff", following), following)
        yield f"the members' lengths in {following} following octets", with_fields(members=members)
    for count in (2, 4, 9):
        yield f"stNum in {count} octets", with_fields(st_num=element(0x85, b"\1".rjust(count, b"\0")))
    yield "the lifetime in five octets", with_fields(live=element(0x81, b"\0\0\0\x07\xd0"))
    yield "the count of members in two octets", with_fields(entries=element(0x8A, b"\0\1"))
    yield "no simulation", with_fields(simulation=b"")
    yield "no ndsCom", with_fields(nds_com=b"")
    yield "neither simulation nor ndsCom", with_fields(simulation=b"", nds_com=b"")
    yield "true as 01", put(WORKED, at66=1)
    padded = with_fields(4, st_num=element(0x85, b"\0\0\0\1"))
    yield "a long length and a padded stNum", padded


def too_long_when_written():
    """Frames without simulation and ndsCom whose written form has six octets too many."""
    short = {"simulation": b"", "nds_com": b""}
    # An unknown count of octets is filled by a long datSet, up to the greatest Length.
    room = 1492 - len(with_fields(dat_set=b"", **short)[22:]) - 4 - 2
    longest = with_fields(dat_set=element(0x82, b"D" * room), **short)
    assert longest[16:18] == (1500).to_bytes(2, "big")
    yield "a Length of 1,500 that would grow", longest
    frame = with_fields(**short)
    yield "a frame of 1,600 octets that would grow", frame + bytes(1600 - len(frame))


def cases():
    yield show("the written form itself", WORKED, WORKED_LINE)
    yield rewrite("the written form itself, rewritten", WORKED, WORKED)
    yield check("the written form itself, checked", WORKED)
    for name, frame in spellings():
        yield show(name, frame, WORKED_LINE)
        yield rewrite(f"{name}, rewritten", frame, WORKED)
        yield check(f"{name}, checked", frame, "not-written")
    for name, frame in too_long_when_written():
        yield keep(name, frame)
        yield check(f"{name}, checked", frame, "not-written")
    yield Case("all spellings in one list", ["rewrite"], listed(*[frame for _, frame in spellings()]),
               relisted(*[WORKED] * len(list(spellings()))))
    yield rewrite("true as any octet", with_fields(simulation=b"\x87\x01\x40"), with_fields(simulation=b"\x87\x01\xff"))
    yield rewrite("the greatest number", with_fields(sq_num=element(0x86, b"\0\0\xff\xff\xff\xff")),
                  with_fields(sq_num=element(0x86, b"\0\xff\xff\xff\xff")))
    yield rewrite("two members", with_members(bytes.fromhex("830105 8381 0100"), 2), with_members(bytes.fromhex("8301ff 830100"), 2))
    assert framed(b"\x61" + size_octets(43, 4) + WORKED[24:]) == with_fields(4)
