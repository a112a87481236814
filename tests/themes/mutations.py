"""Good frames with damage of every sort, always the same ones: the slow reader agrees on each, no fault's place passes
its frame, what rewriting makes of it reads back, and a replay and a watch of it write what the slow ones write."""
import random

from helpers import by_chance
from helpers.frames import SAMPLED, WORKED, asdu, element, framed, with_asdus, with_fields
from helpers.harness import Agreement, WellFormed, WrittenReadsBack, listed
from oracles.reference import contents
from themes.inventory import Lists
from themes.replaying import BLOCK, Replays
from themes.watching import Watches

SEED, COUNT = 8802, 6000
TAG = b"\x81\x00\x80\x04"
TELLING = [0x00, 0x01, 0x1F, 0x20, 0x30, 0x60, 0x61, 0x7E, 0x7F, 0x80, 0x81, 0x84, 0x85, 0x8A, 0x9F, 0xA1, 0xA2, 0xAB, 0xFF]

KINDS = bytes.fromhex(
    "8301ff 840303ffff 8502012c 860500ffffffff 8705083fc00000 89020102 8a0441422243 8c0400000001 9002c3a9"
    "91086553f1008000000a a2068301ff850105 a106850101850102"
)


def good_goose(chance):
    """The worked frame, richer ones, and frames by chance."""
    deepest = element(0x83, b"\xff")
    for _ in range(15):
        deepest = element(0xA1, deepest)
    kinds = with_fields(go_id=b"\x83\5BAY01", entries=b"\x8a\x01\x0c", members=element(0xAB, KINDS))
    nested = with_fields(3, members=element(0xAB, deepest, 2), simulation=b"", sq_num=b"\x86\5\0\xff\xff\xff\xff")
    named = [WORKED, kinds, nested, framed(kinds[22:], tag=TAG, trailer=bytes(4)), framed(nested[22:], tag=TAG)]
    return named * 4 + [by_chance.goose(chance) for _ in range(40)]


def good_sampled(chance):
    """The worked frame, richer ones, and frames by chance."""
    whole = asdu(dat_set=b"\x81\2D1", refr_tm=b"\x84\x08" + bytes(8), smp_rate=b"\x86\2\x0f\xa0", field_89=b"\x89\1\0")
    eight = with_asdus(*[asdu(smp_cnt=bytes([0x82, 2, 0, count])) for count in range(8)], tag=TAG, trailer=b"\1\2")
    named = [SAMPLED, with_asdus(whole), eight, with_asdus(*[whole] * 8), with_asdus(whole, following=4, trailer=bytes(6))]
    return named * 4 + [by_chance.sampled(chance) for _ in range(40)]


def type_at(frame):
    """The place of a frame's EtherType."""
    return 16 if frame[12:14] == b"\x81\x00" else 12


def elements(octets, place, end):
    """The elements between two places, those inside others too, as the places of identifier, contents and end."""
    while place < end:
        start, after = contents(octets, place, end)
        yield place, start, after
        if octets[place] & 0x20:
            yield from elements(octets, start, after)
        place = after


def some_element(chance, frame):
    """One element of a good frame."""
    begin = type_at(frame) + 10
    return chance.choice(list(elements(frame, begin, begin - 8 + int.from_bytes(frame[begin - 6:begin - 4], "big"))))


# ---- Damage to octets, whatever they mean -----------------------------------


def flipped(chance, frame):
    """Another bit."""
    place = chance.randrange(len(frame))
    return frame[:place] + bytes([frame[place] ^ 1 << chance.randrange(8)]) + frame[place + 1:]


def replaced(chance, frame):
    """Another octet, often one that means something."""
    place = chance.randrange(len(frame))
    return frame[:place] + bytes([chance.choice([*TELLING, chance.randrange(256)])]) + frame[place + 1:]


def cut(chance, frame):
    """The front alone."""
    return frame[:chance.randrange(1, len(frame) + 1)]


def dropped(chance, frame):
    """Some octets less."""
    place = chance.randrange(1, len(frame) + 1)
    return frame[:place] + frame[place + chance.randrange(1, 12):]


def grown(chance, frame):
    """Some octets more, by chance or from another place of the frame."""
    place, begin, count = chance.randrange(len(frame)), chance.randrange(len(frame)), chance.randrange(1, 12)
    return frame[:place] + chance.choice([by_chance.some(chance, count), frame[begin:begin + count]]) + frame[place:]


def other_length_field(chance, frame):
    """Another field Length."""
    place = type_at(frame) + 4
    length = int.from_bytes(frame[place:place + 2], "big")
    length = chance.choice([length - 1, length + 1, 7, 8, 1500, 1501, chance.randrange(65536)]) % 65536
    return frame[:place] + length.to_bytes(2, "big") + frame[place + 2:]


ANYWHERE = [flipped, flipped, replaced, replaced, cut, dropped, grown, other_length_field]


# ---- Damage to one element of a good frame ----------------------------------


def other_length(chance, frame):
    """Another length of an element."""
    place, _, _ = some_element(chance, frame)
    octet = frame[place + 1]
    octet = chance.choice([octet - 1, octet + 1, octet + chance.randrange(8), 0, 0x7F, 0x80, 0x81, 0x82, 0x84, 0x85, 0xFF])
    return frame[:place + 1] + bytes([octet % 256]) + frame[place + 2:]


def with_element(chance, frame):
    """An element dropped, doubled, put into another, named otherwise or with other contents; all lengths are made to fit."""
    begin = type_at(frame) + 10
    end = begin - 8 + int.from_bytes(frame[begin - 6:begin - 4], "big")
    chosen = some_element(chance, frame)
    return framed(
        rebuilt(chance, frame, begin, end, chosen),
        trailer=frame[end:], tag=frame[12:begin - 10], envelope=frame[:12] + frame[begin - 10:begin],
    )


def rebuilt(chance, frame, place, end, chosen):
    """The octets between two places, with one element changed."""
    if not place <= chosen[0] < end:
        return frame[place:end]
    octets = b""
    while place < end:
        start, after = contents(frame, place, end)
        if (place, start, after) == chosen:
            octets += changed(chance, frame[place], frame[start:after])
        elif frame[place] & 0x20:
            octets += element(frame[place], rebuilt(chance, frame, start, after, chosen))
        else:
            octets += frame[place:after]
        place = after
    return octets


def changed(chance, identifier, inside):
    """An element, changed."""
    return chance.choice([
        b"",
        element(identifier, inside) * 2,
        element(chance.choice([0x30, 0xA1, 0xA2]), element(identifier, inside)),
        element(chance.choice([identifier ^ 1, identifier + 1 & 0xFF, *TELLING]), inside),
        element(identifier, inside[:-1]),
        element(identifier, chance.choice([inside + b"\0", b"\0" + inside, inside + bytes(17), b"\xff" + inside])),
        element(identifier, by_chance.some(chance, len(inside))),
    ])


# ---- Frames ------------------------------------------------------------------


def fitting(frame):
    """A frame whose Length says what there is, where it can."""
    place = type_at(frame) + 4
    length = len(frame) - type_at(frame) - 2
    return frame[:place] + length.to_bytes(2, "big") + frame[place + 2:] if 8 <= length <= 1500 else frame


def damaged(chance, frames):
    """A good frame with damage."""
    frame = chance.choice(frames)
    how = chance.choice(["element", "length", "anywhere", "anywhere", "several"])
    if how in ("element", "several"):
        frame = with_element(chance, frame)
    if how == "length":
        frame = other_length(chance, frame)
    if how in ("anywhere", "several"):
        for _ in range(chance.choice([1, 1, 1, 2, 3, 4])):
            frame = chance.choice(ANYWHERE)(chance, frame)
        frame = chance.choice([frame, fitting(frame)])
    return (frame + bytes(1600) * (chance.random() < 0.01))[:2000]


def cases():
    chance = random.Random(SEED)
    for name, good in (("GOOSE", good_goose(chance)), ("Sampled Values", good_sampled(chance))):
        frames = [damaged(chance, good) for _ in range(COUNT)]
        yield Agreement(f"{name}: the slow reader agrees", listed(*frames))
        yield WellFormed(f"{name}: each line is well formed", frames)
        yield WrittenReadsBack(f"{name}: what is written reads back", frames)
        recorded = b"".join(listed(frame, moment=300 * at) for at, frame in enumerate(frames))
        yield Lists(f"{name}: the slow inventory agrees", recorded)
        yield Replays(f"{name}: the slow subscriber agrees", recorded, [BLOCK])
        yield Watches(f"{name}: the slow watch agrees", recorded, 4000)
