"""Every octet of a frame replaced by every other value, in one list; and every octet of short lists replaced by telling
ones, dropped, and followed by one more. The slow reader, the slow inventory, the slow subscriber and the slow watch
agree."""
from helpers.frames import SAMPLED, WORKED, framed, with_fields
from helpers.harness import Agreement, WellFormed, WrittenReadsBack, listed
from themes.inventory import Lists
from themes.replaying import BLOCK, Replays
from themes.watching import Watches


def variants(frame):
    """The frame with each octet replaced by each other value."""
    for place, octet in enumerate(frame):
        for other in range(256):
            if other != octet:
                yield frame[:place] + bytes([other]) + frame[place + 1:]


# Octets that mean something in a list, or look as if they did; and those of them that divide it.
TELLING = b"\0\t\n\r #0VFCMf\xef"
DIVIDING = b"\n\r #"


def changed(octets):
    """A short list, each of its octets changed in each way."""
    for place in range(len(octets) + 1):
        front, rest = octets[:place], octets[place:]
        yield front
        yield front + rest[1:]
        yield from (front + bytes([other]) + rest[1:] for other in TELLING)
        yield from (front + bytes([other]) + rest for other in DIVIDING)


class Agreements:
    """Short lists, on each of which the slow reader agrees."""

    def __init__(self, name, lists):
        self.name, self.lists = name, sorted(set(lists))

    def why_wrong(self, program):
        why = (f"{octets!r}: {line}" for octets in self.lists for line in Agreement("", octets).why_wrong(program))
        return [line for line, _ in zip(why, range(3))]


def cases():
    for name, octets in (
        ("a list of version 2", b"V2\nM 7 on\n"), ("a list of version 1", b"C 1\r\nM 1 off"), ("a frame of a list", b"V2\r\nF 0 0a\n"),
    ):
        yield Agreements(f"{name}: the slow reader agrees on each change", changed(octets))
    tagged = framed(WORKED[22:], tag=b"\x81\x00\x80\x00", trailer=b"\x01\x02")
    nested = with_fields(go_id=b"\x83\x01I", members=bytes.fromhex("ab 0c a2 0a a1 03 83 01 ff 83 01 00 a2 00"))
    for name, frame in (
        ("the worked frame", WORKED), ("a tagged frame", tagged), ("a nested frame", nested), ("sampled values", SAMPLED),
    ):
        frames = list(variants(frame))
        yield WellFormed(f"{name}: each line is well formed", frames)
        yield Agreement(f"{name}: the slow reader agrees", listed(*frames))
        yield WrittenReadsBack(f"{name}: what is written reads back", frames)
        recorded = b"".join(listed(variant, moment=at) for at, variant in enumerate(frames))
        yield Lists(f"{name}: the slow inventory agrees", recorded)
        yield Replays(f"{name}: the slow subscriber agrees", recorded, [BLOCK])
        yield Watches(f"{name}: the slow watch agrees", recorded, 4000)
