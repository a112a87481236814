"""What --unwrap makes of events, written from docs/FORMATS.md alone: a frame is looked at without the HSR tags of a ring, and without each
VLAN tag before another."""

HSR, VLAN = b"\x89\x2f", (b"\x81\x00", b"\x88\xa8")


def tag_of(frame):
    """The octets of the tag that is taken out next, as the places of the first one and of the one behind, or None."""
    first, second = frame[12:14], frame[16:18]
    if first == HSR and len(frame) >= 20:
        return 12, 18
    if first in VLAN and second == HSR and len(frame) >= 24:
        return 16, 22
    if first in VLAN and second in VLAN and len(frame) >= 18:
        return 12, 16
    return None


def unwrapped(frame):
    """What is left of a frame."""
    while tag := tag_of(frame):
        frame = frame[:tag[0]] + frame[tag[1]:]
    return frame


class Unwrapping:
    """Events whose frames are unwrapped."""

    def __init__(self, events_of):
        self.events_of = events_of

    def __call__(self, octets, has_failed=False):
        for number, (sort, moment, held) in self.events_of(octets, has_failed):
            yield number, (sort, moment, unwrapped(held) if sort == "frame" else held)
