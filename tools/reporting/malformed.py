"""Frames with an error that come where a control block lacks frames: these are told as errors, and not as missing too. Such a frame does
not say what it is, so it is known by its addresses and its APPID."""
import bisect

# How many frames with an error are looked at, and how many times a control block is noted between whose frames some of them come.
MOST, MOST_BETWEEN = 20000, 50000
GOOSE, TAG = b"\x88\xb8", b"\x81\x00"
# A ring's tag (IEC 62439-3), and the tags of VLANs of which one can stand before another.
RING, TAGS = b"\x89\x2f", (TAG, b"\x88\xa8")
# The octets of a frame up to its APPID, with a tag, and with what a ring or a provider's network put round it.
HEAD = 64


def unwrapped(octets):
    """The first octets of a frame as goose looks at it by --unwrap: without HSR tags, and without VLAN tags before another."""
    while True:
        kind, behind = octets[12:14], octets[16:18]
        if kind == RING and len(octets) >= 20:
            octets = octets[:12] + octets[18:]
        elif kind in TAGS and behind == RING and len(octets) >= 24:
            octets = octets[:16] + octets[22:]
        elif kind in TAGS and behind in TAGS:
            octets = octets[:12] + octets[16:]
        else:
            return octets


def head_of(octets):
    """The destination, source and APPID of a frame of GOOSE as goose writes them, or None."""
    octets = unwrapped(octets)
    at = 16 if octets[12:14] == TAG else 12
    if octets[at:at + 2] != GOOSE or len(octets) < at + 4:
        return None
    return octets[:6].hex(), octets[6:12].hex(), octets[at + 2:at + 4].hex()


class Between:
    """The frames of one sender, and which frames with an error came between two of them: by the packet of the second one."""

    __slots__ = ("count", "held")

    def __init__(self, count):
        self.count, self.held = count, {}


class Malformed:
    """The packets with an error, the heads of their frames, and between which valid frames they came."""

    def __init__(self):
        self.packets, self.count, self.heads, self.senders, self.noted, self.told = [], 0, {}, {}, 0, set()

    def see(self, packet):
        """A frame with an error."""
        if self.count < MOST:
            self.packets.append(packet)
            self.count += 1

    def before(self, packet):
        """How many of those that were seen came before a packet."""
        return self.count if not self.count or self.packets[-1] < packet else bisect.bisect(self.packets, packet)

    def of(self, sender, packet):
        return self.senders.get(sender) or self.senders.setdefault(sender, Between(self.before(packet)))

    def between(self, between, packet):
        """A valid frame: some with an error may have come since the last one of its sender."""
        count = self.before(packet)
        if count == between.count:
            return
        if self.noted < MOST_BETWEEN:
            between.held[packet] = between.count, count
            self.noted += 1
        between.count = count

    def take(self, sender, envelopes, appid, packet, most):
        """At most so many packets with an error that came before this packet where frames of its sender are missing."""
        between = self.senders.get(sender)
        first, last = between.held.get(packet, (0, 0)) if between else (0, 0)
        addresses = {(destination, source, appid) for destination, source, _ in envelopes} if first < last else ()
        found = [it for it in self.packets[first:last] if self.heads.get(it) in addresses and it not in self.told][:most]
        self.told.update(found)
        return found
