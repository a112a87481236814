"""What --skip-other makes of events, written from docs/FORMATS.md alone: a frame of another EtherType, however long, tells only that time
has passed, and is counted by its EtherType."""

from oracles.tallies import Tally

# What the usual names of some EtherTypes have.
NAMES = {0x0806: "ARP", 0x0800: "IPv4", 0x86DD: "IPv6", 0x88F7: "PTP", 0x88CC: "LLDP", 0x8892: "PROFINET", 0x892F: "HSR", 0x88FB: "PRP",
         0x88A8: "a second VLAN tag: not read"}


def usual_name(kind):
    """What the usual name of an EtherType has, if it has one here. Below 0600 it is no EtherType, but the length of an LLC frame."""
    return "LLC" if kind < 0x0600 else NAMES.get(kind)


def other_type(octets):
    """The EtherType of a frame that has one and announces neither GOOSE nor Sampled Values, or None. It stands behind a tag, if there is one."""
    place = 16 if octets[12:14] == b"\x81\x00" else 12
    kind = int.from_bytes(octets[place:place + 2], "big")
    return None if len(octets) < place + 2 or kind in (0x88B8, 0x88BA) else kind


class Skipping(Tally):
    """Events of which some are passed over, and how many of each EtherType, with the number of the first."""

    def __init__(self, events_of):
        super().__init__()
        self.events_of = events_of

    def __call__(self, octets, has_failed=False):
        for number, (sort, moment, held) in self.events_of(octets, has_failed):
            kind = other_type(held) if sort == "frame" else None
            if kind is None:
                yield number, (sort, moment, held)
            else:
                self.count(kind, number)
                yield number, ("clock", moment, None)
