"""What standard error says of packets that were not captured on Ethernet, written from docs/FORMATS.md alone."""
from oracles import packets, tallies

USUAL = {105: "IEEE802_11, Wi-Fi", 113: "LINUX_SLL, the interface any", 127: "IEEE802_11_RADIOTAP, Wi-Fi", 276: "LINUX_SLL2, the interface any"}


def named(link):
    """A link type by its number, and by its usual name if it has one here."""
    return f"{link} ({USUAL[link]})" if link in USUAL else str(link)


def told(octets):
    """What is said of a capture, if anything is: as one text in a list."""
    tally = tallies.Tally()
    for number, link in packets.other_links(octets):
        tally.count(link, number)
    parts = [f"{count} of {named(link)}, from {first} on" for link, (count, first) in tally.kinds.items()]
    if not parts:
        return []
    if tally.others:
        parts.append("%d of other link types, from %d on" % tally.others)
    first = parts[0].replace(" of ", " of link type ", 1)
    return ["not Ethernet: " + "; ".join([first, *parts[1:]]) + ": capture on the network card itself"]
