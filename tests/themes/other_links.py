"""Packets that were not captured on Ethernet: each tells only that time has passed, and standard error says how many there were of each link
type, from which number on, and what to do."""
import random
from itertools import product

from helpers.capture_parts import header, interface, old_packet, packet, record, section, simple_packet
from helpers.captured import ASKED, EachOf, Read, asking, capturing
from helpers.frames import SAMPLED, WORKED
from helpers.harness import run
from themes.reading_files import ByName
from themes.replaying import state
from themes.skipping import ARP

SEED = 113
CAPTURE, SKIP = "--capture", "--skip-other"
SLL, WIFI = interface(link=113), interface(link=105)
TODO = ": capture on the network card itself\n"
COOKED = "of link type 113 (LINUX_SLL, the interface any)"


def of_links(links, order="little"):
    """A section with an interface of each of these link types, and a packet of each, in their order."""
    kinds = list(dict.fromkeys(links))
    return section(order) + b"".join(interface(order, link=it) for it in kinds) + b"".join(
        packet(1000 * at, WORKED, order, which=kinds.index(it)) for at, it in enumerate(links))


def worked():
    """What is said, word for word."""
    both = section() + SLL + interface()
    one = both + packet(1, WORKED) + packet(2, b"", which=1) + packet(3, b"") + packet(4, ARP, which=1)
    for command in ASKED:
        links = f"goose {command}: not Ethernet: 2 {COOKED}, from 1 on{TODO}"
        yield Said(f"{command}: with octets and without", capturing(command), one, links)
        yield Said(f"{command}: after what was passed over", asking(command, CAPTURE, SKIP), one,
                   f"goose {command}: passed over: 1 of EtherType 0806 (ARP), from 4 on\n", links)
    two = section() + SLL + WIFI + packet(1, WORKED) + packet(1, WORKED, which=1) * 2 + packet(1, WORKED) + packet(1, WORKED, which=1)
    yield Said("two kinds", ["blocks", CAPTURE], two, f"goose blocks: not Ethernet: 2 {COOKED}, from 1 on; 3 of 105 (IEEE802_11, Wi-Fi), from 2 on{TODO}")
    for link, name in ((113, " (LINUX_SLL, the interface any)"), (276, " (LINUX_SLL2, the interface any)"), (105, " (IEEE802_11, Wi-Fi)"),
                       (127, " (IEEE802_11_RADIOTAP, Wi-Fi)"), (0, ""), (2, ""), (147, ""), (257, ""), (65535, "")):
        yield Said(f"the name of link type {link}", ["check", CAPTURE], of_links([1, link]),
                   f"goose check: not Ethernet: 1 of link type {link}{name}, from 2 on{TODO}")
    alone = "; ".join(f"1 of {200 + at}, from {1 + at} on" for at in range(1, 16))
    yield Said("six of further kinds", ["check", CAPTURE], of_links([*range(200, 216), *range(300, 306)]),
               f"goose check: not Ethernet: 1 of link type 200, from 1 on; {alone}; 6 of other link types, from 17 on{TODO}")
    yield Said("none", ["check", CAPTURE], of_links([1, 1]))
    yield Said("an interface without a packet", ["check", CAPTURE], section() + interface() + SLL + packet(1, WORKED))
    yield Said("a packet of Ethernet without octets", ["check", CAPTURE], section() + interface() + packet(1, b""))
    yield Said("a capture that is cut within another one", ["check", CAPTURE], both + packet(1, WORKED) + packet(1, WORKED)[:-1],
               f"goose check: not Ethernet: 1 {COOKED}, from 1 on{TODO}", "goose check: packet 2: CaptureShort: ", status=3)


class Said:
    """A run of which standard error is these lines, the last one perhaps only begun."""

    def __init__(self, name, asked, octets, *lines, status=0):
        self.name, self.asked, self.octets, self.lines, self.status = f"word for word: {name}", asked, octets, lines, status

    def why_wrong(self, program):
        _, complained, status = run(program, self.asked, self.octets)
        told = [it for it in complained.decode().splitlines(keepends=True) if " was never seen: " not in it and ": not judged: " not in it]
        begun = len(told) >= len(self.lines) and all(it.startswith(line) for it, line in zip(told, self.lines))
        is_all = status == 3 or len(told) == len(self.lines)
        return [] if begun and is_all and (status == self.status or status == 1) else [f"status {status}, and said {told}, not {self.lines}"]


def kinds():
    """Captures of so many link types, of which some come again, in both orders of octets."""
    for count, order in product((1, 2, 3, 15, 16, 17, 18, 40), ("little", "big")):
        links = [7 * at + 2 for at in range(count)]
        yield f"{count} kinds, {order}", of_links([1, *links, *links[::-1], 1, *links[::3]], order)


def by_chance():
    """Packets of each sort on interfaces of a few link types, in several sections, some of them cut or at fault."""
    chance = random.Random(SEED)
    for at in range(120):
        made = []
        for _ in range(chance.randrange(1, 4)):
            order = chance.choice(["little", "big"])
            links = [chance.choice([1, 1, 113, 105, chance.randrange(65536)]) for _ in range(chance.randrange(1, 6))]
            made += [section(order), *[interface(order, link=it, snapshot=chance.choice([0, 0, 4])) for it in links]]
            for _ in range(chance.randrange(12)):
                held = chance.choice([WORKED, SAMPLED, ARP, b"", state(1, 0)])
                which, ticks = chance.randrange(len(links)), chance.randrange(10**6)
                made.append(chance.choice([packet(ticks, held, order, which), old_packet(ticks, held, order, which), simple_packet(held, order)]))
        octets = b"".join(made)
        yield f"capture {at}", octets[:chance.randrange(len(octets))] if chance.random() < 0.4 else octets


def cases():
    yield from worked()
    yield EachOf("of so many kinds", kinds, CAPTURE)
    yield EachOf("of so many kinds, and others passed over", kinds, CAPTURE, SKIP)
    yield EachOf("by chance", by_chance, CAPTURE)
    yield EachOf("by chance, others passed over", by_chance, CAPTURE, SKIP)
    several = of_links([113, 1, 105, 113, 1, 276]) + of_links([1, 113, 1], "big")
    yield Read("in two sections", several)
    yield Read("with dates and as objects", several, *[asking(command, CAPTURE, it) for command in ASKED for it in ("--time", "--json")])
    yield ByName("packets of other links", several)
    yield ByName("packets of other links", several, "--raw")
    yield ByName("packets of other links, cut", several[:-3])
    yield Read("a capture in the classic form has none", header() + record(1, 2, WORKED) + record(1, 2, b""))
