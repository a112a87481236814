"""What of a capture could not be looked at: packets that are not of Ethernet, frames that were passed over, what was dropped, and times
that hide silences."""
from reporting import page
from reporting.verdict import found as finding, not_judged, some

# The EtherTypes of frames in which others are, and what to do. HSR tags and tags before another are taken out before: these are cut short, or
# have no tag behind them.
CARRIERS = {"892f": ("HSR", "capture whole frames"),
            "88a8": ("an outer VLAN tag", "capture where the frames have no outer tag"),
            **dict.fromkeys(("9100", "9200", "9300"), ("an outer VLAN tag", "capture where the frames have no outer tag")),
            **dict.fromkeys(("8847", "8848"), ("MPLS", "capture where the frames have no MPLS label")),
            "88e7": ("a provider's backbone, PBB", "capture where the frames are not in others"),
            "893f": ("a tag of IEEE 802.1BR", "capture where the frames have no such tag"),
            "f1c1": ("a redundancy tag, IEEE 802.1CB", "capture where the frames have no such tag"),
            "88e5": ("MACsec", "capture where the frames are not encrypted")}

# What to do where packets have no time.
TIMED = "capture with times, as dumpcap and tcpdump do"


def of_links(found):
    """Packets that were not captured on Ethernet, by link types."""
    links = {}
    for it in found.recorded.interfaces:
        if it.packets and not it.is_ethernet:
            number, first = links.get(it.link, (0, it.first))
            links[it.link] = number + it.packets, min(first, it.first)
    told = [f"{page.count(number, 'packet')} of {link}, from packet\u00a0{first} on" for link, (number, first) in links.items()]
    if told:
        yield not_judged(f"not captured on Ethernet, and so not read: {some(told)}.", "capture on the network card itself")


def of_others(found):
    """Frames of other protocols that may carry those that are looked for."""
    for number, name, first in found.others:
        kind = name.replace("EtherType ", "").split(" ")[0]
        what, todo = CARRIERS.get(kind, ("", ""))
        if kind in ("other", "others"):
            what, todo, kind = "the kinds after sixteen", "look at them in Wireshark", "other protocols"
        if what:
            yield not_judged(f"{page.count(number, 'frame')} of {kind} ({what}), from packet\u00a0{first} on, may carry GOOSE: not read, nor are "
                             "Sampled Values in these.", todo)


def of_recorder(found):
    """Packets that the recorder dropped or cut."""
    drops = [f"{page.count(it.drops, 'packet')} at {it.name or f'interface {at}'}" for at, it in enumerate(found.recorded.interfaces) if it.drops]
    if drops:
        yield not_judged(f"the recorder dropped {some(drops)}: what is missing may be its own.",
                         "capture again with a larger buffer, or filter while capturing")
    cut = found.recorded.cut
    if cut.number:
        yield not_judged(f"the recorder cut {page.count(cut.number, 'packet')}, from packet\u00a0{cut.first} on: errors of these may be its own.",
                         "capture whole packets, without a snapshot length")


def of_times(found):
    """Packets without times, times that go back, and leaps of the capture's clock."""
    times = found.station.times
    if found.untimed.number:
        yield not_judged(f"{found.untimed.told(found.packets)} (simple packet blocks, or times of 0): silences, lifetimes, pauses, clocks and "
                         "delays are not judged.", TIMED)
    if times.backs:
        it = times.greatest_back
        more = f", first at packet\u00a0{times.backs[0].first.packet}" if it is not times.backs[0] else ""
        yield finding(f"times go back, at packet\u00a0{it.first.packet} by up to {page.duration(it.by)} "
                      f"from that of packet\u00a0{it.greatest}{more}: silences after it cannot be seen.")
    leaps = [f"by {page.duration(it.after - it.before)} before packet\u00a0{it.packet}" for it in times.leaps]
    if leaps:
        yield not_judged(f"the capture's clock leapt {some(leaps)}: all senders were silent at once, and none left out a sqNum.",
                         "look at the clock of the computer that captured")


def of_senders(found):
    """A capture in which there is nothing to judge."""
    if not any(found.station.kinds.get(kind) for kind in (b"goose", b"sv", b"fault")):
        yield not_judged(f"no frame of GOOSE or Sampled Values is in {found.all_packets}.", "look whether port, mirror and filter let them pass")


def judge(found):
    yield from of_senders(found)
    yield from of_times(found)
    yield from of_links(found)
    yield from of_others(found)
    yield from of_recorder(found)


def silences(found):
    """Silences that are not judged, since the capture's times do not tell them."""
    times = found.station.times
    if found.untimed.number:
        more = f": {page.count(found.missing.hidden, 'silence')} may be none" if found.missing.hidden else ""
        yield not_judged(f"silences are not judged, since {found.untimed.told(found.packets)}{more}.", TIMED)
    elif times.backs:
        more = f"; {page.count(found.missing.hidden, 'silence')} that they show may be none" if found.missing.hidden else ""
        it = times.backs[0]
        yield not_judged(f"times go back at packet\u00a0{it.first.packet}: silences after packet\u00a0{it.greatest} cannot be seen{more}.",
                         "mend the times, as with editcap -t or reordercap, and report again")
    own = sum(it.silences + it.outages for it in times.leaps)
    if own:
        yield not_judged(f"{page.count(own, 'silence')} where the capture's clock leapt, first: packet\u00a0{times.leaps[0].first}.",
                         "look at the clock of the computer that captured")
