"""A slow reader of the packets of a capture, classic or pcapng, written from docs/FORMATS.md and the pcapng draft alone."""
from oracles import reference

MOST_CAPTURED = 262_144
LONGEST_BLOCK = 16_777_216
MOST_INTERFACES = 65_536
LAST_MOMENT = 999_999_999_999_999_999
ETHERNET = 1
SECTION = bytes.fromhex("0a0d0d0a")
BYTE_ORDER = 0x1A2B3C4D
CLASSIC = {0xA1B2C3D4: 1, 0xA1B23C4D: 1000}


class Refused(Exception):
    """The capture stops here by this cause."""


class CaptureFault(reference.ListFault):
    """What ends a capture: the number of its packet and its cause."""

    sort = "capture"


def number(octets, order):
    return int.from_bytes(octets, order)


def events(octets, has_failed=False):
    """The events of a capture with the numbers of their packets; a CaptureFault ends them where the capture has one."""
    found, fault = packets(octets, has_failed)
    for at, moment, held in found:
        yield at, ("clock", moment, None) if held is None else ("frame", moment, held)
    if fault is not None:
        raise CaptureFault(*fault)


def other_links(octets):
    """The numbers of the packets that were not captured on Ethernet, with the types of their links."""
    links = []
    packets(octets, links=links)
    return links


def packets(octets, failed=False, links=None):
    """([(number, moment, octets or None)], None or (number, cause)): None in place of octets where only time has passed. The link types of
    packets that were not captured on Ethernet are put to those, if they are wanted."""
    found, end = [], "ReadFailed" if failed else "CaptureShort"
    first, octets = True, memoryview(octets)
    try:
        if len(octets) < 4:
            raise Refused(end)
        for order in ("big", "little"):
            if number(octets[:4], order) in CLASSIC:
                first = False  # the header alone says 0
                classic(octets, order, found, end, failed)
                return found, None
        if octets[:4] != SECTION:
            raise Refused("CaptureHeader")
        place, settled = 0, {"order": None, "interfaces": [], "moment": 0, "links": [] if links is None else links}
        while place < len(octets):
            place += block(octets[place:], settled, found, end, "CaptureHeader" if first else "BlockForm")
            first = False
        if failed:
            raise Refused("ReadFailed")
    except Refused as why:
        return found, (0 if first else len(found) + 1, str(why))
    except HeaderRefused as why:
        return found, (0, str(why))
    return found, None


class HeaderRefused(Exception):
    """The header of the classic form is refused."""


def classic(octets, order, found, end, failed):
    if len(octets) < 24:
        raise HeaderRefused(end)
    unit = CLASSIC[number(octets[:4], order)]
    if (number(octets[4:6], order), number(octets[6:8], order)) != (2, 4) or number(octets[20:24], order) % 65536 != ETHERNET:
        raise HeaderRefused("CaptureHeader")
    place = 24
    while place < len(octets):
        if len(octets) - place < 16:
            raise Refused(end)
        seconds, fraction, captured = (number(octets[place + at:place + at + 4], order) for at in (0, 4, 8))
        if captured > MOST_CAPTURED:
            raise Refused("RecordLength")
        held = bytes(octets[place + 16:place + 16 + captured])
        if len(held) < captured:
            raise Refused(end)
        found.append((len(found) + 1, seconds * 1_000_000 + fraction // unit, held or None))
        place += 16 + captured
    if failed:
        raise Refused("ReadFailed")


def padded(size):
    return (size + 3) // 4 * 4


def block(octets, settled, found, end, why):
    """Reads the first block and answers how many octets it has."""
    if len(octets) < 8:
        raise Refused(end)
    is_section = octets[:4] == SECTION
    if is_section:
        if len(octets) < 12:
            raise Refused(end)
        orders = [order for order in ("big", "little") if number(octets[8:12], order) == BYTE_ORDER]
        if not orders:
            raise Refused(why)
        order = orders[0]
    else:
        order = settled["order"]
    total = number(octets[4:8], order)
    if total < (28 if is_section else 12) or total % 4 or total > LONGEST_BLOCK:
        raise Refused("BlockLength")
    if len(octets) < total:
        raise Refused(end)
    if number(octets[total - 4:total], order) != total:
        raise Refused("BlockLength")
    body = octets[8:total - 4]
    if is_section:
        if number(body[4:6], order) != 1:
            raise Refused(why)
        settled.update(order=order, interfaces=[])
        return total
    kind = number(octets[:4], order)
    if kind == 1:
        settled["interfaces"].append(interface(body, order))
        if len(settled["interfaces"]) > MOST_INTERFACES:
            raise Refused("BlockForm")
    elif kind in (2, 3, 6):
        moment, link, held = packet(kind, body, settled)
        settled["moment"] = moment
        found.append((len(found) + 1, moment, held if held and link == ETHERNET else None))
        if link != ETHERNET:
            settled["links"].append((len(found), link))
    return total


def interface(body, order):
    if len(body) < 8:
        raise Refused("BlockForm")
    it = {"link": number(body[:2], order), "snapshot": number(body[4:8], order), "resolution": 6, "offset": 0}
    options = body[8:]
    while len(options) >= 4:
        code, size = number(options[:2], order), number(options[2:4], order)
        if code == 0:
            break
        if len(options) < 4 + padded(size):
            raise Refused("BlockForm")
        value = options[4:4 + size]
        if code == 9:
            if size != 1:
                raise Refused("BlockForm")
            it["resolution"] = value[0]
        if code == 14:
            if size != 8:
                raise Refused("BlockForm")
            it["offset"] = int.from_bytes(value, order, signed=True)
        options = options[4 + padded(size):]
    return it


def packet(kind, body, settled):
    order, interfaces = settled["order"], settled["interfaces"]
    head = 4 if kind == 3 else 20
    if len(body) < head:
        raise Refused("BlockForm")
    which = {6: number(body[:4], order), 2: number(body[:2], order), 3: 0}[kind]
    if which >= len(interfaces):
        raise Refused("Interface")
    it = interfaces[which]
    if kind == 3:
        captured = number(body[:4], order)
        if it["snapshot"]:
            captured = min(captured, it["snapshot"])
    else:
        captured = number(body[12:16], order)
    if captured > MOST_CAPTURED:
        raise Refused("RecordLength")
    if len(body) < head + padded(captured):
        raise Refused("BlockForm")
    if kind == 3:
        moment = settled["moment"]
    else:
        ticks = number(body[4:8], order) * 2**32 + number(body[8:12], order)
        r = it["resolution"]
        units = 10**r if r < 128 else 2**(r - 128)
        moment = ticks * 1_000_000 // units + 1_000_000 * it["offset"]
        if not 0 <= moment <= LAST_MOMENT:
            raise Refused("PacketTime")
    return moment, it["link"], bytes(body[head:head + captured])
