"""Frames of tests: simulated ones, and those of control blocks that need commissioning."""
from reporting import page
from reporting.verdict import clean, found as finding, not_judged, some

SECOND = 10**6


def when(it, span, is_on, short):
    """A sender, from when to when it sent such frames, and whether it does so at the end."""
    on = "still on at the end" if is_on else f"to packet\u00a0{span.last.packet}, {clock(span.last, short)}"
    return f"{it.name}: {page.count(span.number, 'frame')} from packet\u00a0{span.first.packet}, {clock(span.first, short)}, {on}"


def clock(place, short):
    """A time in words that need no element."""
    if not place.microseconds:
        return "no time"
    if place.time is None:
        return f"{place.microseconds} \u03bcs"
    return place.time.rstrip("Z").partition("T")[2 if short else 0].replace("T", " ") + " UTC"


def is_simulated_yet(it, end):
    """Whether a simulated frame is within its lifetime at the end, or the last sample came within a second of it."""
    until = it.lives_until if it.kind == "block" else it.simulated.last.microseconds + SECOND
    return until > end


def judge(found, _own):
    seen, end, short = found.station.seen.values(), found.station.span, found.is_short
    simulated = [when(it, it.simulated, is_simulated_yet(it, end[1]), short) for it in seen if it.simulated.number]
    needing = [when(it, it.commissioning, it.commissioning.last.packet == it.last.packet, short) for it in seen if it.commissioning.number]
    if simulated:
        yield finding(f"simulated frames: {some(simulated)}.")
    if needing:
        yield finding(f"ndsCom is true: {some(needing)}.")
    marked = [f"{it.name}: {page.count(it.marked.number, 'frame')} from packet\u00a0{it.marked.first.packet} on" for it in seen if it.marked.number]
    if marked:
        yield not_judged(f"Reserved 1 says simulated, and the APDU does not: {some(marked)}.", "ask by which of the two the subscribers go")
    if not simulated and not needing and not marked:
        yield clean(f"no simulated frame and no ndsCom in {found.all_packets}.")
