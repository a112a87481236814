"""The capture beside another one of the same frames: what only one of them has, and how much later the other one has each frame."""
import itertools
import math
import os

import senders
from pairing import Compared, share
from reporting import page, sections
from reporting.verdict import clean, found as finding, not_judged
from running import Ended
from tapped import Side
from taps import Taps
from time_axis import places_of, step_of

COLUMNS = [page.Column("Sender"), page.Column("Here", page.NUMBER), page.Column("There", page.NUMBER), page.Column("In both", page.NUMBER),
           page.Column("Only here"), page.Column("Only there"), page.Column("Delay"), page.Column("Another order")]
WORDS = {"least": "least", "median": "median", "percentile99": "99 in 100", "greatest": "greatest"}
# The picture: its size, the room around the bars, how many bars it has at most, and how far beyond the delay of 99 in 100 it goes.
WIDTH, HEIGHT, LEFT, TOP, BOTTOM, MOST_BARS, BEYOND = 1000, 240, 60, 14, 34, 60, 4


class Beside:
    """The other capture, and what became of the frames of both. Those of this one are noted as they are read for the page."""

    def __init__(self, path, progress):
        self.path, self.name, self.here, self.taps, self.compared = path, os.path.basename(path), Side("this capture"), Taps(progress), None

    def noting(self, parts):
        for lines in parts:
            self.here.see(b"\n".join([*lines, b""]))
            yield lines

    def compare(self):
        """Reads the other capture."""
        (there,) = self.taps.files(self.path)
        self.compared = Compared(self.here, there, False)

    @property
    def broken(self):
        return self.taps.broken[0][1] if self.taps.broken else None


def asked(path, progress):
    if path == "-":
        raise Ended("--beside takes a file, and standard input is none", 2)
    return Beside(path, progress) if path else None


def noting(beside, parts):
    return beside.noting(parts) if beside else parts


def first_of(packets):
    """How many frames, and their first packets."""
    if not packets.number:
        return ""
    more = ", .." if packets.number > len(packets.first) else ""
    return f"{packets.number:,} ({'packet' if packets.number == 1 else 'packets'}\u00a0{', '.join(map(str, packets.first))}{more})"


def judge(found, _own):
    """What of the frames of both is in one alone."""
    if not found.beside:
        return
    it, name, number = found.beside.compared, found.beside.name, lambda side: sum(sender.only[side].number for sender in it.senders)
    first = lambda side: min(sender.only[side].first[0] for sender in it.senders if sender.only[side].number)
    told = [f"{page.count(number(side), 'frame')} only in {where} (first: packet\u00a0{first(side)})"
            for side, where in enumerate(("this capture", name)) if number(side)]
    if found.beside.broken:
        yield not_judged(f"{name} breaks off where packet\u00a0{found.beside.broken.packet} should be.", "record it again, or compare up to there")
    for side, where in zip(it.sides, ("this capture", name)):
        for left in (side.errors, side.left_out):
            if left.number:
                yield not_judged(f"{page.count(left.number, 'frame')} of {where} could not be compared (first: packet\u00a0{left.first}).",
                                 "look at its errors")
    if told or not it.both:
        yield finding(f"{'; '.join(told) or f'no frame is in both this capture and {name}'}.")
    else:
        yield clean(f"{page.count(it.both, 'frame')} in both this capture and {name}, none in one alone while both were on.")


# ---- The section -------------------------------------------------------------


def exactly(microseconds):
    """A time to the microsecond, however long it is."""
    if abs(microseconds) < 10**6:
        return page.duration(microseconds)
    (seconds, rest), sign = divmod(abs(microseconds), 10**6), "\u2212" if microseconds < 0 else ""
    return f"{sign}{seconds:,}.{rest:06} s"


def delays(it):
    """The delays of a sender, with their packets here and there: the least, and by how much the others are greater."""
    if not it.delays:
        return ""
    least = it.delays.least.microseconds
    return sections.lines_of(f"{WORDS[name]} {exactly(delay.microseconds) if name == 'least' else f'+{exactly(delay.microseconds - least)}'} "
                             f"(packets\u00a0{delay.packets[0]}, {delay.packets[1]})" for name, delay in it.delays.told.items())


def row(it):
    """A row of one sender."""
    stream, simulated = "stream, " if it.kind == "sv" else "", ", simulated" if it.is_simulated else ""
    what = f" ({stream}APPID\u00a0{it.appid}, from {senders.hyphened(it.source)}{simulated})"
    name = page.element("span", [page.named(it.name), page.element("span", what, class_="soft")], class_="name sender")
    alone = [sections.lines_of([*filter(None, [first_of(only)]), *([f"apart: {first_of(apart)}"] if apart.number else [])])
             for only, apart in zip(it.only, it.apart)]
    turned = f"{it.turned.number:,} (packets\u00a0{'; '.join(f'{one}, {other}' for one, other in it.turned.first)})" if it.turned.number else ""
    mark = 4 if it.only[0].number else 5 if it.only[1].number else None
    return page.row(COLUMNS, [name, *(f"{number:,}" for number in (*it.numbers, it.both)), *alone, delays(it), turned], found=mark)


def section(found, _own):
    if not found.beside:
        return ""
    beside, it = found.beside, found.beside.compared
    told = [sections.paragraph("Frames are the same where source, APPID and key are: gocbRef, simulation, stNum and sqNum, or svID and smpCnt. "
                               f"The first packet number is of this capture, the second of {beside.name}. "
                               "Apart is what one capture has before the other one began or after it ended.")]
    if it.least:
        told.append(sections.paragraph(f"The clocks differ by, or the way takes, at least {exactly(it.least.microseconds)} "
                                       f"(packets\u00a0{it.least.packets[0]}, {it.least.packets[1]}): two files have two clocks."))
        if not it.clocks:
            told.append(sections.paragraph(f"{it.unknown_clocks}."))
        if it.drift:
            told.append(sections.paragraph(
                f"From the first tenth of the time to the last one the least delay becomes {exactly(abs(it.drift))} "
                f"{'greater' if it.drift > 0 else 'less'}: clocks that drift, or a way that changes, are in all delays."))
    if beside.broken:
        told.append(sections.paragraph(f"{beside.name} breaks off where packet\u00a0{beside.broken.packet} should be: {beside.broken.error}."))
    told.append(page.bounded(f"Beside {beside.name}", COLUMNS, map(row, it.senders), found.room, "sender"))
    told += [histogram(it, beside.name)] if it.least else []
    return sections.section("Beside another capture", "beside", *told)


# ---- The picture -------------------------------------------------------------


def bars(compared):
    """The delays over the least as numbers of frames, each of a bar so many microseconds wide; the last bar has all greater ones."""
    least, ordered = compared.least.microseconds, sorted(itertools.chain.from_iterable(it.delayed for it in compared.senders))
    most = min(ordered[-1], least + BEYOND * (ordered[share(len(ordered))] - least) + 1)
    wide = max(1, -(-(most - least + 1) // MOST_BARS))
    counts = [0] * ((most - least) // wide + 1)
    for it in ordered:
        counts[min(it - least, most - least) // wide] += 1
    return counts, wide, ordered[-1] > most


def histogram(compared, name):
    """The delays as bars, whose heights are logarithms of numbers."""
    counts, wide, has_more = bars(compared)
    title = f"Delays from this capture to {name}"
    high, floor, step = HEIGHT - TOP - BOTTOM, HEIGHT - BOTTOM, step_of(wide * len(counts))
    top = math.log10(max(counts)) + 0.3
    x = lambda over: LEFT + over * (WIDTH - LEFT - 20) // (wide * len(counts))
    y = lambda number: floor - round(high * (math.log10(number) + 0.3) / top)
    inside = [page.element("title", title)]
    for power in range(int(math.log10(max(counts))) + 1):
        inside += [page.Raw(f'<path class="grid" d="M{LEFT} {y(10**power)}H{WIDTH - 20}"/>'),
                   page.element("text", f"{10**power:,}", x=LEFT - 6, y=y(10**power) + 4, class_="scale", text_anchor="end")]
    for at, number in enumerate(counts):
        if number:
            left, right = x(at * wide), x((at + 1) * wide)
            inside.append(page.Raw(f'<rect class="flow" x="{left}" y="{y(number)}" width="{max(right - left - 1, 1)}" '
                                   f'height="{floor - y(number)}"/>'))
    for over in range(0, wide * len(counts), step):
        told = f"{over / 1000:.{places_of(step, 1000)}f}"
        inside.append(page.element("text", told, x=x(over), y=floor + 16, class_="scale", text_anchor="middle"))
    svg = page.element("svg", inside, viewBox=f"0 0 {WIDTH} {HEIGHT}", width=WIDTH, height=HEIGHT, role="img", aria_label=title)
    more = " The last bar has all greater ones." if has_more else ""
    caption = f"{title}: milliseconds over the least one, and how many frames have each (logarithmic).{more}"
    moved = page.element("div", svg, class_="scroll", tabindex="0", role="group", aria_label=title)
    return page.Raw(page.element("figure", [page.element("figcaption", caption), moved]) + "\n")
