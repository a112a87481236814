"""How the samples of streams are synchronised: smpSynch, and when it changes."""
from reporting import page
from reporting.places import place
from reporting.simulation import clock
from reporting.verdict import clean, found as finding, not_judged, some

# How many changes of a stream are told, and how many losses of its clock.
MOST, MOST_LOST = 50, 2
# What smpSynch says (IEC 61850-9-2, IEC 61869-9): of 1 and 5 to 254 the clock is a local one. The values between and 255 are reserved.
NONE, GLOBAL = 0, 2
RESERVED = (3, 4, 255)
COLUMNS = [page.Column("Stream"), page.Column("smpSynch"), page.Column("Changes", page.NUMBER)]


def meaning(value):
    """What a value of smpSynch says."""
    return {NONE: "0 (not synchronised)", GLOBAL: "2 (global clock)"}.get(value, f"{value} ({'reserved' if value in RESERVED else 'local clock'})")


class Synch:
    """The values of smpSynch of a stream, each with its place, and how often they change; where it first goes to 0 from another value, and where
    it first has each reserved one."""

    def __init__(self):
        self.values, self.now, self.changes, self.lost, self.reserved = [], None, 0, [], {}

    def see(self, value, found):
        if value == self.now:
            return
        if self.now is not None and value == NONE and len(self.lost) < MOST_LOST:
            self.lost.append((value, place(found)))
        if value in RESERVED:
            self.reserved.setdefault(value, place(found))
        self.changes += self.now is not None
        if len(self.values) < MOST:
            self.values.append((value, place(found)))
        self.now = value

    def told(self, short):
        """The values in order, each with the place from which on it holds."""
        more = [f"{self.changes + 1 - len(self.values)} more"] if self.changes + 1 > len(self.values) else []
        held = [page.element("span", [f"{meaning(value)} from ", page.when(where, short), f" (packet\u00a0{where.packet}) on"]) for value,
                where in self.values]
        return page.Raw("<br/>".join(map(page.text, [*held, *more])))


def at(stream, values, short):
    """A stream, and its values from some places on."""
    return f"{stream.name}: " + ", ".join(f"{value} from packet\u00a0{where.packet} on ({clock(where, short)})" for value, where in values)


def judge(found, _own):
    streams, short = [it for it in found.station.of_kind("stream") if it.synch.values], found.is_short
    lost = [at(it, it.synch.lost, short) for it in streams if it.synch.lost]
    reserved = [at(it, it.synch.reserved.items(), short) for it in streams if it.synch.reserved]
    changing = [at(it, it.synch.values[:3], short) for it in streams if it.synch.changes and not it.synch.lost]
    without = [at(it, it.synch.values[:1], short) for it in streams if it.synch.values[0][0] == NONE]
    others = sorted({value for it in streams for value, _ in it.synch.values[:1]})
    if lost:
        yield finding(f"smpSynch goes to 0 (not synchronised): {some(lost)}.")
    todo = "look at the clocks of the merging units"
    if reserved:
        yield not_judged(f"smpSynch is reserved, so it says of no clock by which the samples are synchronised: {some(reserved)}.", todo)
    if changing:
        yield not_judged(f"smpSynch changes: {some(changing)}.", todo)
    if without:
        yield not_judged(f"smpSynch is 0 (not synchronised): {some(without)}.", todo)
    if len(others) > 1:
        yield not_judged(f"smpSynch differs between streams: {some([meaning(it) for it in others])}.", todo)
    if not (lost or reserved or changing or without or len(others) > 1):
        told = f"smpSynch of {page.count(len(streams), 'stream')} is {meaning(others[0])}" if streams else "there is no stream"
        yield clean(f"{told} in {found.all_packets}.")


def rows(streams, short):
    for it in streams:
        yield page.row(COLUMNS, [page.element("span", page.named(it.name), class_="name"), it.synch.told(short), f"{it.synch.changes:,}"])
