"""How long the pauses between frames of a control block are, beside MinTime and MaxTime of an SCL file."""
from reporting import page
from reporting.sequence import NUMBER
from reporting.verdict import not_judged, some

# By how much a pause may be longer than it is configured, and how many pauses over a second without any packet are held for one block.
MORE, MOST = 1.1, 1000
MILLISECOND = 1000
FIRST, ANY = "MinTime", "MaxTime"


class Pace:
    """The pauses between the real frames of one control block that follow each other by their numbers: the longest one from sqNum 0 to 1, and
    of all. Where in a pause no packet came at all, the capture's clock may have leapt."""

    def __init__(self):
        self.state, self.number, self.sequence, self.at, self.longest, self.over = b"", None, 0, None, {}, []

    def see(self, packet, state, sequence, now, gaps):
        """A frame: its packet, its fields up to stNum, and its sqNum. Copies are passed over."""
        number = self.number if state == self.state else int(state[state.rindex(NUMBER) + len(NUMBER):])
        if (number, sequence) == (self.number, self.sequence):
            return
        is_next = (number, sequence) == (self.number, self.sequence + 1)
        if self.at is not None and now > self.at and (is_next or (number, sequence) == (self.number + 1, 0)):
            kinds = (FIRST, ANY) if is_next and sequence == 1 else (ANY,)
            told = kinds, now - self.at, packet
            if not gaps or gaps[-1].after <= self.at:
                self.note(*told)
            elif len(self.over) < MOST:
                self.over.append((gaps[-1], told))
        self.state, self.number, self.sequence, self.at = state, number, sequence, now or None

    def note(self, kinds, pause, packet):
        for kind in kinds:
            if kind not in self.longest or pause > self.longest[kind][0]:
                self.longest[kind] = pause, packet

    def end(self):
        """Takes the pauses in which the clock did not leap."""
        for gap, told in self.over:
            if not gap.is_leap:
                self.note(*told)
        self.over.clear()


def exceeded(seen, pace, times, is_timed):
    """What of a control block is longer than it is configured, or not longer where it should be. Pauses are not judged where times go back."""
    pace.end()
    for kind, what in ((FIRST, "from sqNum 0 to 1"), (ANY, "between two frames")):
        pause, packet = pace.longest.get(kind, (0, None))
        if is_timed and times.get(kind) and pause > MORE * MILLISECOND * times[kind]:
            yield f"{page.duration(pause)} {what} (packet\u00a0{packet}), {kind} {times[kind]:,} ms"
    live, packet = seen.lives[-1] if seen.lives else (None, None)
    if live is not None and live <= times.get(ANY, -1) and seen.last.microseconds - seen.first.microseconds >= MILLISECOND * times[ANY]:
        yield f"no timeAllowedtoLive above {ANY} {times[ANY]:,} ms: {live:,} ms (packet\u00a0{packet})"


def of_all(station, configured, is_timed):
    """What is said of each control block, where it is something."""
    found = {}
    for it in station.of_kind("block"):
        pace, times = station.paces.get((it.appid, it.name)), configured.times.get((it.appid, it.name))
        told = list(exceeded(it, pace, times, is_timed)) if pace and it.first else []
        if told:
            found[id(it)] = told
    return found


def judge(found, own, agree):
    """The control blocks that are not as MinTime and MaxTime ask, beside those that agree with the file in all."""
    if found.configured.times and not found.is_timed:
        why = found.untimed.told(found.packets) if found.untimed.number else "times go back"
        yield not_judged(f"pauses are not held beside MinTime and MaxTime of {own.scd}, since {why}.", "capture with times that go on")
    told = [f"{it.name}: {' and '.join(found.paces[id(it)])}" for it in found.station.seen.values() if id(it) in found.paces]
    if told:
        others = page.count(agree, "other agrees", "others agree") if agree else "no other agrees"
        yield not_judged(f"{page.count(len(told), 'control block does', 'control blocks do')} not keep the times of {own.scd}: {some(told)}; "
                         f"{others} with it in {found.all_packets}.", "compare the device's settings with the file")
