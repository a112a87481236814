"""Which frames of a control block, and samples of a stream, that were named missing came late, and which late ones were never missing: copies."""
import bisect
import re

from reporting.times import SECOND

# The numbers at the end of a line: a state, and the first and last of what is missing, or the frame that came.
NUMBERS = re.compile(rb'(?:"stNum":(\d+),)?(?:"from":(\d+),"to":(\d+)|"sqNum":(\d+))\}$')
# The count of a late sample, or of the first one that is missing.
COUNT = re.compile(rb'"(?:smpCnt|from)":(\d+)')
# The greatest number of a frame, and how many runs of missing frames are held of all senders.
GREATEST, MOST = (1 << 64) - 1, 20000
# How many runs of missing samples are held of one stream.
MOST_RUNS = 1000


class Late:
    """What is missing of one sender since its last restart: runs of frames of one state, and runs of whole states, in order. Each has the
    packet that showed it. Of a state that is missing whole it is not known how many frames it had."""

    def __init__(self):
        self.frames, self.states, self.came, self.copies = [], [], 0, 0

    @property
    def number(self):
        return len(self.frames) + len(self.states)

    def restart(self):
        self.frames, self.states = [], []

    def forget(self):
        """Leaves the older half."""
        self.frames, self.states = self.frames[len(self.frames) // 2:], self.states[len(self.states) // 2:]

    def take_frame(self, state, sequence):
        """A late frame: what was missing, or None, and the packet that showed it."""
        at = bisect.bisect_right(self.frames, (state, sequence, GREATEST + 1)) - 1
        if at < 0 or self.frames[at][0] != state or self.frames[at][2] < sequence:
            return self.take_state(state, sequence)
        _, first, last, packet, what = self.frames.pop(at)
        rest = ((state, first, sequence - 1, packet, what), (state, sequence + 1, last, packet, what))
        self.frames[at:at] = [it for it in rest if it[1] <= it[2]]
        return what, packet

    def take_state(self, state, sequence):
        """The first late frame of a state that was missing whole: further ones of it are no copies."""
        at = bisect.bisect_right(self.states, (state, GREATEST + 1)) - 1
        if at < 0 or self.states[at][1] < state:
            return None, None
        first, last, packet = self.states.pop(at)
        self.states[at:at] = [it for it in ((first, state - 1, packet), (state + 1, last, packet)) if it[0] <= it[1]]
        for first, last in ((0, sequence - 1), (sequence + 1, GREATEST)):
            if first <= last:
                bisect.insort(self.frames, (state, first, last, packet, "more"))
        return "states-missing", packet


class Lates:
    """Those of all senders."""

    def __init__(self):
        self.held, self.number = {}, 0

    def see(self, sender, kind, line, packet, malformed=0):
        """A finding of a control block. Of a late frame it answers what was missing, and the packet that showed it. Where as many frames came
        with an error as are missing, none of these is waited for."""
        it = self.held.get(sender) or self.held.setdefault(sender, Late())
        before, found = it.number, NUMBERS.search(line, max(len(line) - 100, 0))
        state, first, last, sequence = (number and int(number) for number in found.groups())
        told = None
        if kind == b"restarted":
            it.restart()
        elif kind == b"late":
            told = it.take_frame(state, sequence)
            it.copies += told[0] is None
            it.came += told[0] == "frames-missing"
        elif malformed > last - first:
            pass
        elif kind == b"states-missing":
            it.states.append((first, last, packet))
        else:
            it.frames.append((state, first, last, packet, "frames-missing"))
        self.number += it.number - before
        if self.number > MOST:
            self.number -= it.number
            it.forget()
            self.number += it.number
        return told


class LateSamples:
    """The samples of one stream that are missing, in runs: the count of the first, how many, the packet that showed them and when it came. Counts
    come again each second, and a late sample is of the last second."""

    def __init__(self, period):
        self.period, self.runs, self.came, self.copies = period, [], 0, 0

    def miss(self, line, size, packet, now):
        self.runs = [it for it in self.runs[-MOST_RUNS:] if now - it[3] < SECOND]
        self.runs.append((int(COUNT.search(line)[1]), size, packet, now))

    def take(self, line):
        """A late sample: the packet that showed that it was missing, or None."""
        count = int(COUNT.search(line)[1])
        for at in range(len(self.runs) - 1, -1, -1):
            first, size, packet, since = self.runs[at]
            place = (count - first) % self.period
            if place < size:
                del self.runs[at]
                for it in ((count + 1, size - place - 1, packet, since), (first, place, packet, since)):
                    if it[1]:
                        self.runs.insert(at, it)
                self.came += 1
                return packet
        self.copies += 1
        return None
