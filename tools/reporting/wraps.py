"""Where a control block's sqNum or stNum rolls over to 1 after its greatest, as IEC 61850-8-1 has it. To goose lower numbers are late until the
lifetime of the last higher one is over, and a silence and a restart then: where the frames themselves go on, these are no findings."""
import collections
import json

from reporting import page
from reporting.places import place
from reporting.sequence import GREATEST
from reporting.verdict import clean, not_judged, some

# What stands in a frame with the greatest sqNum, from its sqNum on, and at the end of a state with the greatest stNum.
TOP, TOP_STATE = b',"sqNum":%d,' % GREATEST, b'"stNum":%d' % GREATEST
# How many control blocks are looked at, and how many wraps.
MOST = 1000


class Wrap:
    """A number that rolled over: of which block, where, up to which packet goose holds the block against the numbers before, and since when it
    takes it for silent. It is whole where each frame up to there follows the one before, in its lifetime."""

    def __init__(self, sender, kind, number, where, expires):
        self.sender, self.name, self.kind, self.number, self.first = sender, sender[1], kind, number, where
        self.expires, self.until, self.is_whole, self.lives_until = expires, None, True, 0

    def has(self, packet):
        return self.first.packet <= packet and (self.until is None or packet <= self.until)

    def told(self):
        until = f"; what goose tells up to packet\u00a0{self.until} comes of it" if self.until else ""
        return f"{self.name}, packet\u00a0{self.first.packet}: {self.kind} rolled over to {self.number} after {GREATEST}{until}"

    def note(self):
        return f"{self.kind} rolled over to {self.number} after {GREATEST} in packet\u00a0{self.first.packet}, which the standard allows"


class Block:
    """The frames of one control block from the one with a greatest number on."""

    def __init__(self, numbers, until):
        # The numbers of the last frame; until when it is valid, and until when to goose.
        self.numbers, self.lives_until, self.expires, self.wrap = numbers, until, until, None

    def follows(self, numbers):
        """Whether a frame of these numbers is the next one."""
        state, sequence = self.numbers
        return numbers in ((state, sequence + 1), (state + 1, 0)) or self.wrapped(numbers) is not None

    def wrapped(self, numbers):
        """Which number rolls over in a frame of these numbers, or None."""
        (state, sequence), (now, count) = self.numbers, numbers
        if now == state and sequence == GREATEST and count <= 1:
            return "sqNum"
        return "stNum" if state == GREATEST and now <= 1 and count == 0 else None


class Wraps:
    """The control blocks of real frames that had a greatest number, and their wraps."""

    def __init__(self):
        self.held, self.found, self.whole, self.is_open = {}, [], {}, False

    def see(self, record, found, numbers, now):
        """A frame of a control block, whose numbers are given."""
        sender, until = (record["appid"], record["gocbRef"]), now + 1000 * record["timeAllowedtoLive"]
        block = self.held.get(sender)
        if block is None:
            if GREATEST in numbers and len(self.held) < MOST:
                self.held[sender] = Block(numbers, until)
        elif numbers == block.numbers:
            pass
        elif block.wrap:
            self.go_on(block, found, numbers, now, until)
        elif now < block.expires and block.wrapped(numbers) and len(self.found) < MOST:
            kind = block.wrapped(numbers)
            block.wrap = Wrap(sender, kind, numbers[kind == "sqNum"], place(found), block.expires)
            self.found.append(block.wrap)
            block.numbers, block.lives_until = numbers, until
        elif block.follows(numbers) and GREATEST in numbers:
            block.numbers, block.lives_until, block.expires = numbers, until, until
        else:
            del self.held[sender]
        self.is_open = bool(self.held)

    def go_on(self, block, found, numbers, now, until):
        """A frame after a wrap. It ends when goose holds the block against its numbers again."""
        wrap = block.wrap
        wrap.is_whole = wrap.is_whole and block.follows(numbers) and now < block.lives_until
        is_heard = now >= wrap.expires or (wrap.kind == "sqNum" and numbers[0] > block.numbers[0])
        block.numbers, block.lives_until = numbers, until
        if is_heard:
            wrap.until = int(found[1])
            del self.held[wrap.sender]

    def end(self, last):
        """The capture ends at this time. A number rolls over once."""
        for block in self.held.values():
            if block.wrap:
                block.wrap.lives_until = block.lives_until
                block.wrap.is_whole = block.wrap.is_whole and last < block.lives_until
        self.found.sort(key=lambda it: it.first.packet)
        numbers = collections.Counter(it.sender for it in self.found)
        for it in self.found:
            it.is_whole = it.is_whole and numbers[it.sender] == 1
        self.whole = {it.sender: it for it in self.found if it.is_whole}

    def of(self, sender, packet):
        """The whole wrap of a control block that a packet is in, or None."""
        wrap = self.whole.get(sender)
        return wrap if wrap and wrap.has(packet) else None

    def of_line(self, sender, kind, packet):
        """The wrap by which a line of goose losses, or of goose replay, is no finding: its sender as the line has it."""
        if not self.whole:
            return None
        of = json.loads(b"{%s}" % sender[1:])
        wrap = self.of((of["appid"], of["gocbRef"]), packet) if not of.get("simulation", True) else None
        is_last = wrap and packet == wrap.until
        return wrap if wrap and (kind == b"late" and not is_last or kind in (b"silent", b"restarted") and is_last) else None

    def of_event(self, block, kind, packet, now):
        """The wrap by which a frame is old, or a block has expired, and that is no finding."""
        wrap = self.of((block.appid, block.name), packet)
        if wrap and (kind == "old" and packet != wrap.until or kind == "expired" and now >= wrap.expires):
            return wrap
        return None


def judge(found):
    """The wraps: those of which nothing else is told, and others."""
    whole = [it.told() for it in found.station.wraps.found if it.is_whole]
    others = [it.told() for it in found.station.wraps.found if not it.is_whole]
    if others:
        yield not_judged(f"{page.count(len(others), 'wrap')} that the standard allows, beside other findings: {some(others)}.",
                         "look whether these come of that alone: to goose lower numbers are late, then a silence and a restart")
    if whole:
        yield clean(f"{page.count(len(whole), 'wrap')} that the standard allows, and so no finding: {some(whole)}.")
