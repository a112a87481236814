"""What one tap has: its packets and their times, and the frames of each sender, from the lines of goose show.

Most lines of a sender differ from the one before in their heads and in a number alone. Heads are cut at fixed places; behind them such a line is
compared with how the last one was laid out, and nothing else of it is read.
"""
import array
import json
import re

from reporting.places import HEAD, Tally

# How many senders are compared, and how many of their envelopes are known again.
MOST_SENDERS, MOST_KNOWN = 20_000, 100_000
# How many layouts are held, of how long a line of GOOSE; by how many octets of a line behind its head they are told apart, by how many more where two
# senders begin alike, and by how many at most.
MOST_LAYOUTS, LONGEST, TELLING, WIDER, WIDEST = 4096, 4096, 128, 64, 256
# How many octets stand before the number of a packet; and a line behind its head of which nothing is told but its time.
BEFORE, CLOCK = len(b'{"packet":'), b'clock"}\n'
PACKET = re.compile(rb'^\{"packet":(\d+)', re.MULTILINE)
# The bit of Reserved 1 that says that a frame is simulated.
SIMULATED = 0x8000
COUNT, SAMPLE = b',"smpCnt":', b'{"svID":"'
STATE = re.compile(rb',"stNum":(\d+),"sqNum":(\d+),"simulation":(true|false)')
ASDU = re.compile(rb',"asdus":\[\{("svID":"(?:[^"\\]|\\.)*"),"datSet":(?:null|"(?:[^"\\]|\\.)*"),"smpCnt":(\d+)')
EACH = re.compile(rb'\{("svID":"(?:[^"\\]|\\.)*"),"datSet":(?:null|"(?:[^"\\]|\\.)*"),"smpCnt":(\d+)')


class Frames:
    """The frames of one sender on one side: their keys, times and packets, in the order of packets."""

    def __init__(self):
        self.keys, self.times, self.packets = array.array("Q"), array.array("q"), array.array("Q")

    def add(self, key, now, packet):
        self.keys.append(key)
        self.times.append(now)
        self.packets.append(packet)

    @property
    def number(self):
        return len(self.keys)


class Layout:
    """How the last line of a sender is laid out from its kind on. A line laid out alike has the same before the last number of its key, a number that
    ends there too, and the same behind it: up to the end of the line, or in a stream a comma, and samples of its svID alone."""

    __slots__ = ("frames", "line", "parts")

    def __init__(self, frames, line, number, high=0, own=None):
        """A line from its kind on, where the number is, the part of the key above it, and how each sample begins."""
        begin, end = number
        self.frames, self.line = frames, line[:WIDEST]
        self.parts = (line[:begin], begin, end, b"," if own else line[end:], 0 if own else len(line) - end, own, high,
                      frames.keys.append, frames.times.append, frames.packets.append)


class Side:
    """What one tap has: its packets and times, and the frames of each sender."""

    def __init__(self, name):
        self.name, self.packets, self.first, self.last = name, 0, None, None
        self.senders, self.known, self.errors, self.left_out = {}, {}, Tally(), Tally()
        # How the last lines of senders are laid out, by so many octets of them.
        self.layouts, self.telling = {}, TELLING

    def see(self, octets, is_whole=True):
        """Whole lines of goose show in the order of their packets: of all packets, or of some."""
        begin = octets.rfind(b"\n", 0, -1) + 1
        first, last = HEAD.match(octets), HEAD.match(octets, begin)
        if first and last and places_of(first, 0) == places_of(last, begin):
            packets = range(int(first[1]), int(last[1]) + 1) if is_whole else list(map(int, PACKET.findall(octets)))
            self.see_alike(octets, packets, places_of(first, 0))
        else:
            for found in filter(None, map(HEAD.match, octets.splitlines(True))):
                self.note(1, int(found[2]), int(found[2]))
                self.read(found)

    def note(self, number, first, last):
        """So many packets more, whose times are from a first to a last one."""
        self.packets += number
        self.first, self.last = (first, last) if self.first is None else (min(self.first, first), max(self.last, last))

    def see_alike(self, octets, packets, places):
        """Lines of these packets, of whose heads the first and the last are laid out alike."""
        at, layouts, (begin_time, end_time, until) = 0, self.layouts, places
        telling, first = until + self.telling, int(octets[begin_time:end_time])
        last = first
        for packet in packets:
            now, begin, behind = int(octets[at + begin_time:at + end_time]), at + until, 0
            told = octets[begin:at + telling]
            if told in layouts:
                before, number, end, after, rest, own, high, add_key, add_time, add_packet = layouts[told].parts
                if octets.startswith(before, begin) and octets.startswith(after, begin + end):
                    behind = begin + end + rest if rest else end_of(octets, begin + end, own)
                    if behind:
                        add_key(high | int(octets[begin + number:begin + end]))
                        add_time(now)
                        add_packet(packet)
            elif octets.startswith(CLOCK, begin):
                behind = begin + len(CLOCK)
            if not behind:
                behind = octets.index(b"\n", at) + 1
                self.read(HEAD.match(octets[at:behind]))
                telling = until + self.telling
            at = behind
            if now > last:
                last = now
            elif now < first:
                first = now
        self.note(len(packets), first, last)

    def read(self, found):
        """A line, by its head."""
        packet, now, kind = int(found[1]), int(found[2]), found[4]
        if kind == b"sv":
            self.sampled(found, found.string, now, packet)
        elif kind == b"goose":
            self.goose(found, found.string, now, packet)
        elif kind == b"fault":
            self.errors.add(packet)

    def goose(self, found, line, now, packet):
        at = line.find(b',"timeAllowedtoLive":', found.end())
        state = STATE.match(line, line.find(b',"stNum":', at))
        key = line[found.end():at], state[3]
        held = self.known.get(key) or self.sender(key, packet, "gocbRef", state[3] == b"true")
        if held:
            high, (begin, end), kind = int(state[1]) << 32, state.span(2), found.start(4)
            held.add(high | int(state[2]), now, packet)
            if len(line) <= LONGEST:
                self.lay_out(Layout(held, line[kind:], (begin - kind, end - kind), high))

    def sampled(self, found, line, now, packet):
        """A frame of each of its streams."""
        first = ASDU.search(line, found.end())
        number, svid = line.count(COUNT, first.start()), first[1]
        key = line[found.end():first.start()], svid
        held = self.known.get(key) or self.sender(key, packet, "svID")
        if held:
            held.add(int(first[2]), now, packet)
        if number > 1 and line.count(svid + b",", first.start()) < number:
            for svid, count in {svid: count for svid, count in reversed(EACH.findall(line, first.start())) if svid != first[1]}.items():
                key = key[0], svid
                held = self.known.get(key) or self.sender(key, packet, "svID")
                if held:
                    held.add(int(count), now, packet)
        elif held:
            (begin, end), kind = first.span(2), found.start(4)
            self.lay_out(Layout(held, line[kind:], (begin - kind, end - kind), own=b"{%s," % svid))

    def lay_out(self, layout):
        """Holds how a line is laid out. Two senders that begin alike are told apart by more octets."""
        before = self.layouts.get(layout.line[:self.telling])
        is_another = before and before.frames is not layout.frames and self.telling < WIDEST
        if is_another:
            self.telling += WIDER
        if is_another or len(self.layouts) >= MOST_LAYOUTS:
            self.layouts.clear()
        self.layouts[layout.line[:self.telling]] = layout

    def sender(self, key, packet, name, is_simulated=None):
        """The frames of a sender that is seen first, or in a new envelope. None where there are too many."""
        if len(self.known) >= MOST_KNOWN:
            self.known.clear()
        envelope = json.loads(b"{%s}" % (key[0][1:] + (b"," + key[1] if name == "svID" else b"")))
        simulated = int(envelope["reserved1"], 16) >= SIMULATED if is_simulated is None else is_simulated
        own = "sv" if name == "svID" else "goose", envelope["appid"], envelope["source"], envelope[name], simulated
        held = self.senders.get(own)
        if held is None:
            if len(self.senders) >= MOST_SENDERS:
                self.left_out.add(packet)
                return None
            held = self.senders[own] = Frames()
        self.known[key] = held
        return held


def places_of(found, begin):
    """Where in a line that begins there its time begins and ends, and its kind begins."""
    return found.start(2) - begin, found.end(2) - begin, found.start(4) - begin


def end_of(octets, at, own):
    """Where the line ends of whose first sample the count ends there, or 0 if it has a sample of another svID."""
    behind = octets.index(b"\n", at) + 1
    return behind if octets.count(SAMPLE, at, behind) == octets.count(own, at, behind) else 0
