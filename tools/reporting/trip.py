"""The moment of a trip, by the first of some rules that any event meets, and the events around it.

The rules, in their order: what --trip names, a packet or a member that goes true; a member goes true whose name says that a device
trips; a boolean goes true at most 100 ms before a breaker first opens, else that opening; the busiest 100 ms begin, which is not called
a trip. First states are no changes, so no rule looks at them.
"""
import collections
import re

from reporting.places import HEAD, Place

# The time around the moment of which events are told, the time of the third and of the fourth rule, and the least time between two
# trips, in microseconds.
BEFORE, AFTER, CLOSE, APART = 200_000, 2_000_000, 100_000, 200_000
# The most events that are kept around one moment, before it, and that are told of later ones.
MOST_EVENTS, MOST_RECENT, MOST_LATER = 400, 500, 20
ON, OPEN = "10", ("00", "01")
# What --trip names a packet by.
PACKET = re.compile("[0-9]{1,20}")


class Cause:
    """An event, and the member of it by which it meets a rule."""

    def __init__(self, event, path=None):
        self.event, self.path, self.microseconds = event, path, event.place.microseconds

    def change(self):
        """The member's name, its old and its new value in words."""
        path, old, new = next(it for it in self.event.changes if it[0] == self.path)
        names = self.event.names
        return names.path(path), names.word(path, old), names.word(path, new)


class Moment:
    """A moment and the events around it, and the later events that meet the same rule."""

    def __init__(self, place, cause, recent, opening=None):
        self.place, self.cause, self.opening, self.blocks = place, cause, opening, 0
        self.events, self.more, self.later, self.more_later = [], 0, [], 0
        self.latest = place.microseconds
        for event in recent:
            self.add(event)

    def since(self, event):
        """The microseconds from the moment to an event."""
        return event.place.microseconds - self.place.microseconds

    def add(self, event):
        if -BEFORE <= self.since(event) <= AFTER:
            if len(self.events) < MOST_EVENTS:
                self.events.append(event)
            else:
                self.more += 1

    def again(self, cause):
        """An event that meets the rule too. Those that follow closely are of one trip."""
        if abs(cause.microseconds - self.latest) >= APART:
            if len(self.later) < MOST_LATER:
                self.later.append(cause)
            else:
                self.more_later += 1
        self.latest = cause.microseconds

    def in_order(self):
        """The events by time."""
        return sorted(self.events, key=lambda it: (it.place.microseconds, it.place.packet))


class Trip:
    """The moments that the rules find, while the events come."""

    def __init__(self, asked=None):
        self.packet, self.member = (int(asked), None) if asked and PACKET.fullmatch(asked) else (None, asked)
        self.moments, self.recent, self.rises, self.changed = {}, collections.deque(maxlen=MOST_RECENT), collections.deque(), collections.deque()
        self.blocks = {}

    def noting(self, parts):
        """The lines of goose show, some at once, of which that of the packet tells the moment."""
        if self.packet is None:
            return parts
        return self.looking(parts)

    def looking(self, parts):
        wanted = b'{"packet":%d,' % self.packet
        for lines in parts:
            if "packet" not in self.moments:
                for found in map(HEAD.match, [line for line in lines if line.startswith(wanted)][:1]):
                    self.moments["packet"] = Moment(Place(self.packet, int(found[2]), found[3] and found[3].decode()), None, ())
            yield lines

    def see(self, event):
        self.recent.append(event)
        for it in self.moments.values():
            it.add(event)
        if event.changes:
            self.judge(event)

    def judge(self, event):
        rises = [path for path, old, new in event.changes if new is True and old is False]
        if self.member:
            self.meet("member", event, [path for path in rises if is_called(event.names.path(path), self.member)])
        if rises:
            self.meet("name", event, [path for path in rises if event.names.is_trip(path)])
        self.open(event, rises)
        self.count(event)

    def meet(self, rule, event, paths):
        """An event that meets a rule with some of its members."""
        if paths and rule in self.moments:
            self.moments[rule].again(Cause(event, paths[0]))
        elif paths:
            self.moments[rule] = Moment(event.place, Cause(event, paths[0]), self.recent)

    def open(self, event, rises):
        """The third rule: an event in which a breaker opens, and the first one shortly before in which a boolean went true."""
        now = event.place.microseconds
        while self.rises and not 0 <= now - self.rises[0].microseconds <= CLOSE:
            self.rises.popleft()
        if rises:
            self.rises.append(Cause(event, rises[0]))
        opened = [path for path, old, new in event.changes if is_opening(event.names, path, old, new)]
        if not opened:
            return
        opening = Cause(event, opened[0])
        if "opening" in self.moments:
            self.moments["opening"].again(opening)
        else:
            # Without times it is not known what came shortly before.
            cause = self.rises[0] if self.rises and now else opening
            self.moments["opening"] = Moment(cause.event.place, cause, self.recent, opening)
            self.moments["opening"].latest = now

    def count(self, event):
        """The fourth rule: the events of 100 ms, and how many control blocks they are of."""
        now, changed, blocks = event.place.microseconds, self.changed, self.blocks
        if not now or not has_switched(event.changes):
            return
        while changed and not 0 <= now - changed[0].place.microseconds <= CLOSE:
            self.drop(id(changed.popleft().block))
        changed.append(event)
        block, number = id(event.block), len(blocks)
        blocks[block] = blocks.get(block, 0) + 1
        if number == len(blocks):
            return
        busiest = self.moments.get("busiest")
        if len(blocks) > max(1, busiest.blocks if busiest else 0):
            first = changed[0]
            busiest = self.moments["busiest"] = Moment(first.place, Cause(first), self.recent)
            busiest.blocks = len(blocks)

    def drop(self, block):
        self.blocks[block] -= 1
        if not self.blocks[block]:
            del self.blocks[block]

    def found(self):
        """The rule that decides, and its moment; or nothing."""
        for rule in ("packet", "member", "name", "opening", "busiest"):
            if rule in self.moments:
                return rule, self.moments[rule]
        return None, None

    def unmet(self):
        """What --trip names and is not there."""
        if self.packet is not None and "packet" not in self.moments:
            return f"there is no packet {self.packet}, which --trip names"
        if self.member and "member" not in self.moments:
            return f"no member {self.member}, which --trip names, goes true"
        return None


def is_two_bits(member):
    return isinstance(member, dict) and len(member.get("bits", "")) == 2


def has_switched(changes):
    """Whether a boolean or two bits changed."""
    for _, _, new in changes:
        if isinstance(new, bool) or is_two_bits(new):
            return True
    return False


def is_opening(names, path, old, new):
    """Whether a breaker opens: two bits go from on to intermediate or off; where names are known, those of a circuit breaker alone."""
    return (is_two_bits(old) and is_two_bits(new) and old["bits"] == ON and new["bits"] in OPEN
            and (names.is_breaker(path) if names.is_known else True))


def is_called(name, asked):
    """Whether a member has the name that was asked for: all of it, without its logical device, or without its attribute too."""
    short = name.rpartition("/")[2]
    return asked in (name, short, name.rpartition(".")[0], short.rpartition(".")[0])
