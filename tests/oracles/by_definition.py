"""The slowest subscriber, written from docs/tables/DEFINITIONS.md (subscribe_core) and, for its lines, docs/FORMATS.md: each
definition is a function over the whole list, by positions from 0, and nothing is kept from event to event. It is for short
lists."""
import collections
import functools

from oracles import reference

# An event as it is read: of the sort "goose" or "sv" it holds a frame's fields, of "fault" the first fault of octets that
# encode no frame, of "mode" whether it is on, of "clock" nothing. Its moment is in microseconds.
Event = collections.namedtuple("Event", "sort moment held")


class Block:
    """A control block that is subscribed to."""

    def __init__(self, word):
        app_id, *texts, conf_rev, entries = word.split(",")
        self.gocb_ref, self.dat_set, self.go_id = (text.encode() for text in texts)
        self.app_id, self.conf_rev, self.entries = int(app_id, 16), int(conf_rev), int(entries)
        self.name = self.app_id, self.gocb_ref


def reasons_of(block, pdu, is_other_kind):
    """The reasons to refuse a frame of the block, in their order; whether `Simulated` holds is said by the last argument."""
    told = {
        "DatSet": pdu["dat_set"] != block.dat_set,
        "GoId": block.go_id not in (b"", pdu["go_id"]),
        "ConfRev": pdu["conf_rev"] != block.conf_rev,
        "Commissioning": pdu["nds_com"],
        "Simulated": is_other_kind,
        "Entries": len(pdu["members"]) != block.entries,
        "StateZero": pdu["st_num"] == 0,
        "LiveZero": pdu["live"] == 0,
    }
    return [reason for reason, holds in told.items() if holds]


def once(definition):
    """A definition that is worked out once for a list, a block and its positions."""
    @functools.wraps(definition)
    def kept(self, *at):
        key = definition.__name__, *at
        if key not in self.worked_out:
            self.worked_out[key] = definition(self, *at)
        return self.worked_out[key]
    return kept


class Whole:
    """A whole list of events, and what it says to the blocks."""

    def __init__(self, events):
        self.events, self.worked_out = events, {}

    # ---- One event --------------------------------------------------------------

    def now(self, i):
        """The greatest moment of events 0 to i."""
        return max(event.moment for event in self.events[:i + 1])

    def of(self, block, i):
        """The octets of event i encode a GOOSE frame with the block's APPID and gocbRef."""
        sort, _, held = self.events[i]
        return sort == "goose" and (held["app_id"], held["apdu"]["gocb_ref"]) == block.name

    def pdu(self, i):
        """The fields of frame i."""
        return self.events[i].held["apdu"]

    def pair(self, i):
        """The stNum and the sqNum of frame i."""
        return self.pdu(i)["st_num"], self.pdu(i)["sq_num"]

    def live(self, i):
        """The timeAllowedtoLive of frame i, in milliseconds."""
        return self.pdu(i)["live"]

    # ---- Simulation -------------------------------------------------------------

    def mode(self, i):
        """The simulation mode at event i: what the last mode event before it says, off if there is none."""
        said = [event.held for event in self.events[:i] if event.sort == "mode"]
        return bool(said) and said[-1]

    def sets_off(self, i):
        """Event i sets the mode off."""
        return self.events[i].sort == "mode" and not self.events[i].held

    def plain(self, block, i):
        """Event i is a frame of the block, and no reason to refuse it holds but perhaps `Simulated`."""
        return self.of(block, i) and not reasons_of(block, self.pdu(i), False)

    def invites(self, block, i):
        """Event i is such a frame with simulation true, and the mode is on."""
        return self.plain(block, i) and bool(self.pdu(i)["simulation"]) and self.mode(i)

    @once
    def takes_simulated(self, block, i):
        """Such a frame came before event i, and no event between the two sets the mode off."""
        return any(self.invites(block, j) and not any(map(self.sets_off, range(j + 1, i))) for j in range(i))

    @once
    def switch(self, block, k):
        """At event k the block goes over to simulated frames, or back to real ones."""
        taken = self.takes_simulated(block, k)
        return self.invites(block, k) and not taken or self.sets_off(k) and taken

    # ---- Good frames ------------------------------------------------------------

    def against(self, block, i):
        """`Simulated`: frame i has simulation true with the mode off, or false while the block takes simulated ones."""
        return not self.mode(i) if self.pdu(i)["simulation"] else self.takes_simulated(block, i)

    def reasons(self, block, i):
        """The reasons to refuse frame i of the block, in their order."""
        return reasons_of(block, self.pdu(i), self.against(block, i))

    @once
    def good(self, block, i):
        """Event i is a frame of the block, and no reason to refuse it holds."""
        return self.of(block, i) and not self.reasons(block, i)

    def first_good(self, block, k):
        """The first good frame at or after event k, or None."""
        return next((i for i in range(k, len(self.events)) if self.good(block, i)), None)

    def best(self, block, s, k):
        """Of the good frames from s to k - 1 the first with the greatest pair, by stNum and then sqNum."""
        good = [i for i in range(s, k) if self.good(block, i)]
        return next(i for i in good if all(self.pair(j) <= self.pair(i) for j in good))

    # ---- Epochs -----------------------------------------------------------------

    def dead(self, block, s, k):
        """At event k, behind s, the lifetime of the best frame since s is over."""
        if k <= s:
            return False
        p = self.best(block, s, k)
        return self.now(k) >= self.now(p) + 1000 * self.live(p)

    @once
    def end(self, block, s):
        """Where the epoch of s ends: the first event behind s at which it is dead or the block is switched, or None."""
        behind = range(s + 1, len(self.events))
        return next((k for k in behind if self.dead(block, s, k) or self.switch(block, k)), None)

    @once
    def start(self, block, i):
        """An epoch starts at event i: it is the first good frame, or the first at or after the end of an earlier epoch."""
        ends = [self.end(block, s) for s in range(i) if self.start(block, s)]
        return self.good(block, i) and any(self.first_good(block, k) == i for k in [0, *ends] if k is not None)

    def last_start(self, block, i):
        """The last start at or before event i."""
        return max(s for s in range(i + 1) if self.start(block, s))

    def expiry(self, block, k):
        """An epoch ends at event k, since it is dead there."""
        return any(self.start(block, s) and self.end(block, s) == k and self.dead(block, s, k) for s in range(k))

    def acts(self, block, i):
        """Good frame i has an stNum above that of every good one of its epoch before it."""
        before = [j for j in range(self.last_start(block, i), i) if self.good(block, j)]
        return all(self.pair(j)[0] < self.pair(i)[0] for j in before)

    # ---- Entries ----------------------------------------------------------------

    def verdict(self, block, i):
        """What becomes of good frame i."""
        if self.acts(block, i):
            return "act"
        s = self.last_start(block, i)
        if self.best(block, s, i + 1) == i:
            return "refreshed"
        return "repeated" if self.pair(self.best(block, s, i)) == self.pair(i) else "old"

    def block_entry(self, place, block, i):
        """The entry of frame i of the block at this place: why it is refused, or else its verdict and its numbers."""
        if not self.good(block, i):
            return f"refused {place} {self.reasons(block, i)[0]}"
        verdict, pdu = self.verdict(block, i), self.pdu(i)
        line = f"{verdict} {place} st={pdu['st_num']} sq={pdu['sq_num']}"
        if verdict == "act":
            members = " ".join(reference.value_text(*member) for member in pdu["members"])
            line += f" t={pdu['t'].hex()} {{{members}}}"
        return line

    def frame_entries(self, blocks, i):
        """The one entry of a frame or a fault; none of a clock moment and of a mode."""
        sort, _, held = self.events[i]
        if sort == "fault":
            return [f"fault {held.place} {held.cause}"]
        if sort == "sv":
            return ["sampled"]
        if sort != "goose":
            return []
        owned = [self.block_entry(place, block, i) for place, block in enumerate(blocks) if self.of(block, i)]
        return owned or ["not-subscribed"]

    def entries(self, blocks, i):
        """The entries of event i: expiries and then switches, both in block order, and that of its frame."""
        expired = [f"expired {place}" for place, block in enumerate(blocks) if self.expiry(block, i)]
        switched = [f"switched {place}" for place, block in enumerate(blocks) if self.switch(block, i)]
        return [*expired, *switched, *self.frame_entries(blocks, i)]


def read(sort, moment, held):
    """An event as it is read."""
    if sort != "frame":
        return Event(sort, moment, held)
    try:
        it = reference.frame(held)
    except reference.Fault as fault:
        return Event("fault", moment, fault)
    return Event(it["name"], moment, it)


def read_events(octets):
    """The line numbers and the events of a list, and the fault that ends it or None."""
    numbers, events = [], []
    try:
        for number, event in reference.events(octets, False):
            numbers.append(number)
            events.append(read(*event))
    except reference.ListFault as fault:
        return numbers, events, fault
    return numbers, events, None


def replay(octets, words):
    """The text of `replay` of these blocks, and the exit status."""
    blocks = [Block(word) for word in words]
    names = [block.name for block in blocks]
    twice = [place for place, name in enumerate(names) if name in names[:place]]
    if twice:
        return [f"blocks SameBlockTwice {twice[0]}"], 3
    numbers, events, fault = read_events(octets)
    whole = Whole(events)
    lines = [f"{number} {entry}" for i, number in enumerate(numbers) for entry in whole.entries(blocks, i)]
    return (lines, 0) if fault is None else ([*lines, f"{fault.line} list {fault.cause}"], fault.status())
