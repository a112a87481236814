"""What a device does with each frame of its control blocks: the events, and the rest by counts; from goose replay."""
import collections
import json
import re

import member_names
from reporting import page
from reporting.alike import heads_of
from reporting.places import HEAD, place

ENTRY = re.compile(HEAD.pattern + rb',"block":(\d+),')
# How much of a line from its kind on tells that and the block.
TELLING = 36
# What a line ends with that tells of a frame of Sampled Values: most of many captures.
SAMPLED = b'"kind":"sampled"}'
REASON = re.compile(rb'"reason":"(\w+)"')
COLUMNS = [page.Column("Time"), page.Column("Packet", page.NUMBER), page.Column("Control block"), page.Column("stNum", page.NUMBER),
           page.Column("sqNum", page.NUMBER), page.Column("Delay from\u00a0t", page.NUMBER), page.Column("Members that changed, or what else happened")]
FIRST = [*COLUMNS[:-1], page.Column("Members")]
# The kinds of entries of a block, in the order in which they are told, and those that are listed beside what is acted on.
KINDS = ("act", "refreshed", "repeated", "old", "refused", "expired", "switched")
STATE = ("stNum", "sqNum", "delay", "tQuality")
# The kinds that are no events: most entries of many captures.
RENEWALS, ACT = (b"refreshed", b"repeated"), b'act"'
# The kinds after which a renewal can begin a bar of the picture anew.
ENDS = (b"expired", b"switched")
# What an entry that is acted on says behind its head and up to its members, and how many texts of members of a block are held.
STATE_TOLD = re.compile(rb',"tQuality":(\{[^}]*\}),"delay":(-?\d+),"stNum":(\d+),"sqNum":(\d+),"members":')
MOST_TOLD = 8
OTHERS = {"expired": "expired: valid data ends", "switched": "switched between real and simulated frames", "refused": "refused", "old": "old"}
RESTART = "a device may act here: restart within the lifetime"
HOUR = 3600 * 10**6
# The most members of one event that are told.
MOST_MEMBERS = 40


class Counted:
    """How often something was told, and the first and the last place of it."""

    def __init__(self, found):
        self.number, self.first, self.last = 0, place(found), found
        self.add(found)

    def add(self, found):
        self.number += 1
        self.last = found

    def packets(self):
        return page.packets(self.first.packet, int(self.last[1]))


class Block:
    """What a device does with one control block."""

    def read(self, line, at):
        """The object of a state, from behind its head on. Members of a text that was read are not read again."""
        found = STATE_TOLD.search(line, at)
        if not found:
            self.text = None
            return json.loads(line)
        quality, delay, state, sequence = found.groups()
        self.text = text = line[found.end():-1]
        if text not in self.told:
            if len(self.told) >= MOST_TOLD:
                self.told.clear()
            self.told[text] = json.loads(text)
        if quality not in self.qualities:
            self.qualities[quality] = json.loads(quality)
        return {"tQuality": self.qualities[quality], "delay": int(delay), "stNum": int(state), "sqNum": int(sequence), "members": self.told[text]}

    def step(self, members):
        """The members that changed since the last state, or None where they are others, and whether one of them is of a test. Members of two texts
        that followed one another before are not compared again."""
        texts, self.text_before = (self.text_before, self.text), self.text
        if self.members is None:
            return [], False
        told = self.steps.get(texts)
        if told is None:
            changes = changes_of(self.members, members)
            told = changes, is_of_test(members, changes)
            if None not in texts:
                if len(self.steps) >= MOST_TOLD:
                    self.steps.clear()
                self.steps[texts] = told
        return told

    def __init__(self, record):
        self.appid, self.name, self.counts, self.members = record["appid"], record["gocbRef"], {}, None
        self.key = self.appid, self.name
        # The last members by their texts, and qualities of t; the last two texts, and what changed from one to another.
        self.told, self.qualities, self.text, self.text_before, self.steps = {}, {}, None, None, {}
        # Of the counts those that are findings: how many, and the first packet.
        self.findings = {}
        self.names, self.event = member_names.NONE, None

    def count(self, kind, found):
        if kind in self.counts:
            self.counts[kind].add(found)
        else:
            self.counts[kind] = Counted(found)

    def find(self, kind, packet):
        """An entry that is a finding."""
        number, first = self.findings.get(kind, (0, packet))
        self.findings[kind] = number + 1, first


class Renewal:
    """Entries of one kind of a block that are no event, behind the first: they are counted, and marked in the picture. Up to a moment no further
    mark is to be seen: of lines up to there the last is held, and how many they are."""

    __slots__ = ("kind", "counted", "key", "picture", "until", "number", "line")

    def __init__(self, kind, block, picture):
        self.kind, self.counted, self.key, self.picture, self.until = kind, block.counts[kind, None], block.key, picture, 0
        self.number, self.line = 0, None

    def see(self, found, moment):
        self.counted.number += 1
        self.counted.last, self.line = found, None
        if moment >= self.until or not self.picture.is_marked(self.key, moment):
            self.until = self.picture.mark(self.key, self.kind, moment, None, None) or 0

    def end(self):
        """Takes the lines that were not looked at."""
        self.counted.number += self.number
        self.counted.last = ENTRY.match(self.line) if self.line else self.counted.last


class Event:
    """What happened at a packet: a state that is acted on, with the members that changed, or frames of another kind one after another, or
    a comment of the capture."""

    def __init__(self, kind, where, block, reason=None):
        self.kind, self.place, self.block, self.reason, self.number, self.last = kind, where, block, reason, 1, where.packet
        self.record, self.changes, self.members, self.note, self.names = None, [], None, None, block and block.names
        self.is_test, self.is_excused = False, False

    def packets(self):
        return f"{self.place.packet} to\u00a0{self.last}" if self.last != self.place.packet else f"{self.place.packet}"

    def told(self):
        """What happened, where no member changed."""
        if self.kind == "act":
            return "none" if self.members is None else "other members"
        told = f"{OTHERS[self.kind]}{f': {self.reason}' if self.reason else ''}" if self.kind in OTHERS else f"comment: {self.reason}"
        told += f", {self.number:,} frames" if self.number > 1 else ""
        return f"{told}; {self.note}" if self.note else told

    def act(self, record, changes, is_whole, is_test):
        """The state that is acted on. All its members are kept only where they are told."""
        self.record, self.changes, self.is_test = {name: record[name] for name in STATE}, changes, is_test
        self.members = record["members"] if is_whole else None

    def words(self):
        """The members that changed, each with its name, its old and its new value in words."""
        return [(self.names.path(path), self.names.word(path, old), self.names.word(path, new)) for path, old, new in self.changes]


class Events:
    """The entries of a replay: the events, and a picture of all entries. Comments of the capture stand among them."""

    def __init__(self, picture, trip, names=None, restarts=(), comments=(), most=page.MOST_ROWS, excuse=None):
        self.picture, self.trip, self.names, self.restarts, self.comments = picture, trip, names or member_names.Names(), restarts, collections.deque(comments)
        # What answers why an entry of a block is no finding, or None.
        self.excuse = excuse or (lambda block, kind, found: None)
        self.blocks, self.acts, self.first, self.last, self.slowest = {}, 0, None, None, None
        self.listed, self.beyond, self.more, self.firsts, self.started, self.restarted = [], None, 0, [], 0, None
        # The renewals by what their lines tell of kind and block, and those of each block.
        self.renewals, self.of_block, self.most = {}, {}, most

    def see(self, parts):
        """The lines of goose replay, some at once."""
        for lines in parts:
            lines = [line for line in lines if not line.endswith(SAMPLED)]
            heads = None if self.comments else heads_of(lines)
            times = heads and heads.times()
            if times and times[0] >= self.picture.now and times == sorted(times):
                self.see_many(heads, times)
            else:
                self.see_each(lines)
        self.comment(None)
        for it in self.renewals.values():
            it.end()

    def see_each(self, lines):
        for found in filter(None, map(ENTRY.match, lines)):
            begin = found.start(4)
            self.see_entry(found, found.string[begin:begin + TELLING])

    def see_many(self, heads, times):
        """Lines in the order of their times: of renewals that leave no further mark in the picture, and that come before what is drawn around the
        next state that is acted on, the heads alone are looked at."""
        renewals, begin, until = self.renewals, heads.until, heads.until + TELLING
        keys = [line[begin:until] for line in heads.lines]
        acts = iter([*(at for at, key in enumerate(keys) if key.startswith(ACT)), len(keys)])
        act, free = next(acts), None
        for at, (key, now, line) in enumerate(zip(keys, times, heads.lines)):
            if free is None:
                while act < at:
                    act = next(acts)
                free = self.picture.free(times[min(act, len(keys) - 1)])
            renewal = renewals.get(key)
            if renewal is not None and now < renewal.until and now < free:
                renewal.number += 1
                renewal.line = line
            else:
                found, free = ENTRY.match(line), None
                if found:
                    self.see_entry(found, key)
        self.picture.now = times[-1]

    def see_entry(self, found, key):
        """An entry, and what its line tells of its kind and block."""
        renewal, position = self.renewals.get(key), int(found[5])
        if renewal and not self.comments:
            renewal.see(found, int(found[2]))
            return
        self.entry(found.string, found, position)
        kind = found[4]
        if kind in ENDS:
            for it in self.of_block.get(position, ()):
                it.until = 0
        elif renewal is None and kind in RENEWALS:
            self.renewals[key] = Renewal(kind.decode(), self.blocks[position], self.picture)
            self.of_block.setdefault(position, []).append(self.renewals[key])

    def entry(self, line, found, position):
        kind = found[4].decode()
        if self.comments:
            self.comment(int(found[1]))
        if position not in self.blocks:
            self.blocks[position] = Block(json.loads(line))
        block = self.blocks[position]
        reason = REASON.search(line, found.end()) if kind == "refused" else None
        sort = (kind, reason[1].decode()) if reason else (kind, None)
        block.count(sort, found)
        excused = self.excuse(block, kind, found) if kind in OTHERS else None
        if kind in OTHERS and not excused:
            block.find(sort, int(found[1]))
        state = None
        if kind == "act":
            state = self.act(block.read(line, found.end()), block, place(found))
        elif kind in OTHERS:
            self.other(kind, sort[1], block, line, place(found), excused)
        self.picture.mark(block.key, kind, int(found[2]), state, int(found[1]), block.counts["act", None].number == 1 if state else False)

    def comment(self, packet):
        """The comments up to a packet, or all that are left."""
        while self.comments and (packet is None or self.comments[0].packet <= packet):
            it = self.comments.popleft()
            self.list(Event("comment", it.place, None, it.told))

    def act(self, record, block, where):
        """An event that the device acts on. Its stNum is answered."""
        self.acts += 1
        self.first, self.last = self.first or where, where
        quality, delay = record["tQuality"], record["delay"]
        is_timed = where.microseconds and record["sqNum"] == 0 and not quality["clockFailure"] and not quality["clockNotSynchronized"] and abs(delay) < HOUR
        if is_timed and (self.slowest is None or delay > self.slowest[0]):
            self.slowest = (delay, where.packet, block.name)
        members, is_first = record["members"], block.members is None
        changes, is_test = block.step(members)
        if is_first or changes is None:
            block.names = self.names.names_of(block.appid, block.name, members)
        event = block.event = Event("act", where, block)
        event.act(record, changes or [], is_first or changes is None, is_test)
        # A packet without a time tells no delay.
        event.record["delay"] = delay if where.microseconds else None
        block.members = members
        if is_first:
            self.first_state(event)
        else:
            self.list(event)
        return record["stNum"]

    def first_state(self, event):
        self.started += 1
        if self.most is None or len(self.firsts) < self.most:
            self.firsts.append(event)

    def other(self, kind, reason, block, line, where, excused):
        """An event that is no state. Frames of one kind that follow one another are one, unless some of them are no finding."""
        last = block.event
        is_restart = kind == "old" and where.packet in self.restarts
        is_same = last and (last.kind, last.reason, last.is_excused) == (kind, reason, bool(excused))
        if is_same and kind in ("refused", "old") and not is_restart:
            last.number, last.last = last.number + 1, where.packet
            return
        event = block.event = Event(kind, where, block, reason)
        if kind == "old":
            event.record = json.loads(line)
        if excused:
            event.note, event.is_excused = excused, True
        if is_restart:
            event.note, self.restarted = RESTART, self.restarted or where
        self.list(event)

    def list(self, event):
        self.trip.see(event)
        if self.most is None or len(self.listed) < self.most:
            self.listed.append(event)
        else:
            self.beyond, self.more = self.beyond or event.place, self.more + 1


# ---- Members -----------------------------------------------------------------


def inside_of(member):
    """The members of a structure or array, or None."""
    return next((member[kind] for kind in ("structure", "array") if kind in member), None) if isinstance(member, dict) else None


def leaves(members, path=""):
    """The members with their positions from 1 on, those of structures and arrays too: 2.1 is the first one in the second."""
    for position, it in enumerate(members, 1):
        inside = inside_of(it)
        if inside is None:
            yield f"{path}{position}", it
        else:
            yield from leaves(inside, f"{path}{position}.")


def is_time(member):
    """Whether a member is a Timestamp, which says when others changed."""
    return isinstance(member, dict) and "utc" in member


def changes_of(before, members, path=""):
    """The members that changed, each with its path, its old and its new value; None where they are others."""
    if before == members:
        return []
    if len(before) != len(members):
        return None
    found = []
    for position, (old, new) in enumerate(zip(before, members), 1):
        if old == new:
            continue
        inside = inside_of(old), inside_of(new)
        if None not in inside:
            deeper = changes_of(*inside, f"{path}{position}.")
            if deeper is None:
                return None
            found += deeper
        elif inside != (None, None):
            return None
        elif not (is_time(old) and is_time(new)):
            found.append((f"{path}{position}", old, new))
    return found


def is_of_test(members, changes):
    """Whether the quality of one of the members that changed has the bit test."""
    tests = tests_of(members) if changes else ()
    return any(path in tests for path, _, _ in changes or ())


def tests_of(members, path=""):
    """The paths of the members whose quality has the bit test: that is the first one of 13 bits from there on in what holds the member."""
    found, is_test = set(), False
    for at in range(len(members), 0, -1):
        it = members[at - 1]
        inside = inside_of(it)
        if inside is not None:
            found |= tests_of(inside, f"{path}{at}.")
        elif isinstance(it, dict) and len(it.get("bits", "")) == 13:
            is_test = it["bits"][11] == "1"
        if is_test:
            found.add(f"{path}{at}")
    return found


# ---- Rows --------------------------------------------------------------------


def delay_of(record):
    """The delay from t, and what t's quality says of the device's clock."""
    notes = [words for name, words in (("clockFailure", "the device's clock has failed"), ("clockNotSynchronized",
             "the device's clock is not synchronized")) if record["tQuality"][name]]
    notes += ["not the state's first frame"] if record["sqNum"] else []
    told = [page.element("span", page.duration(record["delay"]), class_="whole")] if record["delay"] is not None else []
    return page.element("span", [*told, *(page.element("span", f" {it}", class_="soft note") for it in notes)])


def some(told):
    """Some of the members in a cell, and how many more there are."""
    more = f", {len(told) - MOST_MEMBERS:,} more" if len(told) > MOST_MEMBERS else ""
    return page.digits(", ".join(told[:MOST_MEMBERS]) + more)


def what(event):
    """What happened with an event, in a cell."""
    if event.changes:
        told = some([f"{name}: {old} \u2192 {new}" for name, old, new in event.words()])
        return page.element("span", [told, page.element("span", " test", class_="note mark")]) if event.is_test else told
    is_whole = event.members is not None
    soft = page.element("span", f"{event.told()}{': ' if is_whole else ''}", class_="soft" if event.kind == "act" or event.is_excused else "mark")
    return page.element("span", [soft, some(values(event))]) if is_whole else soft


def values(event):
    """All members of an event, in words."""
    return [f"{event.names.path(path)}: {event.names.word(path, it)}" for path, it in leaves(event.members)]


def row(event, short):
    """A row of the list of events."""
    record = event.record or {}
    return page.row(COLUMNS, [page.when(event.place, short), event.packets(), event.block and page.element("span", page.named(event.block.name), class_=
                    "name"), record.get("stNum"), record.get("sqNum"), delay_of(record) if event.kind == "act" else "", what(event)])


def first_row(event, short):
    """A row of the first states."""
    told = some(values(event)) if event.members else "no members"
    told = page.element("span", [told, page.element("span", f" {member_names.DIFFERS}", class_="note mark")]) if event.names.differs else told
    return page.row(FIRST, [page.when(event.place, short), event.place.packet, page.element("span", page.named(event.block.name), class_="name"),
                            event.record["stNum"], event.record["sqNum"], delay_of(event.record), told])


def beyond(events, rows):
    """What the list of events leaves out."""
    packet = events.listed[rows.shown].place.packet if rows.more else events.beyond and events.beyond.packet
    if packet is not None:
        yield page.left_out(events.more + rows.more, f"event, from packet\u00a0{packet} on,", f"events, from packet\u00a0{packet} on,")


def beyond_first(events, rows):
    """What the list of first states leaves out."""
    yield page.left_out(events.started - rows.shown, "first state")


# ---- Counts ------------------------------------------------------------------


def told(block, kind):
    """How often an entry was told of a block, and in which packets: of refused frames by reasons."""
    held = sorted(((reason, it) for (name, reason), it in block.counts.items() if name == kind), key=lambda pair: pair[1].first.packet)
    return page.Raw("<br/>".join(page.text(f"{it.number:,}{f' {reason}' if reason else ''} ({it.packets()})") for reason, it in held))


def counts(events, order, room):
    """A table of what the device did with the frames of each block, with the kinds of entries that there are."""
    there = {kind for block in events.blocks.values() for kind, _ in block.counts}
    kinds = [kind for kind in KINDS if kind in there]
    columns = [page.Column("Control block"), page.Column("APPID"), *(page.Column(kind) for kind in kinds)]
    rows = (page.row(columns, [page.element("span", page.named(it.name), class_="name"), page.digits(it.appid), *(told(it, kind) for kind in kinds)])
            for it in sorted(events.blocks.values(), key=lambda it: order(it.name, it.appid)))
    return page.bounded("What the device did with all frames of its control blocks", columns, rows, room, "control block")
