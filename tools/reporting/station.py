"""Which control blocks and streams a capture has, and how they are sent: from goose blocks and goose show."""
import bisect
import itertools
import json
import re

import senders
from output import date
from reporting.alike import TELLING, Run, Shape, cut_from, heads_of, parted, those
from reporting.clocks import Clock
from reporting.malformed import Malformed
from reporting.places import HEAD, Place, Span, place
from reporting.rates import STRETCH, Rise
from reporting.sequence import GREATEST, NUMBER, Sequences
from reporting.synchronised import Synch
from reporting.times import SECOND, Times
from reporting.wraps import TOP, TOP_STATE, Wraps

# Of an ASDU: svID, confRev, smpSynch, smpRate and smpMod, which stay from one frame to the next.
ASDU = re.compile(rb'"svID":("(?:[^"\\]|\\.)*"),"datSet":(?:null|"(?:[^"\\]|\\.)*"),"smpCnt":\d+,"confRev":(\d+),"refrTm":(?:null|"[^"]*","refrTime":'
                  rb'(?:null|"[^"]*"),"refrQuality":\{[^}]*\}),"smpSynch":(\d+),"smpRate":(\w+),"sample":"[^"]*","smpMod":(null|"[^"]*")')
COUNT = re.compile(rb'"smpCnt":(\d+)')
# A sender of GOOSE, whose simulation stands further on.
SENDER = re.compile(rb'"appid":"\w+"|"gocbRef":"(?:[^"\\]|\\.)*"')
# What tells the control block or the stream of a line: its source, its APPID, and its gocbRef or the svIDs of its ASDUs.
OWN = re.compile(rb'"source":"\w+"|"appid":"\w+"|"(?:gocbRef|svID)":"(?:[^"\\]|\\.)*"')
# What differs from one frame of a stream to the next, each by what it looks like. The groups are those of a wave in reporting/samples.py.
DIFFERS = {b"smpCnt": rb'"smpCnt":(\d+)', b"refrTm": rb'"refrTm":"[^"]*","refrTime":(?:null|"[^"]*"),"refrQuality":\{[^}]*\}',
           b"sample": rb'"sample":"([^"]*)"', b"field89": rb'"field89":(?:null|"[^"]*")'}
DIFFERENT = re.compile(b"|".join(DIFFERS.values()))
ABSENT = b"null"
# After how many frames of a sort it pays to know the next ones by a pattern of their own.
MANY = 100
# How many sorts of frames are held before they are added up, and how many shapes of lines.
MOST_SORTS, MOST_SHAPES = 10000, 2000
# Of how many lines it pays to look at those of one sender together, of how many of these at all at once, and at how many at most.
FEWEST, FEW, MOST_TOGETHER = 64, 6, 256
# The shape of lines that are looked at one by one alone; with what the kind of a frame with an error begins; and of how many lines one can be such a
# frame so that those of one sender are looked at together.
NONE, FAULT, FAULTY = None, b'fault"', 16
# A number of fewer digits is not the greatest one.
DIGITS = len(b"%d" % GREATEST)
# How many forms of one sender are told.
MOST_FORMS = 50
# The bit of Reserved 1 that says that a frame is simulated.
SIMULATED = 0x8000


class Seen:
    """What a capture has of one control block or stream: its forms and addresses, each with the first packet that has it."""

    def __init__(self, kind, key, name, appid):
        self.kind, self.key, self.name, self.appid = kind, key, name, appid
        self.span, self.forms, self.envelopes, self.lifetimes = Span(), {}, {}, {}
        # Its sources, each with whether frames are simulated; its simulated frames and the end of their lifetime; those of ndsCom true.
        self.sources, self.simulated, self.commissioning, self.lives_until = {}, Span(), Span(), 0
        # The frames that Reserved 1 alone calls simulated.
        self.marked = Span()
        # Of a stream: how fast its samples come, what it says of that, how many a frame has, how they are synchronised, and its svID as goose
        # writes it.
        self.rise, self.rates, self.counts, self.synch, self.text = Rise(), {}, {}, Synch(), b""
        # The least and the greatest lifetime in milliseconds, each with its first packet.
        self.lives = []

    @property
    def frames(self):
        return self.span.number

    @property
    def first(self):
        return self.span.first

    @property
    def last(self):
        return self.span.last

    def note(self, held, what, packet):
        """Notes the first packet that has something."""
        if len(held) < MOST_FORMS or what in held:
            held[what] = min(packet, held.get(what, packet))

    def live(self, milliseconds, packet):
        """Notes a lifetime."""
        told = dict(self.lives)
        told[milliseconds] = min(packet, told.get(milliseconds, packet))
        self.lives = [(it, told[it]) for it in sorted({min(told), max(told)})]

    @property
    def replayed(self):
        """The BLOCK by which it was seen first, or None."""
        text = next(iter(self.forms), None)
        return text if self.kind == "block" and text and senders.block_fields(text) else None


class Sort:
    """Frames of one sender that are the same in all that is told here: how many, the first and the last. Of GOOSE also the state of the
    last one that was looked at, since when, and how a frame of it is written: up to its sqNum, and behind that up to its members. Of Sampled
    Values what its ASDUs say, and its streams."""

    __slots__ = ("record", "number", "first", "last", "state", "since", "begin", "end", "clock", "sequence", "streams", "is_alike", "between", "pace", "wave")

    def __init__(self, record, found):
        self.record, self.number, self.first, self.last = record, 0, found, found
        self.state, self.since, self.clock, self.sequence, self.streams, self.is_alike = b"", 0, None, None, (), None
        self.begin, self.end, self.between, self.pace, self.wave = b"", b"", None, None, None

    def add(self, number, line):
        """So many more frames, of which this is the line of the last one."""
        if number:
            self.number += number
            self.last = HEAD.match(line)


def pattern_of(line, at):
    """What matches the ASDUs of lines that are of one sort with this one, from there on."""
    until = line.rfind(b'],"trailer":') + 1
    pattern, begin = b"", at
    for it in DIFFERENT.finditer(line, at, until):
        pattern += re.escape(line[begin:it.start()]) + DIFFERS[it[0][1:it[0].index(b'"', 1)]]
        begin = it.end()
    return re.compile(pattern + re.escape(line[begin:until])).match


def numbers_of(state, line, upto):
    """stNum and sqNum of a frame."""
    begin = upto + len(b',"sqNum":')
    return int(state[state.rindex(NUMBER) + len(NUMBER):]), int(line[begin:line.find(b",", begin)])


class Station:
    """The senders of a capture in the order in which they occur, and how many packets are what. Pauses are looked at of the control blocks
    that have a pace."""

    def __init__(self, paces=None, samples=None):
        self.paces, self.samples = paces or {}, samples
        self.seen, self.sorts, self.flows, self.kinds, self.clocks, self.times = {}, {}, {}, {}, {}, Times()
        self.sequences, self.malformed, self.wraps = Sequences(), Malformed(), Wraps()
        self.first, self.last, self.span = None, None, None
        # Of each sender how its lines are laid out, and of a control block the sort of its last frame; and by their kind what looks at one line, and
        # at those of one sender.
        self.shapes, self.owners, self.going = {}, {}, {}
        self.looks = {b"goose": self.goose, b"sv": self.sampled, b"fault": self.fault}
        self.together = {b"goose": self.see_states, b"sv": self.see_samples}

    def see_blocks(self, lines):
        """The lines of goose blocks: of a control block its forms."""
        for line in lines:
            record = json.loads(line)
            if record["kind"] in ("block", "block-changed"):
                it = self.sender("block", (record["appid"], record["gocbRef"]), record["gocbRef"], record["appid"])
                it.note(it.forms, record["text"], record["packet"])

    def sender(self, kind, key, name, appid):
        return self.seen.setdefault((kind, *key), Seen(kind, key, name, appid))

    def see_frames(self, parts):
        """The lines of goose show, some at once."""
        for lines in parts:
            self.see_part(lines)
        self.add_up()
        # Whatever was looked at together, streams and clocks are in the order of their first packets.
        self.seen = dict(sorted(self.seen.items(), key=lambda it: it[1].first.packet if it[1].kind == "stream" else 0))
        self.clocks = dict(sorted(self.clocks.items(), key=lambda it: it[1].first))
        times = self.times
        self.first, self.last = times.first and place(times.first), times.last and place(times.last)
        self.span = times.span
        self.wraps.end(times.greatest)

    def see_part(self, lines):
        """Some lines: those of one sender together where their times are usual, others one by one."""
        heads = heads_of(lines) if len(lines) >= FEWEST else None
        if not heads or int(heads.last[1]) - int(heads.first[1]) != len(lines) - 1:
            self.see_each(lines)
        elif self.times.first is None:
            self.see_each(lines[:1])
            self.see_part(lines[1:])
        else:
            times = heads.times()
            self.see_between(Run(lines, times, range(len(lines)), int(heads.first[1]), heads.until), self.times.odd(times))

    def see_between(self, run, odd):
        """Lines of all senders: those whose times are odd one by one, and those between these together."""
        for begin, at in zip([0, *(it + 1 for it in odd)], [*odd, len(run.lines)]):
            if at - begin >= FEWEST:
                self.see_usual(run.from_place(begin, at) if odd else run)
            else:
                self.see_each(run.lines[begin:at])
            self.see_each(run.lines[at:at + 1])

    def see_usual(self, run):
        """Lines of all senders whose times are usual: those of one sender together, unless many frames have an error."""
        groups = parted(cut_from(run.lines, slice(run.until, run.until + TELLING)))
        faults = sorted(at for key, places in groups.items() if key.startswith(FAULT) for at in places)
        if FAULTY * len(faults) > len(run.lines):
            self.see_each(run.lines)
            return
        self.times.see_all(run.lines, run.times)
        for at in faults:
            self.malformed.see(run.first + at)
        self.see_groups(groups, run, faults)

    def see_groups(self, groups, whole, faults):
        """Lines by what tells their senders: of each the places, and of frames with an error too."""
        owners = {}
        for key, places in groups.items():
            kind = key[:key.index(b'"')]
            self.kinds[kind] = self.kinds.get(kind, 0) + len(places)
            if kind in self.together:
                owners.setdefault(self.owner_of(key, whole.lines[places[0]]), []).append((key, places))
        for owner, held in owners.items():
            places = held[0][1] if len(held) == 1 else sorted(at for _, places in held for at in places)
            run = Run(those(whole.lines, places), those(whole.times, places), places, whole.first, whole.until)
            self.together[owner[0]](owner, run, held[0][0] if len(held) == 1 else None, faults)

    def owner_of(self, key, line):
        """The control block or the stream of a line, by the beginning of it that is a key."""
        if key not in self.owners:
            if len(self.owners) >= MOST_SHAPES:
                self.owners.clear()
            kind, own = key[:key.index(b'"')], OWN.findall(line)
            self.owners[key] = (kind, *own[1:3]) if kind == b"goose" else (kind, *own[:3])
        return self.owners[key]

    def see_each(self, lines):
        """Lines one by one."""
        kinds, looks = self.kinds, self.looks
        for found in filter(None, map(HEAD.match, lines)):
            kind, now = found[4], int(found[2])
            kinds[kind] = kinds.get(kind, 0) + 1
            self.times.see(found, now)
            if kind in looks:
                looks[kind](found, found.string, now)

    # ---- Frames of GOOSE -----------------------------------------------------

    def see_states(self, owner, run, _key, faults):
        """Frames of GOOSE of one control block, and the places of frames with an error."""
        parts = run.cut([bisect.bisect(run.places, at) for at in faults]) if faults else [run]
        for part in parts:
            if part.lines:
                self.see_state(owner, part)

    def see_state(self, owner, run):
        """Frames of GOOSE of one control block between which none with an error comes. Those that go on in the state of the one before are only counted:
        they are written alike up to their sqNum, and behind it up to their members."""
        sort, until, number, last = self.going.get(owner), run.until, 0, None
        goes_on = sort and self.goes_on(sort)
        for line, now, at in zip(run.lines, run.times, run.places):
            if goes_on and line.startswith(sort.begin, until) and now >= sort.since:
                begin = until + len(sort.begin)
                end = line.find(b",", begin)
                if end - begin < DIGITS and line.startswith(sort.end, end):
                    if not number:
                        self.malformed.between(sort.between, run.first + at)
                    number, last = number + 1, line
                    if sort.pace:
                        sort.pace.see(run.first + at, sort.state, int(line[begin:end]), now, self.times.gaps)
                    continue
            if number:
                sort.add(number, last)
                number = 0
            sort = self.going[owner] = self.goose(HEAD.match(line), line, now)
            goes_on = self.goes_on(sort)
        if number:
            sort.add(number, last)

    def goes_on(self, sort):
        """Whether it is enough to count the next frames, where they go on in the state of the sort. After the last stNum a number can roll over."""
        return not self.wraps.is_open and not sort.state.endswith(TOP_STATE) and (not sort.sequence or sort.sequence.sort is sort)

    def goose(self, found, line, now):
        """A frame of GOOSE, whose sort is answered. Only the first frame of a state is looked at whole, and one that comes before it."""
        at = found.end()
        until = line.find(b',"t":"', at)
        upto = line.find(b',"sqNum":', until)
        flags = line.find(b',"simulation":', upto)
        key = line[at + 1:until], line[flags + 1:line.find(b',"members":', flags)]
        sort = self.sorts.get(key) or self.sort_of_goose(key, found)
        sort.number += 1
        sort.last = found
        if sort.between.count != self.malformed.count:
            self.malformed.between(sort.between, int(found[1]))
        state = line[until:upto]
        if sort.pace:
            begin = upto + len(b',"sqNum":')
            sort.pace.see(int(found[1]), state, int(line[begin:line.find(b",", begin)]), now, self.times.gaps)
        if sort.sequence and sort.sequence.sort is not sort:
            sort.sequence.go_on(sort)
        if sort.sequence and (self.wraps.is_open or line.startswith(TOP, upto) or state.endswith(TOP_STATE)):
            self.wraps.see(sort.record, found, numbers_of(state, line, upto), now)
        if state != sort.state or now < sort.since:
            sort.state, sort.since = state, now
            sort.begin, sort.end = line[found.start(4):upto + len(b',"sqNum":')], line[flags:line.find(b'"members":', flags)]
            if sort.sequence:
                sort.sequence.see(found, state)
            if sort.clock:
                sort.clock.see(found, line, until)
        return sort

    def sort_of_goose(self, key, found):
        """A new sort of frames of GOOSE. The clock of a simulated one is not judged."""
        record = json.loads(b"{%s,%s}" % key)
        sort = self.sort(key, Sort(record, found))
        appid, reference = SENDER.findall(key[0])
        sort.between = self.malformed.of(b',%s,%s,"simulation":%s' % (appid, reference, b"true" if record["simulation"] else b"false"), int(found[1]))
        if not record["simulation"]:
            own = record["appid"], record["gocbRef"], record["source"]
            sort.sequence, sort.pace = self.sequences.of(record), self.paces.get((record["appid"], record["gocbRef"]))
            sort.clock = self.clocks.get(own) or self.clocks.setdefault(own, Clock(record["source"], record["gocbRef"], int(found[1])))
        return sort

    def fault(self, found, _line, _now):
        """A frame with an error."""
        self.malformed.see(int(found[1]))

    # ---- Frames of Sampled Values --------------------------------------------

    def see_samples(self, _owner, run, key, _faults):
        """Frames of Sampled Values of one stream: one by one, where they are sent in several ways. Else as many at once as are of the shape that is
        known; then a few one by one, of which the last one has the shape that is known then."""
        if key is None:
            self.see_lines(run)
            return
        at, most = 0, MOST_TOGETHER
        while at < len(run.lines):
            part = run.part(at, at + most)
            number = self.see_alike(self.shapes.get(key), part)
            most = MOST_TOGETHER if number == len(part.lines) else 2 * FEW
            if not number:
                few, number = part.part(0, FEW), min(FEW, len(part.lines))
                self.see_lines(few)
                self.shapes[key] = self.shape_of_sampled(few.lines[-1], run.until)
            at += number

    def see_alike(self, shape, run):
        """Looks at once at the first of some lines, as many as are of a shape whose sort is the one of its last frame, and whose times are in order. How
        many these are is answered."""
        if not shape or self.flows.get(shape.state[0]) is not shape.sort:
            return 0
        number = min(shape.alike(run.lines), run.in_order)
        if number:
            self.samples_alike(shape, run if number == len(run.lines) else run.part(0, number))
        return number

    def see_lines(self, run):
        """Lines of one stream one by one."""
        for found, now in zip(map(HEAD.match, run.lines), run.times):
            self.sampled(found, found.string, now)

    def sampled(self, found, line, now):
        """A frame of Sampled Values. Those of one envelope mostly are of one sort; smpCnt is looked at once a stretch."""
        until = line.find(b',"asdus":[', found.end())
        envelope = line[found.end() + 1:until]
        sort = self.flows.get(envelope)
        alike = sort is not None and sort.is_alike is not None and sort.is_alike(line, until)
        if not alike:
            sort = self.sort_of_sampled(envelope, tuple(ASDU.findall(line, until)), found)
            if sort.number == MANY:
                sort.is_alike = pattern_of(line, until)
        sort.number += 1
        sort.last = found
        if alike and sort.wave:
            sort.wave.see(alike.groups(), now, int(found[1]))
        elif self.samples:
            self.samples.see(sort, line, until, now, int(found[1]), alike)
        if not 0 <= now - sort.since < STRETCH:
            sort.since = now
            counts = COUNT.findall(line, until)
            for at, stream in sort.streams:
                stream.rise.see(now, int(counts[at]))

    def shape_of_sampled(self, line, begin):
        """The shape of lines like this one, of which the counts and samples change, and what else does so from frame to frame. One of several
        streams, or of none, has no shape."""
        until = line.find(b',"asdus":[', begin)
        envelope = line[line.index(b",", begin) + 1:until]
        sort = self.flows[envelope]
        if len(sort.streams) != 1:
            return NONE
        found = [it for it in DIFFERENT.finditer(line, until, line.rfind(b'],"trailer":')) if not it[0].endswith(ABSENT)]
        fields = [it.span(it.lastindex or 0) for it in found]
        return Shape(sort, line, begin, fields, (envelope, *([at for at, it in enumerate(found) if it.lastindex == which] for which in (1, 2))))

    def samples_alike(self, shape, run):
        """Frames of Sampled Values of one stream and of the shape, in the order of their times."""
        sort, (_, numbers, samples) = shape.sort, shape.state
        sort.number += len(run.lines)
        sort.last = HEAD.match(run.lines[-1])
        wave = self.samples and self.samples.wave_at(sort)
        if wave:
            columns = shape.columns(run.lines)
            counts, octets = (list(itertools.chain.from_iterable(zip(*(columns[it] for it in at)))) for at in (numbers, samples))
            wave.see_all(list(map(int, counts)), octets, run.times, run.packets)
        (_, stream), first, at = sort.streams[0], shape.fields[numbers[0]], 0
        while at < len(run.times):
            if not 0 <= run.times[at] - sort.since < STRETCH:
                sort.since = run.times[at]
                stream.rise.see(sort.since, int(run.lines[at][first]))
            at = bisect.bisect_left(run.times, sort.since + STRETCH, at + 1)

    def sort_of_sampled(self, envelope, asdus, found):
        """The sort of a frame that is not known to be alike the one before."""
        before = self.flows.get(envelope)
        if before and before.state == asdus:
            return before
        sort = self.sorts.get((envelope, asdus))
        if sort is None:
            sort = self.sort((envelope, asdus), Sort(json.loads(b"{%s}" % envelope), found))
            sort.state, sort.streams = asdus, self.streams_of(sort.record, asdus, int(found[1]))
        self.flows[envelope] = sort
        named = {stream.text: stream.synch for _, stream in sort.streams}
        for svid, _, synch, *_ in asdus:
            named[svid].see(int(synch), found)
        return sort

    def streams_of(self, record, asdus, packet):
        """The streams of a frame, each once, with the position of its first ASDU."""
        found = {}
        for at, (svid, _, _, rate, mode) in enumerate(asdus):
            name = json.loads(svid)
            it = self.sender("stream", (record["appid"], record["source"], name), name, record["appid"])
            found.setdefault(name, (at, it))
            it.text = svid
            if rate != b"null":
                it.note(it.rates, (int(rate), None if mode == b"null" else int(mode[1:-1] or b"0", 16)), packet)
        for _, it in found.values():
            it.note(it.counts, sum(svid == it.text for svid, *_ in asdus), packet)
        return list(found.values())

    def sort(self, key, sort):
        if len(self.sorts) >= MOST_SORTS:
            self.add_up()
        self.sorts[key] = sort
        return sort

    def add_up(self):
        """Adds the sorts to their senders."""
        for sort in self.sorts.values():
            record, first, last = sort.record, place(sort.first), place(sort.last)
            if "gocbRef" in record:
                it = self.sender("block", (record["appid"], record["gocbRef"]), record["gocbRef"], record["appid"])
                self.add(it, sort, record["simulation"], first, last)
                it.note(it.lifetimes, record["timeAllowedtoLive"], first.packet)
                it.live(record["timeAllowedtoLive"], first.packet)
                if int(record["reserved1"], 16) >= SIMULATED and not record["simulation"]:
                    it.marked.add(sort.number, first, last)
                if record["simulation"]:
                    it.lives_until = max(it.lives_until, last.microseconds + 1000 * record["timeAllowedtoLive"])
                if record["ndsCom"]:
                    it.commissioning.add(sort.number, first, last)
            for at, it in sort.streams:
                self.add(it, sort, int(record["reserved1"], 16) >= SIMULATED, first, last)
                it.note(it.forms, f"stream id={senders.quoted(it.name)} rev={sort.state[at][1].decode()}", first.packet)
        self.sorts.clear()
        self.flows.clear()
        self.shapes.clear()
        self.going.clear()

    def add(self, seen, sort, is_simulated, first, last):
        """Adds frames of one sort to their sender."""
        record = sort.record
        seen.span.add(sort.number, first, last)
        seen.note(seen.envelopes, (record["destination"], record["source"], record["tag"]), first.packet)
        own = is_simulated, record["source"]
        if len(seen.sources) < MOST_FORMS or own in seen.sources:
            seen.sources.setdefault(own, Span()).add(sort.number, first, last)
        if is_simulated:
            seen.simulated.add(sort.number, first, last)

    @property
    def zero(self):
        """The first packet that has a time, or the first one where none has."""
        times = self.times
        return Place(times.zeros + 1, times.began, date(times.began)) if times.began and not self.first.microseconds else self.first

    def of_kind(self, kind):
        return [it for it in self.seen.values() if it.kind == kind]
