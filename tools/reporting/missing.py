"""What is missing of control blocks and streams, and when: from goose losses."""
import heapq
import json
import math
import re

from reporting import page
from reporting.late import Lates, LateSamples
from reporting.places import HEAD, Place, place
from reporting.times import SECOND, Untimed
from reporting.verdict import not_judged

# How many findings of one kind and one sender the page lists one by one; the others are added up.
MOST = 200
SENDER = re.compile(rb',"appid":"[0-9a-f]{4}",(?:"gocbRef":"(?:[^"\\]|\\.)*","simulation":(?:true|false)|"source":"[0-9a-f]{12}","svID":"(?:[^"\\]|\\.)*")')
STREAM = re.compile(rb',"appid":"([0-9a-f]{4})","source":"([0-9a-f]{12})","svID":("(?:[^"\\]|\\.)*")')
PACKET = re.compile(rb'\{"packet":(\d+)')
SINCE = re.compile(rb'"since":(\d+),.*"for":(\d+)\}$')
# What a row that waits begins with, which no text on a page has.
WAITS = "\0"
# How much is missing, at the end of a line: a number, or the first and the last one.
SIZE = re.compile(rb'"missing":(\d+)\}|"from":(\d+),"to":(\d+)\}')
COLUMNS = [page.Column("Time"), page.Column("Packet"), page.Column("Sender"), page.Column("Finding"), page.Column("Details")]
# The kinds that are findings, in the order of the summary. The others are told and are no loss.
FOUND = ("end-silent", "silent", "restarted", "states-missing", "frames-missing", "samples-missing", "count-out-of-range")
# Those that say which frames of a control block came or did not.
NUMBERED = (b"restarted", b"states-missing", b"frames-missing", b"late")
TOLD = ("sample-repeated", "synch")
# What a row says of a silence that is none by the capture's own times.
LEAPT, BACK, NO_TIME = "the capture's clock leapt", "times go back: it may be none", "packets have no time: it may be none"
COPY = "it was not missing: a copy, or overtaken"
WORDS = {"silent": ("silence", "silences"), "end-silent": ("sender silent at the end", "senders silent at the end"), "restarted": ("restart",
    "restarts"),
         "states-missing": ("state missing", "states missing"), "frames-missing": ("frame missing", "frames missing"),
         "samples-missing": ("sample missing", "samples missing"), "count-out-of-range": ("count out of range", "counts out of range"),
         "sample-repeated": ("repeated sample", "repeated samples"), "synch": ("change of smpSynch", "changes of smpSynch")}


def sender_of(record):
    """A sender in the words of the page."""
    if "svID" in record:
        told = [page.named(record["svID"]), page.element("span", f" (stream, APPID\u00a0{record['appid']}, from {record['source']})", class_="soft")]
    else:
        simulated = ", simulated" if record["simulation"] else ""
        told = [page.named(record["gocbRef"]), page.element("span", f" (APPID\u00a0{record['appid']}{simulated})", class_="soft")]
    return page.element("span", told, class_="name sender")


def span(first, last, one, many):
    """Numbers from one to another, in words."""
    return f"{one} {first}" if first == last else f"{many} {first} to {last}"


def details(record, short):
    """What a finding says, in words."""
    kind = record["kind"]
    if kind in ("silent", "end-silent"):
        since = page.moment(record["sinceTime"], short) or f"{record['since']} \u03bcs"
        begun = "the last sample" if "svID" in record else "its lifetime was over"
        return page.element("span", [page.duration(record["for"]), " since ", since, f", when {begun}" if "svID" not in record else f", {begun}"])
    return {
        "states-missing": lambda it: span(it["from"], it["to"], "state", "states"),
        "frames-missing": lambda it: f"state {it['stNum']}: {span(it['from'], it['to'], 'sqNum', 'sqNum')}",
        "late": lambda it: f"state {it['stNum']}, sqNum {it['sqNum']}",
        "restarted": lambda it: f"with state {it['stNum']}, sqNum {it['sqNum']}",
        "samples-missing": lambda it: f"{page.count(it['missing'], 'sample')}, from smpCnt {it['from']} on",
        "synch": lambda it: f"smpSynch from {it['from']} to {it['to']}",
    }.get(kind, lambda it: f"smpCnt {it['smpCnt']}")(record)


def noted(told, note):
    """What a finding says, and a note behind it."""
    return page.Raw(f"{page.text(told)}; {page.text(note)}") if note else told


def size_of(line, kind):
    """How many states, frames or samples a finding is."""
    found = SIZE.search(line, len(line) - 60) if kind.endswith(b"-missing") else None
    if not found:
        return 1
    return int(found[1]) if found[1] else int(found[3]) - int(found[2]) + 1


class Many:
    """Findings of one kind and one sender, beyond those that are listed."""

    def __init__(self):
        self.number, self.first, self.last, self.record, self.weighed = 0, None, None, None, {}


class Bad:
    """Frames with an error that are missing of control blocks: how many, the first, and how many of each sender."""

    def __init__(self):
        self.number, self.first, self.senders = 0, None, {}

    def add(self, sender, packets):
        if packets:
            self.number, self.first = self.number + len(packets), min(packets[0], self.first or packets[0])
            self.senders[sender] = self.senders.get(sender, 0) + len(packets)


class Weighed:
    """What the page says of a line of goose losses: whether it is a finding, what stands beside it, and the gap in all packets that it is of, by
    which it is none where the capture's clock leapt; and whether a picture shows it."""

    def __init__(self, is_finding=True, note=None, gap=None, is_drawn=True):
        self.is_finding, self.note, self.gap, self.is_drawn = is_finding, note, gap, is_drawn

    @property
    def is_red(self):
        """Whether it is a finding, as is known when all were read."""
        return self.is_finding and not (self.gap and self.gap.is_leap)


class Missing:
    """The findings of goose losses: rows as they come, totals, and marks of a picture. Silences are held beside the capture's times: those
    that come of these are no findings. Late frames and samples are held beside what is missing, and frames with an error too."""

    def __init__(self, rows, picture, short, station, untimed=None):
        self.rows, self.picture, self.short, self.times, self.malformed = rows, picture, short, station.times, station.malformed
        self.wraps, self.untimed = station.wraps, untimed or Untimed()
        # The control blocks; late frames, and of how many states and frames that were missing; frames that came with an error.
        self.blocks = {key_of(it): it for it in station.of_kind("block")}
        self.lates, self.late, self.bad, self.late_samples = Lates(), {}, Bad(), {}
        self.kinds, self.senders, self.many, self.totals = {}, {}, {}, []
        # The last silence of each sender: its packet and the gap in all packets in which it began; and how many silences cannot be seen.
        self.silences, self.hidden, self.periods, self.devices = {}, 0, {}, {}
        # The rows that wait for whether the clock leapt: the gap of each, and how it is in either case.
        self.waiting = []
        # How many rows are listed, of how many octets, and how many may be; the senders silent at the end that are not.
        self.listed, self.octets, self.most, self.more_ends = 0, 0, page.MOST_ROWS, 0

    def see(self, lines):
        for line in lines:
            found = HEAD.match(line)
            if found:
                self.finding(line, found)
            else:
                self.ending(json.loads(line))
        for gap in self.times.gaps:
            if gap.silences and not gap.is_leap:
                self.count("silent", gap.silences, gap.first)
            if gap.outages and not gap.is_leap:
                self.count("samples-missing", gap.samples, gap.first, gap.outages)

    def finding(self, line, found):
        """A finding at a packet. Times that go back are told of the capture itself."""
        kind = found[4]
        if kind == b"time-back":
            return
        sender = SENDER.match(line, found.end())
        held = (sender[0] if sender else b"", kind)
        number = self.senders[held] = self.senders.get(held, 0) + 1
        weighed = self.weigh(held[0], kind, line, found)
        if self.most is None or (number <= MOST and self.has_room()):
            self.list(json.loads(line), place(found), weighed)
            return
        many = self.many.setdefault(held, Many())
        many.number, many.last = many.number + 1, found
        many.weighed[id(weighed.gap), weighed.is_finding] = weighed
        many.first, many.record = many.first or place(found), many.record or json.loads(line)

    def weigh(self, sender, kind, line, found):
        """Counts a line, where it is a finding."""
        packet = int(found[1])
        wrap = self.wraps.of_line(sender, kind, packet)
        if wrap:
            if kind == b"restarted":
                self.lates.see(sender, kind, line, packet)
            return Weighed(False, wrap.note(), is_drawn=False)
        if kind == b"sample-late":
            return Weighed(False, self.late_sample(sender, line, packet))
        note = self.numbered(sender, kind, line, packet) if kind in NUMBERED else None
        of_times = self.of_times(kind, line, found, sender)
        if of_times:
            return of_times
        if kind not in NUMBERED:
            self.count(kind.decode(), size_of(line, kind), packet)
        return Weighed(kind != b"late", note)

    def late_sample(self, sender, line, packet):
        """A late sample: what its row says beside it."""
        since = self.samples_of(sender).take(line)
        if since is None:
            self.count("sample-copy", 1, packet)
            return COPY
        self.late["samples-missing"] = self.late.get("samples-missing", 0) + 1
        return f"missing since packet\u00a0{since}"

    def samples_of(self, sender):
        return self.late_samples.get(sender) or self.late_samples.setdefault(sender, LateSamples(self.periods.get(sender) or SECOND))

    def numbered(self, sender, kind, line, packet):
        """Counts what is missing but for what came with an error, restarts and late frames. What the row of it says beside is answered."""
        size, bad = size_of(line, kind), []
        if kind.endswith(b"-missing") and self.malformed.count:
            it = self.blocks.get(sender.partition(b',"simulation"')[0])
            bad = self.malformed.take(sender, it.envelopes, it.appid, packet, size) if it else []
            self.bad.add(sender, bad)
        what, since = self.lates.see(sender, kind, line, packet, len(bad)) or (None, None)
        if kind == b"late":
            if what is None:
                self.count("copy", 1, packet)
                return COPY
            self.late[what] = self.late.get(what, 0) + 1
            return f"missing since packet\u00a0{since}"
        if size > len(bad):
            self.count(kind.decode(), size - len(bad), packet)
        return f"{f'{len(bad):,} of these ' if len(bad) < size else ''}came with an error: {page.packets(bad[0], bad[-1])}" if bad else None

    def of_times(self, kind, line, found, sender):
        """What a finding is that can come of the capture's own times: it counts when these are judged, or not at all; or None."""
        if kind == b"silent":
            return self.silence(line, found, sender)
        if kind == b"samples-missing":
            return self.outage(line, found, sender)
        packet, gap = self.silences.get(sender, (None, None))
        if packet == int(found[1]) and kind != b"late":
            gap.is_lossy = True
        return None

    def silence(self, line, found, sender):
        """A silence that began in a gap in all packets, or that times which go back, or are none, show or hide."""
        packet, now, (since, length) = int(found[1]), int(found[2]), map(int, SINCE.search(line).groups())
        gap = self.times.gap_of(since)
        if self.untimed.number:
            self.hidden += 1
            return Weighed(False, NO_TIME, is_drawn=False)
        if since + length - now >= SECOND or (gap and gap.is_undone):
            self.hidden += 1
            return Weighed(False, BACK)
        # A sender that goes on where it was comes again within what was left of its lifetime.
        if gap and now - gap.after <= since - gap.before:
            gap.add_silence(self.devices.get(sender.partition(b',"simulation"')[0], sender), packet)
            self.silences[sender] = packet, gap
            return Weighed(gap=gap)
        return None

    def outage(self, line, found, sender):
        """Samples that are missing where no packet came: whole seconds are no sign that any is."""
        packet, now, size = int(found[1]), int(found[2]), size_of(line, b"samples-missing")
        gap, period = self.times.gap_before(now), self.periods.get(sender)
        if self.times.began and period and size * SECOND // period > now - self.times.began + SECOND:
            return Weighed(False, NO_TIME)
        if not gap or not period or gap.before < now - (size + 1) * SECOND // period - SECOND // 10 or now - gap.after >= SECOND:
            self.samples_of(sender).miss(line, size, packet, now)
            return None
        if size % period:
            gap.is_lossy = True
            self.samples_of(sender).miss(line, size, packet, now)
            return None
        gap.add_outage(size, packet)
        return Weighed(gap=gap)

    def count(self, kind, size, packet, number=1):
        """Counts findings, and how many states, frames or samples they are."""
        held = self.kinds.setdefault(kind, [0, 0, packet])
        held[0] += number
        held[1] += size
        held[2] = packet if held[2] is None or packet is None else min(packet, held[2])

    def has_room(self):
        return self.most is None or (self.listed < self.most and self.octets < page.MOST_OCTETS)

    def write(self, row):
        self.listed, self.octets = self.listed + 1, self.octets + len(row)
        self.rows.write(row)

    def list(self, record, where, weighed):
        is_found = record["kind"] in FOUND and weighed.is_finding
        told = self.row(record, where, weighed.note, is_found)
        if weighed.gap:
            self.waiting.append((weighed.gap, told, self.row(record, where, LEAPT, False)))
            told = f"{WAITS}{len(self.waiting) - 1}\n"
            self.octets += len(self.waiting[-1][2])
        self.write(told)
        if weighed.is_drawn:
            self.picture.finding(record, where)

    def row(self, record, where, note, is_found):
        told = details(record, self.short)
        if note == NO_TIME:
            told, note = note, None
        return page.row(COLUMNS, [page.when(where, self.short), f"{where.packet}", sender_of(record), record["kind"].replace("-", " "),
                                  noted(told, note)], found=3 if is_found else None)

    def told(self):
        """The rows in their order, those too that waited for whether the capture's clock leapt."""
        if not self.waiting:
            yield from self.rows
            return
        rest = ""
        for piece in self.rows:
            *lines, rest = (rest + piece).split("\n")
            yield "".join(map(self.waited, lines))

    def waited(self, line):
        if not line.startswith(WAITS):
            return f"{line}\n"
        gap, told, leapt = self.waiting[int(line[len(WAITS):])]
        return leapt if gap.is_leap else told

    def ending(self, record):
        """What is told at the end of a capture."""
        kind = record.get("kind", "")
        if kind.startswith("total-"):
            self.total(record)
        elif kind == "end-silent":
            self.silent_at_end(record)

    def total(self, record):
        """What a sender comes to, with how many of its missing frames came late or with an error, and how many late ones were not missing."""
        if self.untimed.number:
            record = {name: it for name, it in record.items() if name not in (UNTIMED if self.times.began else UNTIMED[:1])}
        if "gocbRef" in record:
            sender = f'{key_of_block(record["appid"], record["gocbRef"])},"simulation":{json.dumps(record["simulation"])}'.encode()
            it = self.lates.held.get(sender)
            record |= {"bad": self.bad.senders.get(sender, 0), "came": it.came if it else 0, "copies": it.copies if it else 0}
        else:
            it = self.late_samples.get(stream_key(record["appid"], record["source"], json.dumps(record["svID"]).encode()))
            record |= {"came": it.came, "copies": it.copies} if it else {}
        self.totals.append(record)

    def silent_at_end(self, record):
        """A sender that is silent at the end. One of simulated frames is a test set that stopped, which is no loss."""
        is_test, note = record.get("simulation", False), self.why_no_end(record)
        if is_test:
            self.count("simulated-ended", 1, None)
        elif note in (BACK, NO_TIME):
            self.hidden += 1
        elif not note:
            self.count("end-silent", 1, None)
        if self.has_room():
            what, told = "simulated frames ended" if is_test else "silent at the end", details(record, self.short)
            self.write(page.row(COLUMNS, ["end of the capture", "none after", sender_of(record), what, noted(told, note)],
                                found=None if is_test or note else 3))
        else:
            self.more_ends += 1
        if note in (None, BACK):
            self.picture.finding(record, Place(None, record["since"] + record["for"], None))

    def why_no_end(self, record):
        """Why a sender that goose calls silent at the end may be there, or None."""
        if record.get("simulation", False):
            return None
        wrap = self.wraps.of((record["appid"], record["gocbRef"]), math.inf) if "gocbRef" in record else None
        if wrap:
            return wrap.note()
        return NO_TIME if self.untimed.number else BACK if self.times.ends_back else None

    def rest(self):
        """Rows of what was not listed one by one."""
        for many in self.many.values():
            kind = many.record["kind"]
            yield page.row(COLUMNS, [page.when(many.first, self.short), page.packets(many.first.packet, int(many.last[1])),
                                     sender_of(many.record), kind.replace("-", " "), f"{many.number:,} more, not listed one by one"],
                           found=3 if kind in FOUND and any(it.is_red for it in many.weighed.values()) else None)

    def found(self):
        """The kinds of findings that are there, in the order of the summary."""
        return [kind for kind in FOUND if kind in self.kinds]


def of_these(size, late):
    """How many of the states or frames that were missing came late."""
    if not late:
        return ""
    return f", {late:,} of these came late" if late < size else ", which came late" if size == 1 else ", all of which came late"


def copies(it):
    """Late frames that were not missing."""
    todo = "capture one path alone, or take copies away, as editcap -d does"
    if "copy" in it.kinds:
        number, _, packet = it.kinds["copy"]
        yield not_judged(f"{page.count(number, 'late frame was not missing', 'late frames were not missing')}, first: packet\u00a0{packet}: "
                         "copies (a ring, PRP), or overtaken by a later state.", todo)
    if "sample-copy" in it.kinds:
        number, _, packet = it.kinds["sample-copy"]
        yield not_judged(f"{page.count(number, 'late sample was not missing', 'late samples were not missing')}, first: packet\u00a0{packet}: "
                         "copies (a ring, PRP).", todo)


# ---- Runs --------------------------------------------------------------------


def runs_of(rates):
    """The runs of goose losses in which each stream is judged by its own period: of each the period of each svID, by its text. One run is
    enough where no two streams of one svID have different ones."""
    runs = [{}]
    for seen, rate in rates.items():
        if rate.period:
            run = next((it for it in runs if it.get(seen.text, rate.period) == rate.period), None)
            if run is None:
                runs.append(run := {})
            run[seen.text] = rate.period
    return runs


def words_of(run, rates):
    """The words that give a run its periods: one of all streams, where there is but one, else one of each svID."""
    alike = {it.period for it in rates.values()}
    return ["--period", str(alike.pop())] if run and len(alike) == 1 else [f"--period={json.loads(text)}={period}" for text, period in run.items()]


def merged(runs, periods):
    """The lines of several runs of goose losses in the order of packets, each the periods of svIDs and its lines: those of control blocks of
    the first run, those of a stream of the run with its period. Of a stream without one only its samples and changes of smpSynch are told."""
    held = [own(lines, run, periods, at == 0) for at, (run, lines) in enumerate(runs)]
    return held[0] if len(held) == 1 else heapq.merge(*held, key=packet_of)


def packet_of(line):
    found = PACKET.match(line)
    return int(found[1]) if found else math.inf


def own(lines, run, periods, is_first):
    """The lines of a run that count."""
    for line in lines:
        found = STREAM.search(line) if b',"source":"' in line else None
        theirs = periods.get(found[0]) if found else None
        if found and theirs is None and is_first:
            yield from unjudged(line)
        elif theirs == run.get(found[3]) if found else is_first:
            yield line


def unjudged(line):
    """What a line says of a stream that is not judged."""
    if line.startswith(b'{"kind":"total-sv"'):
        record = json.loads(line)
        yield json.dumps({name: record[name] for name in ("kind", "appid", "source", "svID", "samples")}, separators=(",", ":")).encode()
    elif b'"kind":"synch"' in line:
        yield line


def key_of(seen):
    """A stream as the lines of goose losses have it, or a control block but for simulation."""
    if seen.kind == "stream":
        appid, source, _ = seen.key
        return stream_key(appid, source, seen.text)
    return key_of_block(seen.appid, seen.name).encode()


def stream_key(appid, source, text):
    return b',"appid":"%s","source":"%s","svID":%s' % (appid.encode(), source.encode(), text)


def key_of_block(appid, reference):
    return f',"appid":"{appid}","gocbRef":{json.dumps(reference)}'


# ---- Totals ------------------------------------------------------------------

GOOSE = {"frames": "Frames", "statesMissing": "States missing", "framesMissing": "Frames missing", "came": "Of these late",
         "bad": "Missing, but with an error", "late": "Late", "copies": "Late, not missing", "repeated": "Repeated", "restarted": "Restarts",
         "silent": "Silences", "longest": "Longest pause"}
# The columns that are not told where packets have no time, and those that times behind such packets make too great.
UNTIMED = ("longest", "silent", "missing", "outages")
# The columns that are there only where they say something.
RARE = ("came", "bad", "copies")
SAMPLED = {"samples": "Samples", "missing": "Missing", "came": "Of these late", "late": "Late", "copies": "Late, not missing",
           "repeated": "Repeated", "outOfRange": "Out of range", "outages": "Gaps", "longest": "Longest gap"}


def totals(records, kind, names, first, order):
    """A table of totals: columns and rows."""
    held = sorted((it for it in records if it["kind"] == kind), key=lambda it: order(it.get("gocbRef") or it["svID"], it["appid"], it.get("source", "")))
    there = {name: words for name, words in names.items() if any(it.get(name) if name in RARE else name in it for it in held)}
    columns = [page.Column(first), *(page.Column(words, page.NUMBER) for words in there.values())]
    return columns, [page.row(columns, [sender_of(it), *(total(it, name) for name in there)]) for it in held]


def total(record, name):
    if name not in record:
        return ""
    if name == "longest":
        return page.duration(record[name]) if record["kind"] == "total-goose" else page.count(record[name], "sample")
    return f"{record[name]:,}"
