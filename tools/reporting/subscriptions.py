"""Every IED of an SCL file beside the control blocks and streams that it subscribes to, and what came of each: from one replay of all
of them.

An IED subscribes to a block that has its name as IEDName, that an ExtRef of its Inputs names, or that a supervising logical node (LGOS,
LSVS) names. An ExtRef without srcCBName is served by any block that has its data: of those that name the IED first, else of all.
"""
import re

import scl
from reporting import page
from reporting.events import ENTRY, REASON, SAMPLED, Counted
from reporting.sections import paragraph, section as section_of
from reporting.verdict import State, clean, found as finding, not_judged, some

# How many names a line has: the others are counted.
MOST_NAMES = 8
# The most octets of BLOCKs that one command line takes.
MOST_WORDS = 1000000
ACCEPTED = ("act", "refreshed", "repeated", "old")
REVISION = re.compile(r" rev=(\d+)$")
COLUMNS = [page.Column("IED"), page.Column("Subscribes to"), page.Column("Named by"), page.Column("Received", page.NUMBER),
           page.Column("Accepted", page.NUMBER), page.Column("Refused"), page.Column("Expired", page.NUMBER), page.Column("So it is")]
UNNAMED = [page.Column("IED"), page.Column("Line of the SCL file", page.NUMBER), page.Column("Names what is not there")]


# ---- Who subscribes to what --------------------------------------------------


class Subscriptions:
    """The subscriptions of a station: for each IED and each of its control blocks by what it is named, and the inputs that any of several
    serves; and what its ExtRefs name that is not there."""

    def __init__(self, station):
        self.station, self.by, self.rivals, self.unnamed, self.unbound, self.elsewhere = station, {}, {}, [], 0, 0
        self.inputs = {}
        self.controls = {id(it): it for it in station.controls}
        self.named = {}
        for control in station.controls:
            for ied in sorted(control.receivers):
                self.add(ied, control, "IEDName")
        for reference in station.references:
            self.bind(reference)
        for it in station.supervised:
            self.supervise(it)

    def add(self, ied, control, by):
        held = self.by.setdefault((ied, id(control)), [])
        held += [by] if by not in held else []

    def bind(self, reference):
        """What one ExtRef comes to. One that is not bound, is bound to its own IED, or is served by reports or polling subscribes to
        nothing."""
        stated, ied = reference.stated, reference.ied
        if not stated.get("iedName"):
            self.unbound += 1
        elif stated["iedName"] not in ("@", ied) and stated.get("serviceType") not in ("Poll", "Report"):
            there = self.candidates(reference)
            if not there:
                self.is_not_there(reference)
            elif stated.get("srcCBName"):
                for control in there:
                    self.add(ied, control, "ExtRef")
            else:
                self.serve(ied, [it for it in there if ied in it.receivers] or there)

    def serve(self, ied, there):
        """Any of these blocks serves an input of an IED."""
        if len(there) > 1:
            self.inputs.setdefault(ied, {})[tuple(map(id, there))] = None
        for control in there:
            self.add(ied, control, "ExtRef" if len(there) == 1 else f"ExtRef: one of {len(there):,}")
            if len(there) > 1:
                self.rivals.setdefault((ied, id(control)), {})[tuple(map(id, there))] = None

    def is_sole(self, ied, at):
        """Whether an IED names this control block itself, so that no other one serves in its place."""
        return any("one of" not in by for by in self.by.get((ied, at), ()))

    def served(self, ied, at, accepted):
        """The control blocks that serve an IED in place of this one: of each input one that is accepted, or none at all."""
        if self.is_sole(ied, at):
            return []
        serving = [next((it for it in there if it != at and accepted(it)), None) for there in self.rivals.get((ied, at), ())]
        return [] if None in serving else serving

    def candidates(self, reference):
        """The control blocks that an ExtRef names."""
        stated = reference.stated
        names = ("srcLDInst", "ldInst", "srcCBName") if stated.get("srcCBName") else (*scl.DATA, "daName")
        key = tuple(stated.get(it) for it in ("iedName", "serviceType", "srcCBName", *names))
        if key not in self.named:
            held = {at: it for group in self.station.groups(stated) for at, it in group.items()}
            self.named[key] = list(held.values())
        return self.named[key]

    def is_not_there(self, reference):
        """An ExtRef that names no control block. Data that a file has can still come by reports."""
        stated = reference.stated
        is_of_block = stated.get("srcCBName") or stated.get("serviceType") in scl.KINDS
        if not is_of_block and self.station.has_data(stated["iedName"], stated):
            self.elsewhere += 1
            return
        names = ("iedName", "srcLDInst", "ldInst", "srcCBName") if stated.get("srcCBName") else ("iedName", *scl.DATA, "daName", "serviceType")
        told = ", ".join(f"{name} {stated[name]}" for name in names if stated.get(name))
        self.unnamed.append((reference.ied, reference.line, f"an ExtRef: {told}"))

    def supervise(self, it):
        """What a supervising logical node names."""
        of = "GoCBRef of LGOS" if it.service == "GOOSE" else "SvCBRef of LSVS"
        control = self.station.by_reference.get((it.service, it.reference))
        if control:
            self.add(it.ied, control, of)
        elif not it.reference.startswith("@"):
            self.unnamed.append((it.ied, it.line, f"{of}: {it.reference}"))

    def without(self):
        """The IEDs that subscribe to nothing."""
        subscribers = {ied for ied, _ in self.by}
        return [ied for ied in self.station.ieds if ied not in subscribers]


# ---- What came ---------------------------------------------------------------


class Outcome:
    """What came of one control block or stream, by whom it does not matter."""

    def __init__(self):
        self.why, self.accepted, self.refused, self.expired, self.first, self.last = None, 0, {}, None, None, None

    def see(self, kind, reason, found):
        """An entry of a replay."""
        if kind == "expired":
            self.expired = counted(self.expired, found)
            return
        if kind in ACCEPTED:
            self.accepted += 1
        elif kind == "refused":
            self.refused[reason] = counted(self.refused.get(reason), found)
        if kind != "switched":
            self.first, self.last = self.first or int(found[1]), int(found[1])

    @property
    def received(self):
        return self.accepted + sum(it.number for it in self.refused.values())

    @property
    def is_partly_refused(self):
        """Whether frames were refused beside those accepted. Simulated ones are meant to be."""
        return any(reason != "Simulated" for reason in self.refused)

    def told(self):
        """How many frames were accepted."""
        return f"{self.accepted:,}"

    def reasons(self):
        """Why frames were refused, how many, and where first."""
        return ", ".join(f"{it.number:,} refused ({reason}), first: packet\u00a0{it.first.packet}" for reason, it in self.refused.items())


def counted(held, found):
    """A count with one entry more."""
    if not held:
        return Counted(found)
    held.add(found)
    return held


class Streamed(Outcome):
    """What came of one stream: its frames by the confRev that they have. Simulated ones are refused."""

    def __init__(self, frames, revisions, wanted, simulated=()):
        super().__init__()
        self.frames, self.revisions, self.wanted = frames, revisions, wanted
        self.simulated, self.first_simulated = sum(it.number for it in simulated), min((it.first.packet for it in simulated), default=None)
        self.accepted = frames - self.simulated if wanted in revisions else 0

    @property
    def is_partly_refused(self):
        return len(self.revisions) > 1

    def told(self):
        return "some" if self.accepted and self.is_partly_refused else super().told()

    @property
    def received(self):
        return self.frames

    def reasons(self):
        told = ", ".join(f"confRev {it}, configured {self.wanted}, first: packet\u00a0{packet}"
                         for it, packet in self.revisions.items() if it != self.wanted)
        if self.simulated and (self.accepted or not told):
            simulated = f"{self.simulated:,} refused (Simulated), first: packet\u00a0{self.first_simulated}"
            return f"{simulated}, {told}" if told else simulated
        return f"{self.frames:,} refused ({told})" if told and not self.accepted else told


def streamed(streams, wanted):
    """What came of one configured stream, by those of a capture, or None."""
    of, revisions = [it for it in streams if it.name == wanted.more["svID"]], {}
    for text, packet in (form for it in of for form in it.forms.items()):
        revision = REVISION.search(text)[1]
        revisions[revision] = min(packet, revisions.get(revision, packet))
    simulated = [it.simulated for it in of if it.simulated.number]
    return Streamed(sum(it.frames for it in of), revisions, wanted.fields["confRev"], simulated) if of else None


class Matrix:
    """The subscriptions of a station, and what a capture has of each."""

    def __init__(self, station):
        self.station, self.subscriptions = station, Subscriptions(station)
        self.outcomes, self.blocks, self.streams = {}, {}, {}
        for at in dict.fromkeys(at for _, at in self.subscriptions.by):
            self.look_for(self.subscriptions.controls[at])

    def look_for(self, control):
        """What is replayed or counted of a control block."""
        outcome = self.outcomes[id(control)] = Outcome()
        try:
            for it in self.station.senders(control):
                if it.kind == "block":
                    self.blocks.setdefault(it.key, (it.text, []))[1].append(outcome)
                else:
                    self.streams[id(control)] = it
        except ValueError as why:
            outcome.why = str(why)

    def runs(self):
        """The BLOCKs of all, in as many runs as command lines take: one, but for thousands."""
        run, size = [], 0
        for text, outcomes in self.blocks.values():
            if size + len(text) + 16 > MOST_WORDS:
                yield run
                run, size = [], 0
            run.append((text, outcomes))
            size += len(text) + 16
        if run:
            yield run

    def see(self, run, lines):
        """The lines of a replay of these BLOCKs."""
        for found in filter(None, map(ENTRY.match, (line for line in lines if not line.endswith(SAMPLED)))):
            kind = found[4].decode()
            reason = REASON.search(found.string, found.end()) if kind == "refused" else None
            for it in run[int(found[5])][1]:
                it.see(kind, reason and reason[1].decode(), found)

    def see_streams(self, seen):
        """The streams that a capture has."""
        streams = [it for it in seen if it.kind == "stream"]
        for at, wanted in self.streams.items():
            self.outcomes[at] = streamed(streams, wanted) or self.outcomes[at]

    def state(self, ied, control):
        """What a subscription comes to: clean, found or not judged, and why."""
        outcome = self.outcomes[id(control)]
        if outcome.accepted:
            return finding("refused in part") if outcome.is_partly_refused else clean("accepted")
        others = self.subscriptions.served(ied, id(control), lambda it: self.outcomes[it].accepted)
        if others:
            return clean(f"not needed: {name_of(self.subscriptions.controls[others[0]])} serves")
        if outcome.received:
            return finding("no frame accepted")
        if outcome.why:
            return not_judged(outcome.why, "mend the SCL file")
        return not_judged("never seen", "record where its frames pass")

    def rows(self):
        """A row for each subscription with its state: those that were found first, then those not judged; of each in the order of IEDs."""
        held = [(ied, self.subscriptions.controls[at], by, self.state(ied, self.subscriptions.controls[at]))
                for (ied, at), by in self.subscriptions.by.items()]
        order = {ied: number for number, ied in enumerate(self.station.ieds)}
        return sorted(held, key=lambda it: (-it[3].state, order.get(it[0], len(order)), it[0]))


def name_of(control):
    """What a control block is told by."""
    return control.told() if control.service == "GOOSE" else f"{control.stated.get('smvID') or control.told()} (stream)"


def asked(configured, found):
    """The matrix of a configuration, and what a capture has of it."""
    matrix = Matrix(configured.station)
    for run in matrix.runs():
        matrix.see(run, found.asked.lines("looking for subscriptions", "replay", "--", *(text for text, _ in run)))
    matrix.see_streams(found.station.seen.values())
    return matrix


# ---- On the page -------------------------------------------------------------


def listed(names, most=MOST_NAMES):
    more = [f"{len(names) - most:,} more IEDs"] if len(names) > most else []
    return ", ".join([*names[:most], *more])


def judge(found, own):
    """What the subscriptions come to. A block of which no frame was accepted is told by itself, with all that subscribe to it."""
    matrix = found.matrix
    if not matrix:
        return
    rows, by_block = matrix.rows(), {}
    for ied, control, _, state in rows:
        by_block.setdefault((id(control), state.state, state.told), (control, state, []))[2].append(ied)
    for control, state, ieds in by_block.values():
        if state.state == State.FOUND:
            outcome = matrix.outcomes[id(control)]
            frames = f"some frames of {name_of(control)} are refused" if outcome.accepted else f"no frame of {name_of(control)} is accepted"
            yield finding(f"{frames} by {listed(ieds)}: {outcome.reasons()}.")
    unnamed = matrix.subscriptions.unnamed
    if unnamed:
        told = [f"{ied}, line {line}" for ied, line, _ in unnamed]
        yield finding(f"{page.count(len(unnamed), 'input names', 'inputs name')} no block or data of the file ({some(told)}).")
    for control, state, ieds in by_block.values():
        if matrix.outcomes[id(control)].why and state.state == State.NOT_JUDGED:
            yield not_judged(f"{name_of(control)} ({listed(ieds)}) is not looked for: {state.told}.", state.todo)
    unseen = [f"{name_of(control)} ({listed(ieds, 2)})" for control, state, ieds in by_block.values()
              if state.state == State.NOT_JUDGED and not matrix.outcomes[id(control)].why]
    if unseen:
        yield not_judged(f"no frame came of {page.count(len(unseen), 'block or stream that is', 'blocks and streams that are')} subscribed to in "
                         f"{found.all_packets}: {some(unseen)}.", "record where their frames pass")
    accepted = sum(state.state == State.CLEAN for *_, state in rows)
    if rows:
        yield clean(f"{accepted:,} of {page.count(len(rows), 'subscription is', 'subscriptions are')} served in {found.all_packets}.")
    else:
        yield not_judged(f"{own.scd} has no subscription, so none is judged.", "give a file with IEDNames, or Inputs that are bound")


def section(found, own):
    """The table of all subscriptions, and what of them is not in it."""
    matrix = found.matrix
    if not matrix:
        return ()
    rows, subscriptions = matrix.rows(), matrix.subscriptions
    told = [paragraph(f"Each IED of {own.scd} beside what it subscribes to there. A frame is accepted where it is as the file says: not refused by "
                      "datSet, goID, confRev, size, simulation or needed commissioning.")]
    if rows:
        told.append(page.bounded("Subscriptions", COLUMNS, (row(matrix, *it) for it in rows), found.room, "subscription"))
    else:
        told.append(paragraph(f"{own.scd} has no subscription."))
    if subscriptions.unnamed:
        inputs = (page.row(UNNAMED, it) for it in subscriptions.unnamed)
        told.append(page.bounded("Inputs that name no block or data of the file", UNNAMED, inputs, found.room, "input"))
    silent = subscriptions.without()
    told += [paragraph(f"Without a subscription: {listed(silent, 40)}.")] if silent else []
    counts = [(subscriptions.unbound, "ExtRef is bound to nothing", "ExtRefs are bound to nothing"),
              (subscriptions.elsewhere, "ExtRef names data that no control block sends", "ExtRefs name data that no control block sends")]
    told += [paragraph(f"{page.count(*it)}.", class_="soft") for it in counts if it[0]]
    return section_of("Subscriptions", "subscriptions", *told)


def row(matrix, ied, control, by, state):
    outcome = matrix.outcomes[id(control)]
    received = f"{outcome.received:,}" + (f" ({page.packets(outcome.first, outcome.last)})" if outcome.first else "")
    expired = outcome.expired and f"{outcome.expired.number:,} (first: packet\u00a0{outcome.expired.first.packet})"
    name = page.element("span", page.named(name_of(control)), class_="name")
    cells = [ied, name, "; ".join(by), received, outcome.told(), outcome.reasons(), expired or "0", state.told]
    return page.row(COLUMNS, cells, found=len(cells) - 1 if state.state == State.FOUND else None)
