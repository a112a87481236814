"""The summary: what was found, not judged or clean of each topic, each with the packets that it rests on."""
import member_names
from reporting import beside, clocks, looked, missing, pace, page, rates, received, simulation, sources, subscriptions, synchronised, unread, wraps
from reporting.verdict import Line, State, Verdict, clean, found as finding, not_judged, some


def capture(found, _own):
    if found.broken:
        yield finding(f"it breaks off where packet\u00a0{found.broken.packet} should be ({found.broken.error}).")
    cut = [f"{it.name} breaks off after its packet\u00a0{it.packets} (packet\u00a0{it.first + it.packets - 1} here)" if it.packets
           else f"{it.name} breaks off before its first packet" for it in found.source.parts if it.is_cut]
    if cut:
        yield finding(f"{some(cut)}: what follows in it is missing.")
    yield from looked.judge(found)
    if not found.broken:
        others = found.passed
        told = f"{found.all_packets} were read to the end of the file" if found.packets else "it has no packet"
        yield clean(f"{told}; {page.count(others, 'frame')} of other protocols among them." if others else f"{told}.")


def losses(found, _own):
    it, told = found.missing, []
    for kind in it.found():
        number, size, packet = it.kinds[kind]
        where = f"up to packet\u00a0{found.packets}" if packet is None else f"first: packet\u00a0{packet}"
        told.append(f"{page.count(size, *missing.WORDS[kind])}{missing.of_these(size, it.late.get(kind, 0))} ({where})")
    wrapped = list(wraps.judge(found))
    unsure = [*looked.silences(found), *missing.copies(it), *(it for it in wrapped if it.state != State.CLEAN)]
    yield from (*unsure, *(it for it in wrapped if it.state == State.CLEAN))
    if told:
        yield finding(f"{'; '.join(told)}.")
    if it.bad.number:
        yield clean(f"{page.count(it.bad.number, 'frame')} that control blocks lack came with an error, first: packet\u00a0{it.bad.first}: "
                    "told under errors alone.")
    if not told and not unsure:
        yield clean(f"nothing{' else' if it.bad.number or wrapped else ''} is missing, late, silent or restarted in {found.all_packets}.")


def errors(found, _own):
    it = found.faults
    told = [f"{name} in {page.count(held.number, 'frame')} (first: packet\u00a0{held.first.packet})" for name, held in
            sorted(it.errors.items(), key=lambda pair: -pair[1].number)]
    notes = [f"{name} in {page.count(held.number, 'frame')} (first: packet\u00a0{held.first.packet})" for name, held in it.notes.items()]
    notes = f" Notes: {some(notes)}." if notes else ""
    bad = found.missing.bad
    lacks = f"; control blocks lack {page.count(bad.number, 'frame')} of these, first: packet\u00a0{bad.first}" if bad.number else ""
    yield finding(f"{some(told)}{lacks}.{notes}") if told else clean(f"none in {found.all_packets}.{notes}")


def differing(found):
    """The control blocks whose members are others than those of the file that names them, each with the first packet that is acted on."""
    return {it.name: f"{it.name}, packet\u00a0{it.counts['act', None].first.packet}" for it in found.events.blocks.values() if it.names.differs}


def configuration(found, own):
    others = differing(found)
    if others:
        yield finding(f"{member_names.DIFFERS}: {some(list(others.values()))}: their members are told by positions.")
    if not own.scd:
        senders = page.count(len(found.station.seen), "control block or stream", "control blocks and streams")
        yield clean(f"no SCL file was given; {senders} in {found.all_packets}.")
        return
    seen = [(it, found.differences[id(it)]) for it in found.station.seen.values()]
    differ = [f"{it.name}, packet\u00a0{held[0][1]}" for it, held in seen if held]
    strange = [f"{it.name}, packet\u00a0{it.first.packet}" for it, held in seen if held is None and not found.configured.why_uncompared(it)]
    missed = [it.fields.get("gocbRef") or it.more["svID"] for it in found.missing_senders]
    told = [f"{len(held):,} {one if len(held) == 1 else many} ({some(held)})" for held, one, many in (
        (missed, f"is missing in {found.all_packets}", f"are missing in {found.all_packets}"), (differ, "differs", "differ"),
        (strange, f"is not in {own.scd}", f"are not in {own.scd}")) if held]
    if told:
        yield finding(f"{'; '.join(told)}.")
    if found.unusable:
        untold = [f"{reference} (line {line}): {why}" for line, reference, why in found.unusable]
        yield not_judged(f"{page.count(len(untold), 'control block')} of {own.scd} cannot be compared: {some(untold)}.", "mend the SCL file")
    yield from unread.judge(found, own)
    agree = sum(held == [] and not (it.name in others or id(it) in found.paces or found.configured.unread_of(it)) for it, held in seen)
    yield from pace.judge(found, own, agree)
    if not found.paces:
        yield clean(f"{agree:,} {'agrees' if agree == 1 else 'agree'} with {own.scd} in {found.all_packets}.")


def are_copies(found, old):
    """Whether all old frames, of which the number and the first packet are given, are late ones that were never missing."""
    number, _, packet = found.missing.kinds.get("copy", (0, 0, None))
    return old == (number, packet) and not found.events.restarted


def events(found, own):
    it = found.events
    others = {}
    for block in it.blocks.values():
        for sort, (size, first) in block.findings.items():
            number, packet = others.get(sort, (0, first))
            others[sort] = (number + size, min(packet, first))
    copies = others.pop(("old", None), None) if are_copies(found, others.get(("old", None))) else None
    told = [f"{number:,} {kind}{f' ({reason})' if reason else ''}, first: packet\u00a0{packet}" for (kind, reason), (number, packet) in others.items()]
    acts = f"{page.count(it.acts, 'event')} in {page.packets(it.first.packet, it.last.packet)}" if it.acts else f"none in {found.all_packets}"
    if it.slowest:
        delay, packet, _ = it.slowest
        acts += f"; slowest first frame {page.duration(delay)} after t (packet\u00a0{packet})"
    if told:
        yield finding(f"{some(told)}.")
    if found.untimed.number:
        yield not_judged(f"whether lifetimes were over is not judged, since {found.untimed.told(found.packets)}.", "capture with times")
    if copies:
        yield not_judged(f"{copies[0]:,} old, first: packet\u00a0{copies[1]}: copies, or overtaken by a later state.", "look at the line on losses")
    if found.untold and not own.ied:
        untold = [f"{what}: {why}" for what, why in found.untold]
        yield not_judged(f"of {found.all_packets} no event is told of {some(untold)}.", "look at the frames with goose show")
    yield clean(f"{acts}.")


# The topics in the order in which they are told where they are in one state: each with the section that tells more, and what judges it.
TOPICS = (("Capture", "recorded", capture), ("Received", "events", received.judge), ("Losses", "losses", losses), ("Samples", "losses", rates.judge),
          ("Errors", "errors", errors), ("Configuration", "station", configuration),
          ("Subscriptions", "subscriptions", subscriptions.judge), ("Clocks", "station", clocks.judge),
          ("Source addresses", "station", sources.judge), ("Simulation", "station", simulation.judge),
          ("Synchronisation", "losses", synchronised.judge), ("Beside", "beside", beside.judge), ("Events acted on", "events", events))


def verdict(found, own):
    """What each topic comes to."""
    lines = [Line(topic, key, list(judge(found, own))) for topic, key, judge in TOPICS]
    unmet = found.trip.unmet()
    lines += [Line("Trip", "trip", [not_judged(f"{unmet}, in {found.all_packets}.", "name another packet or member")])] if unmet else []
    return Verdict([it for it in lines if it.statements])


def section(judged):
    told = [page.Raw('<section aria-labelledby="summary">\n<h2 id="summary">Summary</h2>\n<ol class="summary" role="list">\n')]
    return page.pieces([*told, [it.html() for it in judged.lines], page.Raw("</ol>\n</section>\n")])
