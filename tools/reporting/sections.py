"""The sections of the page, each from what was found."""
import os
import shlex
import sys

import senders
from reporting import clocks, events, faults, missing, page, picture, rates, synchronised, unread

# How many leaps of the capture's clock are told.
MOST_LEAPS = 20
# The most letters of one command that are told.
MOST_WORDS = 20000
BLOCKS = [page.Column("Reference"), page.Column("APPID"), page.Column("Addresses"), page.Column("Lifetime"), page.Column("Frames", page.NUMBER),
          page.Column("First and last"), page.Column("Data set, goID, confRev, members")]
STREAMS = [page.Column("svID"), page.Column("APPID"), page.Column("Addresses"), page.Column("Frames", page.NUMBER), page.Column("First and last"),
           page.Column("confRev", page.NUMBER)]
FILES = [page.Column("File"), page.Column("Size", page.NUMBER), page.Column("Packets", page.NUMBER), page.Column("First packet", page.NUMBER),
         page.Column("SHA-256")]
FACTS = [page.Column("What"), page.Column("Value")]
INTERFACES = [page.Column("Interface"), page.Column("Link type"), page.Column("Packets", page.NUMBER), page.Column("First packet", page.NUMBER),
              page.Column("Last packet", page.NUMBER)]
OTHERS = [page.Column("EtherType"), page.Column("Packets", page.NUMBER), page.Column("First packet", page.NUMBER)]


def lines_of(values):
    """Values below one another in a cell."""
    return page.Raw("<br/>".join(page.text(it) for it in values))


def section(title, key, *parts):
    begin = page.Raw(f'<section aria-labelledby="{key}">\n{page.element("h2", title, id=key)}\n')
    return page.pieces([begin, *parts, page.Raw("</section>\n")])


def paragraph(*parts, **how):
    return page.Raw(page.element("p", list(parts), **how) + "\n")


def whole(value):
    return page.element("span", value, class_="whole")


# ---- What was recorded -------------------------------------------------------


def recorded(found, own):
    """The file, its packets and its interfaces."""
    file, station = found.recorded, found.station
    rows = [("File", page.element("span", found.name, class_="name")), ("Format", file.form), ("Size", size_of(found))]
    rows += [("Saved by", file.application)] if file.application else []
    rows += [("Comment", it) for it in file.remarks]
    rows += [("Comments of packets", f"{len(file.comments) + file.more_comments:,}, which stand among the events"
              + (f" up to packet\u00a0{file.comments[-1].packet}: {file.more_comments:,} more are not told" if file.more_comments else ""))] if file.comments else []
    rows += [("Packets", f"{found.packets:,}" + (f" ({page.packets(1, found.packets)})" if found.packets else "")),
             ("Of these", "; ".join(kinds_of(found)))]
    if station.first:
        rows += [("First packet", full(station.first)), ("Last packet", full(station.last)),
                 ("Duration", page.duration(station.span[1] - station.span[0]) if station.span[1] else "not known")]
    rows += [("SCL file", page.element("span", own.scd, class_="name"))] if own.scd else []
    told = [page.table("The capture", FACTS, [page.row(FACTS, it) for it in rows], False)]
    if found.is_short and station.first and station.first.time and station.span[1]:
        told.append(paragraph(f"Times below are UTC, on {station.zero.time[:10]}.", class_="soft"))
    if len(found.source.parts) > 1:
        told.append(page.bounded("Files, whose packets are numbered one after another", FILES, map(file_row, found.source.parts), found.room, "file"))
    if any(it.name or it.description or it.packets for it in file.interfaces):
        told.append(page.bounded("Interfaces", INTERFACES, (interface(at, it) for at, it in enumerate(file.interfaces)), found.room, "interface"))
    if found.others:
        told.append(page.table("Frames of other protocols, which are counted and not judged", OTHERS, [page.row(OTHERS, [
            name.replace("EtherType ", ""), f"{number:,}", first]) for number, name, first in found.others], False))
    return section("What was recorded", "recorded", *told)


def size_of(found):
    """The octets of a capture, and of what was uncompressed."""
    parts, size = found.source.parts, found.recorded.size
    if not parts:
        return f"{size:,} octets"
    return f"{sum(it.size for it in parts):,} octets" + (f", {size:,} uncompressed" if len(parts) == 1 and parts[0].size != size else "")


def file_row(part):
    cut = page.element("span", " breaks off", class_="mark") if part.is_cut else ""
    return page.row(FILES, [page.element("span", [page.named(part.name), cut]), f"{part.size:,}", f"{part.packets:,}", part.first if part.packets else "",
                            page.digits(part.sha256)])


def commands(found, own):
    """The commands by which all of the page can be had again, the program and the capture's checksum."""
    tool = os.path.basename(sys.argv[0])
    ran = [shlex.join([tool if tool.startswith("goose-") else f"tools/{tool}", *own.words])]
    ran += [found.source.command(shlex.join(["goose", *it]) if found.room.is_all else clipped(shlex.join(["goose", *it])), shlex.quote)
            for it in found.commands]
    held = found.source.parts if len(found.source.parts) == 1 else [] if found.source.parts else [found.recorded]
    told = [page.element("pre", page.element("code", "\n".join(ran))),
            page.table("The program and the file", FACTS, [page.row(FACTS, it) for it in (
                ("Program", found.version), *((f"SHA-256 of {'the capture' if len(held) == 1 else it.name}", page.digits(it.sha256)) for it in held))], False)]
    return section("Commands", "commands", *told)


def clipped(command):
    """A command line, cut where it is very long."""
    return command if len(command) <= MOST_WORDS else f"{command[:MOST_WORDS]} .."


def full(place):
    """A time with its date, or what is told where it has none."""
    if not place.microseconds:
        return "no time"
    if place.time is None:
        return f"{place.microseconds:,} \u03bcs since 1970"
    return page.element("span", [page.moment(place.time, False), " UTC"])


def kinds_of(found):
    """How many packets are what. Those that are no Ethernet frames are known by what is left."""
    kinds, passed = found.station.kinds, found.passed
    counts = [(kinds.get(b"goose", 0), "GOOSE frame", "GOOSE frames"), (kinds.get(b"sv", 0), "frame of Sampled Values", "frames of Sampled Values"),
              (kinds.get(b"fault", 0), "frame with an error", "frames with an error"), (passed, "of another protocol", "of other protocols"),
              (kinds.get(b"clock", 0) - passed, "no Ethernet frame", "no Ethernet frames")]
    return [page.count(*it) for it in counts if it[0]] or ["none"]


def interface(number, it):
    name = it.name or f"interface {number}"
    return page.row(INTERFACES, [f"{name} ({it.description})" if it.description else name, it.link, f"{it.packets:,}", it.first, it.last])


# ---- Control blocks and streams ----------------------------------------------


def addresses(seen):
    """The destinations, sources and tags of a sender. Of several each has its first packet."""
    is_one = len(seen.envelopes) == 1
    for (destination, source, tag), packet in seen.envelopes.items():
        address = senders.envelope_of({"destination": destination, "tag": tag})
        yield whole(f"to {address['MAC address']}")
        yield whole(f"from {senders.hyphened(source)}")
        vlan = "no VLAN tag" if tag is None else f"VLAN {address['VLAN']}, priority {address['priority']}"
        yield vlan if is_one else f"{vlan} (packet\u00a0{packet} on)"


def lifetimes(seen, changes):
    """The lifetime of a block's frames: where it changes, the least and the greatest with their first packets, and how often it did."""
    if len(seen.lives) == 1:
        return f"{seen.lives[0][0]:,}\u00a0ms"
    told = [f"{live:,}\u00a0ms (packet\u00a0{packet} on)" for live, packet in seen.lives]
    return lines_of([*told, f"changed {page.count(changes, 'time')}"] if changes else told)


def time_span(seen, short):
    if seen.first is None:
        return ""
    places = (seen.first, seen.last) if seen.first.packet != seen.last.packet else (seen.first,)
    return lines_of(page.element("span", [page.when(it, short), f" (packet\u00a0{it.packet})"]) for it in places)


def forms(seen):
    """The data set, goID, confRev and size of a block, and how they change."""
    told, before = [], None
    for text, packet in seen.forms.items():
        now = senders.block_fields(text)
        if now is None:
            told.append(page.element("span", [page.named(text), f" (packet\u00a0{packet})"], class_="name"))
        elif before is None:
            told += [page.named(now["datSet"]), f"goID {now['goID'] or 'absent or empty'}",
                     f"confRev {now['confRev']}, {page.count(int(now['entries']), 'member')}"]
        else:
            told.append(f"then {', '.join(f'{name} {it}' for name, it in now.items() if it != before[name])} (packet\u00a0{packet})")
        before = now or before
    return page.element("span", lines_of(told), class_="name")


def agreement(differences, name, times=(), odd=(), why=None):
    """How a sender is beside its configuration and its times, and whether it differs."""
    if differences is None:
        return (f"not compared: {why}", False) if why else (f"not in {name}", True)
    told = [f"differs: {what} {theirs} (packet\u00a0{packet}), configured {ours}" for (what, ours, theirs), packet in differences]
    agrees = "agrees otherwise" if times or odd else "agrees"
    return lines_of([*(told or [agrees]), *times, *(f"not compared: {it.value()} (line {it.line})" for it in odd)]), bool(told)


def agreement_of(seen, found, own):
    """How a sender is beside the SCL file."""
    configured = found.configured
    times, odd, why = found.paces.get(id(seen), ()), configured.unread_of(seen), configured.why_uncompared(seen)
    return agreement(found.differences[id(seen)], own.scd, times, odd, why)


def block_row(seen, columns, short, compared, changes=0):
    cells = [page.element("span", page.named(seen.name), class_="name"), page.digits(seen.appid), lines_of(addresses(seen)), lifetimes(seen, changes),
             f"{seen.frames:,}", time_span(seen, short), forms(seen)]
    return page.row(columns, [*cells, *compared[:1]], found=len(cells) if compared[1:] == (True,) else None)


def stream_row(seen, columns, short, compared, _changes=0):
    revisions = [f"{text.rpartition('=')[2]}" + (f" (packet\u00a0{packet})" if len(seen.forms) > 1 else "") for text, packet in seen.forms.items()]
    cells = [page.element("span", page.named(seen.name), class_="name"), page.digits(seen.appid), lines_of(addresses(seen)), f"{seen.frames:,}",
             time_span(seen, short), lines_of(revisions)]
    return page.row(columns, [*cells, *compared[:1]], found=len(cells) if compared[1:] == (True,) else None)


def missing_row(sender, columns, packets, name):
    """A sender that is configured and was not seen."""
    fields, is_block = sender.fields, sender.kind == "block"
    address = [whole(f"to {fields['MAC address']}")] if fields.get("MAC address") else []
    address += [f"VLAN {fields['VLAN']}"] if fields.get("VLAN") else []
    own = [page.element("span", page.named(fields["gocbRef"] if is_block else sender.more["svID"]), class_="name"), page.digits(fields["APPID"]),
           lines_of(address), *([""] if is_block else []), "0", "", ""]
    return page.row(columns, [*own, f"missing: no frame in {packets}, but in {name}"], found=len(own))


def station(found, own, short):
    """The tables of control blocks and of streams, beside the SCL file where there is one."""
    told = []
    for kind, what, columns, row in (("block", "Control blocks (GOOSE)", BLOCKS, block_row), ("stream", "Streams (Sampled Values)", STREAMS, stream_row)):
        heads = [*columns, *([page.Column(f"Beside {own.scd}")] if own.scd else [])]
        held = [it for it in found.station.seen.values() if it.kind == kind]
        held.sort(key=lambda it: (*found.devices.order(it.name), it.appid))
        rows = [row(it, heads, short, agreement_of(it, found, own) if own.scd else (), found.station.sequences.changes(it.appid, it.name))
                for it in held]
        rows += [missing_row(it, heads, found.all_packets, own.scd) for it in found.missing_senders if it.kind == kind]
        told.append(page.bounded(what, heads, rows, found.room, "row") if rows else paragraph(f"{what}: none in {found.all_packets}."))
    for line, reference, why in found.unusable[:found.room.rows]:
        told.append(paragraph(f"{own.scd}, line {line}: {reference} is not compared: {why}."))
    for it in (unread.of_all(found.configured) if found.configured else [])[:found.room.rows]:
        told.append(paragraph(f"{own.scd}: nothing is held beside {it}: it cannot be read."))
    for it in unread.of_samples(found.samples)[:found.room.rows]:
        told.append(paragraph(f"{own.scd}: {it}, since it cannot be read."))
    for it in found.clocks:
        where = f"from packet\u00a0{it.first} on" if it.first else f"{found.all_packets}"
        told += [page.bounded(f"Clocks of devices beside the capture's, {where}", clocks.COLUMNS, it.rows(short), found.room, "row")] if it.off else []
    return section("Control blocks and streams", "station", *told)


# ---- Events, losses, errors, pictures ----------------------------------------


def acted(found, own):
    """The events, the first states, and what the device did with the other frames."""
    it = found.events
    who = (f"{own.ied}, which receives {page.count(found.replayed, 'control block')} by {own.scd}" if own.ied
           else f"a device that subscribes to each of {page.count(found.replayed, 'control block')} as it was first sent")
    told = [paragraph(f"Told of {who}. t is when a state began, by the sender's clock. A member t is no change.")]
    told += [paragraph(f"Not told of {what}: {why}.") for what, why in found.untold[:found.room.rows]]
    told += [paragraph(f"A device that takes any change of stNum acts earlier than these rules say, as in packet\u00a0{it.restarted.packet}: "
                       "a restart within the lifetime.")] if it.restarted else []
    if it.listed:
        rows = page.Limited((events.row(event, found.is_short) for event in it.listed), found.room)
        told += [page.table("Events in the order of packets", events.COLUMNS, rows), events.beyond(it, rows)]
    else:
        told.append(paragraph(f"No event was acted on in {found.all_packets}" + (" but first states." if it.firsts else ".")))
    if it.firsts:
        rows = page.Limited((events.first_row(event, found.is_short) for event in it.firsts), found.room)
        summary = page.element("summary", page.count(it.started, "first state"))
        told += [page.Raw(f"<details>{summary}\n"), page.table("First states", events.FIRST, rows), events.beyond_first(it, rows), page.Raw("</details>\n")]
    if it.blocks:
        told.append(events.counts(it, found.devices.order, found.room))
    return section("Events acted on", "events", *told)


def lost(found, _own, rows):
    """Losses, silences, restarts, late frames, and totals."""
    it, told = found.missing, []
    if it.kinds or it.senders or it.hidden:
        found.room.left -= it.octets
        told += [page.head("Findings in the order of packets", missing.COLUMNS), rows, page.FOOT, page.left_out(it.more_ends, "sender silent at the end",
                                                                                                              "senders silent at the end")]
        told += [page.bounded("Findings that are not listed one by one", missing.COLUMNS, it.rest(), found.room, "row")] if it.many else []
    else:
        told.append(paragraph(f"Nothing is missing, late, silent or restarted in {found.all_packets}."))
    for kind, names, what, first in (("total-goose", missing.GOOSE, "Totals of control blocks", "Control block"),
                                     ("total-sv", missing.SAMPLED, "Totals of streams", "Stream")):
        columns, held = missing.totals(it.totals, kind, names, first, found.devices.order)
        told += [page.bounded(f"{what}, {found.all_packets}", columns, held, found.room, "row")] if held else []
    if not it.totals and found.broken:
        told.append(paragraph("There are no totals, since the capture breaks off."))
    for leap in found.station.times.leaps[:MOST_LEAPS]:
        told.append(paragraph(f"The capture's clock leapt before packet\u00a0{leap.packet}: {page.count(leap.silences + leap.outages, 'silence')} "
                              f"that it shows from packet\u00a0{leap.first} on may be none."))
    streams = found.station.of_kind("stream")
    if streams:
        told += [page.bounded("Rates of streams, by which samples are judged", rates.COLUMNS, [rates.row(it, found.rates[it]) for it in streams],
                              found.room, "stream"),
                 page.bounded("How samples are synchronised", synchronised.COLUMNS, synchronised.rows(streams, found.is_short), found.room, "row")]
    told.append(paragraph("What is lost at the end of a state that another followed cannot be seen.", class_="soft"))
    return section("Losses, silences, restarts and late frames", "losses", *told)


def wrong(found, short):
    """Errors and notes by kind."""
    it = found.faults
    told = [page.table("Errors of frames, by kind", faults.COLUMNS, it.rows(short)) if it.errors
            else paragraph(f"No frame of GOOSE or Sampled Values has an error in {found.all_packets}.")]
    told += [page.table("Notes on valid frames", faults.NOTES, it.note_rows(short))] if it.notes else []
    return section("Errors", "errors", *told)


def pictures(found, short):
    it = found.picture
    if not it.lanes or not found.packets or not found.station.span[1]:
        why = f", since {found.untimed.told(found.packets)}" if found.packets and not found.station.span[1] else ""
        return section("Picture", "picture", paragraph(f"There is nothing to draw in {found.all_packets}{why}."))
    kinds = {kind for lane in it.lanes.values() for kind, _ in lane.marks}
    bars = {kind for lane in it.lanes.values() for kind, *_ in lane.bars}
    drawn = picture.Limited(found.room.is_all)
    told = [picture.legend(kinds, bars), drawn.some(picture.overviews(it, found.station.zero))]
    if it.bursts:
        told += [page.element("h3", "Events close up"), drawn.some(picture.zooms(it, short))]
    told.append(drawn.left_out())
    if it.more:
        told.append(paragraph(f"{it.more:,} more, from packet\u00a0{it.beyond} on, are not drawn close up."))
    return section("Picture", "picture", *told)
