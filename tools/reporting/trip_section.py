"""The section of the trip: its moment and the rule that found it, a table of the events around it, and their picture."""
from reporting import page, trip_picture
from reporting.events import delay_of
from reporting.trip import AFTER, BEFORE, is_two_bits

OFF = "01"
COLUMNS = [page.Column("Time", page.NUMBER), page.Column("Packet", page.NUMBER), page.Column("Device"), page.Column("Control block"),
           page.Column("Data"), page.Column("Old to new"), page.Column("Delay from\u00a0t", page.NUMBER)]
SINCE = page.Column("From the fault", page.NUMBER)
UNTIMED = "Events in the order of packets, which have no time"
RULES = {"packet": "--trip names this packet", "member": "the member that --trip names goes true",
         "name": "the member's name says that the device trips"}


def relative(microseconds):
    """A time from the moment, with its sign."""
    return page.element("span", milliseconds(microseconds), class_="whole")


def milliseconds(microseconds):
    return f"{'+' if microseconds > 0 else chr(0x2212)}{abs(microseconds) / 1000:,.1f} ms" if microseconds else "0.0 ms"


def columns_of(fault):
    """The columns of the table: where the fault is known, times from it too."""
    return [COLUMNS[0], *([SINCE] if fault else []), *COLUMNS[1:]]


def rows(moment, devices, fault=None):
    """A row for each member that changed, and one for each event of which none did, and one for the fault, where that is known."""
    columns, since = columns_of(fault), fault and fault.place.microseconds
    told = fault and page.row(columns, [relative(since - moment.place.microseconds), relative(0), fault.place.packet, "",
                                        page.element("span", page.named(fault.wave.seen.name), class_="name"),
                                        page.element("span", fault.channel.name, class_="digits name"), "fault inception", ""])
    for event in moment.in_order():
        if told and event.place.microseconds >= since:
            yield told
            told = None
        yield from rows_of(event, moment, devices, columns, fault)
    if told:
        yield told


def rows_of(event, moment, devices, columns, fault):
    """The rows of an event."""
    told = event.words() or [("", event.told())]
    device, block = devices.parts(event.block.name) if event.block else ("", "")
    times = [relative(moment.since(event)) if event.place.microseconds else "", *([relative(event.place.microseconds - fault.place.microseconds)] if fault else [])]
    for name, *values in told:
        yield page.row(columns, [
            *times, event.packets(), page.element("span", page.named(device)) if device else "",
            page.element("span", page.named(block), class_="name") if block else "",
            page.element("span", [page.element("span", name, class_="digits name"), mark_of(event)]) if name else "",
            page.digits(" \u2192 ".join(values)), delay_of(event.record) if event.kind == "act" else ""])


def opening_of(moment):
    """The first event from the moment on in which a breaker is open, or None."""
    for event in moment.in_order():
        if moment.since(event) >= 0 and any(is_open(event.names, *change) for change in event.changes):
            return event
    return None


def is_open(names, path, old, new):
    """Whether a breaker comes to be open; where no names are known, any position counts."""
    return is_two_bits(new) and new["bits"] == OFF and old != new and (names.is_breaker(path) if names.is_known else True)


def inception(found, moment):
    """When the fault began, when the breaker was open, and what that rests on."""
    if not found.around or not found.around.windows:
        return []
    if not found.inceptions:
        known = sum(not it.wave.is_raw for it in found.around.windows.values())
        why = (f"in the 2 s before, no good sample of {page.count(known, 'stream')} differs enough from the one a period before" if known
               else "it is not known what the samples measure")
        return [page.element("p", f"No fault inception: {why}."), "\n"]
    fault, opening = found.inceptions[0], opening_of(moment)
    line = [f"fault {milliseconds(fault.place.microseconds - moment.place.microseconds)}", "trip 0",
            *([f"breaker open {milliseconds(moment.since(opening))}"] if opening else [])]
    unit = f" {fault.channel.unit}" if fault.channel.unit else ""
    told = (f", by capture times. The fault begins with smpCnt {fault.count} of {fault.wave.seen.name}, in packet\u00a0{fault.place.packet}: "
            f"{fault.channel.name} differs by {fault.difference:,.4g}{unit} from one period before; the limit is {fault.limit:,.4g}{unit}. "
            "A load step looks alike, and the delay of the merging unit is in this time.")
    others = [f"{it.wave.seen.name} {milliseconds(it.place.microseconds - moment.place.microseconds)} ({it.channel.name}, "
              f"packet\u00a0{it.place.packet})" for it in found.inceptions[1:]]
    return [page.element("p", [page.element("strong", ", ".join(line)), told, f" Other streams: {'; '.join(others)}." if others else ""]), "\n"]


def mark_of(event):
    return page.element("span", " test", class_="note mark") if event.is_test else ""


def said(cause, devices):
    """An event in a sentence: its device, control block, member and change."""
    device, block = devices.parts(cause.event.block.name)
    told = [page.element("span", page.named(f"{device} {block}".strip()), class_="name")]
    if cause.path:
        name, old, new = cause.change()
        told += [", ", page.digits(f"{name}: {old} \u2192 {new}")]
    return told + ([" (", page.element("span", "test", class_="mark"), ")"] if cause.event.is_test else [])


def rule_of(rule, moment):
    """By which rule the moment was found, in a sentence."""
    if rule == "opening":
        opening, cause = moment.opening, moment.cause
        name, old, new = opening.change()
        opens = f"a breaker opens in packet\u00a0{opening.event.place.packet} ({name}: {old} \u2192 {new})"
        if not opening.microseconds:
            return f"{opens}; packets have no time, so what came shortly before is not known"
        if cause is opening:
            return f"{opens}; no boolean goes true in the 100 ms before"
        later = (opening.microseconds - cause.microseconds) / 1000
        return f"this boolean goes true and {later:,.1f} ms later {opens}"
    return RULES[rule]


def head(rule, moment, found):
    """What was found, when, and by which rule."""
    at = [f" in packet\u00a0{moment.place.packet}", *([", at ", page.when(moment.place, False), " UTC"] if moment.place.microseconds else [])]
    if rule == "busiest":
        return [page.element("strong", ["No trip was recognised. The busiest 100 ms begin", *at]),
                f": {page.count(moment.blocks, 'control block')} changed a boolean or a two-bit position. Name the trip with --trip PACKET or --trip NAME."]
    cause = [": ", *said(moment.cause, found.devices)] if moment.cause else []
    return [page.element("strong", ["The trip" if moment.cause else "The moment asked for", *at]), *cause, f". Chosen because {rule_of(rule, moment)}."]


def later(rule, moment, found):
    """Later events that meet the rule."""
    if not moment.later or rule == "busiest":
        return ""
    told = [[f"packet\u00a0{it.event.place.packet} (", relative(it.microseconds - moment.place.microseconds), ", ", *said(it, found.devices), ")"]
            for it in moment.later]
    parts = [part for at, it in enumerate(told) for part in ([*it] if at == 0 else ["; ", *it])]
    more = f"; {moment.more_later:,} more" if moment.more_later else ""
    return page.element("p", ["Later by the same rule: ", *parts, f"{more}."])


def section(found):
    """All of it; where no rule finds a moment this is said."""
    begin = page.Raw('<section class="trip" aria-labelledby="trip">\n<h2 id="trip">The trip</h2>\n')
    end, (rule, moment), unmet = page.Raw("</section>\n"), found.trip.found(), found.trip.unmet()
    told = [page.element("p", f"{unmet[0].upper()}{unmet[1:]}.", class_="mark"), "\n"] if unmet else []
    if moment is None:
        none = f"No trip was recognised in {found.all_packets}: no event meets any of the rules for one."
        return page.pieces([begin, *told, page.element("p", none), "\n", end])
    around = f"{BEFORE // 1000} ms before to {AFTER // 1000000} s after"
    title = f"Events from {around} {'this' if rule == 'busiest' else 'the trip'}" if moment.place.microseconds else UNTIMED
    fault = found.inceptions[0] if found.inceptions else None
    what = page.Limited(rows(moment, found.devices, fault), found.room)
    told += [page.element("p", head(rule, moment, found)), "\n", *inception(found, moment), later(rule, moment, found)]
    told += [page.table(title, columns_of(fault), what), more_of(what, moment, around)] if moment.events else [page.element("p", f"There is no event from {around}.")]
    return page.pieces([begin, *told, picture(moment, found, title) if any(it.block for it in moment.events) else "", end])


def more_of(what, moment, around):
    """What the table leaves out, which is known behind it."""
    yield what.left_out("row", "rows")
    if moment.more:
        yield page.Raw(page.element("p", f"{page.count(moment.more, 'more event')} from {around} are not listed here.", class_="soft") + "\n")


def picture(moment, found, title):
    svg, more = trip_picture.drawn(moment, found.devices, title)
    told = [f"{title}. Milliseconds from packet\u00a0{moment.place.packet}.", f" {page.count(more, 'more control block')} not drawn." if more else ""]
    moved = page.element("div", svg, class_="scroll", tabindex="0", role="group", aria_label=title)
    return page.Raw(page.element("figure", [page.element("figcaption", told), moved]) + "\n")
