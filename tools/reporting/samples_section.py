"""The section of currents and voltages: what the samples of each stream say, their pictures, and where their qualities are not good."""
import os

import sample_values
from output import date
from reporting import page, wave_picture
from reporting.inception import AFTER, BEFORE, Around
from reporting.picture import Limited
from reporting.trip_section import milliseconds, opening_of

STREAMS = [page.Column("Stream"), page.Column("Channels"), page.Column("Rate"), page.Column("Known by")]
QUALITY = [page.Column("Stream"), page.Column("Channels"), page.Column("Quality"), page.Column("Samples", page.NUMBER),
           page.Column("First", page.NUMBER), page.Column("Last", page.NUMBER), page.Column("Packets")]
# The most octets of these pictures together, and the most names of channels in a cell.
MOST_OCTETS, MOST_NAMES = 240_000, 24
# What the channels measure of which it is known on which side of a transformer they are.
KINDS = ("current", "voltage")


def around_trip(found):
    """The samples around the trip, by a second run; None where no trip was recognised, or no stream has samples that can be told."""
    rule, moment = found.trip.found()
    waves = [it for it in found.samples.waves.values() if it.layout]
    if rule in (None, "busiest") or not waves or not moment.place.microseconds:
        return None
    around = Around(waves, moment.place.microseconds)
    around.see(found.asked.parts("reading samples around the trip", "show"), moment.place.packet)
    return around


def section(found):
    """All of it, where there is a stream."""
    waves = list(found.samples.waves.values())
    if not waves:
        return []
    begin = page.Raw('<section aria-labelledby="samples">\n<h2 id="samples">Currents and voltages</h2>\n')
    streams = page.bounded("Streams and what their samples say", STREAMS, (stream_row(it, found) for it in waves), found.room, "stream")
    more = page.count(len(found.samples.more), "more stream")
    others = [sentence(f"The samples of {more} are not looked at.")] if found.samples.more else []
    return page.pieces([begin, streams, *others, *primary(waves), *pictures(found, waves), qualities(found, waves), page.Raw("</section>\n")])


def sentence(told):
    return page.Raw(page.element("p", told, class_="soft") + "\n")


def primary(waves):
    """Of which side of the transformers the values are, where it is known what they measure."""
    are_known = any(channel.kind in KINDS for it in waves if it.layout for channel in it.channels)
    return [sentence("Currents and voltages are primary values, as merging units send them.")] if are_known else []


def some(names):
    return ", ".join(names[:MOST_NAMES]) + (f" and {len(names) - MOST_NAMES:,} more" if len(names) > MOST_NAMES else "")


def stream_row(wave, found):
    name = page.element("span", page.named(wave.seen.name), class_="name")
    if wave.layout is None:
        return page.row(STREAMS, [name, "", "", f"not drawn: {wave.why}"])
    path = found.configured.path if found.configured else ""
    why = (wave.layout.why.replace(path, os.path.basename(path)) if path else wave.layout.why) + wave.note
    why += f"; {page.count(wave.others, 'sample')} of another size left out" if wave.others else ""
    told = [" ".join(part for part in (it.name, f"({it.unit})" if it.unit else "") if part) for it in wave.channels]
    return page.row(STREAMS, [name, page.element("span", some(told), class_="name"), f"{wave.rate:,} a second, {wave.frequency} Hz", why])


# ---- Pictures ----------------------------------------------------------------


def pictures(found, waves):
    """The pictures of each stream, those in which the fault begins first. The picture of the last one for which there is room ends them."""
    first = {it.wave: at for at, it in enumerate(found.inceptions)}
    held = sorted((it for it in waves if it.layout), key=lambda it: first.get(it, len(first)))
    limited = Limited(found.room.is_all, MOST_OCTETS)
    figures = list(limited.some(figure for wave in held for figure in figures_of(found, wave)))
    if figures:
        yield legend(held)
    yield from figures
    yield limited.left_out()


def figures_of(found, wave):
    moment = found.trip.found()[1]
    window = found.around and found.around.windows.get(wave.seen.key)
    if window:
        title = f"{wave.seen.name}: {BEFORE // 1000} ms before to {AFTER // 1000} ms after the trip"
        svg, more = wave_picture.around(window, moment.place.microseconds, title, BEFORE, AFTER, list(moments(found, moment, window)))
        yield figure(svg, more, title, f"Milliseconds from packet\u00a0{moment.place.packet}.")
    if wave.periods.whole and found.station.span[1]:
        title = f"{wave.seen.name}: RMS of each period of the whole recording"
        first, last = found.station.span
        told = [(moment.place.microseconds, "trip", "moment")] if found.around else []
        svg, more = wave_picture.whole(wave, first, last, title, told)
        where = f"Seconds from {found.station.zero.time or first} (packet\u00a0{found.station.zero.packet})"
        wide = f"; {wave.periods.width} periods a step, least and greatest" if wave.periods.width > 1 else ""
        lacks = f" Periods with missing samples are left open, which is so in {page.count(wave.periods.open, 'place')}." if wave.periods.open else ""
        yield figure(svg, more, title, f"{where}{wide}.{lacks}")


def figure(svg, more, title, told):
    lacks = f" {page.count(more, 'more channel')} not drawn." if more else ""
    moved = page.element("div", svg, class_="scroll", tabindex="0", role="group", aria_label=title)
    return page.Raw(page.element("figure", [page.element("figcaption", f"{title}. {told}{lacks}"), moved]) + "\n")


def moments(found, moment, window):
    """What happened when: the trip, the fault where the stream tells it, and the breaker."""
    zero = moment.place.microseconds
    yield zero, "trip", "moment"
    for it in found.inceptions:
        if it.wave is window.wave:
            yield window.moment(it.index), f"fault {milliseconds(it.place.microseconds - zero)}", "inception"
    opening = opening_of(moment)
    if opening:
        yield opening.place.microseconds, f"breaker open {milliseconds(moment.since(opening))}", "opening"


def legend(waves):
    """What is hatched, where something is."""
    kinds = [(kind, words) for kind, words, mark in (("invalid", "invalid", 2), ("doubtful", "not good, but not invalid", 1))
             if any(it.periods.bins[key][2] & mark for it in waves for key in it.periods.bins)]
    if not kinds:
        return ""
    icon = '<svg viewBox="0 0 24 16" aria-hidden="true"><path class="{}" d="M0 16L16 0M7 16L23 0M0 9L9 0M14 16L24 6"/></svg>'
    told = [page.element("li", [page.Raw(icon.format(kind)), f"quality {words}"]) for kind, words in kinds]
    return page.Raw(page.element("ul", told, class_="legend") + "\n")


# ---- Qualities ---------------------------------------------------------------


def qualities(found, waves):
    """The spans that are not good, or that there is none."""
    told = [it for it in waves if it.layout and any(at is not None for at in it.layout.at_quality)]
    if not told:
        return []
    spans = sorted(((span.first.packet, span.since, wave, span) for wave in told for span in wave.spans), key=lambda it: it[:2])
    if not spans:
        return [page.element("p", f"The quality of {page.count(len(told), 'stream')} is good in all samples."), "\n"]
    rows = (quality_row(wave, span, found) for _, _, wave, span in spans)
    more = sum(it.more_spans for it in told)
    return [page.bounded("Spans whose quality is not good", QUALITY, rows, found.room, "span"),
            sentence(f"{page.count(more, 'more span')} not held.") if more else ""]


def quality_row(wave, span, found):
    first, last = (page.moment(date(it.microseconds), found.is_short) or f"{it.microseconds}" for it in (span.first, span.last))
    names = some([wave.channels[it].name for it in span.channels])
    return page.row(QUALITY, [page.element("span", page.named(wave.seen.name), class_="name"), page.element("span", names, class_="name"),
                              sample_values.quality_words(span.value), f"{span.number:,}", first, last,
                              page.packets(span.first.packet, span.last.packet)])
