"""The date of a time, and the lines that --time writes, from docs/FORMATS.md alone, by Python's calendar."""
import datetime

from oracles import reference

FIRST = datetime.datetime(1970, 1, 1)


def date(moment):
    """The date of microseconds since 1970, UTC, or None after the year 9999."""
    try:
        return f"{(FIRST + datetime.timedelta(microseconds=moment)).isoformat(timespec='microseconds')}Z"
    except OverflowError:
        return None


def moments(octets, has_failed, events_of):
    """The times of events, by their numbers."""
    found = {}
    try:
        for number, (_, moment, _) in events_of(octets, has_failed):
            found[number] = moment
    except reference.ListFault:
        pass
    return found


def dated(lines, octets, has_failed, events_of):
    """Lines of a text, each behind the date of its event. What ends an input is no event, and nor is a block that is given twice."""
    found = moments(octets, has_failed, events_of)
    for line in lines:
        number, kind = line.split(" ")[:2]
        is_event = number.isdigit() and kind not in ("list", "capture")
        yield f"{is_event and date(found[int(number)]) or '-'} {line}"
