"""Recorded lists, by the rules of docs/FORMATS.md: their events, and the time of each line."""
import functools
import re
import time
import weakref

from running import Ended

MOST_LINES, MOST_OCTETS, MOST_DIGITS = 1000000, 4096, 4000
FIELDS = re.compile(rb"(F) ([^ ]+) ([^ ]+)|(C) ([^ ]+)|(M) ([^ ]+) (on|off)")
OCTETS = re.compile(rb"(?:[0-9a-fA-F]{2})+")
# The digits of a time, and the microseconds of its unit, by version.
VERSIONS = {1: (re.compile(rb"[0-9]{1,15}"), 1000), 2: (re.compile(rb"[0-9]{1,18}"), 1)}
# What a capture begins with: classic ones of both orders and units, and pcapng.
CAPTURES = {bytes.fromhex(it) for it in ("a1b2c3d4", "d4c3b2a1", "a1b23c4d", "4d3cb2a1", "0a0d0d0a")}
# The kinds of lines that are not of frames alone, and the kinds of events that each can be of.
SORTS = {"clock": "C", "mode": "M", "expired": "FCM", "switched": "FM", "list": ""}
# How many seconds a line of a list that is still being written is waited for.
PATIENCE = 1


class ListError(Ended):
    """A list ends at a line that has an error."""

    def __init__(self, number, name):
        super().__init__(f"line {number}: {name}")
        self.number, self.name = number, name


def without(line, end):
    """A line without one such octet at its end."""
    return line[:-1] if line.endswith(end) else line


class Lines:
    """The lines of a list, one after another."""

    def __init__(self):
        self.number, (self.digits, self.unit) = 0, VERSIONS[1]

    def event(self, line):
        """The event of the next line, or None: the line's number, F, C or M, the time in microseconds, and the frame's octets,
        None, or whether the simulation mode is set."""
        self.number += 1
        if self.number > MOST_LINES:
            raise ListError(self.number, "ListTooLong")
        line = without(line, b"\n")
        if len(line) > MOST_OCTETS:
            raise ListError(self.number, "LineTooLong")
        line = without(line, b"\r")
        if self.number == 1 and line == b"V2":
            self.digits, self.unit = VERSIONS[2]
        elif line and not line.startswith(b"#"):
            return self.read(line)
        return None

    def read(self, line):
        found = FIELDS.fullmatch(line)
        if not found:
            raise ListError(self.number, "LineForm")
        kind, moment, *last = [it for it in found.groups() if it is not None]
        if not self.digits.fullmatch(moment):
            raise ListError(self.number, "Moment")
        if kind == b"F" and not (len(last[0]) <= MOST_DIGITS and OCTETS.fullmatch(last[0])):
            raise ListError(self.number, "Hex")
        held = bytes.fromhex(last[0].decode()) if kind == b"F" else last[0] == b"on" if kind == b"M" else None
        return self.number, kind.decode(), int(moment) * self.unit, held


def next_line(file):
    """The next line of an open file, or as much of it as shows that it is too long."""
    return file.readline(MOST_OCTETS + 2)


def events(file):
    """The events of a list in an open file of octets, as Lines has them."""
    lines = Lines()
    for line in iter(functools.partial(next_line, file), b""):
        event = lines.event(line)
        if event:
            yield event


def until_error(found):
    """Events up to the list's error, where goose stops too."""
    try:
        yield from found
    except ListError:
        return


class Times:
    """The times of the events of a list, for the records of what goose wrote of it. The list is read as far as it is asked for: it
    can be one that is still being written."""

    def __init__(self, path):
        self.path, self.file, self.lines, self.begun = path, open(path, "rb"), Lines(), b""
        self.found, self.last, self.error = {}, None, None
        weakref.finalize(self, self.file.close)
        head = self.file.peek(4)[:4]
        if head in CAPTURES:
            raise Ended(f"{path} is a capture: give the list that goose import makes of it")

    def of(self, record):
        """The time of the event that a record is about, or None where it is about none. A record that is not of this list ends the
        tool."""
        number, kind = record.get("line"), record.get("kind")
        if number is None:
            return None
        self.reach(number)
        if kind == "list" and (record["error"] == "ReadFailed" or self.error == (number, record["error"])):
            return None
        sort, moment = self.found.get(number, ("", None))
        if not sort or sort not in SORTS.get(kind, "F") or record.get("microseconds", moment) != moment or self.is_other_frame(record):
            raise Ended(f"{self.path} is another list than goose has read: its line {number} gives no such line")
        return moment

    def is_other_frame(self, record):
        """The newest frame that was read has other addresses, or another t, than a record of its line."""
        number, _, _, frame = self.last
        if number != record["line"] or not isinstance(frame, bytes):
            return False
        addresses = record.get("destination", "") + record.get("source", "")
        return not frame.hex().startswith(addresses) or bytes.fromhex(record.get("t") or "") not in frame

    def reach(self, number):
        """Reads on up to a line. One that is not there yet is waited for a little."""
        until = None
        while self.lines.number < number and not self.error:
            self.begun += next_line(self.file)
            until = until or time.monotonic() + PATIENCE
            if not self.begun.endswith(b"\n") and len(self.begun) <= MOST_OCTETS and time.monotonic() < until:
                time.sleep(0.01)
            elif self.begun:
                self.take()
                until = None
            else:
                return

    def take(self):
        """Takes the line that was read."""
        line, self.begun = self.begun, b""
        try:
            event = self.lines.event(line)
        except ListError as why:
            self.error = (why.number, why.name)
            return
        if event:
            number, sort, moment, _ = self.last = event
            self.found[number] = (sort, moment)
