"""The errors of frames by kind, and notes on valid ones: from goose check."""
import re

from reporting import page
from reporting.events import Counted
from reporting.station import HEAD

KIND = b'"kind":"'
FAULT = re.compile(rb',"offset":(\d+),"error":"(\w+)"')
COLUMNS = [page.Column("Error"), page.Column("Frames", page.NUMBER), page.Column("First packet", page.NUMBER), page.Column("Time"),
           page.Column("Offset in it", page.NUMBER), page.Column("Last packet", page.NUMBER)]
NOTES = [page.Column("Note"), page.Column("Frames", page.NUMBER), page.Column("First packet", page.NUMBER), page.Column("Time"),
         page.Column("Last packet", page.NUMBER)]
WORDS = {"not-written": "not in canonical encoding, which is no error", "destination": "sent to an unusual address"}


class Faults:
    """The lines of goose check, by kinds."""

    def __init__(self):
        self.errors, self.notes, self.offsets = {}, {}, {}

    def see(self, lines):
        """The lines of goose check. Those of the first note, which can be of each frame, are only counted."""
        note, number, last = None, 0, None
        for line in lines:
            if note and line.endswith(note):
                number, last = number + 1, line
                continue
            found = HEAD.match(line)
            if found:
                self.line(line, found)
                note = note or (line[found.start(4) - len(KIND):] if found[4] != b"fault" else None)
        if last:
            held = next(iter(self.notes.values()))
            held.number, held.last = held.number + number, HEAD.match(last)

    def line(self, line, found):
        fault = FAULT.match(line, found.end()) if found[4] == b"fault" else None
        held, name = (self.errors, fault[2].decode()) if fault else (self.notes, found[4].decode())
        if name in held:
            held[name].add(found)
            return
        held[name] = Counted(found)
        self.offsets[name] = int(fault[1]) if fault else None

    def rows(self, short):
        for name, it in sorted(self.errors.items(), key=lambda it: (-it[1].number, it[1].first.packet)):
            yield page.row(COLUMNS, [page.digits(name), f"{it.number:,}", it.first.packet, page.when(it.first, short),
                                     self.offsets[name], int(it.last[1])], found=0)

    def note_rows(self, short):
        for name, it in self.notes.items():
            told = page.element("span", [page.digits(name), f": {WORDS.get(name, '')}" if name in WORDS else ""])
            yield page.row(NOTES, [told, f"{it.number:,}", it.first.packet, page.when(it.first, short), int(it.last[1])])
