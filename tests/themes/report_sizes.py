"""The page is bounded whatever the capture, on paper too, and what it leaves out is counted."""
import pathlib
import re
import tempfile
import types

from helpers import made_station
from helpers.asked_tools import EXAMPLES, module
from helpers.capture_parts import interface, packet, section
from helpers.frames import element, with_fields
from themes.report import EVENTS, Page, browse, chromium, reported, told, words

MOST_OCTETS, MOST_ROWS = 1_500_000, 200
# A sheet of a printed page, in its file.
SHEET = re.compile(rb"/Type\s*/Page\b")
BLOCKS, ROUNDS = 230, 8


def station():
    """Very many control blocks with long names, each of which changes again and again, loses states and frames, and ends."""
    for at in range(ROUNDS * BLOCKS):
        block, turn = at % BLOCKS, at // BLOCKS
        name = f"DEVICE_{block:03}/LLN0$GO$gcb_{'x' * 40}".encode()
        members = b"".join(element(0x83, bytes([255 * (turn + it & 1)])) for it in range(60))
        frame = with_fields(gocb_ref=element(0x80, name), st_num=element(0x85, bytes([1 + 2 * turn])), sq_num=element(0x86, bytes([turn % 3])),
                            live=element(0x81, b"\x03\xe8"), entries=element(0x8A, b"\x3c"), members=element(0xAB, members))
        yield packet(1_700_000_000 * 10**6 + at * 4000, frame)


class Bounded:
    """No table has over 200 rows and the page 1.5 MB, what is left out is counted, and --all lists it."""

    name = "a page of very many control blocks, events and findings"

    def why_wrong(self, program):
        octets = section() + interface() + b"".join(station())
        page, said, status, _ = reported(program, octets)
        every, _, _, _ = reported(program, octets, "--all")
        return list(self.why_pages_wrong(page, every, program, octets)) if page and every else [f"status {status}: {said}"]

    def why_pages_wrong(self, octets, every, program, given):
        page, whole = Page(octets), Page(every)
        if len(octets) > MOST_OCTETS:
            yield f"it has {len(octets)} octets"
        yield from (f"{caption} has {len(rows)} rows" for caption, rows in page.tables.items() if len(rows) > MOST_ROWS)
        blocks = [it["text"] for it in told(program, given, "blocks")[0] if it["kind"] == "block"]
        acts = sum(it["kind"] != "refreshed" and it["kind"] != "repeated" for it in told(program, given, "replay", "--", *blocks)[0]) - BLOCKS
        more = re.search(r"([\d,]+) more events, from packet \d+ on, are not listed", words(page.root.find(".//main")))
        number = int(more[1].replace(",", "")) if more else 0
        if len(page.rows(EVENTS)) + number != acts or len(whole.rows(EVENTS)) != acts:
            yield f"{len(page.rows(EVENTS))} events are listed, {number} more are counted, {len(whole.rows(EVENTS))} are all, and there are {acts}"
        folded = [words(it.find("summary")) for it in page.root.iter("details")]
        if folded != [f"{BLOCKS} first states"]:
            yield f"folded: {folded}"
        if len(whole.rows("Control blocks (GOOSE)")) != BLOCKS:
            yield f"--all lists {len(whole.rows('Control blocks (GOOSE)'))} control blocks"


class Printed:
    """A page has at most so many sheets of A4 as Chromium prints it."""

    def __init__(self, what, most, octets, scd, *asked):
        self.name, self.most, self.octets, self.scd, self.asked = f"the sheets of a page of {what}", most, octets, scd, asked

    def why_wrong(self, program):
        browser = chromium()
        octets, said, _, _ = reported(program, self.octets, "--scd", "of.scd", *self.asked, scd=self.scd)
        if octets is None:
            return [said]
        with tempfile.TemporaryDirectory() as folder:
            folder = pathlib.Path(folder)
            (folder / "page.html").write_bytes(octets)
            browse(browser, folder, f"--print-to-pdf={folder / 'page.pdf'}", (folder / "page.html").as_uri())
            sheets = len(SHEET.findall((folder / "page.pdf").read_bytes()))
        return [] if 1 <= sheets <= self.most else [f"it is printed on {sheets} sheets, and not on 1 to {self.most}"]


class Room:
    """A table has rows and octets up to its bounds and to what is left for all tables, a first row and a little in any case; what is left out is
    counted."""

    name = "the room of tables"
    # What is left for all tables, how many rows of how many octets there are, how many are shown, and what is left then.
    tables = ((900_000, 300, 10, 200, 898_000), (900_000, 200, 10, 200, 898_000), (900_000, 5, 100_000, 2, 700_000),
              (900_000, 5, 125_000, 2, 650_000),
              (900_000, 3, 300_000, 1, 600_000), (100, 200, 100, 80, -7_900), (0, 200, 100, 80, -8_000), (20_000, 300, 200, 100, 0))

    def why_wrong(self, _):
        return list(self.why_rows_wrong())

    def why_rows_wrong(self):
        page = module("reporting.page")
        for left, number, size, wanted, rest in self.tables:
            room = page.Room()
            room.left = left
            rows = page.Limited((page.Raw("x" * size) for _ in range(number)), room)
            got = len(list(rows)), rows.shown, rows.more, room.left
            if got != (wanted, wanted, number - wanted, rest):
                yield f"{number} rows of {size} octets where {left} are left: {got}"
        yield from self.why_findings_wrong(page)
        rows = page.Limited((page.Raw("x" * 10**6) for _ in range(300)), page.Room(True))
        if len(list(rows)) != 300 or rows.more or rows.left_out("row"):
            yield f"all are asked for, and {rows.shown} shown"


    def why_findings_wrong(self, page):
        """Findings are written as they come: up to 200 rows, and up to the octets of one table."""
        nothing = types.SimpleNamespace(write=lambda _: None, of_kind=lambda _: [], times=None, malformed=None, wraps=None)
        for size, number in ((10, 200), (50_000, 5), (100_000, 3)):
            held, written = module("reporting.missing").Missing(nothing, None, True, nothing), 0
            while held.has_room() and written < 1000:
                held.write("x" * size)
                written += 1
            if written != number or held.octets != size * number:
                yield f"{written} findings of {size} octets are written"


def cases():
    yield Room()
    yield Bounded()
    yield Printed("a station with every kind of finding", 16, made_station.capture(), made_station.scd(), "--period", "100")
    yield Printed("two bays", 4, (EXAMPLES / "two_bays.pcapng").read_bytes(), (EXAMPLES / "station.scd").read_text())
