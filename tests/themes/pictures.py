"""The pictures of the documents are what the tools draw of the examples, and a picture says what a replay says."""
import contextlib
import os
import pathlib
import re
import shlex
import subprocess
import tempfile
from xml.etree import ElementTree

from helpers.asked_tools import ask
from helpers.frames import BOOLEAN, SAMPLED, WORKED, put, with_members
from helpers.harness import SECONDS, first_difference, listed, run, text

TOP = pathlib.Path(__file__).resolve().parent.parent.parent
DOCS, EXAMPLES, TOOLS = TOP / "docs", TOP / "examples", TOP / "tools"
TRIP = "3001,BAY1PROT/LLN0$GO$gcbTrip,BAY1PROT/LLN0$dsTrip,BAY1_Trip,1,2"
START = "3002,BAY2PROT/LLN0$GO$gcbStart,BAY2PROT/LLN0$dsStart,BAY2_Start,2,2"


def drawn(program, tool, words, given=b""):
    """What a tool draws, and why it does not."""
    ran = subprocess.run([TOOLS / tool, *words], input=given, stdout=subprocess.PIPE, stderr=subprocess.PIPE, timeout=SECONDS,
                         env={**os.environ, "GOOSE": shlex.join(program)})
    return ran.stdout, [f"ended with status {ran.returncode}: {ran.stderr!r}"] if ran.returncode else []


class OneBlock:
    """docs/trip_recording.svg tells one block event by event."""

    name = "docs/trip_recording.svg"

    def why_wrong(self, program):
        picture, why = drawn(program, "draw_recording", [EXAMPLES / "trip_recording.list", TRIP])
        difference = first_difference((DOCS / "trip_recording.svg").read_bytes(), picture)
        return why + ([difference] if difference else [])


class OneOfTwo:
    """A list of two blocks: frames of the other one are shown, and nothing is missing between those of the two. A time that goes back
    ends no lifetime earlier."""

    name = "a picture of one block of two"

    def why_wrong(self, program):
        frames = [put(WORKED), put(WORKED, at15=2, at49=7), put(WORKED, at49=1), put(WORKED, at49=3)]
        octets = text([f"F {at} {frame.hex()}" for at, frame in zip((5000, 5001, 5002, 0), frames)] + ["C 8000"])
        with tempfile.NamedTemporaryFile() as recorded:
            recorded.write(octets)
            recorded.flush()
            picture, why = drawn(program, "draw_recording", [recorded.name, "0001,G,D,,1,1"])
        shown = picture.decode()
        lost = re.findall(r">(state .*): lost<", shown)
        ended = re.findall(r">([\d.]+)</text>\n<circle [^>]*/>\n<text [^>]*>the lifetime has ended<", shown)
        return (why + ([] if lost == ["state 1, sq 2"] else [f"lost: {lost}"])
                + ([] if ended == ["2.002"] else [f"the lifetime ended at {ended}: {shown}"]))


class Readable:
    """Times count from the first event, no text lies over another or beyond the picture, and a text that is cut is there whole."""

    name = "a picture that can be read"

    def why_wrong(self, program):
        ones = put(WORKED), put(WORKED, at49=1), put(WORKED, at49=3)
        wide = with_members(BOOLEAN * 100, 100)
        short = text([f"F {1700000000250 + 3600000 * at} {frame.hex()}" for at, frame in enumerate(ones)])
        lists = {"0001,G,D,,1,1": (short, ["0.000", "3600.000", "7200.000"], "seconds from 2023-11-14T22:13:20.250000Z"),
                 "0001,G,D,,1,100": (listed(wide, moment=5), ["0.000"], "seconds from the first event"),
                 f"0001,{'G' * 129},{'D' * 129},,1,1": (short, ["0.000"], "seconds from 2023-11-14T22:13:20.250000Z")}
        return [f"{block[:20]}: {why}" for block, given in lists.items() for why in self.why_list_wrong(program, block, *given)]

    def why_list_wrong(self, program, block, octets, times, began):
        with tempfile.NamedTemporaryFile() as recorded:
            recorded.write(octets)
            recorded.flush()
            picture, _ = drawn(program, "draw_recording", [recorded.name, block])
        picture = ElementTree.fromstring(picture)
        rows, shown = {}, picture.findall("{*}text")
        for it in shown:
            rows.setdefault(it.get("y"), []).append((int(it.get("x")), it.text))
        for row in rows.values():
            ends = [x + 7.9 * len(words) for x, words in row]
            limits = [x for x, _ in row[1:]] + [int(picture.get("width"))]
            yield from (f"{words} ends at {end}, and {limit} is there" for (_, words), end, limit in zip(row, ends, limits) if end > limit)
        if began not in [it.text for it in shown]:
            yield f"no text is {began!r}"
        got = [words for x, words in sorted(it for row in rows.values() for it in row[:1]) if re.fullmatch(r"[\d.]+", words)]
        if not set(times) <= set(got):
            yield f"wanted {times}, got {got}"
        cut = [it for it in shown if it.text.endswith(" ..")]
        if [it.find("{*}title").text.count("true") for it in cut] != [100] * (block[-4:] == ",100"):
            yield f"texts are cut: {[it.text for it in cut]}"


class Limited:
    """A picture has at most 500 rows: it says so where the list goes on, and --from draws what follows, with the same times. Frames of
    others share a row."""

    name = "a picture of one block of a list that goes on"

    def why_wrong(self, program):
        frames = [put(WORKED, at46=1 + at // 100, at49=at % 100) for at in range(2000)]
        others = [put(WORKED, at15=2)] * 3000
        octets = text(["V2", *(f"F {1700000000000000 + at * 400} {frame.hex()}" for at, frame in enumerate([*frames[:100], *others, *frames[100:]]))])
        with tempfile.NamedTemporaryFile() as recorded:
            recorded.write(octets)
            recorded.flush()
            first = ask(program, "draw_recording", [recorded.name, "0001,G,D,,1,1"])
            then = ask(program, "draw_recording", ["--from", "3501", recorded.name, "0001,G,D,,1,1"])
            last = ask(program, "draw_recording", ["--from", "4602", recorded.name, "0001,G,D,,1,1"])
            beyond = ask(program, "draw_recording", ["--from", "5002", recorded.name, "0001,G,D,,1,1"])
        parts = [(first, 1, "3501", ["0.000", "0.040", "1.399"]), (then, 1, "4001", ["1.400", "1.599"]), (last, 0, None, ["1.840", "2.000"])]
        why = [why for it in parts for why in self.why_part_wrong(*it)]
        why += [] if b"102 to 3101 not-subscribed" in first[0] and first[0].count(b"not-subscribed") == 1 else ["frames of others have no row, or some"]
        return why + ([] if beyond == (b"", b"draw_recording: the list has no event from line 5002 on\n", 3) else [f"{beyond}"])

    def why_part_wrong(self, part, status, line, times):
        picture, complained, got = part
        said = f"draw_recording: the picture has the 500 rows that fit; the list goes on with line {line}: --from {line} draws what follows\n"
        if (got, complained.decode()) != (status, said if line else ""):
            yield f"status {got}: {complained!r}"
        if line and f"The list goes on with line {line}: " not in picture.decode():
            yield f"the picture does not say line {line}"
        shown = re.findall(r'<text x="80" y="\d+">([\d.]+)<', picture.decode())
        if len(picture) > 200000 or not set(times) <= set(shown) or (shown[0], shown[-1]) != (times[0], times[-1]):
            yield f"{len(picture)} octets, from {shown[:1]} to {shown[-1:]}, wanted {times}"


class Unseen:
    """A BLOCK of which no frame came is drawn as such, and told."""

    name = "a picture of a BLOCK that is never seen"

    def why_wrong(self, program):
        got = ask(program, "draw_recording", [EXAMPLES / "two_bays.list", "3001,BAY1PROT/LLN0,BAY1PROT/LLN0,BAY1_Trip,1,2"])
        is_well = got[2] == 1 and b"was never seen" in got[1] and b"single quotes" in got[1]
        return [] if is_well else [f"{got[1:]}"]


class Undrawn:
    """A list with an error, and one without an event, have no picture."""

    def __init__(self, octets, why):
        self.name, self.octets, self.said = f"no picture of {octets[-9:]}: {why}", octets, why

    def why_wrong(self, program):
        with tempfile.NamedTemporaryFile() as recorded:
            recorded.write(self.octets)
            recorded.flush()
            picture, why = drawn(program, "draw_recording", [recorded.name, "0001,G,D,,1,1"])
        return [] if not picture and why and f"draw_recording: {self.said}" in why[0] else [f"{picture!r}, {why}"]


class TwoBlocks:
    """docs/two_bays.svg draws two blocks above each other, with what was lost of them."""

    name = "docs/two_bays.svg"

    def why_wrong(self, program):
        recorded = EXAMPLES / "two_bays.list"
        entries, _, _ = run(program, ["replay", TRIP, START], recorded.read_bytes())
        with lost_of(program, recorded.read_bytes()) as lost:
            picture, why = drawn(program, "draw_replay", ["--losses", lost.name, recorded], entries)
        difference = first_difference((DOCS / "two_bays.svg").read_bytes(), picture)
        return why + ([difference] if difference else [])


@contextlib.contextmanager
def lost_of(program, octets):
    """A file of the objects that `losses` writes of a list."""
    with tempfile.NamedTemporaryFile() as lost:
        lost.write(run(program, ["losses", "--json"], octets)[0])
        lost.flush()
        yield lost


def marks(picture):
    """The marks of a picture by their classes: where each is, and how far it reaches, if it is a bar or a line."""
    got = {}
    for it in ElementTree.fromstring(picture):
        if it.get("class"):
            x, *until = map(int, re.findall(r"(?:^M|H)(\d+)", it.get("d") or "") or [it.get("x") or it.get("cx")])
            reach = int(it.get("width") or 0) or sum(until) - x * len(until)
            got.setdefault(it.get("class"), []).append((x, reach) if reach else x)
    return got


class Marked:
    """Each entry of a replay has its mark at its time, and the time of valid data its bar: the axis is 1,020 wide, from 30 on. In
    milliseconds there are two acts, a retransmission, a repeated frame, an older one and a simulated one; lifetimes are 2,000."""

    name = "the marks of a picture"
    frames = [(0, 1, 0, 0), (1000, 1, 1, 0), (1500, 2, 0, 0), (1600, 2, 0, 0), (1700, 1, 5, 0), (1800, 3, 0, 255)]
    wanted = {"valid": [(30, 357)], "act": [30, 183], "refreshed": [132], "repeated": [193], "old": [203], "refused": [213],
              "expired": [387]}

    def why_wrong(self, program):
        lines = [f"F {at} {put(WORKED, at46=st, at49=sq, at52=simulation).hex()}" for at, st, sq, simulation in self.frames]
        octets = text([*lines, "C 10000"])
        entries, _, _ = run(program, ["replay", "0001,G,D,,1,1"], octets)
        with tempfile.NamedTemporaryFile() as recorded:
            recorded.write(octets)
            recorded.flush()
            picture, why = drawn(program, "draw_replay", [recorded.name], entries)
        got = marks(picture)
        return why + ([] if got == self.wanted else [f"wanted {self.wanted}, got {got}"])


class MarkedLosses:
    """With what `losses` says of the list, silences are lines from when to when, and each line on what is missing a mark at its time, which
    says it; else the picture is as without. A frame with a time that goes back is drawn at the greatest so far."""

    name = "what was lost, in a picture"
    frames = [(0, 1, 0), (1000, 1, 3), (4000, 1, 5), (0, 1, 7), (5000, 3, 1), (5000, 2, 0)]
    wanted = {"silent": [(336, 102), (744, 306)], "missing": [132, 438, 540]}
    told = ["silent for 1.000000 s", "silent for 3.000000 s", "missing: frames 1 to 2 of state 1",
            "missing: frames 4 to 4 of state 1; missing: frames 6 to 6 of state 1", "missing: states 2 to 2; missing: frames 0 to 0 of state 3"]

    def why_wrong(self, program):
        octets = text([*(f"F {at} {put(WORKED, at46=st, at49=sq).hex()}" for at, st, sq in self.frames), "C 10000"])
        entries, _, _ = run(program, ["replay", "0001,G,D,,1,1"], octets)
        with tempfile.NamedTemporaryFile() as recorded, lost_of(program, octets) as lost:
            recorded.write(octets)
            recorded.flush()
            plain, why = drawn(program, "draw_replay", [recorded.name], entries)
            picture, more = drawn(program, "draw_replay", ["--losses", lost.name, recorded.name], entries)
        got = marks(picture)
        lost = {name: got.pop(name, []) for name in self.wanted}
        told = re.findall(r"<title>(.*?)</title>", picture.decode())
        why += [*more, *([] if got == marks(plain) else [f"other marks: {got}"])]
        return why + ([] if (lost, told) == (self.wanted, self.told) else [f"wanted {self.wanted}, got {lost}: {told}"])


class OtherLosses:
    """What is no text of `losses --json` of that list is refused."""

    name = "what was lost of another list, in a picture"

    def why_wrong(self, program):
        octets, other = listed(WORKED), text(["V2", "# none", f"F 0 {WORKED.hex()}", f"F 9 {put(WORKED, at49=9).hex()}"])
        entries, _, _ = run(program, ["replay", "0001,G,D,,1,1"], octets)
        given = [run(program, ["losses", "--json"], other)[0], entries, b"[]\n", b"{}\n", b"7\n", run(program, ["losses"], other)[0]]
        return [f"{it!r}: {got}" for it in given for got in [self.drawn_with(program, octets, entries, it)]
                if got != (b"", b"draw_replay: these are not the objects that goose losses --json writes for that list\n", 3)]

    @staticmethod
    def drawn_with(program, octets, entries, lost):
        with tempfile.NamedTemporaryFile() as recorded, tempfile.NamedTemporaryFile() as given:
            for file, it in ((recorded, octets), (given, lost)):
                file.write(it)
                file.flush()
            return ask(program, "draw_replay", ["--losses", given.name, recorded.name], entries)


class Small:
    """A picture of 20,000 retransmissions is no larger than 200 kB."""

    name = "a picture of a long list"

    def why_wrong(self, program):
        octets = text(f"F {at} {put(WORKED, at46=1 + at // 200, at49=at % 200 // 2).hex()}" for at in range(20000))
        entries, _, _ = run(program, ["replay", "0001,G,D,,1,1"], octets)
        with tempfile.NamedTemporaryFile() as recorded:
            recorded.write(octets)
            recorded.flush()
            picture, why = drawn(program, "draw_replay", [recorded.name], entries)
        return why + ([] if 0 < len(picture) < 200000 else [f"{len(picture)} octets"])


class Faulty:
    """What a replay says of frames that are of another list, without one of GOOSE in that line, is refused."""

    name = "a picture of a list of other frames"

    def why_wrong(self, program):
        with tempfile.NamedTemporaryFile() as recorded:
            recorded.write(b"C 0\n" + listed(SAMPLED))
            recorded.flush()
            entries = [f"{line} act 0 st=1 sq=0 t=0000000000000000 {{true}}\n".encode() for line in (1, 2)]
            got = [ask(program, "draw_replay", [recorded.name], it) for it in entries]
        return [] if {it[1:] for it in got} == {(b"draw_replay: this is not what goose replay writes for that list\n", 3)} else [f"{got}"]


class Strange:
    """What is no replay of a list is refused."""

    name = "a picture of another list"

    def why_wrong(self, program):
        with tempfile.NamedTemporaryFile() as recorded:
            picture, why = drawn(program, "draw_replay", [recorded.name], b"2 act 0 st=1 sq=0 t=0000000000000000 {true}\n")
        return [] if why and not picture else ["it was drawn"]


def cases():
    yield OneBlock()
    yield OneOfTwo()
    yield Readable()
    yield Limited()
    yield Unseen()
    yield Undrawn(f"F 0 {WORKED.hex()}\nx\n".encode(), "the list ends with an error: line 2: LineForm")
    yield Undrawn(b"", "the list has no event")
    yield Undrawn(b"V2\n# nothing\n", "the list has no event")
    yield TwoBlocks()
    yield Marked()
    yield MarkedLosses()
    yield OtherLosses()
    yield Small()
    yield Faulty()
    yield Strange()
