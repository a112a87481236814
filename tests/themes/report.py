"""The page of tools/report has every finding that goose tells of a capture, and no other; it is well-formed, needs nothing outside it,
and is put in its place only when it is whole."""
import collections
import contextlib
import hashlib
import itertools
import json
import os
import pathlib
import pty
import re
import resource
import shlex
import shutil
import signal
import subprocess
import tempfile
import time
from xml.etree import ElementTree

from helpers import made_station
from helpers.asked_tools import EXAMPLES, TOOLS, ask
from helpers.capture_parts import block, header, interface, option, packet, record, section
from helpers.frames import SAMPLED, WORKED, asdu, element, put, with_asdus, with_fields
from helpers.harness import SECONDS, Skipped, run
from themes.installing import binary

OPTIONS = ["--capture", "--json", "--skip-other", "--unwrap"]
UNITS = {"ms": 1000, "s": 10**6, "min": 60 * 10**6, "h": 3600 * 10**6, "d": 86400 * 10**6}
EVENTS, FIRST, FINDINGS = "Events in the order of packets", "First states", "Findings in the order of packets"
# The columns of totals that goose does not tell, which other tests hold.
OWN = ("Of these late", "Missing, but with an error", "Late, not missing")
FRAMES_OF_ALL = "What the device did with all frames of its control blocks"
ERRORS, NOTES, OTHERS = "Errors of frames, by kind", "Notes on valid frames", "Frames of other protocols, which are counted and not judged"
HEADINGS = ["Summary", "The trip", "Events acted on", "Picture", "Losses, silences, restarts and late frames", "Control blocks and streams", "Errors",
            "What was recorded", "Commands"]
# The states of a line of the summary, by the class of its element, the worst first; and the statuses of a page.
STATES, STATUSES = ("found", "unjudged", "clean"), {"found": 1, "unjudged": 6, "clean": 0}
BLOCKS, STREAMS = "Control blocks (GOOSE)", "Streams (Sampled Values)"
# A page of 500,000 packets takes at most 60 MB, and 8 s of one processor of a quiet machine beside the program. The measure of the time is what this
# Python takes to read the lines that goose show writes of them as JSON, each once, since that grows with the page's where the machine is busy or slow.
# The page takes 1.0 to 1.3 times as long on a busy machine. The one before, which took 2.1 times, took some 4.7 s on a quiet one: so 8 s are 3.5 times,
# and the bound is half of that. A page that reads each line twice more takes 2.9 times.
PACKETS, MOST_READINGS, MOST_MEMORY = 500000, 1.8, 60 * 1024
# Of so many lines one is read.
READ = 10


# An earlier page, by what a page has near its head.
EARLIER = b'<!DOCTYPE html>\n<html lang="en">\n<head>\n<meta charset="utf-8"/>\n<meta name="generator" content="goose report"/>\nbefore'
# What tells how wide each frame of a page is, what stands in it, and how many elements reach beyond it: but for those in what can be moved
# sideways, and heads of tables that are shown to readers of screens alone; then how many numbers are on two lines, and how many cells are too low for
# what is in them and for the head beside it.
WIDTHS = """onload = () => {
  const beyond = root => [...root.querySelectorAll("body *")].filter(it => !it.closest(".scroll, thead, svg")
    && it.getBoundingClientRect().right > root.clientWidth + 1).length
  const broken = root => [...root.querySelectorAll("td.number .whole, th.number .whole")].filter(it => it.getClientRects().length > 1).length
  const low = root => [...root.querySelectorAll("tbody [data-of]")].filter(it => it.scrollHeight > it.clientHeight + 1).length
  const roots = [...document.querySelectorAll("iframe")].map(it => it.contentDocument.documentElement)
  document.title = roots.map(it => `${it.clientWidth}:${it.scrollWidth}:${beyond(it)}:${broken(it)}:${low(it)}`).join(" ")
}"""
# The widths of windows in pixels, and what an A4 sheet has between its margins.
WINDOWS, SHEET = (360, 1000, 1400), 703


# ---- Pages read --------------------------------------------------------------


def words(it):
    """The text of an element, with lines where it has them."""
    parts = [it.text or ""]
    for inside in it:
        parts += ["\n" if inside.tag == "br" else words(inside), inside.tail or ""]
    return "".join(parts).replace("\u00a0", " ")


def body(octets):
    """A page as XML, which it also is."""
    return ElementTree.fromstring(octets.decode("utf-8").partition("\n")[2])


class Page:
    """A page: its tables by their captions, each a list of rows, and what stands beside them."""

    def __init__(self, octets):
        self.root = body(octets)
        self.tables = {words(table.find("caption")): [[words(cell) for cell in row] for row in table.find("tbody")] for table in self.root.iter("table")}
        self.heads = {words(table.find("caption")): [words(it) for it in table.find("thead").iter("th")] for table in self.root.iter("table")}
        self.times = {words(table.find("caption")): [[it.get("datetime") for it in row.iter("time")] for row in table.find("tbody")]
                      for table in self.root.iter("table")}
        self.summary = [(words(it), it.get("class")) for it in self.root.find(".//ol")]
        self.headings = [words(it) for it in self.root.iter() if it.tag in ("h1", "h2")]

    def rows(self, caption):
        return self.tables.get(caption, [])


def reported(program, octets, *asked, **how):
    """The page of a capture, or None, and what the tool says and ends with. Files that are left are told."""
    with tempfile.TemporaryDirectory() as folder:
        folder = pathlib.Path(folder)
        (folder / "of.pcapng").write_bytes(octets)
        (folder / "of.scd").write_text(how.pop("scd", ""))
        wrote, said, status = ask(program, "report", [*asked, "of.pcapng"], cwd=folder, **how)
        left = sorted(it.name for it in folder.iterdir() if it.name not in ("of.pcapng", "of.scd"))
        octets = (folder / "report.html").read_bytes() if "report.html" in left else None
    return octets, (wrote + said).decode(), status, [it for it in left if it != "report.html"]


def told(program, octets, command, *asked):
    """The objects that goose tells of a capture, and its messages."""
    wrote, said, _ = run(program, [command, *OPTIONS, *asked], octets)
    return [json.loads(line) for line in wrote.splitlines()], said.decode()


def length(text):
    """The microseconds of a length of time on the page."""
    found = re.findall(r"([\d,.]+) (ms|s|min|h|d)\b", text)
    return sum(round(float(it.replace(",", "")) * UNITS[unit]) for it, unit in found) * (-1 if text.startswith("\u2212") else 1)


def numbers(text):
    return [whole(it) for it in re.findall(r"\d[\d,]*", text)]


def whole(text):
    """A number of the page, with its separators."""
    return int(text.replace(",", ""))


def compared(what, wanted, got):
    """What is on the page and was not told, and what was told and is not on the page."""
    if wanted == got:
        return
    for at, (ours, theirs) in enumerate(zip(wanted, got)):
        if ours != theirs:
            yield f"{what}, {at}: wanted {ours}, got {theirs}"
            return
    yield f"{what}: wanted {len(wanted)}, got {len(got)}"


# ---- What was told -----------------------------------------------------------


def sender(it):
    if "svID" in it:
        return f"{it['svID']} (stream, APPID {it['appid']}, from {it['source']})"
    return f"{it['gocbRef']} (APPID {it['appid']}{', simulated' if it['simulation'] else ''})"


def finding(it):
    """A finding of goose losses: its packet, sender, kind, time, and its numbers."""
    names = {"silent": ("for",), "end-silent": ("for",), "restarted": ("stNum", "sqNum"), "late": ("stNum", "sqNum"), "samples-missing": ("missing", "from"),
             "synch": ("from", "to"), "states-missing": ("from", "to"), "frames-missing": ("stNum", "from", "to")}
    own = [it[name] for name in names.get(it["kind"], ("smpCnt",))]
    own = own[:-1] if it["kind"].endswith("s-missing") and "to" in it and it["from"] == it["to"] else own
    times = [it["sinceTime"]] if "sinceTime" in it else []
    times = [it["time"], *times] if "time" in it else times
    return (it.get("packet", "none after"), sender(it), it["kind"].replace("end-silent", "silent at the end").replace("-", " "), times, own)


def shown(row, times):
    """A finding as the page shows it."""
    _, place, who, kind, details = row
    own = [length(details.partition(" since ")[0])] if "silent" in kind else numbers(details.partition(";")[0])
    return (int(place) if place.isdigit() else place, who, kind, times, own)


def why_losses_wrong(page, found):
    wanted = [finding(it) for it in found if "total" not in it["kind"] and it["kind"] != "capture"]
    yield from compared("losses", wanted, [shown(*it) for it in zip(page.rows(FINDINGS), page.times.get(FINDINGS, []))])
    for kind, names in (("total-goose", ("frames", "statesMissing", "framesMissing", "late", "repeated", "restarted", "silent")),
                        ("total-sv", ("samples", "missing", "late", "repeated", "outOfRange", "outages"))):
        totals = [(sender(it), *(it[name] for name in names if name in it)) for it in found if it["kind"] == kind]
        caption = next((it for it in page.tables if it.startswith("Totals of c" if "goose" in kind else "Totals of s")), None)
        own = [not head.startswith("Longest") and head not in OWN for head in page.heads.get(caption, [])]
        got = [(row[0], *map(whole, [it for it, is_told in zip(row, own) if is_told][1:])) for row in page.rows(caption)]
        yield from compared(kind, sorted(totals), sorted(got))


def leaves(members, path=""):
    """The members that hold no others, each with its position: a value that these tests have as the page tells it."""
    for at, it in enumerate(members, 1):
        inside = it.get("structure", it.get("array")) if isinstance(it, dict) else None
        if inside is not None:
            yield from leaves(inside, f"{path}{at}.")
        else:
            name = next(iter(it)) if isinstance(it, dict) else ""
            yield f"{path}{at}", json.dumps(it if not name else it["value"] if name == "float" else it[name]).strip('"')


def changes(acts):
    """The rows of events: those of first states, and those of others, each with the members that it tells."""
    before, first, others = {}, [], []
    for it in acts:
        now, old = dict(leaves(it["members"])), before.get(it["gocbRef"])
        told = [f"{at}: {old[at]} \u2192 {value}" for at, value in now.items() if old[at] != value] or ["none"] if old else map(": ".join, now.items())
        row = (it["packet"], it["gocbRef"], it["stNum"], it["sqNum"], it["time"], ", ".join(told))
        (others if old else first).append(row)
        before[it["gocbRef"]] = now
    return first, others


def why_events_wrong(page, found, is_named=False):
    """Members are not compared where an SCL file names them: other tests do."""
    acts = [it for it in found if it["kind"] == "act"]
    for caption, wanted in zip((FIRST, EVENTS), changes(acts)):
        rows = list(zip(page.rows(caption), page.times.get(caption, [])))
        told = [(int(row[1]), row[2], int(row[3]), int(row[4]), times[0], row[6]) for row, times in rows if row[5]]
        yield from compared(caption, *([it[:-1] for it in held] if is_named else held for held in (wanted, told)))
    delays = {int(row[1]): length(row[5]) for caption in (FIRST, EVENTS) for row in page.rows(caption) if row[5]}
    yield from compared("delays", {it["packet"]: it["delay"] for it in acts if abs(it["delay"]) < 600 * 10**6},
                        {packet: it for packet, it in delays.items() if packet in {it["packet"] for it in acts if abs(it["delay"]) < 600 * 10**6}})
    yield from compared("other events", others(found), {(int(re.match(r"\d+", row[1])[0]), row[2], re.match(r"\w+", row[6])[0])
                                                        for row in page.rows(EVENTS) if not row[5]})
    counts = collections.Counter((it["gocbRef"], it["kind"], it.get("reason", "")) for it in found if "block" in it)
    kinds = [kind for kind in ("act", "refreshed", "repeated", "old", "refused", "expired", "switched") if any(kind == it[1] for it in counts)]
    got = {(row[0], kind, line[2]): int(line[1].replace(",", "")) for row in page.rows(FRAMES_OF_ALL) for kind, cell in zip(kinds, row[2:])
           for line in re.finditer(r"^([\d,]+)(?: (\w+))? \(packet", cell, re.M)}
    got = {(name, kind, reason or ""): count for (name, kind, reason), count in got.items()}
    yield from compared("entries", sorted(counts.items()), sorted(got.items()))


def others(found):
    """The first packets of the other events: of old and refused frames that follow one another one is told."""
    before, told = {}, set()
    for it in found:
        if it["kind"] in ("act", "old", "refused", "expired", "switched"):
            sort = (it["kind"], it.get("reason"))
            if it["kind"] != "act" and (before.get(it["gocbRef"]) != sort or it["kind"] in ("expired", "switched")):
                told.add((it["packet"], it["gocbRef"], it["kind"]))
            before[it["gocbRef"]] = sort
    return told


def why_errors_wrong(page, found):
    for caption, kinds in ((ERRORS, [it.get("error") for it in found]), (NOTES, [it["kind"] if "error" not in it else None for it in found])):
        places = {}
        for it, kind in zip(found, kinds):
            if kind and it["kind"] != "capture":
                places.setdefault(kind, []).append(it)
        wanted = {kind: (len(held), held[0]["packet"], held[-1]["packet"], held[0].get("offset")) for kind, held in places.items()}
        got = {re.split(r"\W(?=\s)", row[0])[0]: (int(row[1].replace(",", "")), int(row[2]), int(row[-1]), int(row[4]) if caption == ERRORS else None)
               for row in page.rows(caption)}
        yield from compared(caption, sorted(wanted.items()), sorted(got.items()))


def why_senders_wrong(page, blocks, shown_frames):
    frames = {}
    for it in shown_frames:
        if it["kind"] == "goose":
            frames.setdefault((BLOCKS, it["gocbRef"], it["appid"]), []).append(it)
        for name in {asdu["svID"] for asdu in it.get("asdus", ())}:
            frames.setdefault((STREAMS, name, it["appid"]), []).append(it)
    wanted = {key: (len(held), held[0]["packet"], held[-1]["packet"]) for key, held in frames.items()}
    got, forms = {}, {}
    for caption, at in ((BLOCKS, 4), (STREAMS, 3)):
        for row in page.rows(caption):
            places = [int(it) for it in re.findall(r"packet (\d+)", row[at + 1])]
            if places:
                got[caption, row[0], row[1]] = (int(row[at].replace(",", "")), places[0], places[-1])
                forms[row[0], row[1]] = row[at + 2]
    yield from compared("senders", sorted(wanted.items()), sorted(got.items()))
    for it in blocks:
        if it["kind"].startswith("block") and f"confRev {it['confRev']}" not in forms.get((it["gocbRef"], it["appid"]), ""):
            yield f"the page does not show {it['text']}"


def why_others_wrong(page, said):
    parts = said.partition("passed over: ")[2].splitlines()[:1]
    wanted = [(it[2], int(it[1]), int(it[3])) for it in re.finditer(r"(\d+) of (?:EtherType )?(.+?), from (\d+) on(?:; |$)", parts[0])] if parts else []
    yield from compared("others", wanted, [(row[0], int(row[1].replace(",", "")), int(row[2])) for row in page.rows(OTHERS)])


def why_compared_wrong(page, program, octets, scd):
    """What the page says of each sender beside its configuration is what compare_blocks says."""
    with tempfile.NamedTemporaryFile("w", suffix=".scd") as file, tempfile.NamedTemporaryFile() as configured:
        file.write(scd)
        file.flush()
        configured.write(ask(program, "scl_blocks", ["--json", file.name])[0])
        configured.flush()
        frames, _, _ = run(program, ["show", *OPTIONS], octets)
        lines, _, _ = ask(program, "compare_blocks", [configured.name], frames)
    wanted = set()
    for line in lines.decode().splitlines():
        verdict, _, text = line.partition(" ")
        name = re.match(r'stream id="([^"]*)"', text)[1] if text.startswith("stream") else text.split(",")[1]
        wanted.add(("not" if verdict == "extra" else verdict, name))
    # A sender that has two forms differs, though one of them agrees.
    wanted = {(verdict, name) for verdict, name in wanted if verdict != "agrees" or ("differs", name) not in wanted}
    got = {(re.match(r"\w+", row[-1])[0], row[0]) for caption in (BLOCKS, STREAMS) for row in page.rows(caption)}
    yield from compared("beside the configuration", sorted(wanted), sorted(got))


class Told:
    """A capture whose page has what goose tells of it: with these options, and with these BLOCKs if not with all."""

    def __init__(self, name, octets, *asked, scd=None, blocks=None, status=None, said=""):
        self.name, self.octets, self.asked, self.scd, self.blocks, self.status = f"a page of {name}", octets, asked, scd, blocks, status
        self.said = said

    def why_wrong(self, program):
        octets, said, status, left = reported(program, self.octets, *self.asked, scd=self.scd or "")
        if octets is None or left or said:
            return [f"status {status}, left {left}: {said}"]
        page = Page(octets)
        return list(self.why_page_wrong(page, program)) + ([f"ended with status {status}"] if status != self.status else [])

    def why_page_wrong(self, page, program):
        period = self.asked[self.asked.index("--period"):][:2] if "--period" in self.asked else []
        blocks, _ = told(program, self.octets, "blocks")
        frames, over = told(program, self.octets, "show")
        own = self.blocks or [it["text"] for it in blocks if it["kind"] == "block"]
        yield from why_senders_wrong(page, blocks, frames)
        yield from why_events_wrong(page, told(program, self.octets, "replay", "--", *own)[0] if own else [], "DataTypeTemplates" in (self.scd or ""))
        yield from why_losses_wrong(page, told(program, self.octets, "losses", *period)[0])
        yield from why_errors_wrong(page, told(program, self.octets, "check")[0])
        yield from why_others_wrong(page, over)
        yield from why_compared_wrong(page, program, self.octets, self.scd) if self.scd else []
        yield from self.why_head_wrong(page, [it for it in frames if it["kind"] != "capture"])

    def why_head_wrong(self, page, frames):
        """What was recorded, the summary, and the order of the sections."""
        facts = {row[0]: row[1] for row in page.rows("The capture")}
        facts.update((row[0], row[1]) for row in page.rows("The program and the file"))
        wanted = {"File": "of.pcapng", "SHA-256 of the capture": hashlib.sha256(self.octets).hexdigest()}
        yield from compared("facts", wanted, {name: facts.get(name) for name in wanted})
        yield from compared("packets", [len(frames)], numbers(facts["Packets"])[:1])
        samples = ["Currents and voltages"] if any(it["kind"] == "sv" for it in frames) else []
        yield from compared("headings", [*HEADINGS[:2], *samples, *HEADINGS[2:]], page.headings[1:])
        states = [state for _, state in page.summary]
        if not states or states != sorted(states, key=STATES.index):
            yield f"the summary is {page.summary}"
        yield from (f"a line names no packet: {line}" for line, _ in page.summary if frames and not re.search(r"packets? \d", line))
        kinds = collections.Counter(it["kind"] for it in frames)
        yield from compared("kinds", [kinds[it] for it in ("goose", "sv", "fault", "clock") if kinds[it]], self.counts(facts["Of these"]))
        if self.said not in words(page.root.find(".//main")):
            yield f"the page lacks {self.said!r}"


    def counts(self, text):
        """How many packets are what; those of other protocols and those that are no Ethernet frames are one number."""
        counts = [whole(it) for it in re.findall(r"[\d,]+(?= )", text)]
        return counts if "no Ethernet" not in text or "protocol" not in text else [*counts[:-2], sum(counts[-2:])]


class Broken(Told):
    """A capture that breaks off: the page says so first, and tells all that came before."""

    def why_head_wrong(self, page, frames):
        yield from super().why_head_wrong(page, frames)
        first = page.root.find(".//main")[1]
        if first.get("class") != "broken" or f"packet {len(frames) + 1} " not in words(first) or self.said not in words(first):
            yield f"the page does not begin with the error, but with {words(first)!r}"


# ---- The page itself ---------------------------------------------------------


class Alone:
    """A page names nothing outside it, has no script, is the same each time, and its headings and tables can be followed."""

    name = "a page that stands alone"

    def why_wrong(self, program):
        return list(self.why_page_wrong(program))

    def why_page_wrong(self, program):
        octets, _, _, _ = reported(program, (EXAMPLES / "two_bays.pcapng").read_bytes(), "--title", "A <b>title</b> & \"more\"")
        again, _, _, _ = reported(program, (EXAMPLES / "two_bays.pcapng").read_bytes(), "--title", "A <b>title</b> & \"more\"")
        root = body(octets)
        yield from [] if octets == again else ["two pages of one capture differ"]
        yield from (f"it has {it!r}" for it in (b"<script", b"src=", b"url(", b"@import", b"http:", b"https:") if it in octets)
        yield from (f"a link leads to {it.get('href')}" for it in root.iter("a") if root.find(f".//*[@id='{it.get('href')[1:]}']") is None)
        yield from (f"a cell over a column has no scope: {words(it)}" for it in root.iter("th") if it.get("scope") not in ("col", "row"))
        yield from ("a table has no caption" for it in root.iter("table") if not words(it.find("caption")))
        yield from ("a picture has no name" for it in root.iter("svg") if it.get("aria-hidden") != "true" and not it.get("aria-label"))
        yield from [] if root.get("lang") == "en" and words(root.find(".//h1")) == "A <b>title</b> & \"more\"" else ["its title or language is another"]
        levels = [int(it.tag[1]) for it in root.iter() if it.tag in ("h1", "h2", "h3")]
        yield from [] if levels[0] == 1 and all(b <= a + 1 for a, b in zip(levels, levels[1:])) else [f"headings go {levels}"]
        with contextlib.suppress(ImportError):
            import html5lib
            html5lib.HTMLParser(strict=True).parse(octets.decode("utf-8"))


class Drawn:
    """The pictures of two bays: each mark at its time on an axis that is 952 wide, from 24 on, and a picture of each burst."""

    name = "the pictures of a page"
    # Seven events in 7.644200 s, two at the times of packets 13 and 51; a silence from 4.704400 to 6.200300 s.
    wanted = {"act": 7, "repeated": 1, "old": 1, "refused": 1, "expired": 1, "lost": 3, "late": 2, "silent": 1, "valid": 3}
    places = {("act", 24), ("act", 210), ("act", 796), ("expired", 647), ("refused", 945)}
    silence = {"x": "609", "width": "187"}
    bursts = ["Events at packets 13 to 27", "Event at packet 51"]

    def why_wrong(self, program):
        octets, said, _, _ = reported(program, (EXAMPLES / "two_bays.pcapng").read_bytes())
        return list(self.why_pictures_wrong(body(octets))) if octets else [said]

    def why_pictures_wrong(self, root):
        _, over, *close = root.iter("figure")
        marks = [it for it in over.iter() if it.get("class") in self.wanted and it.tag != "text"]
        yield from compared("marks", self.wanted, dict(collections.Counter(it.get("class") for it in marks)))
        places = {(it.get("class"), int(re.findall(r"\d+", it.get("transform"))[0])) for it in marks if it.get("transform")}
        yield from [] if self.places <= places else [f"marks are at {sorted(places)}"]
        silent = next((it for it in marks if it.get("class") == "silent"), {})
        yield from compared("silence", self.silence, {name: silent.get(name) for name in self.silence})
        yield from compared("bursts", self.bursts, [words(it.find("figcaption")).partition(".")[0] for it in close])
        ticks = [it.get("d").count("M") for it in over.iter("path") if it.get("class") == "refreshed"]
        yield from [] if len(ticks) == 2 and 10 < sum(ticks) <= 17 else [f"retransmissions: {ticks}"]


class Strange:
    """Texts of a capture that mean something in HTML, or are no text at all, stand on the page as they are, or are replaced."""

    name = "a page of strange texts"

    def why_wrong(self, program):
        named = section(options=option(4, b"a<b>\x01\xff") + bytes(4)) + interface(options=option(2, b"</td>&\x00") + option(3, "\u00dc".encode()) + bytes(4))
        frame = with_fields(gocb_ref=element(0x80, b"<i>&\"'G"), go_id=element(0x83, b"</table>"), members=element(0xAB, element(0x8A, b"<b>\"")))
        octets, said, _, _ = reported(program, named + packet(5, frame) + packet(6, put(SAMPLED, at33=0x3C)))
        if octets is None:
            return [said]
        page = Page(octets)
        got = (page.rows(BLOCKS)[0][0], page.rows(STREAMS)[0][0], page.rows("Interfaces")[0][0], "\"<b>\\\"\"" in page.rows(FIRST)[0][6])
        return [] if got == ("<i>&\"'G", "<", "</td>& (\u00dc)", True) else [f"{got}"]


class Summed:
    """Findings beyond 200 are added up by kind and sender, and none is left out."""

    name = "a page of very many findings"

    def why_wrong(self, program):
        frames = [packet(1000 * at, put(WORKED, at46=1 + at // 120, at49=2 * (at % 60))) for at in range(480)]
        octets = section() + interface() + b"".join(frames)
        page = Page(reported(program, octets)[0])
        wanted = collections.Counter(it["kind"].replace("-", " ") for it in told(program, octets, "losses")[0] if "total" not in it["kind"])
        got = collections.Counter()
        for row in page.rows(FINDINGS) + page.rows("Findings that are not listed one by one"):
            many = re.fullmatch(r"([\d,]+) more, not listed one by one", row[4])
            got[row[3]] += int(many[1].replace(",", "")) if many else 1
        listed = len(page.rows(FINDINGS))
        return list(compared("findings", dict(wanted), dict(got))) + ([] if listed == 200 else [f"listed: {listed}"])


class Browsed:
    """Chromium renders the page: what stands in it is there, and nothing is wider than the window."""

    def __init__(self, what, octets, scd, *asked):
        self.name, self.octets, self.scd, self.asked = f"a page of {what} in a browser", octets, scd, asked

    def why_wrong(self, program):
        browser = chromium()
        octets, said, _, _ = reported(program, self.octets, "--scd", "of.scd", *self.asked, scd=self.scd)
        if octets is None:
            return [said]
        with tempfile.TemporaryDirectory() as folder:
            return list(self.why_rendered_wrong(browser, pathlib.Path(folder), octets))

    def why_rendered_wrong(self, browser, folder, octets):
        (folder / "page.html").write_bytes(octets)
        printed = octets.decode().replace("@media print", "@media all").replace("@media screen and", "@media not all and")
        (folder / "printed.html").write_text(printed)
        pages = [("page.html", width) for width in WINDOWS] + [("printed.html", SHEET)]
        frames = "".join(f'<iframe src="{name}" style="width:{width}px;height:900px;border:0"></iframe>' for name, width in pages)
        (folder / "frames.html").write_text(f"<!DOCTYPE html><body>{frames}<script>{WIDTHS}</script>")
        dumped = self.dump(browser, folder / "page.html", folder)
        inside = lambda text: re.sub(r"\s+", "", re.sub(r"<[^>]*>", "", text.partition("<main>")[2].partition("</main>")[0]).replace("&#x27;", "'")
                                     .replace("&quot;", '"').replace("&nbsp;", "\u00a0"))
        if inside(dumped) != inside(octets.decode()) or not inside(dumped):
            yield f"it shows another text, of {len(inside(dumped))} letters: {dumped[:200]}"
        title = re.search(r"<title>([^<]*)</title>", self.dump(browser, folder / "frames.html", folder))
        widths = [it.split(":") for it in title[1].split(" ")] if title else []
        if len(widths) != len(pages) or any(int(wide) > int(seen) or int(seen) < 300 or int(beyond) for seen, wide, beyond, *_ in widths):
            yield f"it is wider than its window: {title and title[1]}"
        elif any(int(broken) or int(low) for *_, broken, low in widths):
            yield f"a number is on two lines, or a cell is too low: {title[1]}"

    def dump(self, browser, file, folder):
        return browse(browser, folder, "--allow-file-access-from-files", "--virtual-time-budget=4000", "--dump-dom", file.as_uri()).decode()


def chromium():
    """The browser by which pages are looked at."""
    browser = shutil.which("chromium") or shutil.which("chromium-browser")
    if not browser:
        raise Skipped("there is no chromium")
    return browser


def browse(browser, folder, *words):
    """What the browser writes; it keeps its own files in a folder."""
    words = [browser, "--headless=new", "--no-sandbox", "--disable-gpu", f"--user-data-dir={folder}/profile", *words]
    return subprocess.run(words, stdin=subprocess.DEVNULL, stdout=subprocess.PIPE, stderr=subprocess.DEVNULL, timeout=SECONDS).stdout


# ---- What has no page --------------------------------------------------------


class Without:
    """An input or arguments of which no page is written: what is said, and the status. A page that was there stays."""

    def __init__(self, name, asked, said, status, octets=None, scd=""):
        self.name, self.asked, self.said, self.status, self.scd = f"no page: {name}", asked, said, status, scd
        self.octets = (EXAMPLES / "two_frames.pcap").read_bytes() if octets is None else octets

    def why_wrong(self, program):
        with tempfile.TemporaryDirectory() as folder:
            folder = pathlib.Path(folder)
            for name, octets in (("of.pcapng", self.octets), ("of.scd", self.scd.encode()), ("report.html", EARLIER)):
                (folder / name).write_bytes(octets)
            (folder / "folder").mkdir()
            _, said, status = ask(program, "report", self.asked, cwd=folder)
            left = {it.name: it.read_bytes() if it.is_file() else None for it in folder.iterdir()}
        wanted = {"of.pcapng": self.octets, "of.scd": self.scd.encode(), "report.html": EARLIER, "folder": None}
        why = [] if left == wanted else [f"left {sorted(left)}, page {left.get('report.html')!r}"]
        return why + ([] if status == self.status and self.said in said.decode() else [f"ended with status {status}: {said.decode()!r}"])


def program_of(folder, body_of):
    """A program that stands for goose."""
    file = folder / "goose"
    file.write_text(f"#!/bin/sh\ncase $1 in --version) echo goose 1;; *) {body_of};; esac\n")
    file.chmod(0o755)
    return [str(file)]


def heed_interrupts():
    """Has a script see signals also where the tests run in the background of a shell, or under nohup, which ignore them there."""
    for it in (signal.SIGINT, signal.SIGHUP, signal.SIGQUIT):
        signal.signal(it, signal.SIG_DFL)


class Stopped:
    """A report that is ended while goose runs leaves nothing, and goose ends too."""

    def __init__(self, number):
        self.number, self.name = number, f"a report that is ended by {number.name}"

    def why_wrong(self, _program):
        with tempfile.TemporaryDirectory() as folder:
            folder = pathlib.Path(folder)
            goose = program_of(folder, "echo $$ > pid; exec sleep 60")
            started = subprocess.Popen([TOOLS / "report", "-o", "page.html", EXAMPLES / "two_frames.pcap"], cwd=folder, stdin=subprocess.DEVNULL,
                                       stderr=subprocess.PIPE, env={**os.environ, "GOOSE": shlex.join(goose)}, preexec_fn=heed_interrupts)
            until = time.monotonic() + SECONDS / 4
            while not ((folder / "pid").exists() and (folder / "pid").read_text().strip()) and time.monotonic() < until:
                time.sleep(0.02)
            started.send_signal(self.number)
            said = started.communicate(timeout=SECONDS)[1]
            left = sorted(it.name for it in folder.iterdir())
            is_gone = not os.path.exists(f"/proc/{(folder / 'pid').read_text().strip()}")
        got = (left, is_gone, started.returncode, said)
        return [] if got == (["goose", "pid"], True, 128 + self.number, b"") else [f"{got}"]


class Failing:
    """Where goose fails, what it says is said, and there is no page."""

    name = "a report when goose fails"

    def why_wrong(self, _program):
        with tempfile.TemporaryDirectory() as folder:
            folder = pathlib.Path(folder)
            asked = ask(program_of(folder, "echo 'read or write fault' >&2; exit 4"), "report", [EXAMPLES / "two_frames.pcap"], cwd=folder)
            left = sorted(it.name for it in folder.iterdir())
        wanted = (b"", b"report: read or write fault\nreport: goose blocks ended with status 4\n", 4)
        return [] if (asked, left) == (wanted, ["goose"]) else [f"{asked}, left {left}"]


class Placed:
    """A page takes the place of an earlier one with its mode, behind a link too."""

    name = "a page in the place of another"

    def why_wrong(self, program):
        with tempfile.TemporaryDirectory() as folder:
            folder = pathlib.Path(folder)
            (folder / "old.html").write_bytes(EARLIER)
            (folder / "old.html").chmod(0o640)
            (folder / "link.html").symlink_to("old.html")
            _, said, status = ask(program, "report", ["-o", folder / "link.html", EXAMPLES / "two_frames.pcap"])
            got = ((folder / "link.html").is_symlink(), oct((folder / "old.html").stat().st_mode)[-3:], b"<main>" in (folder / "old.html").read_bytes(),
                   sorted(it.name for it in folder.iterdir()))
        return [] if got == (True, "640", True, ["link.html", "old.html"]) else [f"{got}, status {status}: {said!r}"]


class Spared:
    """What is read, and what is no page, is not written over: nothing is touched."""

    # The page, what is asked for beside the capture, what it says and ends with.
    runs = (("of.pcap", (), b"of.pcap is the file of.pcap, which is read", 2), ("of.pcap", ("--force",), b"which is read", 2),
            ("../{here}/of.pcap", (), b"which is read", 2), ("hard.pcap", ("--force",), b"hard.pcap is the file of.pcap, which is read", 2),
            ("soft.pcap", (), b"which is read", 2), ("of.scd", ("--force",), b"of.scd is the file of.scd, which is read", 2),
            ("notes.txt", (), b"notes.txt is there and is no page of tools/report: --force replaces it", 2), ("notes.txt", ("--force",), b"", 6),
            ("empty.html", (), b"", 6), ("page.html", (), b"", 6), ("p" * 250 + ".html", (), b"", 6), ("p" * 250 + ".html", (), b"", 6))
    name = "a page in the place of what is read, or of another file"

    def why_wrong(self, program):
        with tempfile.TemporaryDirectory() as folder:
            folder = pathlib.Path(folder)
            self.fill(folder)
            return [why for run in self.runs for why in self.why_run_wrong(program, folder, *run)]

    def fill(self, folder):
        (folder / "of.pcap").write_bytes((EXAMPLES / "two_frames.pcap").read_bytes())
        (folder / "of.scd").write_text("<SCL/>")
        (folder / "notes.txt").write_text("notes")
        (folder / "empty.html").write_text("")
        (folder / "page.html").write_bytes(EARLIER)
        (folder / "hard.pcap").hardlink_to(folder / "of.pcap")
        (folder / "soft.pcap").symlink_to("of.pcap")

    def why_run_wrong(self, program, folder, page, asked, part, wanted):
        page = page.format(here=folder.name)
        before = {it.name: it.read_bytes() for it in folder.iterdir()}
        scd = ["--scd", "of.scd"] if page == "of.scd" else []
        _, said, status = ask(program, "report", [*scd, *asked, "-o", page, "of.pcap"], cwd=folder)
        after = {it.name: it.read_bytes() for it in folder.iterdir()}
        is_page = status == 6 and b"<main>" in after.pop(page, b"")
        before.pop(page if status == 6 else "", None)
        if status != wanted or part not in said or before != after or is_page != (wanted == 6):
            yield f"-o {page} {asked}: status {status}, {said!r}, there is {sorted(after)}"


class Changed:
    """A capture that changes while it is read, and keeps its size, has no page."""

    def __init__(self, command):
        self.command, self.name = command, f"a capture of the same size that changes before {command}"

    def why_wrong(self, program):
        with tempfile.TemporaryDirectory() as folder:
            folder = pathlib.Path(folder)
            octets = (EXAMPLES / "two_frames.pcap").read_bytes()
            (folder / "of.pcap").write_bytes(octets)
            (folder / "other.pcap").write_bytes(octets[:-1] + bytes([octets[-1] ^ 1]))
            goose = folder / "goose"
            goose.write_text(f"#!/bin/sh\n[ $1 = {self.command} ] && cat other.pcap > of.pcap\nexec {shlex.join(program)} \"$@\"\n")
            goose.chmod(0o755)
            _, said, status = ask([str(goose)], "report", ["of.pcap"], cwd=folder)
            left = sorted(it.name for it in folder.iterdir())
        is_well = status == 3 and b"of.pcap has changed while it was read" in said and left == ["goose", "of.pcap", "other.pcap"]
        return [] if is_well else [f"status {status}: {said!r}, left {left}"]


class FarInterface:
    """An interface behind blocks of over 1 MiB, and one that is such a block, are told."""

    name = "interfaces behind blocks of over 1 MiB"

    def why_wrong(self, program):
        long = b"".join(option(1, bytes([65 + at]) * 65532) for at in range(20))
        parts = [section(options=long + bytes(4)), interface(options=option(2, b"first") + long + bytes(4)),
                 interface(options=long + option(2, b"lost") + bytes(4)), interface(options=option(2, b"third") + bytes(4))]
        octets, said, _, _ = reported(program, b"".join(parts) + b"".join(packet(at, WORKED, which=at) for at in range(3)))
        wanted = [["first (what its block says after 1 MiB is not read)", "1", "1"],
                  ["interface 1 (what its block says after 1 MiB is not read)", "1", "2"], ["third", "1", "3"]]
        got = [[row[0], row[2], row[3]] for row in Page(octets).rows("Interfaces")] if octets else said
        return list(compared("interfaces", wanted, got))


class Escaped:
    """Texts of a file that would change how a terminal or a page shows others are told by the numbers of their characters."""

    name = "a page of texts that do not print"

    def why_wrong(self, program):
        scd = (EXAMPLES / "station.scd").read_text().replace('name="gcbSpare"', 'name="gcb\u202eSp\x9bare"')
        bays = (EXAMPLES / "two_bays.pcapng").read_bytes()
        octets, said, _, _ = reported(program, bays, "--scd", "of.scd", scd=scd)
        shown = words(body(octets)) if octets else said
        why = [] if r"gcb\u202eSp\x9bare" in shown and not {"\u202e", "\x9b"} & set(shown) else [f"the page does not show the name: {shown[:300]}"]
        _, said, status = reported(program, bays, "--scd", "of.scd", "--ied", "X\u202e\x1b", scd=scd)[:3]
        return why + ([] if status == 2 and r"there is no IED X\u202e\x1b in" in said and said.isascii() else [f"status {status}: {said!r}"])


class Unsendable:
    """A block of an SCL file that no BLOCK can say is named on the page of a device that receives it, and the others are replayed."""

    name = "a page for a device that receives a block of a confRev that is too great"

    def why_wrong(self, program):
        scd = (EXAMPLES / "station.scd").read_text()
        for stated, revision in (('confRev="1" appID="BAY1_Trip" type="GOOSE"/>', 9999999999), ('confRev="1" appID="BAY2_Start"/>', 1)):
            scd = scd.replace(stated, f'{stated[:-2].replace("1", str(revision), 1)}><IEDName>BRK1</IEDName></GSEControl>')
        octets, said, status, _ = reported(program, (EXAMPLES / "two_bays.pcapng").read_bytes(), "--scd", "of.scd", "--ied", "BRK1", scd=scd)
        shown = words(body(octets)) if octets else ""
        is_told = "gcbTrip: '9999999999' is no number of a BLOCK" in shown or "gcbTrip (line 43 of the SCL file)" in shown
        is_replayed = re.search(r"replay .* -- \S*3002,BAY2PROT/LLN0\$GO\$gcbStart,\S+ <", shown)
        return [] if is_told and is_replayed and status == 1 else [f"status {status}: {said!r}, page of {len(shown)} letters"]


class Watched:
    """On a terminal a line tells what is being done, at which packet and second, and is taken away; elsewhere nothing is told."""

    name = "the progress of a report"

    def why_wrong(self, program):
        here, there = pty.openpty()
        with tempfile.TemporaryDirectory() as folder:
            ran = subprocess.run([TOOLS / "report", "-o", pathlib.Path(folder) / "page.html", EXAMPLES / "two_bays.pcapng"], stdin=subprocess.DEVNULL,
                                 stdout=subprocess.PIPE, stderr=there, timeout=SECONDS, env={**os.environ, "GOOSE": shlex.join(program)})
        os.close(there)
        shown = b""
        with contextlib.suppress(OSError):
            while piece := os.read(here, 65536):
                shown += piece
        os.close(here)
        is_well = re.search(rb"\r\x1b\[K[a-z ]+: packet [\d,]+( of [\d,]+)?, \d+ s", shown) and shown.endswith(b"\r\x1b[K") and b"\n" not in shown
        return [] if is_well and not ran.stdout else [f"{shown[:400]!r}, {ran.stdout!r}"]


# ---- Speed -------------------------------------------------------------------


def long_capture():
    """The made station again and again."""
    once = made_station.packets()
    rounds = range(PACKETS // len(once) + 1)
    octets = [record(moment // 10**6 + 11 * at, moment % 10**6, frame) for at in rounds for moment, frame in once]
    return header() + b"".join(octets[:PACKETS])


class Fast:
    """A page of 500,000 packets takes little processor time and memory beside the program: the time by what reading the lines of goose show takes
    before it and after it."""

    name = "a page of 500,000 packets"

    def why_wrong(self, program):
        binary(program)
        with tempfile.TemporaryDirectory() as folder:
            folder = pathlib.Path(folder)
            (folder / "long.pcap").write_bytes(long_capture())
            own, lines = self.seconds_of(program, folder / "long.pcap"), self.some_lines(program, folder / "long.pcap")
            before = self.reading(lines)
            spent, peak, status = self.measured(program, folder)
            reading = (before + self.reading(lines)) / 2
        told = f"it takes {spent - own:.1f} s beside the program's {own:.1f} s, and reading its lines as JSON {reading:.1f} s"
        why = [] if spent - own <= MOST_READINGS * reading else [told]
        why += [] if peak <= MOST_MEMORY else [f"it takes {peak} kB"]
        return why + ([] if status == 1 else [f"ended with status {status}"])

    def some_lines(self, program, capture):
        """Some lines of goose show, from the first to the last packet."""
        with open(capture, "rb") as given, subprocess.Popen([*program, "show", *OPTIONS], stdin=given, stdout=subprocess.PIPE,
                                                            stderr=subprocess.DEVNULL) as shown:
            return list(itertools.islice(shown.stdout, 0, None, READ))

    def reading(self, lines):
        """The processor time for all lines of which these are some."""
        before = time.process_time()
        for line in lines:
            json.loads(line)
        return (time.process_time() - before) * READ

    def seconds_of(self, program, capture):
        """The processor time of the program's own runs."""
        octets = capture.read_bytes()
        blocks = [it["text"] for it in told(program, octets, "blocks")[0] if it["kind"] == "block"]
        before = resource.getrusage(resource.RUSAGE_CHILDREN)
        for asked in (["blocks"], ["show"], ["check"], ["losses", "--period", "100"], ["replay", "--", *blocks]):
            with open(capture, "rb") as given:
                subprocess.run([*program, asked[0], *OPTIONS, *asked[1:]], stdin=given, stdout=subprocess.DEVNULL, stderr=subprocess.DEVNULL, timeout=SECONDS)
        after = resource.getrusage(resource.RUSAGE_CHILDREN)
        return after.ru_utime + after.ru_stime - before.ru_utime - before.ru_stime

    def measured(self, program, folder):
        """The processor time of a report and of the program that it runs, its own peak of memory in kilobytes, and its status."""
        started = subprocess.Popen([TOOLS / "report", "--period", "100", "-o", folder / "page.html", folder / "long.pcap"], stdin=subprocess.DEVNULL,
                                   env={**os.environ, "GOOSE": shlex.join(program)})
        peak, ended = 0, (0, 0, None)
        while not ended[0]:
            said = pathlib.Path(f"/proc/{started.pid}/status").read_text(encoding="ascii", errors="replace")
            peak = max([peak] + [int(line.split()[1]) for line in said.splitlines() if line.startswith("VmHWM")])
            time.sleep(0.02)
            ended = os.wait4(started.pid, os.WNOHANG)
        started.returncode = os.WEXITSTATUS(ended[1])
        return ended[2].ru_utime + ended[2].ru_stime, peak, started.returncode


def without():
    capture = "of.pcapng"
    yield Without("no capture", [capture], "of.pcapng is no capture that can be read: CaptureHeader", 3, b"V2\nC 0\n")
    yield Without("an empty file", [capture], "CaptureShort", 3, b"")
    yield Without("no file", ["nothing.pcap"], "nothing.pcap: No such file or directory", 4)
    yield Without("a folder for a capture", ["folder"], "folder is no file: a capture is read more than once", 3)
    yield Without("an SCL file that is none", ["--scd", "of.scd", capture], "of.scd: ", 3, scd="SCL")
    yield Without("an SCL file that is not there", ["--scd", "nothing.scd", capture], "nothing.scd: No such file or directory", 4)
    yield Without("no such IED", ["--scd", "of.scd", "--ied", "P99", capture], "there is no IED P99 in of.scd: there are P01", 2, scd=made_station.scd())
    yield Without("an IED without an SCL file", ["--ied", "P01", capture], "--ied needs --scd", 2)
    yield Without("a period of one sample", ["--period", "1", capture], "--period is from 2 to 65536", 2)
    yield Without("a folder that is not there", ["-o", "nowhere/page.html", capture], "No such file or directory", 4)
    yield Without("a folder for a page", ["-o", "folder", capture], "folder is no file that a page could be put in place of", 4)
    yield Without("no capture among the arguments", [], "usage: report", 2)


def cases():
    bays, station = (EXAMPLES / "two_bays.pcapng").read_bytes(), made_station.capture()
    yield Told("two bays", bays, status=1)
    yield Told("two bays and their configuration", bays, "--scd", "of.scd", scd=(EXAMPLES / "station.scd").read_text(), status=1,
               said="line 73: BREAKER1/LLN0$GO$gcbSpare is not compared: it has no GSE address with an APPID")
    yield Told("a station with every kind of finding", station, "--scd", "of.scd", "--period", "100", scd=made_station.scd(), status=1)
    own = [f"{0x3000 + at:04x},P{at:02}LD0/LLN0$GO$gcb1,P{at:02}LD0/LLN0$ds1,P{at:02},1,2" for at in (1, 2, 7, 10)]
    yield Told("what one device of a station receives", station, "--scd", "of.scd", "--ied", "SUB", scd=made_station.scd(), blocks=own, status=1,
               said="Told of SUB, which receives 4 control blocks by of.scd.")
    yield Told("a classic capture", (EXAMPLES / "two_frames.pcap").read_bytes(), status=6, said="the recorder cut 1 packet, from packet 2 on")
    both = [with_asdus(asdu(), asdu(sv_id=element(0x80, b"T")), asdu(), count=b"\3"), with_asdus(asdu(sv_id=element(0x80, b"T")))]
    yield Told("frames of two streams", section() + interface() + packet(3, both[0]) + packet(9, both[1]), status=6)
    linked = section() + interface() + interface(link=113) + packet(3, WORKED) + packet(4, WORKED, which=1) + packet(5, put(WORKED, at13=0))
    yield Told("packets that are no Ethernet frames", linked, status=6, said="1 GOOSE frame; 1 of another protocol; 1 no Ethernet frame")
    yield Told("no packet", section() + interface(), status=6, said="There is nothing to draw in no packets.")
    yield Told("other protocols alone", section() + interface() + packet(9, put(WORKED, at13=0)), status=6,
               said="no frame of GOOSE or Sampled Values is in packet 1.")
    segments = section() + interface() + packet(3, WORKED) + packet(4, put(WORKED, at12=8, at13=0) + bytes(3000))
    yield Told("segments of another protocol that a network card put together", segments, status=0, said="1 GOOSE frame; 1 of another protocol")
    yield Broken("a capture that is cut", bays[:5000], status=3, said="CaptureShort")
    wrong = section() + interface() + packet(5, WORKED) + block(6, bytes(20), after=0)
    yield Broken("a capture with an error", wrong, status=3, said="BlockLength")
    yield Alone()
    yield Drawn()
    yield Strange()
    yield Summed()
    yield Browsed("two bays", bays, (EXAMPLES / "station.scd").read_text())
    yield Browsed("a station with every kind of finding", station, made_station.scd(), "--period", "100")
    yield Browsed("a fault", (EXAMPLES / "fault.pcapng").read_bytes(), (EXAMPLES / "fault.scd").read_text())
    yield from without()
    yield Stopped(signal.SIGTERM)
    yield Stopped(signal.SIGINT)
    yield Stopped(signal.SIGHUP)
    yield Stopped(signal.SIGQUIT)
    yield Failing()
    yield Placed()
    yield Spared()
    yield Unsendable()
    yield Changed("show")
    yield Changed("losses")
    yield FarInterface()
    yield Escaped()
    yield Watched()
    yield Fast()
