"""The page of a compressed capture, of standard input, of several captures in a row, and of one with comments; local times."""
import gzip
import hashlib
import os
import pathlib
import shlex
import struct
import subprocess
import tempfile
import zoneinfo

from helpers import trip_station
from helpers.asked_tools import TOOLS, ask
from helpers.capture_parts import block, header, interface, old_packet, packet, record, section, simple_packet
from helpers.harness import SECONDS, Skipped
from helpers.trip_station import FAULT, capture, frames
from themes.report import EVENTS, Page, reported, words

SENT = frames(*FAULT)


def classic(sent):
    return header() + b"".join(record(moment // 10**6, moment % 10**6, octets) for moment, octets in sent)


class Input:
    """Files whose page tells the same events as that of one capture of all their packets."""

    def __init__(self, name, files, given=b"", said=(), status=0):
        self.name, self.files, self.given, self.said, self.status = f"a page of {name}", files, given, said, status

    def why_wrong(self, program):
        wanted = Page(reported(program, capture(SENT))[0])
        with tempfile.TemporaryDirectory() as folder:
            folder = pathlib.Path(folder)
            for name, octets in self.files.items():
                (folder / name).write_bytes(octets)
            _, said, status = ask(program, "report", list(self.files) or ["-"], self.given, cwd=folder)
            left = sorted(it.name for it in folder.iterdir() if it.name not in self.files)
            page = Page((folder / "report.html").read_bytes()) if "report.html" in left else None
        if page is None or left != ["report.html"] or status != self.status:
            return [f"ended with status {status}, left {left}: {said.decode()}"]
        told = words(page.root.find(".//main"))
        why = [f"it lacks {it!r}" for it in self.said if it not in told]
        why += list(self.why_page_wrong(page))
        return why + ([] if page.rows(EVENTS) == wanted.rows(EVENTS) else [f"other events: {page.rows(EVENTS)}"])

    def why_page_wrong(self, _page):
        return ()


class Files(Input):
    """Several captures whose page also says how large each of them is, how many packets it has, which is the first of these, and its SHA-256."""

    def __init__(self, name, files, packets, **how):
        super().__init__(name, files, **how)
        self.packets = packets

    def why_page_wrong(self, page):
        sizes = [(name, len(octets), hashlib.sha256(octets).hexdigest()) for name, octets in self.files.items()]
        wanted = [[name, f"{size:,}", f"{number}", f"{sum(self.packets[:at]) + 1}", digest]
                  for at, ((name, size, digest), number) in enumerate(zip(sizes, self.packets))]
        got = [[row[0].removesuffix(" breaks off"), *row[1:]] for row in page.rows("Files, whose packets are numbered one after another")]
        yield from [] if got == wanted else [f"the files are {got}"]


class Refused:
    """Input of which there is no page."""

    def __init__(self, name, files, asked, said, status):
        self.name, self.files, self.asked, self.said, self.status = f"no page: {name}", files, asked, said, status

    def why_wrong(self, program):
        with tempfile.TemporaryDirectory() as folder:
            folder = pathlib.Path(folder)
            for name, octets in self.files.items():
                (folder / name).write_bytes(octets)
            _, said, status = ask(program, "report", self.asked, cwd=folder)
            left = sorted(it.name for it in folder.iterdir())
        is_well = status == self.status and self.said in said.decode() and left == sorted(self.files)
        return [] if is_well else [f"ended with status {status}, left {left}: {said.decode()}"]


class Commented:
    """Comments of packets stand among the events at their times, those of the capture with what was recorded; local times beside UTC."""

    name = "a page of comments and local times"

    def why_wrong(self, program):
        if "Europe/Berlin" not in zoneinfo.available_timezones():
            raise Skipped("there are no time zones")
        octets, said, status, _ = reported(program, capture(SENT, {0: "Test of <bay> 1", 27: "relay & breaker"}), "--zone", "Europe/Berlin")
        return list(self.why_page_wrong(Page(octets))) if octets else [f"status {status}: {said}"]

    def why_page_wrong(self, page):
        rows = page.rows(EVENTS)
        at = next((at for at, row in enumerate(rows) if row[6] == "comment: relay & breaker"), None)
        if at is None or rows[at][:2] != ["22:13:23.018400 23:13:23.018400 CET", "27"] or rows[at + 1][1] != "27":
            yield f"the events are {rows}"
        facts = dict(page.rows("The capture"))
        if facts.get("Comment") != "Test of <bay> 1":
            yield f"the capture's comment: {facts}"


class LastDay:
    """The last day of dates has no local time east of UTC."""

    name = "a page of the last day of the year 9999, and a time zone"

    def why_wrong(self, program):
        if "Europe/Berlin" not in zoneinfo.available_timezones():
            raise Skipped("there are no time zones")
        octets, said, _, _ = reported(program, capture([(253402300799 * 10**6, SENT[0][1])]), "--zone", "Europe/Berlin")
        return [] if octets and "9999-12-31 23:59:59.000000" in words(Page(octets).root) else [said]


class Piped:
    """A pipe that ends is read whole, and nothing is left where copies are put."""

    name = "a page of a pipe, whose copy is gone"

    def why_wrong(self, program):
        with tempfile.TemporaryDirectory() as folder:
            (pathlib.Path(folder) / "copies").mkdir()
            octets = gzip.compress(capture(SENT))
            ran = subprocess.run([TOOLS / "report", "-o", "page.html", "-"], input=octets, stdout=subprocess.PIPE, stderr=subprocess.PIPE, cwd=folder,
                                 timeout=SECONDS, env={"PATH": "/usr/bin:/bin", **environment(program), "TMPDIR": f"{folder}/copies"})
            left = sorted(str(it.relative_to(folder)) for it in pathlib.Path(folder).rglob("*"))
        return [] if (ran.returncode, ran.stderr, left) == (0, b"", ["copies", "page.html"]) else [f"{ran!r}, left {left}"]


def environment(program):
    return {**os.environ, "GOOSE": shlex.join(program)}


def cut(octets):
    return octets[:-7]


def several(first, second):
    """Captures of other forms one after another: each is read as it would be alone."""
    half, end = len(SENT) // 2, SENT[-1][0]
    head, other = SENT[:half], b"\xff" * 6 + bytes([2, 0, 0, 0, 0, 9, 8, 6]) + bytes(46)
    old = section() + interface() + b"".join(old_packet(at, octets) for at, octets in head)
    yield Files("captures of old packets and of others", {"of_1.pcapng": old, "of_2.pcapng": second}, [half, len(SENT) - half])
    plain = section() + interface() + packet(end, other) + simple_packet(other)
    yield Files("captures of which the last has a packet without a time", {"of_1.pcapng": first, "of_2.pcapng": second, "of_3.pcapng": plain},
                [half, len(SENT) - half, 2], status=6, said=[f"1 packet has no time, from packet {len(SENT) + 2} on"])
    fine = header(magic=0xA1B23C4D) + b"".join(record(at // 10**6, at % 10**6 * 1000, octets) for at, octets in head)
    yield Files("a classic capture in nanoseconds, and another", {"of_1.pcap": fine, "of_2.pcapng": second}, [half, len(SENT) - half])
    big = section("big") + interface("big") + b"".join(packet(at, octets, "big") for at, octets in head)
    yield Files("a capture of the other order, and another", {"of_1.pcapng": big, "of_2.pcapng": second}, [half, len(SENT) - half])
    turned = header("big") + b"".join(record(*divmod(at, 10**6), octets, "big") for at, octets in head)
    yield Files("a classic capture of the other order, and another", {"of_1.pcap": turned, "of_2.pcapng": second}, [half, len(SENT) - half])
    cooked = header(link=113) + record(*divmod(end, 10**6), other)
    yield Files("a classic capture of another link type behind others", {"of_1.pcapng": first, "of_2.pcapng": second, "of_3.pcap": cooked},
                [half, len(SENT) - half, 1], status=6, said=[f"1 packet of Linux cooked (LINUX_SLL), from packet {len(SENT) + 1} on"])
    short = header() + b"".join(it.to_bytes(4, "little") for it in (*divmod(end, 10**6), len(other), 90)) + other
    yield Files("a classic capture with a packet that is cut behind others", {"of_1.pcapng": first, "of_2.pcapng": second, "of_3.pcap": short},
                [half, len(SENT) - half, 1], status=6, said=[f"the recorder cut 1 packet, from packet {len(SENT) + 1} on"])
    broken = first + block(6, b"", total=13) + bytes(3_000_000)
    yield Files("a capture that is damaged, and another", {"of_1.pcapng": broken, "of_2.pcapng": second}, [half, len(SENT) - half], status=1,
                said=[f"of_1.pcapng breaks off after its packet {half} (packet {half} here)"])


def cases():
    whole, half = capture(SENT), len(SENT) // 2
    first, second = capture(SENT[:half]), capture(SENT[half:])
    files = "Files, whose packets are numbered one after another"
    yield Input("a compressed capture", {"of.pcapng.gz": gzip.compress(whole)}, said=[f"{len(whole):,} uncompressed", "zcat of.pcapng.gz | goose blocks"])
    yield Input("standard input", {}, whole, said=["standard input"])
    yield Input("two captures in a row", {"of_1.pcapng": first, "of_2.pcapng": second}, said=[files, "mergecap -a -w - of_1.pcapng of_2.pcapng | goose blocks"])
    yield Input("a classic capture, and a compressed one of pcapng", {"of_1.pcap": classic(SENT[:half]), "of_2.gz": gzip.compress(second)}, said=[files])
    yield Input("two captures, the first of which is cut", {"of_1.pcapng": cut(capture(SENT[:half + 1])), "of_2.pcapng": second}, status=1,
                said=[f"of_1.pcapng breaks off after its packet {half} (packet {half} here)"])
    yield from several(first, second)
    yield Refused("a compressed capture that is cut", {"of.gz": cut(gzip.compress(whole))}, ["of.gz"], "of.gz cannot be uncompressed", 3)
    yield Refused("two files, one of which is none", {"of_1.pcapng": first, "of_2": struct.pack("<I", 1) * 10}, ["of_1.pcapng", "of_2"],
                  "of_2 is no capture that can be read", 3)
    yield Refused("a time zone that there is not", {"of.pcapng": whole}, ["--zone", "Europe/Nowhere", "of.pcapng"], "there is no time zone Europe/Nowhere", 2)
    yield Refused("a time zone without a name", {"of.pcapng": whole}, ["--zone", "", "of.pcapng"], "there is no time zone '' here", 2)
    yield Refused("standard input twice", {}, ["-", "-"], "standard input can be read once", 2)
    begun = header() + record(1, 1, SENT[0][1])[:-3]
    yield Input("a capture that is cut in its first packet, and a whole one", {"of_1.pcap": begun, "of_2.pcapng": whole}, status=1,
                said=["of_1.pcap breaks off before its first packet"])
    yield from (Commented(), Piped(), LastDay())


assert len(SENT) == 2 * len(FAULT) + 8 * len(trip_station.BLOCKS)
