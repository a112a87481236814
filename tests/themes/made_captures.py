"""Captures that are made here: examples/two_bays.pcapng has the frames of two_bays.list, and both forms of what
bench/make_capture writes have the same packets, which tshark tells too."""
import re
import shutil
import subprocess

from helpers import two_bays
from helpers.asked_tools import EXAMPLES, TOP
from helpers.harness import SECONDS, Skipped, run
from oracles.packets import packets

MAKER = TOP / "bench" / "make_capture"
PACKETS, SEED = 400, "7"


def told_by_tshark(octets):
    """The moment in microseconds and the size of each packet."""
    if not shutil.which("tshark"):
        raise Skipped("there is no tshark: run tests/get_tools")
    words = ["tshark", "-n", "-r", "-", "-T", "fields", "-e", "frame.time_epoch", "-e", "frame.len"]
    ran = subprocess.run(words, input=octets, stdout=subprocess.PIPE, stderr=subprocess.DEVNULL, timeout=SECONDS)
    rows = (line.split() for line in ran.stdout.decode().splitlines())
    return [(int(time.replace(".", "")) // 1000, int(size)) for time, size in rows]


def why_tshark_differs(octets):
    ours = [(moment, len(packet)) for _, moment, packet in packets(octets)[0]]
    theirs = told_by_tshark(octets)
    why = [f"tshark tells of {len(theirs)} packets, and not of {len(ours)}"] if len(theirs) != len(ours) else []
    return why + [f"tshark says {b}, and not {a}" for a, b in zip(ours, theirs) if a != b][:3]


class TwoBays:
    """The example is what its maker writes, and has each frame of the list at its microsecond, in order."""

    name = "examples/two_bays.pcapng"

    def why_wrong(self, _program):
        octets = (EXAMPLES / "two_bays.pcapng").read_bytes()
        why = [] if octets == two_bays.capture() else ["tests/helpers/two_bays.py writes another capture"]
        found, fault = packets(octets)
        why += [f"it stops by {fault}"] if fault else []
        recorded = [(moment // 1000, frame) for _, moment, frame in two_bays.frames()]
        kept = [(moment, frame) for _, moment, frame in found if (moment, frame) in recorded]
        why += [] if kept == recorded else ["its frames are not those of the list"]
        return why + why_tshark_differs(octets)


class Made:
    """Both forms have the same packets. Of the classic one `import` writes a list of frames without an error, and of packets of
    other protocols."""

    def __init__(self, traffic, what=""):
        self.name, self.traffic = f"bench/make_capture: {traffic}{what}", traffic

    def made(self, form, seed=SEED):
        ran = subprocess.run([MAKER, form, self.traffic, str(PACKETS), seed], stdout=subprocess.PIPE, timeout=SECONDS, check=True)
        return ran.stdout

    def why_wrong(self, program):
        classic, pcapng = self.made("classic"), self.made("pcapng")
        (ours, fault), others = packets(pcapng), packets(classic)
        alike = (ours, fault) == others and len(ours) == PACKETS and not fault
        why = [] if alike else [f"other packets, or a fault: {fault}, {others[1]}"]
        why += [] if self.made("pcapng") == pcapng != self.made("pcapng", "8") else ["the seed does not settle the octets"]
        shown = run(program, ["show"], run(program, ["import"], classic)[0])[0].decode("ascii").splitlines()
        kinds = {line.split(" ", 1)[1] if " fault " in line else line.split(" ")[1] for line in shown}
        wanted = {"sv" if self.traffic == "samples" else "goose", "fault 12 EtherType"}
        why += [] if kinds == wanted and len(shown) == PACKETS else [f"{len(shown)} lines of {sorted(kinds)}"]
        if self.traffic == "events":
            told = [re.search(r" ref=(\S+) .* st=(\d+) ", line).groups() for line in shown if " goose " in line]
            why += [] if len(set(told)) == len(told) else ["a frame repeats the state of another"]
        return why + why_tshark_differs(pcapng) + why_tshark_differs(classic)


class Acts(Made):
    """The bays' control blocks are those that the maker names: a replay acts on them, and refuses no frame."""

    def why_wrong(self, program):
        words = [MAKER, "classic", "goose", "0", SEED, "--blocks"]
        blocks = subprocess.run(words, stdout=subprocess.PIPE, timeout=SECONDS).stdout.decode().split()
        listed, _, _ = run(program, ["import"], self.made("classic"))
        wrote, _, status = run(program, ["replay", *blocks], listed)
        entries = [line.split()[1] for line in wrote.decode("ascii").splitlines()]
        why = [] if status == 0 and "act" in entries else [f"status {status}: {sorted(set(entries))}"]
        return why + [f"a frame is {it}" for it in ("refused", "not-subscribed") if it in entries]


def cases():
    yield TwoBays()
    for traffic in ("goose", "events", "samples"):
        yield Made(traffic)
    yield Acts("goose", ", replayed")
