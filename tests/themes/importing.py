"""Captures: worked ones, captures by chance beside a slow reader, and one that other tools wrote and read."""
import pathlib
import random
import re
import shutil
import subprocess
import tempfile

from helpers.capture_parts import header, record
from helpers.frames import SAMPLED, WORKED
from helpers.harness import SECONDS, Case, Skipped, first_difference, run, text
from oracles import captures, subscriber
from oracles.captures import NANOSECONDS
from themes.replaying import BLOCK, state

SEED = 1997


class Imports(Case):
    """A capture of which the program writes what the slow reader writes."""

    def __init__(self, name, octets):
        lines, status = captures.imported(octets)
        super().__init__(name, ["import"], octets, text(lines), status)


class Judged:
    """A capture that `text2pcap` wrote: the program and `tshark` tell of it the same moments, status numbers and
    sequence numbers, and the entries of a replay are those of the slow subscriber."""

    name = "a capture that another tool wrote"

    def why_wrong(self, program):
        tools = {name: shutil.which(name) for name in ("text2pcap", "tshark")}
        if not all(tools.values()):
            raise Skipped("there is no text2pcap or no tshark: run tests/get_tools")
        chance = random.Random(SEED)
        moments = sorted(chance.randrange(10**9, 2 * 10**9) for _ in range(300))
        frames = [state(chance.randrange(1, 9), chance.randrange(9)) if chance.random() < 0.7 else SAMPLED for _ in moments]
        dump = "".join(f"{moment // 10**6}.{moment % 10**6:06}\n000000 {frame.hex(' ')}\n" for moment, frame in zip(moments, frames))
        with tempfile.TemporaryDirectory() as folder:
            file = pathlib.Path(folder) / "recorded.pcap"
            made = subprocess.run([tools["text2pcap"], "-q", "-F", "pcap", "-t", "%s.%f", "-", file], input=dump.encode(),
                                  stdout=subprocess.PIPE, stderr=subprocess.STDOUT, timeout=SECONDS)
            if made.returncode:
                return [f"text2pcap: {made.stdout!r}"]
            octets = file.read_bytes()
            told = subprocess.run([tools["tshark"], "-r", file, "-T", "fields", "-e", "frame.time_epoch", "-e", "goose.stNum",
                                   "-e", "goose.sqNum"], stdout=subprocess.PIPE, stderr=subprocess.DEVNULL, timeout=SECONDS)
        wanted = text(["V2"] + [f"F {moment} {frame.hex()}" for moment, frame in zip(moments, frames)])
        listed, complained, status = run(program, ["import"], octets)
        why = [difference] if (difference := first_difference(wanted, listed)) else []
        why += [f"ended with status {status}: {complained!r}"] if status else []
        shown = run(program, ["show"], listed)[0].decode("latin-1").splitlines()
        numbers = [re.search(r" st=(\d+) sq=(\d+) ", line) if " goose " in line else None for line in shown]
        ours = [(moment / 10**6, *(found.groups() if found else ("", ""))) for moment, found in zip(moments, numbers)]
        theirs = [line.split("\t") for line in told.stdout.decode().splitlines()]
        theirs = [(float(moment), st, sq) for moment, st, sq in theirs]
        why += [f"tshark ended with status {told.returncode}"] if told.returncode else []
        why += [f"tshark tells of {len(theirs)} packets, and not of {len(ours)}"] if len(theirs) != len(ours) else []
        why += [f"tshark says {b}, and not {a}" for a, b in zip(ours, theirs) if a != b][:3]
        lines, _ = subscriber.replay(listed, [BLOCK])
        replayed = run(program, ["replay", BLOCK], listed)[0]
        return why + ([difference] if (difference := first_difference(text(lines), replayed)) else [])


def by_chance_made(chance):
    """A capture with records of many sizes, and mostly with a fault somewhere."""
    order, magic = chance.choice(["big", "little"]), chance.choice([captures.MICROSECONDS, NANOSECONDS])
    octets = header(order, magic, link=chance.choice([1, 1, 1, 1, 0x10001, 2]))
    for _ in range(chance.randrange(8)):
        size = chance.choice([0, 1, 60, 1999, 2000, 2001, 5000])
        octets += record(chance.choice([0, 1, 2**32 - 1]), chance.choice([0, 999, 1000, 999999999, 2**32 - 1]),
                         bytes(chance.choices(range(256), k=size)), order)
    if chance.random() < 0.2:
        octets += record(0, 0, b"", order, chance.choice([262144, 262145, 2**32 - 1]))
    return octets[:chance.randrange(len(octets) + 1)] if chance.random() < 0.5 else octets


def cases():
    for order in ("big", "little"):
        for magic, fraction in ((captures.MICROSECONDS, 7), (NANOSECONDS, 7999)):
            octets = header(order, magic) + record(1, fraction, WORKED, order) + record(2**32 - 1, 2**32 - 1, SAMPLED, order)
            yield Imports(f"{order} endian, magic {magic:08x}", octets)
            for size in range(len(header()) + 20):
                yield Imports(f"{order} endian, magic {magic:08x}, cut to {size}", octets[:size])
    yield Imports("another version", header(version=(2, 3)))
    yield Imports("another link type", header(link=2))
    yield Imports("a link type with high bits", header(link=0x70000001) + record(0, 0, WORKED))
    yield Imports("no capture", b"V2\n" * 10)
    for size in (0, 1, 2000, 2001, 262144):
        yield Imports(f"a record of {size} octets", header() + record(5, 6, b"\x5a" * size) + record(7, 8, WORKED))
        yield Imports(f"a record of {size} octets that is cut", header() + record(5, 6, b"\x5a" * size)[:-1])
    for captured in (262145, 2**32 - 1):
        yield Imports(f"a record that says {captured} octets", header() + record(5, 6, b"", captured=captured))
    whole = header() + record(0, 0, b"\0") * captures.MOST_RECORDS
    yield Imports("999,999 records", whole)
    yield Imports("the first octet of one record more", whole + b"\0")
    chance = random.Random(SEED)
    for at in range(200):
        yield Imports(f"a capture by chance, {at}", by_chance_made(chance))
    yield Judged()
