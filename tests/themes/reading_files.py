"""Files that are read by their names, with -r: what the program writes of a file, of whatever kind, is what the slow programs write of
its events, of which those of other protocols are passed over and frames are unwrapped, unless --raw stands there. And what can go wrong."""
import os
import pathlib
import random
import subprocess
import tempfile

from helpers.capture_parts import header, interface, packet, record, section
from helpers.captured import ASKED, asking, why_differs
from helpers.frames import SAMPLED, WORKED, put
from helpers.harness import SECONDS, Case, listed, run
from oracles import reading
from themes.replaying import line, state
from themes.skipping import other
from themes.unwrapping import OUTER, RING, TAG, wrapped

SEED = 1202
MAGICS = [bytes.fromhex(it) for it in ("a1b2c3d4", "d4c3b2a1", "a1b23c4d", "4d3cb2a1", "0a0d0d0a")]
SPELLINGS = [["-r", "{}"], ["-r{}"], ["-r={}"], ["--read", "{}"], ["--read={}"]]


def meant(asked, octets):
    """What a command line that reads these octets by a name asks for, in the words of the options that it stands for."""
    options = {"--capture"} if octets[:4] in MAGICS else set()
    options |= set() if "--raw" in asked else {"--skip-other", "--unwrap"}
    rest = [word for word in asked if word not in ("--raw", *options)]
    return [rest[0], *sorted(options), *rest[1:]]


class ByName:
    """A file of which the program writes what the slow programs write, under each command, by each spelling of the option in turn."""

    def __init__(self, name, octets, *options):
        self.name, self.octets, self.options = f"by its name: {name}, {options}", octets, options

    def why_wrong(self, program):
        why = []
        with tempfile.TemporaryDirectory() as folder:
            path = pathlib.Path(folder) / "recording"
            path.write_bytes(self.octets)
            for at, command in enumerate(ASKED):
                asked = asking(command, *self.options)
                said = [part.format(path) for part in SPELLINGS[at % len(SPELLINGS)]]
                got = run(program, [asked[0], *said, *asked[1:]], b"not read")
                why += self.why_not(asked, got)
        return why + [it for command in ASKED for it in self.why_not(asking(command, *self.options), run(program, asking(command, "-r", "-", *self.options), self.octets))]

    def why_not(self, asked, got):
        """What is wrong with a run of these words."""
        plain = meant(asked, self.octets)
        lines, status, passed = reading.answered(plain, self.octets)
        return why_differs(plain, (lines, status), got, passed, reading.written(plain, lines, self.octets), self.octets)


class AsStandardInput:
    """A command that reads no events reads a file as it reads standard input."""

    def __init__(self, name, words, octets):
        self.name, self.words, self.octets = f"as from standard input: {name}, {words[0]}", words, octets

    def why_wrong(self, program):
        wanted = run(program, self.words, self.octets)
        with tempfile.NamedTemporaryFile() as file:
            file.write(self.octets)
            file.flush()
            got = run(program, [self.words[0], "-r", file.name, *self.words[1:]], b"not read")
        return [] if got == wanted else [f"{got}, and from standard input {wanted}"]


class Unread:
    """A name of which nothing can be read: that is said, and nothing is written."""

    def __init__(self, name, path_in, reason):
        self.name, self.path_in, self.reason = f"cannot be read: {name}", path_in, reason

    def why_wrong(self, program):
        with tempfile.TemporaryDirectory() as folder:
            return self.why_read(program, self.path_in(pathlib.Path(folder)))

    def why_read(self, program, path):
        """What is wrong with runs that are to read this."""
        why = []
        for command in (*ASKED, "rewrite", "publish", "import"):
            words = asking(command) if command in ASKED else [command]
            got = run(program, [words[0], "-r", path, *words[1:]], b"")
            wanted = b"", f"goose {command}: {path}: {self.reason}\n".encode(), 4
            why += [] if got == wanted else [f"{command}: {got}, and not {wanted}"]
        return why


def file_in(folder, rights=0o600):
    """A file there, with these rights."""
    path = folder / "file"
    path.write_bytes(b"")
    path.chmod(rights)
    return path


class InPieces:
    """A capture that comes from a pipe octet by octet is told apart all the same."""
    name = "octet by octet from a pipe"

    def why_wrong(self, program):
        octets = CLASSIC
        with subprocess.Popen([*program, "show", "-r", "-"], stdin=subprocess.PIPE, stdout=subprocess.PIPE, stderr=subprocess.DEVNULL) as it:
            for at in range(len(octets)):
                it.stdin.write(octets[at:at + 1])
                it.stdin.flush()
            it.stdin.close()
            got = it.stdout.read()
            it.wait(SECONDS)
        wanted = run(program, ["show", "--capture", "--skip-other", "--unwrap"], octets)[0]
        return [] if got == wanted else [f"{got}, and not {wanted}"]


FRAMES = [WORKED, other(0x0806), wrapped(state(1, 1), RING), SAMPLED, wrapped(WORKED, OUTER, TAG), wrapped(other(0x0800, bytes(100)), RING), put(WORKED, at66=1)]
CLASSIC = header() + b"".join(record(1, 2 + at, frame) for at, frame in enumerate(FRAMES))
PCAPNG = section() + interface() + b"".join(packet(1000 * at, frame) for at, frame in enumerate(FRAMES))
LIST = b"V2\n" + b"".join(line(1000 * at, frame) for at, frame in enumerate(FRAMES))


def kinds():
    """Files of each kind."""
    yield "a list", LIST
    yield "a list of version 1", LIST[3:]
    yield "a classic capture", CLASSIC
    yield "a pcapng capture", PCAPNG
    yield "nothing", b""
    for magic in MAGICS:
        yield f"the octets {magic.hex()} alone", magic
        yield f"the first three of {magic.hex()}", magic[:3]
        yield f"{magic.hex()} and other octets", magic + bytes(20)
    yield "a line feed, and then a list", b"\n" + LIST[3:]
    yield "a capture that is cut", CLASSIC[:-1]
    yield "an error in a list", LIST + b"X\n"
    yield "a compressed file", bytes.fromhex("1f8b0800") + bytes(30)


def by_chance():
    """Lists and captures of frames in tags and of other protocols."""
    chance = random.Random(SEED)
    for at in range(12):
        frames = [wrapped(chance.choice([WORKED, SAMPLED, other(0x0806), state(2, at)]), *chance.choices((RING, TAG, OUTER), k=chance.randrange(4)))
                  for _ in range(25)]
        if at % 2:
            yield f"capture {at}", header() + b"".join(record(1, chance.randrange(10**6), frame) for frame in frames)
        else:
            yield f"list {at}", b"V2\n" + b"".join(line(chance.randrange(10**6), frame) for frame in frames)


def cases():
    for name, octets in kinds():
        for options in ((), ("--raw",), ("--json",), ("--time", "--raw")):
            yield ByName(name, octets, *options)
    for name, octets in by_chance():
        yield ByName(name, octets)
    yield AsStandardInput("a list", ["rewrite"], LIST)
    yield AsStandardInput("a capture", ["rewrite"], CLASSIC)
    yield AsStandardInput("a classic capture", ["import"], CLASSIC)
    yield AsStandardInput("a pcapng capture", ["import"], PCAPNG)
    yield AsStandardInput("a script", ["publish"], b"control,0001,G,D,,1\nstep,1000,2000\n")
    yield AsStandardInput("a list", ["publish"], LIST)
    yield Unread("no file", lambda folder: str(folder / "none"), "No such file or directory")
    yield Unread("a folder", str, "Is a directory")
    yield Unread("a file as a folder", lambda folder: str(file_in(folder) / "other"), "Not a directory")
    yield Unread("a long name", lambda folder: str(folder / ("n" * 300)), "File name too long")
    yield Unread("no name", lambda folder: "", "No such file or directory")
    if os.geteuid():
        yield Unread("no right to read", lambda folder: str(file_in(folder, 0)), "Permission denied")
    yield InPieces()
    for words in (["show", "-r"], ["show", "--read"], ["show", "-r", "a", "-r", "b"], ["show", "-ra", "--read=b"], ["check", "-r", "a", "--capture", "-r=b"],
                  ["rewrite", "-r", "-x"]):
        yield Case(f"a mistake: {words}", words, b"", b"", 2, [b"error: "])
    for command in ("rewrite", "publish", "import"):
        yield Case(f"{command} has no --raw", [command, "-r", "-", "--raw"], b"", b"", 2, [b"--raw"])
    for option in ("--skip-other", "--unwrap"):
        yield Case(f"--raw beside {option}", ["show", "--raw", option], listed(WORKED), b"", 2, [b"'--raw' cannot be used with '%s'" % option.encode()])
    yield Case("--raw without a name does nothing", ["check", "--raw"], listed(other(0x0806)), b"1 fault 12 EtherType\n", 1)
    yield Case("a text of a block behind a name", ["replay", "-r", "-", "x"], b"", b"", 2, [b"block 0 BlockForm\n"])
    yield Case("a block between, and a name", ["replay", "0001,G,D,,1,1", "-r", "-", "0002,G,D,,1,1"], listed(WORKED), None, 0,
               [b"goose replay: block 1 was never seen: no frame has the APPID and the gocbRef of 0002,G,D,,1,1"])
