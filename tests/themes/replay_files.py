"""`replay -r FILE` without a BLOCK: the control blocks are those that the slow inventory lists of the file, and behind their lines comes
what the slow programs write of a replay of these. In each form, of lists and captures, whole, cut, faulty and by chance. And where there is
no regular file."""
import json
import os
import pathlib
import random
import subprocess
import tempfile

from helpers.captured import why_differs
from helpers.frames import SAMPLED, WORKED, element, put, with_fields, with_members
from helpers.harness import SECONDS, Case, first_difference, listed, run, text
from oracles import inventory, reading, reference, skipping
from oracles.subscriber import CHANGES, SIMULATION
from themes.inventory import some_list
from themes.reading_files import CLASSIC, LIST, PCAPNG, meant
from themes.replay_options import inputs, mixed
from themes.replaying import BLOCK, line, state
from themes.skipping import other
from themes.unwrapping import RING, wrapped

SEED = 2715
ADVICE = b"goose blocks lists them; with -r FILE all of them are taken\n"
COMMA = with_fields(gocb_ref=element(0x80, b"a,b"))
OTHER = put(with_fields(gocb_ref=element(0x80, b"H"), go_id=element(0x83, b"I")), at15=2)


def first_blocks(asked, octets):
    """The control blocks that `blocks` lists first under the options of a command line: of each the text, and what it shows. Where the input
    has a fault, those before it."""
    reader = reading.reader_of(asked)
    reader = skipping.Skipping(reader) if reading.SKIP in asked else reader
    found, coming = [], inventory.findings(octets, False, reader)
    while True:
        try:
            _, _, word, (_, _, shown, it) = next(coming)
        except (StopIteration, reference.ListFault):
            return found
        found += [(shown, it)] if word == "block" else []


def named(asked, octets):
    """Those that a BLOCK can name, and the texts of the others."""
    found = first_blocks(asked, octets)
    return [it for it in found if not it[0].startswith("appid=")], [shown for shown, _ in found if shown.startswith("appid=")]


def subscribed(asked, position, shown, frame):
    """The line of a control block at its position."""
    if reading.JSON in asked:
        pdu = frame["apdu"]
        texts = {name: None if pdu[key] is None else pdu[key].decode() for name, key in (("gocbRef", "gocb_ref"), ("datSet", "dat_set"), ("goID", "go_id"))}
        fields = {"kind": "subscribed", "block": position, "appid": f"{frame['app_id']:04x}", **texts, "confRev": int(pdu["conf_rev"]), "entries": len(pdu["members"])}
        return json.dumps(fields, separators=(",", ":"))
    return f"{'- ' if reading.TIME in asked else ''}subscribed {position} {shown}"


class Takes:
    """A file of which all control blocks are subscribed to."""

    def __init__(self, name, octets, *options):
        self.name, self.octets, self.options = f"all blocks of {name}, {options}", octets, options

    def why_wrong(self, program):
        with tempfile.TemporaryDirectory() as folder:
            path = pathlib.Path(folder) / "recording"
            path.write_bytes(self.octets)
            got = run(program, ["replay", "-r", str(path), *self.options], b"not read")
            return self.why_not(str(path), got)

    def why_not(self, path, got):
        """What is wrong with a run over the file of this name."""
        wrote, complained, status = got
        asked = meant(["replay", *self.options], self.octets)
        blocks, left_out = named(asked, self.octets)
        heading = text([subscribed(asked, at, *it) for at, it in enumerate(blocks)])
        said = [f"goose replay: left out: {it}: a text of it has a comma, so that no BLOCK can name it\n" for it in left_out]
        said = "".join(said if blocks or left_out else [f"goose replay: no control block in {path}\n"]).encode()
        why = [] if complained.startswith(said) else [f"standard error begins not with {said!r}: {complained!r}"]
        difference = first_difference(heading, wrote[:len(heading)])
        if why or difference:
            return why + [difference]
        asked += [shown for shown, _ in blocks]
        lines, wanted, passed = reading.answered(asked, self.octets)
        return why_differs(asked, (lines, wanted), (wrote[len(heading):], complained[len(said):], status), passed, reading.written(asked, lines, self.octets))


class AsWords:
    """Behind the lines of the blocks comes what a replay writes that has these blocks for its words, in the same order."""

    def __init__(self, name, octets, *options):
        self.name, self.octets, self.options = f"as with words: {name}, {options}", octets, options

    def why_wrong(self, program):
        with tempfile.NamedTemporaryFile() as file:
            file.write(self.octets)
            file.flush()
            told = [it.split(b" ", 2) for it in run(program, ["blocks", "-r", file.name])[0].splitlines()]
            words = [it[2].decode() for it in told if it[1:2] == [b"block"] and not it[2].startswith(b"appid=")]
            wrote, _, status = run(program, ["replay", "-r", file.name, *self.options])
            behind, _, wanted = run(program, ["replay", "-r", file.name, *self.options, *words]) if words else (b"", b"", status)
        heading = "".join(f"subscribed {at} {it}\n" for at, it in enumerate(words)).encode()
        difference = first_difference(heading + behind, wrote) if words else None
        return ([difference] if difference else []) + ([] if status == wanted else [f"status {status}, and not {wanted}"])


class ByRedirection:
    """Standard input is a regular file, which its name in the file system opens anew."""
    name = "a regular file by the name of standard input"

    def why_wrong(self, program):
        with tempfile.NamedTemporaryFile() as file:
            file.write(listed(WORKED))
            file.flush()
            with open(file.name, "rb") as given:
                got = run(program, ["replay", "-r", "/dev/stdin"], stdin=given)
        wanted = f"subscribed 0 {BLOCK}\n1 act 0 st=1 sq=0 t=0000000000000000 {{true}}\n".encode(), b"", 0
        return [] if got == wanted else [f"{got}, and not {wanted}"]


class Refuses:
    """Without a regular file words without a BLOCK are a mistake: that is said, and nothing is read or written."""

    def __init__(self, name, words, path_in=None):
        self.name, self.words, self.path_in = f"no regular file: {name}", words, path_in

    def why_wrong(self, program):
        with tempfile.TemporaryDirectory() as folder:
            path = self.path_in(pathlib.Path(folder)) if self.path_in else ""
            words = [it.replace("{}", str(path)) for it in self.words]
            wrote, complained, status = run(program, words, listed(WORKED))
        said = complained.startswith(b"error: ") and b"BLOCK" in complained and complained.endswith(ADVICE)
        return [] if said and (wrote, status) == (b"", 2) else [f"{words}: {wrote!r}, {complained!r}, {status}"]


class Missing:
    """A file that is not there cannot be read."""
    name = "no such file"

    def why_wrong(self, program):
        with tempfile.TemporaryDirectory() as folder:
            path = f"{folder}/none"
            got = run(program, ["replay", "-r", path])
        wanted = b"", f"goose replay: {path}: No such file or directory\n".encode(), 4
        return [] if got == wanted else [f"{got}, and not {wanted}"]


class InAPipe:
    """A pipe that has a name cannot be read twice."""
    name = "a pipe with a name"

    def why_wrong(self, program):
        with tempfile.TemporaryDirectory() as folder:
            path = f"{folder}/pipe"
            os.mkfifo(path)
            with subprocess.Popen(["sh", "-c", f"cat > {path}"], stdin=subprocess.PIPE) as feeding:
                wrote, complained, status = run(program, ["replay", "-r", path])
                feeding.stdin.close()
                feeding.wait(SECONDS)
        return [] if (wrote, status) == (b"", 2) and complained.endswith(ADVICE) else [f"{wrote!r}, {complained!r}, {status}"]


def kinds():
    """Files, and what each is."""
    yield "a list", LIST
    yield "a classic capture", CLASSIC
    yield "a pcapng capture", PCAPNG
    yield "nothing", b""
    yield "no frame", b"C 1\nM 2 on\n"
    yield "streams and a faulty frame", listed(SAMPLED, put(WORKED, at66=1), b"\0")
    yield "two blocks, the other one first", listed(OTHER, WORKED, state(1, 1), OTHER)
    yield "a block that changes", listed(WORKED, state(1, 1, conf_rev=b"\x88\1\2"), with_members(bytes.fromhex("8301ff 830100"), 2), state(1, 2))
    yield "a block that is simulated first", listed(state(1, 0, simulation=True), state(1, 0))
    yield "a goID that is absent, empty, and there", listed(WORKED, put(with_fields(go_id=b"\x83\0"), at15=3), OTHER)
    yield "a comma in the first", listed(COMMA, WORKED, COMMA)
    yield "a comma in the second of three", listed(WORKED, COMMA, OTHER, WORKED)
    yield "a comma in each", listed(COMMA, put(with_fields(dat_set=element(0x82, b",")), at15=4))
    yield "a comma only later", listed(WORKED, with_fields(dat_set=element(0x82, b"E,")), WORKED)
    yield "quotation marks", listed(with_fields(gocb_ref=element(0x80, b'a"\\'), dat_set=element(0x82, b'"')), WORKED)
    yield "an error behind a block", listed(WORKED) + b"X\n" + listed(OTHER)
    yield "an error before any", b"X\n" + listed(WORKED)
    yield "a capture that is cut", CLASSIC[:-1]
    yield "a capture that is cut in its first frame", CLASSIC[:60]
    yield "a capture with a header alone", CLASSIC[:24]
    yield "a pcapng capture with an error in the middle", PCAPNG[:300] + b"\xff" * 12 + PCAPNG[312:]
    yield "a ring, and other protocols", listed(other(0x0806), wrapped(OTHER, RING), wrapped(WORKED, RING))
    yield "a block that comes late", b"V2\nC 9000000\n" + line(9000001, WORKED)


def worked():
    zero = "t=0000000000000000 {true}\n"
    plain = f"1 act 0 st=1 sq=0 {zero}".encode()

    class Whole(Case):
        """A case over a file, of which the name stands for {}."""

        def run(self, program):
            with tempfile.NamedTemporaryFile() as file:
                file.write(self.stdin)
                file.flush()
                return run(program, [it.replace("{}", file.name) for it in self.words])

    yield Whole("a BLOCK beside a file stands alone", ["replay", "-r", "{}", BLOCK], listed(WORKED, OTHER), plain + b"2 not-subscribed\n")
    yield Whole("behind the mark no BLOCK", ["replay", "-r", "{}", "--"], listed(WORKED), f"subscribed 0 {BLOCK}\n".encode() + plain)
    yield Whole("a left-out block has no number", ["replay", "--read={}"], listed(COMMA, WORKED), f"subscribed 0 {BLOCK}\n1 not-subscribed\n2 act 0 st=1 sq=0 {zero}".encode(),
                0, [b'goose replay: left out: appid=0001 ref="a,b" set="D" id=- rev=1 entries=1: a text of it has a comma, so that no BLOCK can name it\n'])
    yield Whole("a date before no event", ["replay", "-r", "{}", "--time"], listed(WORKED), f"- subscribed 0 {BLOCK}\n1970-01-01T00:00:00.000000Z ".encode() + plain)


def cases():
    yield from worked()
    for name, octets in kinds():
        for options in ((), ("--json",), ("--time", "--raw"), (CHANGES, SIMULATION)):
            yield Takes(name, octets, *options)
    chance = random.Random(SEED)
    for at in range(6):
        for form, octets, _ in inputs(mixed(chance, 100)):
            yield Takes(f"frames by chance {at}, {form}", octets, *chance.choice([(), ("--json",), ("--time",), (CHANGES,), ("--raw",)]))
            yield AsWords(f"frames by chance {at}, {form}", octets, CHANGES)
    for at in range(20):
        octets = some_list(chance, 60)
        yield Takes(f"events by chance {at}", octets, *chance.choice([(), ("--json",), ("--time",), (SIMULATION,)]))
        yield AsWords(f"events by chance {at}", octets)
    yield ByRedirection()
    yield Missing()
    yield InAPipe()
    for name, words in (("none", ["replay"]), ("options alone", ["replay", CHANGES, "--capture"]), ("a hyphen", ["replay", "-r", "-"]), ("a pipe", ["replay", "-r", "/dev/stdin"]),
                        ("a device", ["replay", "--read=/dev/null"]), ("the mark", ["replay", "--"])):
        yield Refuses(name, words)
    yield Refuses("a folder", ["replay", "-r", "{}"], lambda folder: folder)
    yield Case("a text that is no BLOCK stays a mistake", ["replay", "-r", "/dev/null", ""], b"", b"", 2, [b"block 0 BlockForm\n"])
