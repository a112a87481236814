"""The options of `replay` alone. --changes leaves lines out: what stays is what the slow subscriber tells, and what the run without it
wrote, and the standard error, the status and each act, expired and switched line stay. --simulation is a line `M 0 on` before the first
event. Both in each form, of lists and captures, by standard input and by the name of a file."""
import json
import pathlib
import random
import re
import tempfile

from helpers.capture_parts import header, interface, packet, record, section
from helpers.captured import Read, why_differs
from helpers.frames import SAMPLED, WORKED, put
from helpers.harness import Case, first_difference, listed, run
from oracles import by_definition, reading
from oracles.subscriber import CHANGES, LEFT_OUT, SIMULATION
from themes.reading_files import meant
from themes.replaying import BLOCK, BLOCKS, line, own_frame, some_list, some_modes, state

SEED = 7410
FORMS = [], ["--time"], ["--json"]
# A line of a text, as it is and behind a date, of which its word is taken.
WORD = re.compile(rb"(?:\S+Z |- )?\d+ ([a-z-]+)")


def word_of(wrote):
    """The word of a line, or of an object."""
    found = WORD.match(wrote)
    return found[1].decode() if found else json.loads(wrote)["kind"] if wrote.startswith(b"{") else ""


def kept(wrote):
    """What is left of a text where the lines of the four words are left out."""
    return b"".join(it for it in wrote.splitlines(keepends=True) if word_of(it) not in LEFT_OUT)


class Fewer:
    """With --changes as much is written as without, but for the lines of four words: the rest of the run is the same."""

    def __init__(self, name, octets, *options, blocks=BLOCKS):
        self.name, self.octets, self.options, self.blocks = f"changes alone of {name}, {options}", octets, options, blocks

    def why_wrong(self, program):
        why = []
        for form in FORMS:
            words = ["replay", *self.options, *form]
            whole, told, status = run(program, [*words, *self.blocks], self.octets)
            fewer = run(program, [*words, CHANGES, *self.blocks], self.octets)
            difference = first_difference(kept(whole), fewer[0])
            why += [f"{form}: {difference}"] if difference else []
            why += [] if fewer[1:] == (told, status) else [f"{form}: {fewer[1:]}, and without it {(told, status)}"]
        return why


class AsBehindMode:
    """With --simulation a list has the text of the same list behind a line that sets the mode on, whose number each line loses."""

    def __init__(self, name, octets, *options, blocks=BLOCKS):
        self.name, self.octets, self.options, self.blocks = f"as behind the mode: {name}, {options}", octets, options, blocks

    def why_wrong(self, program):
        words = ["replay", *self.options, *self.blocks]
        behind, _, status = run(program, words, b"V2\nM 0 on\n" + self.octets)
        wrote, _, own_status = run(program, [*words, SIMULATION], b"V2\n" + self.octets)
        behind = re.sub(rb"(?m)^\d+", lambda it: b"%d" % (int(it[0]) - 1), behind)
        difference = first_difference(behind, wrote)
        return ([difference] if difference else []) + ([] if own_status == status else [f"status {own_status}, and not {status}"])


class ByName:
    """A file of which the program writes what the slow programs write, with these options."""

    def __init__(self, name, octets, *options):
        self.name, self.octets, self.options = f"by its name: {name}, {options}", octets, options

    def why_wrong(self, program):
        with tempfile.TemporaryDirectory() as folder:
            path = pathlib.Path(folder) / "recording"
            path.write_bytes(self.octets)
            asked = ["replay", *self.options, *BLOCKS]
            plain = meant(asked, self.octets)
            lines, status, passed = reading.answered(plain, self.octets)
            return why_differs(plain, (lines, status), run(program, [asked[0], "-r", str(path), *asked[1:]], b"not read"), passed,
                               reading.written(plain, lines, self.octets), self.octets)


class ByDefinition:
    """Short lists of which the program and the slow subscriber write what the definitions say of the list behind the mode."""

    name = "simulated frames from the start, by the definitions"

    def why_wrong(self, program):
        chance = random.Random(SEED)
        for at in range(100):
            octets, words = some_modes(chance, chance.randrange(3, 9)), BLOCKS[:1 + at % 3]
            lines, wanted = by_definition.replay(b"M 0 on\n" + octets, words)
            lines = [re.sub(r"^\d+", lambda it: str(int(it[0]) - 1), it) for it in lines]
            wrote, _, status = run(program, ["replay", SIMULATION, *words], octets)
            difference = first_difference("".join(f"{it}\n" for it in lines).encode(), wrote)
            if difference or status != wanted:
                return [f"{words}: {octets!r}", difference or f"status {status}"]
        return []


def mixed(chance, count, most=5 * 10**6):
    """Frames of the blocks, real and simulated, of others, and faulty ones, at times that mostly rise."""
    moment, timed = 0, []
    for _ in range(count):
        moment = max(0, moment + chance.choice([0, 1, 1000, 300_000, most, -1]))
        sort = chance.randrange(12)
        frame = SAMPLED if sort == 0 else put(WORKED, at66=1) if sort == 1 else WORKED[:chance.randrange(1, 40)] if sort == 2 else own_frame(
            chance.randrange(3), chance.choice([1, 1, 1, 2, 2, 3]), chance.choice([0, 0, 1, 2]), chance.choice([1, 2, 9, 2000]), chance.random() < 0.5)
        timed.append((moment, frame if sort != 3 else frame[:14] + b"\0\7" + frame[16:]))
    return timed


def inputs(timed):
    """The same frames as a list, a classic capture and pcapng, with the option that each needs."""
    yield "list", b"V2\n" + b"".join(line(moment, frame) for moment, frame in timed), []
    yield "classic", header() + b"".join(record(moment // 10**6, moment % 10**6, frame) for moment, frame in timed), ["--capture"]
    yield "pcapng", section() + interface() + b"".join(packet(moment, frame) for moment, frame in timed), ["--capture"]


def lists():
    """Lists by chance, of modes and of all kinds of events."""
    chance = random.Random(SEED)
    for at in range(40):
        yield f"list {at}", some_list(chance, 50)
        yield f"modes {at}", some_modes(chance, 50)


def asked(*options):
    return [["replay", *options, *more, *form, *BLOCKS] for more in ([CHANGES], [SIMULATION], [SIMULATION, CHANGES]) for form in FORMS]


def worked():
    zero = "t=0000000000000000 {true}\n"
    yield Case("the four words are left out, the rest is not", ["replay", CHANGES, BLOCK],
               listed(state(1, 0), state(1, 1), state(1, 1), state(1, 0), SAMPLED, state(1, 2, conf_rev=b"\x88\1\2"), b"\0") + b"C 5000\n",
               f"1 act 0 st=1 sq=0 {zero}4 old 0 st=1 sq=0\n6 refused 0 ConfRev\n7 fault 1 Truncated\n8 expired 0\n".encode())
    yield Case("of a list of which nothing is told nothing is written", ["replay", CHANGES, BLOCK], listed(SAMPLED, SAMPLED), b"", 0,
               [b"block 0 was never seen"])
    yield Case("a block of which a frame came was seen", ["replay", CHANGES, BLOCK], listed(state(1, 0), state(1, 1)), f"1 act 0 st=1 sq=0 {zero}".encode())
    yield Case("the lifetime is renewed by what is left out", ["replay", CHANGES, BLOCK], line(0, state(1, 0)) + line(1999, state(1, 1)) + b"C 3998\nC 3999\n",
               f"1 act 0 st=1 sq=0 {zero}4 expired 0\n".encode())
    yield Case("the last line of a list stays", ["replay", CHANGES, BLOCK], listed(SAMPLED) + b"X\n", b"2 list LineForm\n", 3, [b"line 2: LineForm"])
    yield Case("a block given twice stays", ["replay", CHANGES, SIMULATION, BLOCK, BLOCK], b"", b"blocks SameBlockTwice 1\n", 3)
    simulated = state(1, 0, simulation=True)
    yield Case("a simulated frame is taken at once", ["replay", SIMULATION, BLOCK], listed(simulated, state(1, 1)),
               f"1 switched 0\n1 act 0 st=1 sq=0 {zero}2 refused 0 Simulated\n".encode())
    yield Case("the mode set off ends it", ["replay", SIMULATION, BLOCK], listed(simulated) + b"M 0 off\n" + line(0, simulated) + line(0, state(3, 0)),
               f"1 switched 0\n1 act 0 st=1 sq=0 {zero}2 switched 0\n3 refused 0 Simulated\n4 act 0 st=3 sq=0 {zero}".encode())
    yield Case("the mode set off first leaves real frames", ["replay", SIMULATION, BLOCK], b"M 0 off\n" + line(0, simulated), b"2 refused 0 Simulated\n")
    yield Case("the mode set on again changes nothing", ["replay", SIMULATION, BLOCK], b"M 0 on\n" + line(0, simulated),
               f"2 switched 0\n2 act 0 st=1 sq=0 {zero}".encode())
    yield Case("without simulated frames it changes nothing", ["replay", SIMULATION, BLOCK], listed(state(1, 0)), f"1 act 0 st=1 sq=0 {zero}".encode())


def refused():
    for option in (CHANGES, SIMULATION):
        for name in ("show", "check", "blocks", "losses", "rewrite", "publish", "import"):
            yield Case(f"{option} of {name} is a mistake", [name, option], b"", b"", 2, [f"'{option}'".encode()])
        yield Case(f"{option} of watch is a mistake", ["watch", "--period", "5", "--id", "S", option], b"", b"", 2, [f"'{option}'".encode()])
        for words in (["replay", option, option, BLOCK], ["replay", f"{option}=1", BLOCK], [option, "replay", BLOCK], ["replay", option[:-1], BLOCK]):
            yield Case(f"a mistake: {words}", words, b"", b"", 2, [option[:-1].encode()])
        yield Case(f"behind the mark {option} is a text", ["replay", BLOCK, "--", option], b"", b"", 2, [b"block 1 BlockForm"])


def cases():
    yield from (*worked(), *refused())
    chance = random.Random(SEED)
    for at in range(6):
        timed = mixed(chance, 120)
        for form, octets, options in inputs(timed):
            yield Read(f"frames by chance {at}, {form}", octets, *asked(*options))
            yield Fewer(f"frames by chance {at}, {form}", octets, *options)
            yield Fewer(f"frames by chance {at}, {form}", octets, SIMULATION, *options)
            for more in ([CHANGES], [SIMULATION], [SIMULATION, CHANGES, "--json"], [CHANGES, "--time", "--raw"]):
                yield ByName(f"frames by chance {at}, {form}", octets, *more)
    for at, (name, octets) in enumerate(lists()):
        yield Read(f"events by chance, {name}", octets, *asked()[at % 9::4])
        yield Fewer(f"events by chance, {name}", octets)
        if not octets.startswith(b"V2") and not octets.endswith(b"X\n"):
            yield AsBehindMode(name, octets)
            yield AsBehindMode(name, octets, CHANGES, blocks=BLOCKS[:1])
    yield ByDefinition()
