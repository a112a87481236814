"""What a subscriber makes of lists: worked ones, lists made by chance of which the slow subscriber says what comes, and short
lists of which the definitions say it."""
import itertools
import os
import pathlib
import random
import resource
import shlex
import subprocess
import tempfile

from helpers.frames import BOOLEAN, ENVELOPE, SAMPLED, element, with_fields
from helpers.harness import SECONDS, Case, first_difference, never_seen, run, text, why_told
from oracles import by_definition, subscriber

SEED = 61850
BY_BLOCK = pathlib.Path(__file__).resolve().parent.parent.parent / "examples" / "replay_by_block"
BLOCK = "0001,G,D,,1,1"
BLOCKS = [BLOCK, "0002,G,D,,1,1", "0001,H,D,I,1,2"]


def number(identifier, it):
    """An unsigned number in its fewest octets."""
    return element(identifier, it.to_bytes(it.bit_length() // 8 + 1, "big"))


def flag(identifier, is_on):
    return element(identifier, b"\xff" if is_on else b"\x00")


def state(st, sq, live=2000, simulation=False, **fields):
    """The worked frame with these numbers."""
    return with_fields(st_num=number(0x85, st), sq_num=number(0x86, sq), live=number(0x81, live),
                       simulation=flag(0x87, simulation), **fields)


def line(moment, frame):
    return b"F %d " % moment + frame.hex().encode() + b"\n"


class Replays:
    """A list of which the program writes what the slow subscriber writes."""

    def __init__(self, name, octets, words):
        self.name, self.octets, self.words = name, octets, words

    def why_wrong(self, program):
        lines, wanted_status = subscriber.replay(self.octets, self.words)
        wrote, complained, status = run(program, ["replay", *self.words], self.octets)
        difference = first_difference(text(lines), wrote)
        why = [difference] if difference else []
        why += why_told("replay", wrote, complained, status, self.words)
        return why + ([f"ended with status {status}, and not {wanted_status}"] if status != wanted_status else [])


class ManyLists:
    """Ten thousand short lists over 1 to 50 blocks, of which the program writes what the scan of the slow subscriber writes.
    Blocks share APPIDs and gocbRefs, so that each pair of them counts."""

    COUNT, MOST = 10000, 50

    name = "ten thousand lists over 1 to 50 blocks"

    def why_wrong(self, program):
        chance = random.Random(SEED)
        names = [(1 + at % 8, b"G%d" % (at // 8)) for at in range(self.MOST)]
        words = [f"{app_id:04x},{ref.decode()},D,,1,1" for app_id, ref in names]
        sorts = [(st, sq, live, simulation) for st in (1, 2) for sq in (0, 1) for live in (1, 3) for simulation in (False, True)]
        made = {(name, sort): self.frame(name, sort) for name in names for sort in sorts}
        for at in range(self.COUNT):
            count = chance.choice([1, 2, 3, 10, self.MOST])
            moment, lines = 0, []
            for _ in range(chance.randrange(1, 13)):
                moment += chance.choice([0, 1, 1, 2])
                kind = chance.randrange(8)
                if kind < 6:
                    lines.append(line(moment, made[chance.choice(names[:count + 1]), chance.choice(sorts)]))
                else:
                    lines.append(b"C %d\n" % moment if kind == 6 else b"M %d %s\n" % (moment, chance.choice([b"on", b"off"])))
            octets = b"".join(lines)
            wanted, _ = subscriber.replay(octets, words[:count])
            wrote, complained, status = run(program, ["replay", *words[:count]], octets)
            if (wrote, complained, status) != (text(wanted), never_seen(words[:count], wrote), 0):
                return [f"list {at} of {count} blocks: {octets!r}", first_difference(text(wanted), wrote) or f"status {status}"]
        return []

    @staticmethod
    def frame(name, sort):
        st, sq, live, simulation = sort
        frame = state(st, sq, live, simulation, gocb_ref=element(0x80, name[1]))
        return frame[:14] + name[0].to_bytes(2, "big") + frame[16:]


class ByDefinition:
    """Lists with the blocks that are replayed of them, of which the program and the slow subscriber write what the definitions
    say of each list as a whole."""

    def __init__(self, name, lists):
        self.name, self.lists = name, lists

    def why_wrong(self, program):
        for octets, words in self.lists():
            why = self.why_list_wrong(program, octets, words)
            if why:
                return [f"{words}: {octets!r}", *why]
        return []

    @staticmethod
    def why_list_wrong(program, octets, words):
        lines, wanted_status = by_definition.replay(octets, words)
        slow_lines, slow_status = subscriber.replay(octets, words)
        wrote, complained, status = run(program, ["replay", *words], octets)
        given = {"the program": (wrote, status), "the slow subscriber": (text(slow_lines), slow_status)}
        return why_told("replay", wrote, complained, status, words) + [
            f"{who}: {first_difference(text(lines), wrote) or f'status {status}'}"
            for who, (wrote, status) in given.items() if (wrote, status) != (text(lines), wanted_status)]


def each_four():
    """All 4,096 lists of four events drawn from real and simulated frames of two states, two clocks, and both modes. Event i
    comes at 400 times i milliseconds, the second clock at 1,200."""
    frames = [state(st, 0, 1000, simulation) for st in (1, 2) for simulation in (False, True)]
    events = [[line(400 * i, frame) for frame in frames]
              + [b"C %d\n" % (400 * i), b"C 1200\n", b"M %d on\n" % (400 * i), b"M %d off\n" % (400 * i)] for i in range(4)]
    for drawn in itertools.product(*events):
        yield b"".join(drawn), [BLOCK]


def each_four_of_numbers():
    """All 1,296 lists of four events drawn from frames of two status numbers, two sequence numbers and two lifetimes, and two
    clocks. Event i comes at 400 times i milliseconds, the second clock at 1,200."""
    frames = [state(1, 0, 1000), state(1, 1, 1000), state(2, 0, 1000), state(1, 0, 3000)]
    events = [[line(400 * i, frame) for frame in frames] + [b"C %d\n" % (400 * i), b"C 1200\n"] for i in range(4)]
    for drawn in itertools.product(*events):
        yield b"".join(drawn), [BLOCK]


def short_lists():
    """Three hundred lists of 8 to 12 events made by chance, over one to three blocks."""
    chance = random.Random(SEED)
    for at in range(300):
        yield some_list(chance, chance.randrange(8, 13)), BLOCKS[:1 + at % 3]


class Split:
    """A list that examples/replay_by_block replays block by block, with the text and the status of one run."""

    def __init__(self, name, octets, words):
        self.name, self.octets, self.words = name, octets, words

    def why_wrong(self, program):
        wanted, _, wanted_status = run(program, ["replay", *self.words], self.octets)
        with tempfile.NamedTemporaryFile() as listed:
            listed.write(self.octets)
            listed.flush()
            ran = subprocess.run([BY_BLOCK, listed.name, *self.words], stdin=subprocess.DEVNULL, stdout=subprocess.PIPE,
                                 stderr=subprocess.PIPE, env={**os.environ, "GOOSE": shlex.join(program)}, timeout=SECONDS)
        difference = first_difference(wanted, ran.stdout)
        why = [difference] if difference else []
        return why + ([f"ended with status {ran.returncode}, and not {wanted_status}"] if ran.returncode != wanted_status else [])


def members(count):
    """The fields of a data set of so many members."""
    return {"entries": element(0x8A, bytes([count])), "members": element(0xAB, BOOLEAN * count)}


# Of each block the APPID, and what its good frames have that is not as in the worked one; fields for which a frame is
# refused, or is none of the blocks'.
OWN = [(b"\0\1", {}), (b"\0\2", {}), (b"\0\1", {"gocb_ref": element(0x80, b"H"), "go_id": element(0x83, b"I"), **members(2)})]
OTHER = [{"dat_set": element(0x82, b"E")}, {"go_id": b""}, {"go_id": element(0x83, b"")}, {"go_id": element(0x83, b"J")},
         {"conf_rev": number(0x88, 2)}, {"nds_com": flag(0x89, True)}, members(0), members(3),
         {"gocb_ref": element(0x80, b"")}, {"gocb_ref": element(0x80, b"GG")}]


def own_frame(at, st, sq, live=2000, simulation=False):
    """A good frame of one of the blocks, but perhaps for its simulation."""
    app_id, own = OWN[at]
    frame = state(st, sq, live, simulation, **own)
    return frame[:14] + app_id + frame[16:]


def some_frame(chance):
    """A frame of few numbers, so that repeated, lost and late ones are common. Now and then several reasons hold of one."""
    if chance.randrange(16) == 0:
        return chance.choice([SAMPLED, ENVELOPE, b"\0"])
    app_id, own = chance.choice([OWN[0], OWN[0], OWN[0], *OWN[1:]])
    fields = dict(own)
    for other in OTHER:
        if chance.randrange(24) == 0:
            fields.update(other)
    frame = state(chance.choice([0, 1, 1, 1, 2, 2, 3]), chance.choice([0, 1, 1, 2, 2, 3]),
                  chance.choice([0, 1, 2, 3, 3, 4294967295]), chance.random() < 0.4, **fields)
    return frame[:14] + chance.choice([app_id] * 11 + [b"\0\3"]) + frame[16:]


def some_list(chance, count):
    """A list whose moments mostly rise, with clocks and modes."""
    moment, lines = 0, [chance.choice([b"", b"V2\n", b"# x\n"])]
    for _ in range(count):
        moment = max(0, moment + chance.choice([0, 0, 1, 1, 2, 1000, -1]))
        sort = chance.randrange(8)
        if sort == 0:
            lines.append(b"C %d\n" % moment)
        elif sort == 1:
            lines.append(b"M %d %s\n" % (moment, chance.choice([b"on", b"on", b"off"])))
        else:
            lines.append(line(moment, some_frame(chance)))
    return b"".join(lines + chance.choice([[], [], [], [b"X\n"]]))


def some_modes(chance, count):
    """A list in which the mode is set often, and blocks go over to simulated frames in any order."""
    moment, lines = 0, []
    for _ in range(count):
        moment += chance.choice([0, 1, 1, 2])
        sort = chance.randrange(8)
        if sort < 2:
            lines.append(b"M %d %s\n" % (moment, chance.choice([b"on", b"on", b"off"])))
        else:
            lines.append(line(moment, own_frame(chance.randrange(len(OWN)), chance.choice([1, 1, 2]), chance.choice([0, 1]),
                                                chance.choice([1, 2, 9]), sort < 6)))
    return b"".join(lines)


class ModesOfMany:
    """The mode set off takes little more than a clock line, however many blocks there are, where none of them takes simulated
    frames and where the last one goes over to them before each: no more of a processor than this, beside the same list with
    clock lines in place of the modes, the least of up to three runs each."""

    BLOCKS, EVENTS, TIMES, SECONDS = 20_000, 20_000, 2, 0.5

    def __init__(self, name, turn, turns, wanted):
        self.name, self.octets, self.clocks = name, turn * turns, turn.replace(b"M 0 on", b"C 0").replace(b"M 0 off", b"C 0") * turns
        self.wanted = wanted

    def why_wrong(self, program):
        words = [f"{1 + at % 65535:04x},G,D,,1,1" for at in range(1, self.BLOCKS)] + [BLOCK]
        seconds, wrote = self.least(program, words, self.octets)
        without, _ = self.least(program, words, self.clocks)
        why = [] if wrote == self.wanted else [first_difference(self.wanted, wrote)]
        most = self.TIMES * without + self.SECONDS
        return why + ([f"{seconds:.2f} seconds of a processor, and {without:.2f} with clock lines"] if seconds > most else [])

    @staticmethod
    def least(program, words, octets):
        """The least processor time of up to three runs, and what they wrote."""
        least, wrote = float("inf"), b""
        for _ in range(3):
            before = resource.getrusage(resource.RUSAGE_CHILDREN)
            wrote, _, _ = run(program, ["replay", *words], octets)
            after = resource.getrusage(resource.RUSAGE_CHILDREN)
            least = min(least, after.ru_utime - before.ru_utime + after.ru_stime - before.ru_stime)
            if least < ModesOfMany.SECONDS:
                break
        return least, wrote


def modes_of_many():
    count, last = ModesOfMany.EVENTS, ModesOfMany.BLOCKS - 1
    yield ModesOfMany("the mode set off where no block takes simulated frames", b"M 0 off\n", count, b"")
    turn = b"M 0 on\n" + line(0, state(1, 0, simulation=True)) + b"M 0 off\n"
    yield ModesOfMany("the mode set off where one block takes simulated frames", turn, count, b"".join(
        b"%d switched %d\n%d act %d st=1 sq=0 t=0000000000000000 {true}\n%d switched %d\n" % (at, last, at, last, at + 1, last)
        for at in range(2, 3 * count, 3)))


def worked():
    first = "st=1 sq=0 t=0000000000000000 {true}\n"
    yield Case("each growth of the numbers", ["replay", BLOCK], b"".join(
        line(0, state(*pair)) for pair in ((1, 0), (1, 1), (1, 0), (2, 0), (1, 9), (2, 5), (2, 4), (4294967295, 4294967295))),
        f"1 act 0 {first}2 refreshed 0 st=1 sq=1\n3 old 0 st=1 sq=0\n4 act 0 {first.replace('st=1', 'st=2')}"
        "5 old 0 st=1 sq=9\n6 refreshed 0 st=2 sq=5\n7 old 0 st=2 sq=4\n"
        f"8 act 0 {first.replace('st=1 sq=0', 'st=4294967295 sq=4294967295')}".encode())
    yield Case("an expiry a microsecond late", ["replay", BLOCK], b"V2\n" + line(0, state(1, 0)) + b"C 1999999\nC 2000000\n",
               f"2 act 0 {first}4 expired 0\n".encode())
    yield Case("a frame at the deadline begins anew", ["replay", BLOCK], line(0, state(2, 0)) + line(2000, state(1, 0)),
               f"1 act 0 {first.replace('st=1', 'st=2')}2 expired 0\n2 act 0 {first}".encode())
    yield Case("over to simulated frames and back", ["replay", BLOCK],
               line(0, state(5, 0)) + line(1, state(1, 0, simulation=True)) + b"M 2 on\n" + line(3, state(1, 0, simulation=True))
               + line(4, state(6, 0)) + b"M 5 off\n" + line(6, state(5, 0)),
               (f"1 act 0 {first.replace('st=1', 'st=5')}2 refused 0 Simulated\n4 switched 0\n4 act 0 {first}"
                f"5 refused 0 Simulated\n6 switched 0\n7 act 0 {first.replace('st=1', 'st=5')}").encode())
    zero = "st=1 sq=0 t=0000000000000000"
    yield Case("back to real frames in the order of the blocks", ["replay", *BLOCKS],
               b"M 0 on\n" + b"".join(line(0, own_frame(at, 1, 0, simulation=True)) for at in (2, 0, 1)) + b"M 1 off\nM 1 off\nM 1 on\n"
               + line(2, own_frame(1, 1, 0, simulation=True)) + b"M 3 off\n" + line(4, own_frame(2, 1, 0)),
               (f"2 switched 2\n2 act 2 {zero} {{true true}}\n3 switched 0\n3 act 0 {zero} {{true}}\n4 switched 1\n4 act 1 {zero} {{true}}\n"
                f"5 switched 0\n5 switched 1\n5 switched 2\n8 switched 1\n8 act 1 {zero} {{true}}\n9 switched 1\n"
                f"10 act 2 {zero} {{true true}}\n").encode())
    yield Case("a block that is over and switched back at once", ["replay", BLOCK],
               b"M 0 on\n" + line(0, state(1, 0, live=5, simulation=True)) + b"M 5 off\nM 9 off\n",
               f"2 switched 0\n2 act 0 {zero} {{true}}\n3 expired 0\n3 switched 0\n".encode())
    yield Case("an empty list", ["replay", BLOCK])
    yield Case("behind the mark of words", ["replay", "--", BLOCK], line(0, state(1, 0)), f"1 act 0 {first}".encode())
    yield Case("one block twice", ["replay", BLOCK, BLOCKS[1], "0001,G,E,I,2,3"], b"X\n", b"blocks SameBlockTwice 2\n", 3)


def cases():
    yield from worked()
    chance = random.Random(SEED)
    for at in range(60):
        yield Replays(f"a list by chance, {at}", some_list(chance, 60), BLOCKS[:1 + at % 3])
    yield Replays("a long list by chance", some_list(chance, 5000), BLOCKS)
    for at in range(20):
        yield Replays(f"modes by chance, {at}", some_modes(chance, 60), BLOCKS)
    yield ManyLists()
    yield from modes_of_many()
    yield ByDefinition("each list of four real and simulated frames, clocks and modes", each_four)
    yield ByDefinition("each list of four frames of few numbers and clocks", each_four_of_numbers)
    yield ByDefinition("three hundred short lists by chance", short_lists)
    for at in range(6):
        yield Split(f"block by block, {at}", some_list(chance, 300), BLOCKS[:1 + at % 3])
