"""What a watch makes of lists: worked ones, and lists made by chance of which the slow watch says what comes."""
import collections
import random

from helpers.frames import SAMPLED, SAMPLED_ENVELOPE, WORKED, element, framed, put
from helpers.harness import Case, first_difference, listed, run, text, why_told
from oracles import watcher

SEED = 61869
S = ["--id", "S"]


def asdu(count, sv_id=b"S"):
    """An ASDU of the worked frame with this count."""
    return element(0x30, element(0x80, sv_id) + element(0x82, count.to_bytes(2, "big")) + element(0x83, b"\0\0\0\1")
                   + element(0x85, b"\2") + element(0x87, b"\0\x2a"))


def sampled(*asdus):
    """A frame of these ASDUs."""
    return framed(element(0x60, element(0x80, bytes([len(asdus)])) + element(0xA2, b"".join(asdus))), envelope=SAMPLED_ENVELOPE)


def counted(*counts):
    """A list of one frame a count."""
    return listed(*[sampled(asdu(count)) for count in counts])


class Watches:
    """A list of which the program writes what the slow watch writes."""

    def __init__(self, name, octets, period, sv_id="S"):
        self.name, self.octets, self.period, self.sv_id = name, octets, period, sv_id

    def why_wrong(self, program):
        lines, wanted_status = watcher.watch(self.octets, self.period, self.sv_id)
        words = ["watch", "--period", str(self.period), "--id", self.sv_id]
        wrote, complained, status = run(program, words, self.octets)
        difference = first_difference(text(lines), wrote)
        why = [difference] if difference else []
        why += why_told("watch", wrote, complained, status)
        return why + ([f"ended with status {status}, and not {wanted_status}"] if status != wanted_status else [])


def worked():
    eight = listed(sampled(*[asdu(count) for count in range(8)]))
    yield Case("eight samples of one frame", ["watch", "--period", "4000", *S], eight, text(
        ["1 0 0 first"] + [f"1 {count} {count} next" for count in range(1, 8)]))
    round_ = ["1 0 3998 first", "2 0 3999 next", "3 0 0 next", "4 0 2 skipped 1", "5 0 1 late", "6 0 2 same", "7 0 4000 out-of-range"]
    yield Case("a counter that goes round", ["watch", "--period", "4000", *S], counted(3998, 3999, 0, 2, 1, 2, 4000), text(round_), 1)
    for words in (
        ["--period", "2", *S], [*S, "--period", "2"], ["--period=2", "--id=S"], ["--id=S", "--period", "2"], ["--period", "+2", *S],
        ["--period", "002", *S], ["--period", "2", *S, "--"],
    ):
        yield Case(f"the least period: {words}", ["watch", *words], counted(0, 1, 0, 2), text(
            ["1 0 0 first", "2 0 1 next", "3 0 0 next", "4 0 2 out-of-range"]), 1)
    yield Case("the greatest period", ["watch", "--period", "65536", *S], counted(65535, 0, 32767, 65535), text(
        ["1 0 65535 first", "2 0 0 next", "3 0 32767 skipped 32766", "4 0 65535 late"]), 1)
    yield Case("half the period is late", ["watch", "--period", "8", *S], counted(0, 4, 3), text(
        ["1 0 0 first", "2 0 4 late", "3 0 3 skipped 2"]), 1)
    yield Case("another stream", ["watch", "--period", "4000", "--id", "T"], listed(SAMPLED, WORKED))
    yield Case("a stream without a name", ["watch", "--period", "4000", "--id", ""], listed(sampled(asdu(7, b""), asdu(8))),
               b"1 0 7 first\n")
    yield Case("a stream named as a flag", ["watch", "--period", "4000", "--id=--id"], listed(sampled(asdu(7, b"--id"))),
               b"1 0 7 first\n")
    yield Case("faulty frames and no sample", ["watch", "--period", "4000", *S], listed(put(SAMPLED, at26=2), b"\0"),
               b"1 fault 24 AsduCount\n2 fault 1 Truncated\n", 1)
    yield Case("modes and clocks say nothing", ["watch", "--period", "4000", *S], b"C 1\nM 2 on\n" + listed(SAMPLED), b"3 0 3998 first\n")
    yield Case("an empty list is watched", ["watch", "--period", "4000", *S])
    yield Case("a list's error comes before a finding", ["watch", "--period", "4000", *S], counted(1, 1) + b"X\n",
               b"1 0 1 first\n2 0 1 same\n3 list LineForm\n", 3)


class Outage:
    """A stream of 4,000 samples a second that misses so many after sample 100: its counts alone tell the program this."""

    def __init__(self, missing, told, status):
        self.name, self.missing, self.told, self.status = f"an outage of {missing} samples", missing, told, status

    def why_wrong(self, program):
        octets = counted(*[at % 4000 for at in range(12000) if not 100 < at <= 100 + self.missing])
        wrote, _, status = run(program, ["watch", "--period", "4000", *S], octets)
        kinds = collections.Counter(line.split(b" ", 3)[3].decode() for line in wrote.splitlines())
        told = {kind: count for kind, count in kinds.items() if kind not in ("first", "next")}
        return [] if (told, status) == (self.told, self.status) else [f"wrote {told}, and ended with status {status}"]


def some_list(chance, period, count):
    """A list of two streams, whose counters mostly go on, with faulty frames, GOOSE, clocks and modes."""
    counts, lines = {b"S": chance.randrange(period), b"T": 0}, [chance.choice([b"", b"V2\n", b"# x\n"])]

    def next_asdu():
        sv_id = chance.choice([b"S", b"S", b"S", b"T"])
        step = chance.choice([1] * 12 + [0, 2, 3, period // 2, (period + 1) // 2, period - 1, chance.randrange(period)])
        counts[sv_id] = (counts[sv_id] + step) % period
        return asdu(chance.choice([counts[sv_id]] * 20 + [min(65535, period), 65535]), sv_id)

    for _ in range(count):
        sort = chance.randrange(16)
        if sort < 12:
            lines.append(listed(sampled(*[next_asdu() for _ in range(chance.choice([1, 1, 2, 8]))])))
        else:
            lines.append([b"C 7\n", b"M 7 on\n", listed(WORKED), listed(put(SAMPLED, at26=2))][sort - 12])
    return b"".join(lines + chance.choice([[], [], [], [b"X\n"]]))


def cases():
    yield from worked()
    # The table of docs/FORMATS.md.
    yield Outage(1600, {"skipped 1600": 1}, 1)
    yield Outage(2400, {"late": 1599, "same": 1}, 1)
    yield Outage(4000, {}, 0)
    yield Outage(5000, {"skipped 1000": 1}, 1)
    chance = random.Random(SEED)
    for at in range(60):
        period = chance.choice([2, 3, 4, 5, 80, 4000, 4800, 65535, 65536])
        yield Watches(f"samples by chance, {at}", some_list(chance, period, 60), period)
    yield Watches("many samples by chance", some_list(chance, 4000, 5000), 4000, "T")
