"""What `losses` says of runs of publishers and merging units whose frames are dropped, repeated, late and out of order is what was dropped. A
publisher sends its states one by one; a sample has a true number, of which its count is the rest."""
import collections
import itertools
import random

from helpers.harness import first_difference, run, text
from oracles import losses, publisher
from themes.losses import G, S, SECOND, of, samples, some_list, status_of, total_goose, total_sv
from themes.replaying import state

SEED, RUNS = 61850, 60
PERIODS = (2, 3, 5, 80, 4000, 4000, 4800, 65536)
# Whole seconds and others, in microseconds: counts alone tell too little of most of them.
OUTAGES = (SECOND, 600000, 1250000, 500000, 3 * SECOND, 1500000, 250000)


class Said:
    """Runs made by chance, of which the program and the slow reading say what was dropped."""

    def __init__(self, name, made, count=RUNS):
        self.name, self.made, self.count = name, made, count

    def why_wrong(self, program):
        chance = random.Random(SEED)
        for at in range(self.count):
            period, events, lines = self.made(chance)
            octets, asked = of(*events), [] if period is None else ["--period", str(period)]
            wrote, complained, status = run(program, ["losses", *asked], octets)
            slow, slow_status = losses.losses(octets, period)
            for who, got in (("the slow reading", (text(slow), b"", slow_status)), ("the program", (wrote, complained, status))):
                if got != (text(lines), b"", status_of(lines)):
                    return [f"run {at}, {who}: {first_difference(text(lines), got[0])}", f"{got[1]!r}, status {got[2]}"]
        return []


# ---- Publishers --------------------------------------------------------------


def a_run(chance, first, states):
    """The pairs of a publisher: one state follows another, and each begins with sqNum 0, but for the first, which it was in."""
    begin = chance.randrange(4)
    return [(first + at, sq) for at in range(states) for sq in range(0 if at else begin, begin + chance.randrange(1, 12))]


def those_that_come(chance, run):
    """How often each frame of a run comes: of some states none does."""
    gone = {st for st in sorted({st for st, _ in run}) if chance.random() < 0.25}
    return [(pair, 0 if pair[0] in gone else chance.choice([0, 0, 1, 1, 1, 1, 2, 3])) for pair in run]


def missing(run, newest, pair):
    """The lines on the frames of a run between its newest one and a later one, and how many states and frames these name. Those at the
    end of a state that another follows are not known."""
    known = [it for it in run if newest < it < pair and (it[0] > newest[0] or pair[0] == newest[0])]
    states, numbers, lines = sorted({st for st, _ in known if st < pair[0]}), [sq for st, sq in known if st == pair[0]], []
    if states:
        lines.append(f"states-missing {G} from={states[0]} to={states[-1]}")
    if numbers:
        lines.append(f"frames-missing {G} st={pair[0]} from={numbers[0]} to={numbers[-1]}")
    return lines, len(states), len(numbers)


class Heard:
    """What is to be said of the frames of a sender, one by one, by what their runs have."""

    def __init__(self, lives):
        self.lives, self.lines, self.newest, self.counts, self.times = lives, [], None, collections.Counter(), []

    def hear(self, number, moment, pair, run, anew=False):
        """A frame of a run, which can be begun anew with it."""
        self.counts["frames"] += 1
        is_silent = self.newest is not None and self.times[-1] + self.lives <= moment
        if is_silent:
            since = self.times[-1] + self.lives
            self.say(number, "silent", [f"silent {G} since={since} for={moment - since}"])
        if self.newest is None or anew:
            self.say(number, "restarted", [f"restarted {G} st={pair[0]} sq={pair[1]}"] if anew else [])
        elif pair > self.newest:
            lines, states, frames = missing(run, self.newest, pair)
            self.lines += [f"{number} {it}" for it in lines]
            self.counts += {"states_missing": states, "frames_missing": frames}
        elif pair == self.newest:
            self.counts["repeated"] += 1
        else:
            self.say(number, "late", [f"late {G} st={pair[0]} sq={pair[1]}"])
        if self.newest is None or anew or pair > self.newest or is_silent:
            self.newest = pair
            self.times.append(moment)

    def say(self, number, word, lines):
        self.counts[word] += len(lines)
        self.lines += [f"{number} {it}" for it in lines]

    def total(self):
        longest = max((later - sooner for sooner, later in zip(self.times, self.times[1:])), default=0)
        return total_goose(**self.counts, longest=longest)


def out_of_order(chance):
    """One run, whose lifetime is long: frames are dropped, come twice, and overtake one another."""
    run, moment, coming = a_run(chance, chance.choice([0, 1, 1, 99]), chance.randrange(1, 12)), 0, []
    for pair, count in those_that_come(chance, run):
        moment += chance.randrange(1, 100)
        coming += [(moment + chance.choice([0, 0, 0, 1, chance.randrange(400)]), pair) for _ in range(count)]
    heard = Heard(60 * SECOND)
    coming.sort(key=lambda it: it[0])
    for number, (moment, pair) in enumerate(coming, 2):
        heard.hear(number, moment, pair, run)
    are_the_missing(run, [pair for _, pair in coming], heard)
    return None, [(moment, state(*pair, live=60000)) for moment, pair in coming], [*heard.lines, heard.total()] if coming else []


def are_the_missing(run, pairs, heard):
    """Of a run the frames that are missing, said in another way: those between the first and the newest that came that were not the newest
    when they came, but the ends of states."""
    records = [pair for pair, before in zip(pairs, itertools.accumulate(pairs, max, initial=(-1, -1))) if pair > before]
    lost = {it for it in run if records and records[0] < it < records[-1]} - set(records)
    lasts = {st: sq for st, sq in records}
    ends = {(st, sq) for st, sq in lost if st in lasts and sq > lasts[st]}
    whole = {st for st, _ in lost if st not in lasts}
    wanted = len(whole), len([st for st, _ in lost - ends if st in lasts])
    assert wanted == (heard.counts["states_missing"], heard.counts["frames_missing"])


def broken_off(chance):
    """Runs of a publisher that starts anew, each below the one before: links are down for longer than a lifetime, and frames come in order."""
    heard, frames, moment, newest = Heard(2 * SECOND), [], 0, None
    for first in (200, 100, 1)[:chance.randrange(1, 4)]:
        run, is_first = a_run(chance, first, chance.randrange(1, 9)), newest is not None
        moment += 5 * SECOND if is_first else 0
        for pair, count in those_that_come(chance, run):
            moment += chance.choice([1000, 1000, SECOND, 2 * SECOND, 60 * SECOND])
            for _ in range(count):
                frames.append((moment, state(*pair)))
                heard.hear(len(frames) + 1, moment, pair, run, is_first)
                is_first, newest = False, pair
    end = moment + chance.choice([0, 0, SECOND, 3 * SECOND])
    return None, [*frames, end], [*heard.lines, *silent_at_end(heard, end)] if frames else []


def silent_at_end(heard, end):
    """The last lines of a sender."""
    since = heard.times[-1] + heard.lives
    if since > end:
        return [heard.total()]
    heard.counts["silent"] += 1
    return [f"end silent {G} since={since} for={end - since}", heard.total()]


def after(pair, call):
    """The pair of the frame that a call of a script sends."""
    return (pair[0] + 1, 0) if call.startswith("change") else (pair[0], pair[1] + 1)


def published(chance):
    """The frames of a script, of which some states and some retransmissions are dropped."""
    calls = []
    for _ in range(chance.randrange(3, 9)):
        calls += [f"change,{10 * len(calls)},{bytes(8).hex()},8301ff"]
        calls += [f"poll,{10 * (len(calls) + at)}" for at in range(chance.randrange(1, 9))]
    script = ["control,010ccd010001,020000000001,,0001,G,D,,1,1,0,0,1", "step,1,60000", *calls]
    lines = [it for it in publisher.publish(text(script))[0] if it.startswith("F ")]
    run = list(itertools.accumulate(calls, after, initial=(0, 0)))[1:]
    heard, kept = Heard(60 * SECOND), []
    for line, pair, (_, count) in zip(lines, run, those_that_come(chance, run)):
        if count:
            kept.append(line.encode() + b"\n")
            heard.hear(len(kept) + 1, int(line.split()[1]), pair, run)
    return None, kept, [*heard.lines, heard.total()] if kept else []


# ---- Streams -----------------------------------------------------------------


class Counted:
    """What is to be said of the samples of a stream, by their true numbers."""

    def __init__(self, period):
        self.period, self.lines, self.first, self.newest, self.one_by_one, self.come = period, [], None, None, 0, set()
        self.counts, self.longest, self.moment = collections.Counter(), 0, None

    def count(self, number, moment, sample):
        self.counts["samples"] += 1
        self.first = sample if self.first is None else self.first
        more = 1 if self.newest is None else sample - self.newest
        if more > 1:
            self.lines.append(f"{number} samples-missing {S} from={(self.newest + 1) % self.period} missing={more - 1}")
            self.counts += {"missing": more - 1, "outages": 1}
            self.longest, self.one_by_one = max(self.longest, more - 1), 0
        if more > 0:
            self.newest, self.moment, self.one_by_one = sample, moment, self.one_by_one + 1
        elif sample >= self.first:
            # A sample that came one by one with the newest is there twice. Of one from before the first nothing is known.
            word = "repeated" if -more < self.one_by_one else "late"
            assert word == "late" or sample in self.come
            self.counts[word] += 1
            self.lines.append(f"{number} sample-{word} {S} cnt={sample % self.period}")
        self.come.add(sample)

    def closing(self, end):
        silence = end - self.moment
        return [f"end silent {S} since={self.moment} for={silence}"] * (silence >= SECOND) + [total_sv(**self.counts, longest=self.longest)]


def a_stream(chance, copies):
    """A merging unit sends so many samples a second, one or more a frame. No frame comes half a second later than another would: of each so many
    copies come, or none. The link is down again and again."""
    period = chance.choice(PERIODS)
    size = chance.choice([1, 2, 8]) if period >= 80 else 1
    most, number, coming = 300000 if period >= 80 else 240000, chance.choice([0, period - 1, chance.randrange(period), 7 * period]), []
    for _ in range(chance.randrange(2, 60)):
        frame = tuple(range(number, number + size))
        moment = -(-(number + size) * SECOND // period)
        for copy in range(chance.choice(copies)):
            coming.append((moment + chance.choice([0, 0, 0, 0, 250, chance.randrange(most)]) + 12 * copy, frame))
        number += size
        if chance.random() < 0.1:
            number += size * chance.randrange(1, 4) if chance.random() < 0.5 else chance.choice(OUTAGES) * period // SECOND
    return period, sorted(coming)


def counted(chance, copies):
    period, coming = a_stream(chance, copies)
    heard = Counted(period)
    for number, (moment, frame) in enumerate(coming, 2):
        for sample in frame:
            heard.count(number, moment, sample)
    if not coming:
        return period, [], []
    sent = [sample for _, frame in coming for sample in frame]
    # What is missing and the steps without a loss add up to all samples from the first that came to the greatest.
    assert heard.counts["missing"] + len(set(itertools.accumulate(sent, max))) == max(sent) - sent[0] + 1
    end = coming[-1][0] + chance.choice([0, 999999, SECOND, 2 * SECOND])
    frames = [(moment, samples(*[sample % period for sample in frame])) for moment, frame in coming]
    return period, [*frames, end], [*heard.lines, *heard.closing(end)]


def dropped_and_late(chance):
    return counted(chance, [0, 1, 1, 1, 1, 1, 1, 2])


def by_both_networks(chance):
    """Each network of PRP brings a frame, or drops it."""
    return counted(chance, [0, 1, 2, 2, 2, 2, 2])


class Outage:
    """A stream of 4,000 samples a second, of which so many are missing after sample 100: where `watch` sees too few, all are found."""

    def __init__(self, lost):
        self.lost, self.name = lost, f"an outage of {lost} samples, and nothing more"

    def why_wrong(self, program):
        numbers = [*range(101), *range(101 + self.lost, 12000)]
        octets = of(*[(250 * it, samples(it % 4000)) for it in numbers])
        wrote, _, status = run(program, ["losses", "--period", "4000"], octets)
        wanted = text([f"103 samples-missing {S} from=101 missing={self.lost}", total_sv(
            samples=len(numbers), missing=self.lost, outages=1, longest=self.lost)])
        return [] if (wrote, status) == (wanted, 1) else [f"status {status}: {first_difference(wanted, wrote)}"]


# ---- Many at once ------------------------------------------------------------


class Apart:
    """Of each sender and each stream of a list is said what is said of it where all other frames are but clock times."""

    name = "each sender and each stream alone"

    def why_wrong(self, program):
        chance = random.Random(SEED)
        return [why for at in range(10) for why in self.why_list_wrong(program, some_list(chance, 4000, 60))]

    @staticmethod
    def why_list_wrong(program, octets):
        lines, asked = octets.splitlines(), ["losses", "--period", "4000"]
        shown = [list(losses.sightings(bytes.fromhex(it.split()[2].decode()))) if it.startswith(b"F ") else [] for it in lines]
        names = [losses.key_text(it[0][0]).encode() if it else None for it in shown]
        whole = run(program, asked, octets)[0].splitlines()
        for name in sorted(set(names) - {None}):
            alone = [it if other == name or not it.startswith(b"F ") else b"C " + it.split()[1] for it, other in zip(lines, names)]
            wrote = run(program, asked, b"\n".join([*alone, b""]))[0].splitlines()
            of_it = [[it for it in told if name in it] for told in (whole, wrote)]
            if of_it[0] != of_it[1] or not of_it[0] and b"X" not in lines:
                yield f"{name}: {of_it}"


def cases():
    yield Said("frames that are dropped, late and out of order", out_of_order, 4 * RUNS)
    yield Said("publishers that start anew, and links that are down", broken_off, 4 * RUNS)
    yield Said("what was dropped of published lists", published)
    yield Said("samples that are dropped and late", dropped_and_late)
    yield Said("samples by both networks of PRP", by_both_networks)
    for lost in (1, 1600, 2400, 4000, 5000, 8000):
        yield Outage(lost)
    yield Apart()
