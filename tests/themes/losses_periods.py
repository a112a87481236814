"""`losses` with `--period N` and `--period ID=N`, each several times: worked lists, and lists and captures by chance beside the slow reading of
them, by standard input and by their names."""
import pathlib
import random
import tempfile

from helpers.capture_parts import header, record
from helpers.captured import why_differs
from helpers.harness import Case, run, text
from oracles import losses, reading
from oracles.reading import CAPTURE, JSON, TIME
from themes.losses import S, of, samples, total_sv
from themes.reading_files import meant
from themes.replaying import state

SEED = 91
NAMES = [b"MU01", b"MU02", b"A=B", b"A", b"", b"MU01 ", b"=", b"4000", b"-x"]
PERIODS = [2, 3, 5, 80, 4000, 4800, 14400, 65536]


def of_name(name, source=1):
    return f'appid=4000 source=0200000000{source:02x} id="{name}"'


def whole(name, **given):
    return total_sv(**given).replace(S, of_name(name))


def worked():
    two = of((0, samples(3999, sv_id=b"MU01")), (0, samples(4799, sv_id=b"MU02")), (1, samples(0, sv_id=b"MU01")), (1, samples(1, sv_id=b"MU02")))
    missing = f"5 samples-missing {of_name('MU02')} from=0 missing=1"
    wrote = text([missing, whole("MU01", samples=2), whole("MU02", samples=2, missing=1, outages=1, longest=1)])
    for asked in (["--period", "MU01=4000", "--period", "MU02=4800"], ["--period=MU02=4800", "--period=4000"], ["--period", "4000", "--period=MU02=+4800"],
                  ["--period", "7", "--period", "MU02=9", "--period", "MU02=4800", "--period", "4000"], ["--period=MU02=004800", "--period", "MU01=4000", "--"],
                  ["--period", "MU03=2", "--period", "MU01=4000", "--period", "9", "--period", "MU02=4800"]):
        yield Case(f"two streams of two rates: {' '.join(asked)}", ["losses", *asked], two, wrote, 1)
    alone = of((0, samples(5, sv_id=b"A=B")), (0, samples(5, sv_id=b"A")), (0, samples(5, sv_id=b"B")), (0, samples(5, sv_id=b"")))
    for given, judged in (("A=B=5", "A=B"), ("A=5", "A"), ("B=5", "B"), ("=5", "")):
        lines = [f'{number} count-out-of-range {of_name(judged)} cnt=5' for number, name in enumerate(("A=B", "A", "B", ""), 2) if name == judged]
        totals = [whole(name, samples=1, out_of_range=1) if name == judged else f"total sv {of_name(name)} samples=1" for name in ("A=B", "A", "B", "")]
        yield Case(f"the last equals sign divides: {given}", ["losses", "--period", given], alone, text([*lines, *totals]), 1,
                   [b"goose losses: not judged: 3 streams have no period ("])
    copies = of((0, samples(5, source=1)), (0, samples(5, source=2)), (0, samples(5, source=1, app_id=0x4001)))
    keys = [of_name("S"), of_name("S", 2), of_name("S").replace("4000", "4001", 1)]
    yield Case("an svID of two sources and two APPIDs", ["losses", "--period", "S=5"], copies, text([
        *(f"{number} count-out-of-range {key} cnt=5" for number, key in enumerate(keys, 2)),
        *(total_sv(samples=1, out_of_range=1).replace(S, key) for key in keys)]), 1)
    ended = of((0, samples(1, sv_id=b"MU01")), (0, samples(1, sv_id=b"MU02")), 10**6)
    yield Case("the end of a stream goes by its own period", ["losses", "--period", "MU01=5"], ended, text([
        f"end silent {of_name('MU01')} since=0 for=1000000", whole("MU01", samples=1), f"total sv {of_name('MU02')} samples=1"]), 1,
               [b"goose losses: not judged: 1 stream has no period (MU02): give --period N or --period ID=N\n"])


# ---- Texts that say no period ------------------------------------------------


def refused():
    for given, why in (("MU01=1", "1 is not in 2..=65536"), ("MU01=65537", "65537 is not in 2..=65536"), ("MU01=-2", "-2 is not in 2..=65536"),
                       ("MU01=", "cannot parse integer from empty string"), ("=", "cannot parse integer from empty string"),
                       ("MU01", "invalid digit found in string"), ("MU01=4000x", "invalid digit found in string"), ("4000=", "cannot parse integer from empty string"),
                       ("4000=MU01", "invalid digit found in string"), ("MU01= 5", "invalid digit found in string"), ("MU01=5=", "cannot parse integer from empty string"),
                       ("MU01=\u0665", "invalid digit found in string"), ("MU01=9223372036854775808", "number too large to fit in target type")):
        said = [f"error: invalid value '{given}' for '--period <[ID=]N>': {why}\n\nFor more information, try '--help'.\nN is a whole number from 2 to 65536".encode()]
        for asked in ([f"--period={given}"], ["--period", "5", "--period", given], [f"--period={given}", "--period=x"],
                      ["--read", "no such file", "--capture", "--period=S=2", f"--period={given}", "--"]):
            yield Case(f"no period: {' '.join(asked)}", ["losses", *asked], b"X\n", b"", 2, said)
    for asked, said in ((["--period", "-x=5"], b"'-x'"), (["--period"], b"--period <[ID=]N>"), (["--", "--period=5"], b"'--period=5'"), (["--period", "5", "MU01=5"], b"'MU01=5'"),
                        (["--period=1", TIME, JSON], b"'--time' cannot be used with '--json'"), (["--period=1", "--id=S"], b"'--id'")):
        yield Case(f"words of losses that are refused: {' '.join(asked)}", ["losses", *asked], b"X\n", b"", 2, [said])
    yield Case("a watch has one period", ["watch", "--period", "5", "--period", "6", "--id", "S"], b"X\n", b"", 2, [b"--period <N>"])
    yield Case("a watch has a plain period", ["watch", "--period", "S=5", "--id", "S"], b"X\n", b"", 2, [b"invalid value 'S=5' for '--period <N>'"])


# ---- By chance ---------------------------------------------------------------


def some_events(chance, count):
    """Frames of few streams, whose counts mostly go on, and of a control block, with their times."""
    moment, known = chance.choice([0, 10**15]), {}
    names = chance.sample(NAMES, 4)
    rates = {name: chance.choice(PERIODS) for name in names}
    for _ in range(count):
        moment = max(0, moment + chance.choice([0, 1, 250, 250, 250, 500000, 1000000, 3000000, -1000, -1250000]))
        if chance.random() < 0.1:
            yield moment, state(1, chance.randrange(3), 2000, False)
            continue
        key = chance.choice(names), chance.choice([1, 1, 2])
        step = chance.choice([1] * 12 + [0, 0, 2, 3, -1, -2, rates[key[0]] // 2, chance.randrange(rates[key[0]])])
        known[key] = (known.get(key, 0) + step) % rates[key[0]]
        yield moment, samples(min(65535, known[key]), sv_id=key[0], source=key[1], synch=chance.choice([2] * 9 + [0, 1]))


def some_periods(chance):
    """Uses of the option by chance, in either spelling, with other options between them."""
    asked = []
    for _ in range(chance.randrange(6)):
        name, number = chance.choice([None, *NAMES]), chance.choice(["", "", "+", "00"]) + str(chance.choice(PERIODS))
        given = number if name is None else f"{name.decode()}={number}"
        asked += [f"--period={given}"] if given.startswith("-") or chance.random() < 0.5 else ["--period", given]
        asked += chance.choice([[], [], [], [TIME], [JSON]]) if TIME not in asked and JSON not in asked else []
    return asked + chance.choice([[], [], ["--"]])


class ByChance:
    """A list and a capture of the same events, of which the program writes what the slow reading does, and names the streams that it does
    not judge."""

    def __init__(self, name, seed):
        self.name, self.seed = name, seed

    def why_wrong(self, program):
        chance = random.Random(self.seed)
        events = list(some_events(chance, 60))
        asked = ["losses", *some_periods(chance)]
        octets = of(*events)
        captured = header() + b"".join(record(at // 10**6, at % 10**6, held) for at, held in events if at < 2**32 * 10**6)
        why = self.why_not(asked, octets, run(program, asked, octets))
        if len(captured) > 24 and "--" not in asked:
            why += self.why_not([*asked, CAPTURE], captured, run(program, [*asked, CAPTURE], captured))
        with tempfile.TemporaryDirectory() as folder:
            for held in (octets, captured):
                path = pathlib.Path(folder) / "recording"
                path.write_bytes(held)
                words = ["losses", "-r", str(path), *asked[1:]]
                why += self.why_not(meant(asked, held), held, run(program, words, b"not read"))
        return why

    def why_not(self, asked, octets, got):
        lines, status, passed = reading.answered(asked, octets)
        why = why_differs(asked, (lines, status), got, passed, reading.written(asked, lines, octets), octets)
        given = reading.own_words(reading.options_of(asked)[0])[1]
        keys = [key for key in losses.streams(octets, events_of=reading.reader_of(asked)) if losses.period_of(given, key) is None]
        told = [line for line in got[1].decode().splitlines() if ": not judged: " in line]
        wanted = [f"goose losses: {it}" for it in losses.not_judged(keys)]
        return why + ([] if told == wanted else [f"{' '.join(asked)}: said {told}, and not {wanted}"])


def by_chance():
    for at in range(80):
        yield ByChance(f"periods by chance, {at}", SEED + at)


def cases():
    yield from (*worked(), *refused(), *by_chance())
