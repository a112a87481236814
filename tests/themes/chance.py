"""Lists made by chance, always the same ones, of which the slow reader says what comes."""
import random

from helpers import by_chance
from helpers.frames import WORKED
from helpers.harness import Agreement, listed

SEED = 61850


def line(chance):
    """A line of a list, often a bad one."""
    pieces = [b"F", b"C", b"M", b"V2", b" ", b" ", b"0", b"7", b"00", b"aF", b"on", b"off", b"\r", b"#", b"\t", b"\xff",
              WORKED.hex().encode()]
    return b"".join(chance.choice(pieces) for _ in range(chance.randrange(8)))


def cases():
    chance = random.Random(SEED)
    for name, made in (("GOOSE", by_chance.goose), ("Sampled Values", by_chance.sampled)):
        yield Agreement(f"{name} in any spelling", listed(*[made(chance) for _ in range(2000)]))
    good = [b"C 1", b"# x", b"", b"F 5 " + WORKED.hex().encode(), b"C 7\r", b"M 3 on", b"M 4 off\r"]
    for number in range(120):
        first = chance.choice([[], [b"V2"], [b"V2\r"]])
        lines = [chance.choice(good) for _ in range(chance.randrange(5))] + [line(chance) for _ in range(3)]
        lines = first + lines
        yield Agreement(f"lines in any shape, {number}", b"\n".join(lines))
