"""What is kept follows what is known: the peak of `blocks` over blocks in several orders, beside what their names and texts
have, and beside one another; and in how much memory a `replay` of very many blocks starts."""
import functools
import random
import resource
import tempfile

from helpers.frames import element, with_fields
from helpers.harness import peak_memory, run

SEED = 61850
NAME = "IED%06d$GO"
MARK = b"N" * len(NAME % 0)
TEXT = f"0001,{NAME % 0},D,,1,1"

# Beside the octets of its name and its text, a block takes at most so many more, the allocator's own and idle room with them.
MORE = 100
# What the program takes without blocks, in octets.
NONE = 2 * 2**20
# No order takes more than this of what blocks in ascending order take.
RATIO = 1.5
# At few runs one is full with 64 blocks, behind 2,080 runs with more. A run has 32 to 64.
FEW, MANY = 60000, 140000
RUNS, FULL = 2080, 64
FULL_AND_TWO = RUNS * (FULL + 2)


def ascending(count):
    return list(range(count))


def descending(count):
    return list(range(count - 1, -1, -1))


def zigzag(count):
    """From both ends to the middle."""
    return [at // 2 if at % 2 == 0 else count - 1 - at // 2 for at in range(count)]


def by_chance(count):
    numbers = list(range(count))
    random.Random(SEED).shuffle(numbers)
    return numbers


def greatest_first(count):
    """Each but the first comes right before the greatest: into the last run, which is cut in two again and again."""
    return [count - 1, *range(count - 1)]


def two_more_a_run(_count):
    """Runs that are full, and then two more blocks into each: some are cut, and the others grow."""
    full = [2 * at for at in range(RUNS * FULL)]
    return full + [2 * (run * FULL + at) + 1 for run in range(RUNS) for at in (FULL // 4, FULL // 2)]


def listed(numbers):
    """A list with a frame for each block."""
    before, after = with_fields(gocb_ref=element(0x80, MARK)).hex().split(MARK.hex())
    return "".join(f"F 0 {before}{(NAME % number).encode().hex()}{after}\n" for number in numbers).encode()


@functools.cache
def peak(program, order, count):
    """The most memory of a run over so many blocks in an order, in octets."""
    numbers = order(count)
    with tempfile.TemporaryFile() as octets:
        octets.write(listed(numbers))
        octets.seek(0)
        return 1024 * peak_memory([*program, "blocks"], octets)


class Follows:
    """Blocks in an order take no more than they may, alone and beside those in ascending order."""

    def __init__(self, order, count):
        self.order, self.count = order, count
        self.name = f"{count} blocks, {order.__name__}"

    def why_wrong(self, program):
        count = self.count
        taken = peak(tuple(program), self.order, count) - NONE
        in_order = peak(tuple(program), ascending, count) - NONE
        most = count * (len(MARK) + len(TEXT) + MORE)
        why = [f"{taken // count} octets a block, and not at most {most // count}"] if taken > most else []
        return why + ([f"{taken // count} octets a block, and {in_order // count} in order"] if taken > RATIO * in_order else [])


class Starts:
    """A replay starts where it may have so many octets for each of its blocks, beside what one with a block needs. A register, a
    deadline and a name stand for each; four times the room for names would take 120 octets more a block."""

    COUNT, EACH = 16000, 740
    PAGE, AMPLE = 4096, 64 * 2**20
    name = f"a replay of {COUNT} blocks"

    def starts(self, program, count, most):
        blocks = [f"0001,{NAME % number},D,,1,1" for number in range(count)]
        how = {"preexec_fn": lambda: resource.setrlimit(resource.RLIMIT_AS, (most, most))}
        return run(program, ["replay", *blocks], **how)[2] == 0

    def why_wrong(self, program):
        low, high = 0, self.AMPLE
        while high - low > self.PAGE:
            middle = (low + high) // 2 // self.PAGE * self.PAGE
            low, high = (low, middle) if self.starts(program, 1, middle) else (middle, high)
        enough = high + self.COUNT * self.EACH
        return [] if self.starts(program, self.COUNT, enough) else [f"not in {enough} octets, where one block needs {high}"]


def cases():
    for order in (ascending, descending, zigzag, by_chance, greatest_first):
        for count in (FEW, MANY):
            yield Follows(order, count)
    yield Follows(two_more_a_run, FULL_AND_TWO)
    yield Starts()
