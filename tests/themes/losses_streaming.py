"""`losses` at its work: lines come live, and totals at the end; devices fail; memory follows senders and streams, not events; and very many
senders take less than a second, in whatever order they come."""
import functools
import os
import resource
import subprocess
import tempfile

from helpers.capture_parts import packet
from helpers.frames import WORKED, element, put
from helpers.harness import listed, peak_memory, text
from oracles.reading import CAPTURE, JSON, TIME
from themes.capture_streams import MANY, START, Long
from themes.devices import FAULT, Directory, FailsAfter, Full, TriedOnce, Unread
from themes.known_memory import ascending, by_chance, descending, greatest_first, zigzag
from themes.live import FullAtOnce, GoesAway, InBlocks, InTurn, octets
from themes.losses import ASKED, G, S, of, pairs, pcapng, samples, total_goose, total_sv
from themes.replaying import line, state
from themes.streaming import DoesNotGrow, WantsMemory

MOST = 3072  # kilobytes
SENDERS, ROUNDS = 100_000, 2
ORDERS = (ascending, descending, zigzag, by_chance, greatest_first)
# What the program takes without senders, in octets, and what one takes beside the octets of its name, the allocator's own and idle room with
# it; of no order more than this of what they take in ascending order.
NONE, MORE, RATIO = 2 * 2**20, 400, 1.5


# ---- Live and failing --------------------------------------------------------


def live():
    turns = [(b"V2\n", b""), (line(0, state(1, 0)), b""), (line(1, state(1, 2)), f"3 frames-missing {G} st=1 from=1 to=1\n".encode()),
             (line(2, samples(1, 1)), f"4 sample-repeated {S} cnt=1\n".encode()), (line(2, state(1, 1)), f"5 late {G} st=1 sq=1\n".encode()),
             (b"# none\n", b"")]
    end = text([total_goose(frames=3, frames_missing=1, late=1, longest=1), total_sv(samples=2, repeated=1)])
    yield InTurn("each line comes before the next, and totals at the end", ASKED, turns, 1, end)
    yield InTurn("the same, octet by octet", ASKED, list(octets(turns)), 1, end)
    turns = [(pcapng((0, state(1, 0))), b""), (packet(5, state(1, 2)), f"2 frames-missing {G} st=1 from=1 to=1\n".encode())]
    yield InTurn("each packet is answered before the next", [*ASKED, CAPTURE], turns, 1, text([total_goose(frames=2, frames_missing=1, longest=5)]))


def failing():
    lost = of(*pairs((0, 1, 0), (0, 1, 2)))
    told = f"3 frames-missing {G} st=1 from=1 to=1"
    yield Directory("losses of a directory is a read fault", ASKED, b"", b"1 list ReadFailed\n", 4, FAULT)
    yield Directory("losses of a directory, as a capture", [*ASKED, CAPTURE], b"", b"0 capture ReadFailed\n", 4, FAULT)
    yield FailsAfter("lines stand before a read fault, and no totals", ASKED, lost + b"C 7", text([told, "4 list ReadFailed"]), 4, FAULT)
    yield FailsAfter("a read fault where the next line would begin", ASKED, lost, text([told, "4 list ReadFailed"]), 4, FAULT)
    yield Full("a line on a full disk", ASKED, lost, None, 4, FAULT)
    yield Full("a total on a full disk", ASKED, of(*pairs((0, 1, 0))), None, 4, FAULT)
    yield Full("nothing on a full disk", ASKED, b"", None)
    yield Unread("losses to nobody", ASKED, lost)
    yield TriedOnce("losses tries no failed write again", ASKED, lost)
    yield TriedOnce("losses tries no failed total again", ASKED, of(*pairs((0, 1, 0))))
    yield GoesAway("a reader that goes away", ASKED, lost, line(1, state(1, 9)))
    yield FullAtOnce("losses", ASKED, lost)
    yield InBlocks("losses", ASKED, line(0, WORKED))


# ---- Memory and time ---------------------------------------------------------


def flat():
    many = MANY // 1000 * 1000
    it = Long("losses of one sender", [*ASKED, CAPTURE], START, packet(1, state(1, 0)), many, status=0)
    it.wanted = text([total_goose(frames=many, repeated=many - 1)])
    yield it
    for more in ([], [TIME], [JSON]):
        name, asked = " ".join(["losses", *more]), [*ASKED, CAPTURE, *more]
        yield DoesNotGrow(f"a list of frames under {name}", [*ASKED, *more], listed(state(1, 0)), b"", MOST)
        yield DoesNotGrow(f"a capture of samples under {name}", asked, packet(1, samples(1, 7)), START, MOST)
        yield DoesNotGrow(f"a capture of late frames under {name}", asked, packet(1, state(1, 0)), START + packet(1, state(1, 1)), MOST)
    yield WantsMemory(ASKED, of(*pairs((0, 1, 0), (1, 1, 2)), (1, samples(1)), (2, samples(4))), "losses")
    yield WantsMemory(ASKED, of(*pairs((0, 1, 0), (1, 1, 2))) + b"X", "losses, ended by an error,")
    yield WantsMemory([*ASKED, CAPTURE, JSON], pcapng(*pairs((0, 1, 0), (1, 1, 2)), (1, samples(1))), "losses of a capture, in objects,")


# Short names, names that differ in their last octets alone, and in their first.
NAMES = {"short": b"IED%06d/GO$LLN0", "alike in 100 octets": b"A" * 100 + b"%06d", "alike behind six octets": b"%06d" + b"A" * 100}


def senders(name):
    """A packet of a sender of this name."""
    return packet(1, state(1, 0, gocb_ref=element(0x80, name)))


def streams(name):
    """A packet of a stream of this name."""
    return packet(1, samples(1, sv_id=name))


def by_turns(made, name, numbers, rounds):
    """A capture of a frame of each of these senders or streams, in turn."""
    mark = b"N" * len(name % 0)
    before, after = made(mark).split(mark)
    return START + b"".join(before + name % number + after for number in numbers) * rounds


@functools.cache
def peak(program, made, name, order):
    """The most memory of a run over very many senders in an order, in octets."""
    with tempfile.TemporaryFile() as capture:
        capture.write(by_turns(made, name, order(SENDERS), 1))
        capture.seek(0)
        return 1024 * peak_memory([*program, *ASKED, CAPTURE], capture)


class Follows:
    """Senders, or streams, in an order take no more memory than they may, alone and beside those in ascending order."""

    def __init__(self, made, kind, order):
        self.made, self.kind, self.order = made, kind, order
        self.name = f"memory: {SENDERS} {made.__name__}, {kind}, {order.__name__}"

    def why_wrong(self, program):
        name = NAMES[self.kind]
        taken, in_order = (peak(tuple(program), self.made, name, order) - NONE for order in (self.order, ascending))
        most = SENDERS * (len(name % 0) + MORE)
        why = [f"{taken // SENDERS} octets each, and not at most {most // SENDERS}"] if taken > most else []
        return why + ([f"{taken // SENDERS} octets each, and {in_order // SENDERS} in order"] if taken > RATIO * in_order else [])


def limit():
    """Ends a run that takes very long."""
    resource.setrlimit(resource.RLIMIT_CPU, (60, 60))


def ran(program, capture):
    """The processor time of a run over a capture, and what it wrote."""
    with tempfile.TemporaryFile() as stdout:
        capture.seek(0)
        started = subprocess.Popen([*program, *ASKED, CAPTURE], stdin=capture, stdout=stdout, stderr=subprocess.DEVNULL, preexec_fn=limit)
        _, _, used = os.wait4(started.pid, 0)
        stdout.seek(0)
        return used.ru_utime + used.ru_stime, stdout.read()


class InASecond:
    """Senders, or streams, that come by turns take less than a second of a processor, the least of three runs. Each has its total, in the
    order in which they came first: these words stand in it."""

    MOST = 1.0

    def __init__(self, name, made, words):
        self.name, self.made, self.words = f"time: {name}", made, words

    def why_wrong(self, program):
        words = self.words()
        with tempfile.TemporaryFile() as capture:
            capture.write(self.made())
            seconds, wrote = ran(program, capture)
            seconds = min([seconds] + [ran(program, capture)[0] for _ in range(2) if seconds > self.MOST])
        totals = [it for it in wrote.splitlines() if it.startswith(b"total ")]
        other = next((word for word, total in zip(words, totals) if word not in total), None)
        why = [f"{len(totals)} totals, and not {len(words)}"] if len(totals) != len(words) else []
        why += [f"{other!r} has another place"] if other else []
        return why + ([f"{seconds:.2f} seconds of a processor"] if seconds > self.MOST else [])


def in_a_second(made, kind, order):
    """Very many of these, with such names, in an order."""
    name = NAMES[kind]
    return InASecond(f"{SENDERS} {made.__name__}, {kind}, {order.__name__}", lambda: by_turns(made, name, order(SENDERS), ROUNDS),
                     lambda: [b'"%s"' % (name % number) for number in order(SENDERS)])


def of_one_name(order):
    """Senders of one gocbRef and all APPIDs, in an order."""
    before, after = packet(1, put(WORKED, at14=0xFE, at15=0xDC)).split(b"\xfe\xdc")
    return InASecond(f"all APPIDs of one gocbRef, {order.__name__}",
                     lambda: START + b"".join(before + it.to_bytes(2, "big") + after for it in order(65536)) * ROUNDS,
                     lambda: [b"appid=%04x " % it for it in order(65536)])


def many():
    for made in (senders, streams):
        for kind in NAMES:
            for order in ORDERS if kind == "short" or made is senders else (by_chance,):
                yield in_a_second(made, kind, order)
        for order in ORDERS:
            yield Follows(made, "short", order)
        yield Follows(made, "alike in 100 octets", by_chance)
    yield of_one_name(ascending)
    yield of_one_name(by_chance)


def cases():
    yield from (*live(), *failing(), *flat(), *many())
