"""Frames without what a ring or a provider's network put round them, by --unwrap, in lists and captures: HSR tags, and VLAN tags before
another. What the program writes is what the slow programs write of the frames that an independent reading leaves; and worked frames."""
import random
from itertools import product

from helpers.capture_parts import header, interface, packet, record, section
from helpers.captured import ASKED, EachOf, Read, asking, why_wrong_of
from helpers.frames import SAMPLED, WORKED, put
from helpers.harness import Case, first_difference, listed, run
from themes.mutations import good_goose, good_sampled
from themes.replaying import line, state
from themes.skipping import other
from themes.watching import asdu, sampled

SEED = 62439
RING, TAG, OUTER, OLD = b"\x89\x2f\x10\x9a\0\7", b"\x81\0\x80\5", b"\x88\xa8\0\x64", b"\x91\0\0\5"
UNWRAP, SKIP = "--unwrap", "--skip-other"


def wrapped(frame, *tags):
    """A frame with these tags behind its addresses."""
    return frame[:12] + b"".join(tags) + frame[12:]


def both_inputs(name, timed, *options):
    """The same frames at times, in microseconds, as a list, a classic capture and pcapng, under each command."""
    moments = list(timed)
    inputs = {
        "list": (b"V2\n" + b"".join(line(moment, frame) for moment, frame in moments if len(frame) <= 2000), []),
        "classic": (header() + b"".join(record(moment // 10**6, moment % 10**6, frame) for moment, frame in moments), ["--capture"]),
        "pcapng": (section() + interface() + b"".join(packet(moment, frame) for moment, frame in moments), ["--capture"]),
    }
    for form, (octets, more) in inputs.items():
        yield Read(f"{name}: {form}", octets, *[asking(command, *more, *options, UNWRAP) for command in ASKED])


class LikeLeft:
    """Of tagged frames as much is written as of the frames that are left, by hand: the tags alone make the difference."""

    def __init__(self, name, pairs):
        self.name, self.pairs = f"as if they were not there: {name}", list(pairs)

    def why_wrong(self, program):
        tagged, left = (listed(*[pair[at] for pair in self.pairs]) for at in (0, 1))
        return [f"{command}: {why}" for command in ASKED
                for why in [*why_wrong_of(program, asking(command), left), *why_same(program, command, tagged, left)]]


def why_same(program, command, tagged, left):
    """What differs between a run over tagged frames with --unwrap and one over those that are left without."""
    wrote, plain = run(program, asking(command, UNWRAP), tagged), run(program, asking(command), left)
    difference = first_difference(plain[0], wrote[0])
    return ([difference] if difference else []) + ([] if wrote[1:] == plain[1:] else [f"{wrote[1:]}, and without tags {plain[1:]}"])


def stacks(most):
    """Every stack of tags of at most so many."""
    for count in range(most + 1):
        yield from product((RING, TAG, OUTER, OLD), repeat=count)


def cut():
    """A frame in each stack of three tags, cut at each octet near the tags' end."""
    for tags in stacks(3):
        frame = wrapped(WORKED, *tags)
        for size in range(max(1, len(b"".join(tags)) + 11), len(b"".join(tags)) + 16):
            yield f"{[it.hex() for it in tags]}, cut to {size}", listed(frame[:size])


def long_frames():
    """1,600 octets are those that are left, and tags without end are taken out."""
    for frame, size, tags in product((WORKED, SAMPLED), (1594, 1595, 1600, 1601), ((), (RING,), (OUTER,), (OUTER, RING))):
        yield wrapped(frame + bytes(size - len(frame)), *tags)
    yield wrapped(WORKED, *[RING] * 300)
    yield wrapped(WORKED, *[OUTER, TAG, RING] * 120)


WORKED_STACKS = [
    ((RING,), ()), ((TAG, RING), (TAG,)), ((RING, TAG), (TAG,)), ((OUTER, TAG), (TAG,)), ((TAG, TAG), (TAG,)), ((OUTER, TAG, RING), (TAG,)),
    ((OUTER, RING, TAG), (TAG,)), ((RING, RING), ()), ((TAG, TAG, TAG), (TAG,)), ((), ()), ((TAG,), (TAG,)), ((OUTER,), (OUTER,)),
    ((TAG, OUTER), (OUTER,)), ((OLD,), (OLD,)), ((OLD, TAG), (OLD, TAG)), ((RING, OLD), (OLD,)), ((RING, TAG, RING, TAG), (TAG,)),
]


def worked():
    frames = {"GOOSE": WORKED, "samples": SAMPLED, "another state": state(1, 1), "an error": put(WORKED, at66=1), "ARP": other(0x0806)}
    for name, frame in frames.items():
        yield LikeLeft(name, ((wrapped(frame, *tags), wrapped(frame, *left)) for tags, left in WORKED_STACKS))
    for options in ((), (SKIP,)):
        yield from both_inputs(f"a ring, {options}", ((300 * at, wrapped(frame, RING[:4] + bytes([0, at]))) for at, frame in enumerate(
            [state(1, 0), state(1, 0), state(1, 1), state(2, 0), state(1, 1), sampled(asdu(0)), sampled(asdu(1)), sampled(asdu(0)), other(0x0806)])), *options)
        yield from both_inputs(f"long frames, {options}", enumerate(long_frames()), *options)
        yield EachOf(f"stacks of tags, cut, {options}", cut, *options, UNWRAP)
    yield Case("two frames of which the second has an HSR tag", ["replay", UNWRAP, "0001,G,D,,1,1"], listed(WORKED, wrapped(WORKED, RING)),
               b"1 act 0 st=1 sq=0 t=0000000000000000 {true}\n2 repeated 0 st=1 sq=0\n")
    yield Case("without the option an HSR tag is an error", ["check"], listed(wrapped(WORKED, RING)), b"1 fault 12 EtherType\n", 1)
    yield Case("ARP in a ring is passed over as ARP", ["check", SKIP, UNWRAP], listed(wrapped(other(0x0806), RING)), b"", 0,
               [b"passed over: 1 of EtherType 0806 (ARP), from 1 on"])
    yield Case("a provider's tag alone is passed over", ["check", UNWRAP, SKIP], listed(wrapped(WORKED, OUTER)), b"", 0,
               [b"passed over: 1 of EtherType 88a8"])
    for words in (["show", UNWRAP, UNWRAP], ["rewrite", UNWRAP], ["publish", UNWRAP], ["import", UNWRAP], ["show", "--unwrap=1"]):
        yield Case(f"a mistake: {words}", words, b"", b"", 2, [b"--unwrap"])


def by_chance():
    """Lists of frames in tags by chance, some damaged there."""
    chance = random.Random(SEED)
    good = good_goose(chance) + good_sampled(chance) + [other(0x0806)]
    for at in range(60):
        frames = []
        for _ in range(30):
            frame = wrapped(chance.choice(good), *chance.choices((RING, TAG, OUTER, OLD, b"\x89", b"\x81"), (4, 3, 3, 1, 1, 1), k=chance.randrange(5)))
            frames.append(frame[:chance.randrange(1, 40)] if chance.random() < 0.1 else frame)
        yield f"list {at}", b"V2\n" + b"".join(line(chance.randrange(5 * 10**6), frame) for frame in frames if len(frame) <= 2000)


def cases():
    yield from worked()
    yield EachOf("lists by chance", by_chance, UNWRAP)
    yield EachOf("lists by chance, other protocols passed over", by_chance, UNWRAP, SKIP)
    plain = listed(WORKED, SAMPLED, put(WORKED, at66=1), WORKED[:30], other(0x0806))
    yield Read("without tags nothing changes", plain, *[asking(command, UNWRAP) for command in ASKED])
