"""What is missing of control blocks and streams: worked lists; lists and captures beside the slow reading of them, with each option; the words
of the command."""
import random

from helpers.asked_tools import EXAMPLES
from helpers.capture_parts import header, interface, packet, record, section
from helpers.captured import Read
from helpers.frames import WORKED, asdu, element, put, with_asdus
from helpers.harness import Case, listed, text
from oracles.reading import CAPTURE, JSON, SKIP, TIME
from themes.captures import ARP
from themes.replaying import line, state
from themes.skipping import other

SEED = 61850
G, S = 'appid=0001 ref="G" sim=false', 'appid=4000 source=020000000001 id="S"'
OF_SENDER = ("frames", "states-missing", "frames-missing", "late", "repeated", "restarted", "silent", "longest")
OF_STREAM = ("samples", "missing", "late", "repeated", "out-of-range", "outages", "longest")
# The words of lines that leave the exit status 0.
NO_LOSS = ("sample-repeated", "synch", "goose", "sv")
PERIOD = ["--period", "4000"]
ASKED = ["losses", *PERIOD]
SECOND = 10**6
EVERY = [list(words) for words in ((), (TIME,), (JSON,), (SKIP,), (SKIP, TIME), (JSON, SKIP))]


def samples(*counts, sv_id=b"S", synch=2, source=1, app_id=0x4000):
    """A frame of samples of a stream with these counts."""
    numbers = [count.to_bytes(2, "big") for count in counts]
    made = with_asdus(*[asdu(sv_id=element(0x80, sv_id), smp_cnt=element(0x82, it), smp_synch=element(0x85, bytes([synch])), smp_mod=b"")
                        for it in numbers])
    return put(made, at11=source, at14=app_id >> 8, at15=app_id % 256)


def of(*events):
    """A list of version 2 of frames behind their times, clock times, and lines."""
    lines = [it if isinstance(it, bytes) else b"C %d\n" % it if isinstance(it, int) else line(*it) for it in events]
    return b"V2\n" + b"".join(lines)


def total_goose(key=G, **values):
    values = {name.replace("_", "-"): it for name, it in values.items()}
    return f"total goose {key} " + " ".join(f"{name}={values.get(name, 0)}" for name in OF_SENDER)


def total_sv(key=S, **values):
    values = {name.replace("_", "-"): it for name, it in values.items()}
    return f"total sv {key} " + " ".join(f"{name}={values.get(name, 0)}" for name in OF_STREAM)


def status_of(lines):
    """The exit status of a run that writes these lines, and meets no error."""
    return int(any(it.split()[1] not in NO_LOSS for it in lines))


def worked(name, events, *lines, asked=ASKED):
    """A list, and the lines that come of it, in which G stands for the worked sender and S for the worked stream."""
    lines = [it.replace(" G ", f" {G} ").replace(" S ", f" {S} ") for it in lines]
    return Case(name, asked, of(*events), text(lines), status_of(lines))


def pairs(*given, live=2000):
    """Frames of the worked sender: microseconds, stNum, sqNum."""
    return [(moment, state(st, sq, live)) for moment, st, sq in given]


def counts(*given):
    """Frames of the worked stream: microseconds, count."""
    return [(moment, samples(count)) for moment, count in given]


# ---- Control blocks ----------------------------------------------------------


def of_senders():
    yield worked("nothing is missing", pairs((0, 1, 0), (SECOND, 1, 1), (1500000, 2, 0), (1500000, 2, 1)), total_goose(frames=4, longest=SECOND))
    yield worked("frames of a state", pairs((0, 1, 0), (5, 1, 4), (9, 1, 6)), "3 frames-missing G st=1 from=1 to=3",
                 "4 frames-missing G st=1 from=5 to=5", total_goose(frames=3, frames_missing=4, longest=5))
    yield worked("silence, and frames of a state", pairs((0, 1, 0), (SECOND, 1, 1), (4 * SECOND, 1, 4)),
                 "4 silent G since=3000000 for=1000000", "4 frames-missing G st=1 from=2 to=3",
                 total_goose(frames=3, frames_missing=2, silent=1, longest=3 * SECOND))
    yield worked("states", pairs((0, 3, 7), (1, 5, 0), (2, 9, 0)), "3 states-missing G from=4 to=4", "4 states-missing G from=6 to=8",
                 total_goose(frames=3, states_missing=4, longest=1))
    yield worked("states, and the first frames of the state that came", pairs((0, 1, 0), (1, 4, 2)), "3 states-missing G from=2 to=3",
                 "3 frames-missing G st=4 from=0 to=1", total_goose(frames=2, states_missing=2, frames_missing=2, longest=1))
    yield worked("the first frames of the next state", pairs((0, 1, 5), (1, 2, 3)), "3 frames-missing G st=2 from=0 to=2",
                 total_goose(frames=2, frames_missing=3, longest=1))
    yield worked("the end of a state that another followed is not known", pairs((0, 1, 0), (1, 2, 0)), total_goose(frames=2, longest=1))
    yield worked("what came before the first frame is not known", pairs((0, 5, 7), (1, 5, 8)), total_goose(frames=2, longest=1))
    yield worked("a single frame", pairs((7, 0, 0)), total_goose(frames=1))
    yield worked("the greatest numbers", pairs((0, 0, 0), (1, 2**32 - 1, 2**32 - 1)), "3 states-missing G from=1 to=4294967294",
                 "3 frames-missing G st=4294967295 from=0 to=4294967294",
                 total_goose(frames=2, states_missing=2**32 - 2, frames_missing=2**32 - 1, longest=1))
    yield worked("numbers that begin anew behind the greatest are late", pairs((0, 1, 2**32 - 1), (1, 1, 1), (2, 1, 0)), "3 late G st=1 sq=1",
                 "4 late G st=1 sq=0", total_goose(frames=3, late=2))
    # Each pair in turn: a copy, one that was named, one of the state before, one below the first.
    yield worked("copies, and late frames", pairs((0, 2, 1), (1, 2, 1), (2, 2, 3), (3, 2, 2), (4, 3, 0), (5, 2, 4), (6, 1, 0), (7, 3, 0)),
                 "4 frames-missing G st=2 from=2 to=2", "5 late G st=2 sq=2", "7 late G st=2 sq=4", "8 late G st=1 sq=0",
                 total_goose(frames=8, frames_missing=1, late=3, repeated=2, longest=2))
    yield worked("a sender after a number that is none of its own", pairs((0, 2, 0), (1, 900, 0), (2, 2, 1), (3, 2, 2)),
                 "3 states-missing G from=3 to=899", "4 late G st=2 sq=1", "5 late G st=2 sq=2",
                 total_goose(frames=4, states_missing=897, late=2, longest=1))


def of_silence():
    """Lifetimes are 2,000 ms, where nothing else is said."""
    for moment, silent in ((1999999, []), (2000000, ["3 silent G since=2000000 for=0"]), (2000001, ["3 silent G since=2000000 for=1"])):
        yield worked(f"a frame at {moment} of 2000000", pairs((0, 1, 0), (moment, 1, 1)), *silent,
                     total_goose(frames=2, silent=len(silent), longest=moment))
    kept = "5 silent G since=3000000 for=0"
    yield worked("a late frame does not move the deadline", pairs((0, 1, 0), (SECOND, 1, 2), (2900000, 1, 1), (3 * SECOND, 1, 3)),
                 "3 frames-missing G st=1 from=1 to=1", "4 late G st=1 sq=1", kept,
                 total_goose(frames=4, frames_missing=1, late=1, silent=1, longest=2 * SECOND))
    yield worked("a copy does not move the deadline", pairs((SECOND, 1, 0), (1900000, 1, 0), (2900000, 1, 0), (3 * SECOND, 1, 1)), kept,
                 total_goose(frames=4, repeated=2, silent=1, longest=2 * SECOND))
    yield worked("a copy that ends a silence does", pairs((0, 1, 0), (3 * SECOND, 1, 0), (4900000, 1, 1)), "3 silent G since=2000000 for=1000000",
                 total_goose(frames=3, repeated=1, silent=1, longest=3 * SECOND))
    yield worked("a publisher that starts anew", pairs((0, 7, 3), (5 * SECOND, 1, 0), (6 * SECOND, 1, 1), (6 * SECOND, 1, 0)),
                 "3 silent G since=2000000 for=3000000", "3 restarted G st=1 sq=0", "5 late G st=1 sq=0",
                 total_goose(frames=4, late=1, restarted=1, silent=1, longest=5 * SECOND))
    yield worked("one that starts anew within the lifetime is late until that is over",
                 pairs((0, 7, 3), (SECOND, 1, 0), (1500000, 1, 1), (2500000, 1, 2), (3 * SECOND, 1, 3)), "3 late G st=1 sq=0", "4 late G st=1 sq=1",
                 "5 silent G since=2000000 for=500000", "5 restarted G st=1 sq=2",
                 total_goose(frames=5, late=2, restarted=1, silent=1, longest=2500000))
    yield worked("a late frame behind the deadline looks like a restart", pairs((0, 1, 0), (1, 1, 2), (2 * SECOND + 1, 1, 1), (3 * SECOND, 1, 3)),
                 "3 frames-missing G st=1 from=1 to=1", "4 silent G since=2000001 for=0", "4 restarted G st=1 sq=1",
                 "5 frames-missing G st=1 from=2 to=2",
                 total_goose(frames=4, frames_missing=2, restarted=1, silent=1, longest=2 * SECOND))
    yield worked("a higher state is no restart", pairs((0, 1, 0), (60 * SECOND, 3, 0)), "3 silent G since=2000000 for=58000000",
                 "3 states-missing G from=2 to=2", total_goose(frames=2, states_missing=1, silent=1, longest=60 * SECOND))
    two = pairs((0, 5, 5), (3 * SECOND, 1, 0), (6 * SECOND, 0, 9), (7 * SECOND, 0, 11))
    yield worked("two restarts: the newest is that since the last one", two, "3 silent G since=2000000 for=1000000", "3 restarted G st=1 sq=0",
                 "4 silent G since=5000000 for=1000000", "4 restarted G st=0 sq=9", "5 frames-missing G st=0 from=10 to=10",
                 total_goose(frames=4, frames_missing=1, restarted=2, silent=2, longest=3 * SECOND))
    yield worked("a lifetime of 0 is over at once", pairs((0, 1, 0), (0, 1, 1), live=0), "3 silent G since=0 for=0", "end silent G since=0 for=0",
                 total_goose(frames=2, silent=2))
    yield worked("the greatest lifetime", pairs((7, 1, 0), live=2**32 - 1) + [4294967295006], total_goose(frames=1))
    yield worked("the end of the greatest lifetime", pairs((7, 1, 0), live=2**32 - 1) + [4294967295007],
                 "end silent G since=4294967295007 for=0", total_goose(frames=1, silent=1))
    lives = [(0, state(1, 0, 1)), (5, state(1, 1, 9000)), (6, state(1, 0, 1)), (8 * SECOND, state(1, 2, 1))]
    yield worked("the lifetime is the newest frame's", lives, "4 late G st=1 sq=0", total_goose(frames=4, late=1, longest=8 * SECOND - 5))
    yield worked("silence is told when a frame comes, or at the end", [*pairs((0, 1, 0)), 9 * SECOND, b"M 9500000 on\n"],
                 "end silent G since=2000000 for=7500000", total_goose(frames=1, silent=1))
    yield worked("silence up to the last event", [*pairs((0, 1, 0)), 1999999], total_goose(frames=1))
    yield worked("a time that goes back counts as the greatest so far", pairs((SECOND, 1, 0)) + [2500000] + pairs((5, 1, 1), (4400000, 1, 2)),
                 "4 time-back by=2499995", total_goose(frames=3, longest=1900000))
    yield worked("a frame with an error says what time it is", [*pairs((0, 1, 0)), (2 * SECOND, b"\0"), *pairs((1, 1, 1))], "4 time-back by=1999999",
                 "4 silent G since=2000000 for=0", total_goose(frames=2, silent=1, longest=2 * SECOND))
    yield Case("a list of milliseconds", ["losses"], listed(state(1, 0)) + b"C 2001\n", text(
        [f"end silent {G} since=2000000 for=1000", total_goose(frames=1, silent=1)]), 1)


def of_links():
    """Links that were down, and publishers that start anew: what is lost while the lifetime ends is told too."""
    silent = "3 silent G since=2000000 for=3000000"
    for name, given, lines, found in (
        ("states", [(0, 3, 0), (5000, 7, 0)], [silent, "3 states-missing G from=4 to=6"], {"states_missing": 3}),
        ("states, of which one comes late", [(0, 3, 0), (5000, 6, 0), (5100, 5, 0)],
         [silent, "3 states-missing G from=4 to=5", "4 late G st=5 sq=0"], {"states_missing": 2, "late": 1}),
        ("states that all come late", [(0, 3, 0), (5000, 6, 0), (5100, 5, 0), (5200, 4, 0)],
         [silent, "3 states-missing G from=4 to=5", "4 late G st=5 sq=0", "5 late G st=4 sq=0"], {"states_missing": 2, "late": 2}),
        ("frames of a state", [(0, 3, 9), (5000, 3, 14)], [silent, "3 frames-missing G st=3 from=10 to=13"], {"frames_missing": 4}),
        ("a frame that comes late", [(0, 3, 9), (5000, 3, 11), (5100, 3, 10)],
         [silent, "3 frames-missing G st=3 from=10 to=10", "4 late G st=3 sq=10"], {"frames_missing": 1, "late": 1}),
        ("nothing", [(0, 3, 9), (5000, 3, 10)], [silent], {}),
        ("a restart", [(0, 3, 9), (5000, 1, 1)], [silent, "3 restarted G st=1 sq=1"], {"restarted": 1}),
        ("a restart, with a higher sqNum", [(0, 3, 1), (5000, 1, 7)], [silent, "3 restarted G st=1 sq=7"], {"restarted": 1}),
    ):
        moments = [1000 * it[0] for it in given if it[0] in (0, 5000)]
        yield worked(f"a link that was down: {name}", pairs(*[(1000 * at, st, sq) for at, st, sq in given]), *lines,
                     total_goose(frames=len(given), silent=1, longest=moments[1], **found))
    yield worked("frames of two states", pairs((0, 3, 0), (1000, 3, 2), (5 * SECOND, 4, 2)), "3 frames-missing G st=3 from=1 to=1",
                 "4 silent G since=2001000 for=2999000", "4 frames-missing G st=4 from=0 to=1",
                 total_goose(frames=3, frames_missing=3, silent=1, longest=4999000))
    yield worked("two silences, and a loss before them", pairs((0, 3, 0), (1000, 3, 2), (5 * SECOND, 3, 3), (9 * SECOND, 4, 0)),
                 "3 frames-missing G st=3 from=1 to=1", "4 silent G since=2001000 for=2999000", "5 silent G since=7000000 for=2000000",
                 total_goose(frames=4, frames_missing=1, silent=2, longest=4999000))
    yield worked("an earlier state that comes late", pairs((0, 5, 0), (100, 3, 0), (200, 3, 4)), "3 late G st=3 sq=0", "4 late G st=3 sq=4",
                 total_goose(frames=3, late=2))
    trip = 'appid=3001 ref="BAY1PROT/LLN0$GO$gcbTrip" sim='
    yield Case("the trip recording", ["losses"], (EXAMPLES / "trip_recording.list").read_bytes(), text([
        f"8 frames-missing {trip}false st=5 from=1 to=1", f"10 states-missing {trip}false from=6 to=6", f"11 late {trip}false st=6 sq=0",
        f"16 silent {trip}false since=3304000 for=696000", f"16 restarted {trip}false st=1 sq=0",
        total_goose(f"{trip}false", frames=11, states_missing=1, frames_missing=1, late=1, repeated=1, restarted=1, silent=1, longest=2696000),
        total_goose(f"{trip}true", frames=1)]), 1)


def of_names():
    simulated = G.replace("false", "true")
    mixed = [(0, state(1, 0)), (0, state(5, 0, simulation=True)), (1, state(1, 2)), (1, state(5, 1, simulation=True))]
    yield worked("simulated frames are those of a sender of their own", mixed, "4 frames-missing G st=1 from=1 to=1",
                 total_goose(frames=2, frames_missing=1, longest=1), total_goose(simulated, frames=2, longest=1))
    odd = element(0x80, b'a"\\')
    yield worked("a gocbRef with a quote and a backslash", [(0, state(1, 0, gocb_ref=odd)), (1, state(1, 2, gocb_ref=odd))],
                 '3 frames-missing appid=0001 ref="a\\"\\\\" sim=false st=1 from=1 to=1',
                 total_goose('appid=0001 ref="a\\"\\\\" sim=false', frames=2, frames_missing=1, longest=1))
    fields = {"dat_set": element(0x82, b"E"), "go_id": element(0x83, b"I"), "conf_rev": element(0x88, b"\7")}
    yield worked("the data set, the goID and confRev can change", [(0, state(1, 0)), (1, state(1, 2, **fields))],
                 "3 frames-missing G st=1 from=1 to=1", total_goose(frames=2, frames_missing=1, longest=1))
    tagged = state(1, 2)[:12] + b"\x81\0\x80\4" + state(1, 2)[12:]
    yield worked("the source, the destination and a tag are not looked at", [(0, state(1, 0)), (1, put(tagged, at5=9, at11=9))],
                 "3 frames-missing G st=1 from=1 to=1", total_goose(frames=2, frames_missing=1, longest=1))
    abcd = put(state(1, 0), at14=0xAB, at15=0xCD)
    others = [abcd, samples(1), state(1, 0), samples(2, source=2), samples(9), abcd, samples(3, app_id=0xAB), samples(4, sv_id=b"")]
    last = ['appid=4000 source=020000000002 id="S"', 'appid=00ab source=020000000001 id="S"', 'appid=4000 source=020000000001 id=""']
    yield worked("senders and streams in the order in which they came first", [(0, it) for it in others],
                 total_goose(G.replace("0001", "abcd"), frames=2, repeated=1), f"total sv {S} samples=2", total_goose(frames=1),
                 *[f"total sv {it} samples=1" for it in last], asked=["losses"])
    ends = [(0, samples(1)), (0, state(1, 0)), (1, samples(1, source=2)), 3 * SECOND]
    yield worked("and so what has not come back", ends, "end silent S since=0 for=3000000", "end silent G since=2000000 for=1000000",
                 f"end silent {last[0]} since=1 for=2999999", total_sv(samples=1), total_goose(frames=1, silent=1), total_sv(last[0], samples=1))


# ---- Streams -----------------------------------------------------------------


def of_streams():
    yield worked("a count that goes round", counts((0, 3998), (250, 3999), (500, 0), (750, 1)), total_sv(samples=4))
    yield worked("a sample", counts((0, 100), (500, 102)), "3 samples-missing S from=101 missing=1",
                 total_sv(samples=2, missing=1, outages=1, longest=1))
    yield worked("samples over the end of a second", counts((0, 3998), (1250, 3)), "3 samples-missing S from=3999 missing=4",
                 total_sv(samples=2, missing=4, outages=1, longest=4))
    # The sample after the outage comes 250 us later than the outage is long.
    for seconds, missing in (("0.4", 1600), ("0.6", 2400), ("1", 4000), ("1.25", 5000), ("1.5", 6000), ("2", 8000), ("86400", 345600000)):
        moment, count = 250 * (missing + 1), (101 + missing) % 4000
        yield worked(f"an outage of {seconds} s", counts((0, 100), (moment, count), (moment + 250, (count + 1) % 4000)),
                     f"3 samples-missing S from=101 missing={missing}", total_sv(samples=3, missing=missing, outages=1, longest=missing))
    yield worked("the same count a second later", counts((0, 100), (SECOND, 100)), "3 samples-missing S from=101 missing=3999",
                 total_sv(samples=2, missing=3999, outages=1, longest=3999))
    yield worked("the sum of two outages, and the longer one", counts((0, 0), (1000, 4), (3000, 12), (3250, 13)),
                 "3 samples-missing S from=1 missing=3", "4 samples-missing S from=5 missing=7", total_sv(samples=4, missing=10, outages=2, longest=7))
    yield worked("a sample that comes late", counts((0, 100), (500, 102), (600, 101), (750, 103)), "3 samples-missing S from=101 missing=1",
                 "4 sample-late S cnt=101", total_sv(samples=4, missing=1, late=1, outages=1, longest=1))
    yield worked("one of the second before", counts((0, 3998), (500, 0), (600, 3999), (750, 1)), "3 samples-missing S from=3999 missing=1",
                 "4 sample-late S cnt=3999", total_sv(samples=4, missing=1, late=1, outages=1, longest=1))
    yield worked("half a period at one time: of two as near, the greater", counts((0, 0), (0, 2000)), "3 samples-missing S from=1 missing=1999",
                 total_sv(samples=2, missing=1999, outages=1, longest=1999))
    yield worked("half a period and one more at one time", counts((0, 0), (SECOND, 0), (SECOND, 2001)), "3 samples-missing S from=1 missing=3999",
                 "4 sample-late S cnt=2001", total_sv(samples=3, missing=3999, late=1, outages=1, longest=3999))
    yield worked("a clock that jumps on by half a second", counts((0, 0), (500250, 1), (500500, 2)), "3 samples-missing S from=1 missing=4000",
                 total_sv(samples=3, missing=4000, outages=1, longest=4000))
    yield worked("a clock that jumps on by less", counts((0, 0), (500249, 1), (500499, 2)), total_sv(samples=3))
    yield worked("a time that goes back, before a sample,", [SECOND, *counts((0, 0), (250, 1), (SECOND + 250, 2))], "3 time-back by=1000000",
                 total_sv(samples=3))
    yield worked("the frame of a sender says what time it is", [*counts((0, 0)), (SECOND, state(1, 0)), *counts((250, 1))],
                 "4 samples-missing S from=1 missing=4000", total_sv(samples=2, missing=4000, outages=1, longest=4000), total_goose(frames=1))
    for at, silent in ((999999, []), (SECOND, ["end silent S since=7 for=1000000"]), (SECOND + 1, ["end silent S since=7 for=1000001"])):
        yield worked(f"a stream that ends {at} before the end", [*counts((7, 0)), 7 + at], *silent, total_sv(samples=1))
    yield worked("a late sample and one out of range end no silence", [*counts((0, 3), (500, 5), (501, 4), (600000, 4000)), SECOND + 500],
                 "3 samples-missing S from=4 missing=1", "4 sample-late S cnt=4", "5 count-out-of-range S cnt=4000",
                 "end silent S since=500 for=1000000", total_sv(samples=4, missing=1, late=1, out_of_range=1, outages=1, longest=1))
    yield worked("one from before the first sample ends none", [*counts((0, 5), (1, 4)), SECOND], "end silent S since=0 for=1000000",
                 total_sv(samples=2))
    yield worked("a stream whose counts are all out of range", [*counts((0, 4000), (5, 65535)), 9 * SECOND], "2 count-out-of-range S cnt=4000",
                 "3 count-out-of-range S cnt=65535", total_sv(samples=2, out_of_range=2))
    yield worked("a count out of range changes nothing", counts((0, 4000), (250, 3999), (500, 65535), (500, 0)), "2 count-out-of-range S cnt=4000",
                 "4 count-out-of-range S cnt=65535", total_sv(samples=4, out_of_range=2))


def of_copies():
    twice = [(at, 100 + number) for number in range(4) for at in (250 * number, 250 * number + 12)]
    yield worked("each frame twice, as both networks of PRP bring it", counts(*twice),
                 *[f"{3 + 2 * at} sample-repeated S cnt={100 + at}" for at in range(4)], total_sv(samples=8, repeated=4))
    yield worked("the second network lags behind", counts((0, 0), (250, 1), (500, 2), (510, 0), (520, 1), (530, 2)),
                 *[f"{5 + at} sample-repeated S cnt={at}" for at in range(3)], total_sv(samples=6, repeated=3))
    frame = samples(100, 101)
    yield worked("two samples a frame, each frame twice", [(0, frame), (12, frame)], "3 sample-repeated S cnt=100", "3 sample-repeated S cnt=101",
                 total_sv(samples=4, repeated=2))
    yield worked("the first is repeated, and of the one before it nothing is said", counts((0, 7), (250, 8), (260, 7), (270, 6)),
                 "4 sample-repeated S cnt=7", total_sv(samples=4, repeated=1))
    yield worked("behind a loss, copies of what came before it are late", counts((0, 0), (250, 1), (750, 3), (760, 1), (770, 2), (780, 3)),
                 "4 samples-missing S from=2 missing=1", "5 sample-late S cnt=1", "6 sample-late S cnt=2", "7 sample-repeated S cnt=3",
                 total_sv(samples=6, missing=1, late=2, repeated=1, outages=1, longest=1))


def of_first():
    """Samples from before the first one of their stream, as where a recording begins with the later copy of two."""
    yield worked("the later copy comes first", counts((0, 100), (2, 98), (250, 101), (252, 99), (500, 102), (502, 100)),
                 "7 sample-repeated S cnt=100", total_sv(samples=6, repeated=1))
    yield worked("behind a loss too", counts((0, 100), (500, 102), (510, 99), (520, 100), (530, 101)), "3 samples-missing S from=101 missing=1",
                 "5 sample-late S cnt=100", "6 sample-late S cnt=101", total_sv(samples=5, missing=1, late=2, outages=1, longest=1))
    gone = counts((0, 0), (500000, 1500), (500250, 1501), (500260, 3999), (500270, 0))
    yield worked("it is known over a loss and the run behind it how far the first one is", gone, "3 samples-missing S from=1 missing=1499",
                 "6 sample-late S cnt=0", total_sv(samples=5, missing=1499, late=1, outages=1, longest=1499))
    yield worked("counts out of range before the first one are no samples", counts((0, 4000), (0, 5), (0, 4)), "2 count-out-of-range S cnt=4000",
                 total_sv(samples=3, out_of_range=1))
    yield worked("how it is synchronised is told", [(0, samples(100)), (1, samples(99, synch=1)), (250, samples(101))], "3 synch S from=2 to=1",
                 "4 synch S from=1 to=2", total_sv(samples=3))


def of_times():
    ten = 10 * SECOND
    yield worked("less than a second back, and a second", [ten, ten - 999999, ten - SECOND], "4 time-back by=1000000", asked=["losses"])
    yield worked("several that are back are told once, and the next one anew", [ten, SECOND, 2 * SECOND, 9000001, 3 * SECOND, ten, ten + 1, 0],
                 "3 time-back by=9000000", "6 time-back by=7000000", "9 time-back by=10000001", asked=["losses"])
    yield worked("those that are back do not lower the greatest", [ten, SECOND, 2 * SECOND, SECOND, 9 * SECOND, 9000001, 9 * SECOND],
                 "3 time-back by=9000000", "8 time-back by=1000000", asked=["losses"])
    yield worked("the first time, however small, and one that stands still", [0, 0, 5, 5], asked=["losses"])
    yield worked("the longest way", [10**18 - 1, 0], "3 time-back by=999999999999999999", asked=["losses"])
    yield worked("events of each sort", [b"M 9000000 on\n", 1, 9 * SECOND, (1, b"\0"), (9 * SECOND, b"\0"), b"M 1 off\n"],
                 "3 time-back by=8999999", "5 time-back by=8999999", "7 time-back by=8999999", asked=["losses"])
    yield worked("before what else is told", [*pairs((5 * SECOND, 1, 0)), 8 * SECOND, *pairs((6 * SECOND, 1, 2))], "4 time-back by=2000000",
                 "4 silent G since=7000000 for=1000000", "4 frames-missing G st=1 from=1 to=1",
                 total_goose(frames=2, frames_missing=1, silent=1, longest=3 * SECOND))
    ahead = pairs((0, 1, 0), (7200 * SECOND, 1, 1), (2 * SECOND, 1, 2))
    yield worked("one time two hours ahead", ahead, "3 silent G since=2000000 for=7198000000", "4 time-back by=7198000000",
                 total_goose(frames=3, silent=1, longest=7200 * SECOND))
    capture = [packet(9 * SECOND, ARP), packet(1, ARP), packet(9 * SECOND, state(1, 0)), packet(2, b"\0", which=1)]
    yield Case("a frame that is passed over, and a packet not of Ethernet", ["losses", SKIP, CAPTURE],
               section() + interface() + interface(link=113) + b"".join(capture),
               text(["2 time-back by=8999999", "4 time-back by=8999998", total_goose(frames=1)]), 1)
    yield Case("behind a date", ["losses", TIME], of(ten, 1), b"1970-01-01T00:00:00.000001Z 3 time-back by=9999999\n", 1)
    yield Case("as an object", ["losses", JSON], of(ten, 1), text(
        ['{"line":3,"microseconds":1,"time":"1970-01-01T00:00:00.000001Z","kind":"time-back","by":9999999}']), 1)
    yield Case("an error comes behind it", ["losses"], of(ten, 1) + b"X\n", b"3 time-back by=9999999\n4 list LineForm\n", 3,
               [b"goose losses: line 4: LineForm: "])


def of_frames():
    eight = [samples(*range(at, at + 8)) for at in (0, 8, 16)]
    yield worked("eight samples a frame", [(at * 2000, it) for at, it in enumerate(eight)], total_sv(samples=24))
    yield worked("a frame of eight samples", [(0, eight[0]), (4000, eight[2])], "3 samples-missing S from=8 missing=8",
                 total_sv(samples=16, missing=8, outages=1, longest=8))
    yield worked("eight samples a frame over the end of a second", [(0, samples(*range(3996, 4000), *range(4))), (2000, samples(*range(4, 12)))],
                 total_sv(samples=16))
    both = with_asdus(asdu(smp_mod=b""), asdu(sv_id=element(0x80, b"T")), asdu(smp_cnt=element(0x82, b"\x0f\x9f")))
    yield worked("streams that share a frame", [(0, both)], total_sv(samples=2), total_sv(S.replace('"S"', '"T"'), samples=1))
    synch = [(0, samples(1)), (250, samples(2, synch=1)), (500, samples(5, synch=0)), (500, samples(4000, synch=2)), (500, samples(5, synch=2))]
    yield worked("how it is synchronised", synch, "3 synch S from=2 to=1", "4 samples-missing S from=3 missing=2", "4 synch S from=1 to=0",
                 "5 count-out-of-range S cnt=4000", "5 synch S from=0 to=2", "6 sample-repeated S cnt=5",
                 total_sv(samples=5, missing=2, repeated=1, out_of_range=1, outages=1, longest=2))
    yield worked("nothing but that is no loss", [(0, samples(1)), (250, samples(2, synch=1)), (260, samples(2, synch=255))], "3 synch S from=2 to=1",
                 "4 sample-repeated S cnt=2", "4 synch S from=1 to=255", total_sv(samples=3, repeated=1))
    yield worked("without a period samples are counted, and it is told how they are synchronised",
                 [(0, samples(100)), (SECOND, samples(7, 4000, synch=1)), 99 * SECOND], "3 synch S from=2 to=1", f"total sv {S} samples=3",
                 asked=["losses"])
    least = counts((0, 0), (500000, 1), (1000000, 0), (1500000, 0), (2000000, 0))
    yield worked("the least period", least, "5 samples-missing S from=1 missing=1", "6 samples-missing S from=1 missing=1",
                 total_sv(samples=5, missing=2, outages=2, longest=1), asked=["losses", "--period", "2"])
    yield worked("the greatest period", counts((0, 65535), (15, 0), (1000015, 0)), "4 samples-missing S from=1 missing=65535",
                 total_sv(samples=3, missing=65535, outages=1, longest=65535), asked=["losses", "--period=65536"])
    yield worked("the longest time", counts((0, 0), (10**18 - 1, 65535)), "3 samples-missing S from=1 missing=65535999999999998",
                 total_sv(samples=2, missing=65535999999999998, outages=1, longest=65535999999999998), asked=["losses", "--period", "65536"])


# ---- Inputs ------------------------------------------------------------------


def recorded():
    """Frames of all sorts behind their times, of which some go back."""
    frames = [WORKED, ARP, state(1, 2), samples(1), put(WORKED, at66=1), WORKED[:40], b"\1", samples(2, 3, 5), state(2, 1), state(1, 5), WORKED,
              samples(4, synch=1), ARP, samples(5), state(5, 3), samples(4000), state(1, 0, simulation=True), other(0x88F7)]
    return [(1_700_000_000_000_000 + 800_000 * at - (2_500_000 if at % 5 == 4 else 0), frame) for at, frame in enumerate(frames)]


def classic(*events):
    """A classic capture of frames behind their times."""
    return header() + b"".join(record(moment // SECOND, moment % SECOND, frame) for moment, frame in events)


def pcapng(*events):
    return section() + interface() + b"".join(packet(moment, frame) for moment, frame in events)


# How frames behind their times are given, and the options that this asks.
FORMS = {"a list": (of, []), "a classic capture": (classic, [CAPTURE]), "pcapng": (pcapng, [CAPTURE])}


def every(*options):
    """The words of the command with each other option, with a period and without."""
    return [["losses", *period, *options, *more] for period in ([], PERIOD) for more in EVERY]


def of_inputs():
    for form, (made, options) in FORMS.items():
        whole = made(*recorded())
        yield Read(f"frames of each sort: {form}", whole, *every(*options))
        yield Read(f"the same, cut: {form}", whole[:-7], *every(*options))
        yield Read(f"no frame: {form}", made(), *every(*options))
    late = [(253_402_300_799_999_999, state(1, 0)), (253_402_300_800_000_000, state(1, 2)), (253_402_300_800_000_000, samples(7))]
    yield Read("times with a date and without: a list", of(*late), *every())
    yield Read("times with a date and without: pcapng", pcapng(*late), *every(CAPTURE))
    for name, octets in {"nothing": b"", "a version": b"V2\n", "comments": b"# a\n\n#\n", "a clock and a mode": b"C 7\nM 8 on\n",
                         "frames with errors": listed(b"\1", WORKED[:40])}.items():
        yield Case(name, ASKED, octets)
    missing = f"3 frames-missing {G} st=1 from=1 to=1"
    yield Case("the error of a list comes after findings, and there are no totals", ASKED, of(*pairs((0, 1, 0), (0, 1, 2))) + b"X\n",
               text([missing, "4 list LineForm"]), 3, [b"goose losses: line 4: LineForm: "])
    yield Case("a list that begins with an error", ["losses"], b"X\n", b"1 list LineForm\n", 3)
    yield Case("a capture that is cut off", [*ASKED, CAPTURE], pcapng((1, state(1, 0))) + b"\6", b"2 capture CaptureShort\n", 3)


def dated():
    frames = pairs((1_700_000_000_000_000, 2, 0), (1_700_000_000_000_000, 1, 9), (1_700_000_003_000_250, 4, 1))
    day, began = "2023-11-14T22:13:2", f"2 late {G} st=1 sq=9"
    totals = total_goose(frames=3, states_missing=1, frames_missing=1, late=1, silent=1, longest=3000250)
    yield Case("dates, and lines of no event", ["losses", TIME], of(*frames) + b"C 1700000006000000\n", text([
        f"{day}0.000000Z {began.replace('2 late', '3 late')}", f"{day}3.000250Z 4 silent {G} since=1700000002000000 for=1000250",
        f"{day}3.000250Z 4 states-missing {G} from=3 to=3", f"{day}3.000250Z 4 frames-missing {G} st=4 from=0 to=0",
        f"- end silent {G} since=1700000005000250 for=999750", f"- {totals.replace('silent=1', 'silent=2')}"]), 1)


def as_objects():
    whose = '"appid":"0001","gocbRef":"G","simulation":false'
    at = '"microseconds":1700000000000000,"time":"2023-11-14T22:13:20.000000Z"'
    since = '"since":1700000002000000,"sinceTime":"2023-11-14T22:13:22.000000Z"'
    frames = pairs((1_700_000_000_000_000, 2, 0), (1_700_000_000_000_000, 4, 1), (1_700_000_000_000_000, 2, 9))
    total = ('"frames":3,"statesMissing":1,"framesMissing":1,"late":1,"repeated":0,"restarted":0,"silent":1,"longest":0}')
    yield Case("objects of a sender", ["losses", JSON], of(*frames) + b"C 1700000002000000\n", text([
        f'{{"line":3,{at},"kind":"states-missing",{whose},"from":3,"to":3}}',
        f'{{"line":3,{at},"kind":"frames-missing",{whose},"stNum":4,"from":0,"to":0}}',
        f'{{"line":4,{at},"kind":"late",{whose},"stNum":2,"sqNum":9}}', f'{{"kind":"end-silent",{whose},{since},"for":0}}',
        f'{{"kind":"total-goose",{whose},{total}']), 1)
    whose = '"appid":"4000","source":"020000000001","svID":"S"'
    frames = [(0, samples(1)), (0, samples(3, synch=1)), (0, samples(3, 2, 4000, synch=1)), SECOND]
    at = '"microseconds":0,"time":"1970-01-01T00:00:00.000000Z"'
    total = '"samples":5,"missing":1,"late":1,"repeated":1,"outOfRange":1,"outages":1,"longest":1}'
    yield Case("objects of a stream", [*ASKED, JSON], of(*frames), text([
        f'{{"line":3,{at},"kind":"samples-missing",{whose},"from":2,"missing":1}}', f'{{"line":3,{at},"kind":"synch",{whose},"from":2,"to":1}}',
        f'{{"line":4,{at},"kind":"sample-repeated",{whose},"smpCnt":3}}', f'{{"line":4,{at},"kind":"sample-late",{whose},"smpCnt":2}}',
        f'{{"line":4,{at},"kind":"count-out-of-range",{whose},"smpCnt":4000}}',
        f'{{"kind":"end-silent",{whose},"since":0,"sinceTime":"1970-01-01T00:00:00.000000Z","for":1000000}}',
        f'{{"kind":"total-sv",{whose},{total}']), 1)
    late = 10**18 - 1
    yield Case("objects of silence that has no date, in a capture", ["losses", CAPTURE, JSON], pcapng(
        (late - 2000001, state(1, 0)), (late, state(1, 1))), text([
            f'{{"packet":2,"microseconds":{late},"time":null,"kind":"silent","appid":"0001","gocbRef":"G","simulation":false,'
            f'"since":{late - 1},"sinceTime":null,"for":1}}',
            '{"kind":"total-goose","appid":"0001","gocbRef":"G","simulation":false,"frames":2,"statesMissing":0,"framesMissing":0,"late":0,"repeated":0,'
            '"restarted":0,"silent":1,"longest":2000001}']), 1)
    yield Case("an object of samples that are counted alone", ["losses", JSON], of((0, samples(1, 9))), text([
        f'{{"kind":"total-sv",{whose},"samples":2}}']))


# ---- Streams that are not judged ---------------------------------------------


class Says(Case):
    """Standard error has these lines and no others."""

    def why_wrong(self, program):
        _, complained, _ = self.run(program)
        return super().why_wrong(program) + ([] if complained == b"".join(self.stderr) else [f"standard error has {complained!r}"])


def unjudged():
    def of_streams_named(*names):
        given = [(0, samples(1, sv_id=name, source=at)) for at, name in enumerate(names)]
        totals = [f'total sv appid=4000 source=0200000000{at:02x} id="{name.decode()}" samples=1' for at, name in enumerate(names)]
        return of(*given), text(totals), 0

    said = b"goose losses: not judged: %s have no period (%s): give --period N or --period ID=N\n"
    yield Says("a stream without a period is named", ["losses"], *of_streams_named(b"MU01"),
               [b"goose losses: not judged: 1 stream has no period (MU01): give --period N or --period ID=N\n"])
    for names, many, named in (((b"MU01", b"MU02"), b"2 streams", b"MU01, MU02"), ((b"A", b"B", b"A", b"B"), b"4 streams", b"A, B"),
                               ((b"A", b"B", b"C", b"D", b"A"), b"5 streams", b"A, B, C, D"),
                               ((b"A", b"B", b"C", b"D", b"E", b"F"), b"6 streams", b"A, B, C, D, .."), ((b"", b"S"), b"2 streams", b", S")):
        yield Says(f"streams without a period are named: {named.decode()}", ["losses"], *of_streams_named(*names), [said % (many, named)])
    yield Says("streams that are judged are not named", ASKED, of((0, samples(1))), text([total_sv(samples=1)]))
    yield Says("control blocks alone are not named", ["losses"], of(*pairs((0, 1, 0))), text([total_goose(frames=1)]))
    yield Case("they are named before the error of an input", ["losses"], of((0, samples(1))) + b"X\n", b"3 list LineForm\n", 3,
               [b"goose losses: not judged: 1 stream has no period (S): give --period N or --period ID=N\ngoose losses: line 3: LineForm: "])


# ---- By chance ---------------------------------------------------------------


def some_list(chance, period, count):
    """A list of few senders and streams, whose numbers mostly go on, with errors, clocks and modes; times mostly rise."""
    moment, known, lines = chance.choice([0, 10**15]), {}, [b"V2\n"]
    for _ in range(count):
        moment = max(0, moment + chance.choice([0, 1, 250, 250, 250, 500000, 600250, 1000000, 3000000, -1000, -1250000]))
        sort = chance.randrange(16)
        if sort < 7:
            lines.append(line(moment, some_frame(chance, known)))
        elif sort < 14:
            lines.append(line(moment, some_samples(chance, known, period)))
        else:
            lines.append(chance.choice([b"C %d\n" % moment, b"M %d on\n" % moment, line(moment, put(WORKED, at66=1)), line(moment, ARP)]))
    return b"".join(lines + chance.choice([[], [], [], [b"X\n"]]))


def some_frame(chance, known):
    """A frame of one of eight senders."""
    key = chance.choice([1, 1, 1, 2]), chance.choice([b"G", b"G", b"GG"]), chance.random() < 0.2
    st, sq = known.get(key, (chance.choice([0, 1, 7, 2**32 - 2]), chance.randrange(3)))
    back = [(st, max(0, sq - 2)), (max(0, st - 1), sq), (1, 0)]
    st, sq = chance.choice([(st, sq + 1)] * 6 + [(st + 1, 0)] * 3 + [(st, sq), (st, sq + 3), (st + 3, 2), *back])
    known[key] = min(st, 2**32 - 1), min(sq, 2**32 - 1)
    live = chance.choice([2000] * 6 + [0, 1, 500, 2**32 - 1])
    return put(state(*known[key], live, key[2], gocb_ref=element(0x80, key[1])), at15=key[0])


def some_samples(chance, known, period):
    """A frame of samples of one of four streams."""
    key = chance.choice([1, 1, 2]), chance.choice([b"S", b"S", b"T"])
    made = []
    for _ in range(chance.choice([1, 1, 1, 2, 8])):
        step = chance.choice([1] * 12 + [0, 0, 2, 3, -1, -2, period // 2, (period + 1) // 2, chance.randrange(period)])
        known[key] = (known.get(key, 0) + step) % period
        made.append(chance.choice([known[key]] * 24 + [min(65535, period), 65535]))
    return samples(*made, sv_id=key[1], source=key[0], synch=chance.choice([2] * 9 + [0, 1]))


def by_chance():
    chance = random.Random(SEED)
    for at in range(120):
        period = chance.choice([2, 3, 4, 5, 80, 4000, 4000, 4800, 65535, 65536])
        asked = ["losses", "--period", str(period)]
        yield Read(f"a list by chance, {at}", some_list(chance, period, 80), asked, [*asked, *EVERY[at % len(EVERY)]], ["losses"])
    long = some_list(chance, 4000, 3000)
    yield Read("a long list by chance", long, ASKED, [*ASKED, JSON])


# ---- Words ------------------------------------------------------------------


def words():
    yield Case("an end of options", [*ASKED, "--"], of((0, samples(5))), text([total_sv(samples=1)]))
    for period in ("4000", "+4000", "04000"):
        yield Case(f"a period of {period}", ["losses", "--period", period], of((0, samples(5))), text([total_sv(samples=1)]))
    for period in ("0", "1", "65537", "", "x", " 5", "5.0", "0x5", "-1"):
        yield Case(f"a period of {period!r} is refused", ["losses", f"--period={period}"], b"X\n", b"", 2, [b"error: ", b"--period <[ID=]N>"])
    for own in (["--period"], ["--period", "5", "--period"], ["more"], ["--id", "S"], ["--period", "5", "more"], ["-p", "5"],
                [TIME, JSON], ["0001,G,D,,1,1"], ["--", "--period", "5", "more"]):
        yield Case(f"words that are refused: {own}", ["losses", *own], b"X\n", b"", 2, [b"error: "])


def cases():
    yield from (*of_senders(), *of_silence(), *of_links(), *of_names(), *of_streams(), *of_copies(), *of_first(), *of_times(),
                *of_frames(), *of_inputs(), *dated(), *as_objects(), *unjudged(), *by_chance(), *words())
