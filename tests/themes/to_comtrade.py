"""tools/to_comtrade: what a reader that shares nothing with it finds in its files is what was put into a capture, and what is refused."""
import fractions
import gzip
import json
import math
import os
import pathlib
import resource
import signal
import struct
import subprocess
import tempfile
import time

from helpers import comtrade_reader, fault_station
from helpers.asked_tools import EXAMPLES, TOOLS, ask, module
from helpers.fault_station import (BEGIN, FAULT, FAULT_AT, FIRST, LATER, LOST, OPEN_AT, RATE, SAMPLES, SECOND, TRIP_AT, Unit, capture, events,
                                   goose, line_values, other_values, pairs, sample_of_line, sample_of_other, trip)
from helpers.harness import SECONDS, run
from helpers.kept_answers import Answers

ENDINGS = ("cfg", "dat", "hdr")


class Made:
    """The files that a run makes of a capture, and how it ends."""

    def __init__(self, program, octets, *words, scd=None, before=(), **how):
        with tempfile.TemporaryDirectory() as folder:
            folder = pathlib.Path(folder)
            (folder / "of.pcapng").write_bytes(octets)
            for name in before:
                (folder / name).write_bytes(b"before")
            if scd:
                (folder / "of.scd").write_text(scd)
            asked = [*(["--scd", "of.scd"] if scd else []), *words]
            asked += [] if "-o" in words else ["-o", "made"]
            wrote, said, self.status = ask(program, "to_comtrade", [*asked, "of.pcapng"], cwd=folder, **how)
            self.said = (wrote + said).decode()
            self.files = {it.name: it.read_bytes() for it in folder.iterdir() if it.name not in ("of.pcapng", "of.scd")}

    @property
    def recording(self):
        if "made.cfg" not in self.files:
            raise AssertionError(f"nothing was made: {self.said}")
        return comtrade_reader.Recording(self.files["made.cfg"], self.files["made.dat"])

    @property
    def header(self):
        return self.files["made.hdr"].decode()


class Each:
    """A case that tells what is wrong, one after another."""

    def __init__(self, name, *told):
        self.name, self.told = name, told

    def why_wrong(self, program):
        return list(self.wrong(program))


def differs(what, wanted, got):
    return [] if wanted == got else [f"{what}: wanted {wanted}, got {got}"]


def unlike(what, wanted, got, most):
    """Values that differ by more than so much, and missing ones that are there."""
    for at, (ours, theirs) in enumerate(zip(wanted, got)):
        if (ours is None) != (theirs is None) or (ours is not None and abs(ours - theirs) > most):
            return [f"{what}, sample {at + 1}: wanted {ours}, got {theirs}"]
    return differs(f"{what}: samples", len(wanted), len(got))


# ---- A fault -----------------------------------------------------------------


class Fault(Each):
    """The line's values, the states, the time, the trigger and the inception, in each form of .dat, with names and without."""

    def wrong(self, program):
        form, scd = self.told
        it = Made(program, capture(), "--svid", "MU01", "--format", form, scd=scd and fault_station.scd())
        yield from differs("the status", (0, ""), (it.status, it.said))
        yield from differs("files", sorted(f"made.{ending}" for ending in ENDINGS), sorted(it.files))
        found = it.recording
        yield from differs("the form", (form.upper(), SAMPLES, RATE, 50), (found.form, found.last, found.rate, found.frequency))
        currents, voltages = zip(*map(line_values, range(SAMPLES)))
        wanted = [*zip(*currents), *([value / (1000 if scd else 1) for value in column] for column in zip(*voltages))]
        for channel, column in zip(found.analog, wanted):
            yield from unlike(channel.name, column, channel.values, 1e-2 if channel.unit == "V" else 1e-3)
        yield from differs("units", [*["A"] * 4, *["kV" if scd else "V"] * 4], [channel.unit for channel in found.analog])
        yield from differs("phases", list("ABCNABCN"), [channel.phase for channel in found.analog])
        yield from differs("circuits", {""}, {channel.circuit for channel in (*found.analog, *found.digital)})
        yield from differs("phases and normal states of digital channels", {("", "0")}, {(it.phase, it.normal) for it in found.digital})
        yield from differs("the station and the device", ("of.pcapng", "MU01"), (found.station, found.device))
        yield from self.wrong_times(found)
        yield from self.wrong_states(found, scd)

    def wrong_times(self, found):
        yield from differs("the first sample", BEGIN, found.first)
        yield from differs("time stamps", [at * 250 for at in range(SAMPLES)], found.stamps)
        captured = BEGIN + fault_station.DELAY
        yield from differs("the time's quality", ("0,x", "0,0", 1), (found.code, found.quality, found.multiplier))
        rise = TRIP_AT if found.digital[0].name.startswith("PTRC") else FAULT_AT + 9_000
        yield from differs("the trigger", BEGIN + rise - captured, found.trigger)
        at = comtrade_reader.inception(found, RATE // 50)
        if at is None or abs(at - FAULT) > 1 or abs(found.at(at) - FAULT_AT) > SECOND / RATE:
            yield f"the fault begins at sample {at}, and not at {FAULT}"

    def wrong_states(self, found, scd):
        names = (["PTRC1.Tr.general", "PTOC1.Str.general", "XCBR1.Pos.stVal on", "XCBR1.Pos.stVal off"] if scd else
                 ["BAY1PROT/LLN0$GO$gcbTrip 1", "BAY1PROT/LLN0$GO$gcbTrip 3", "BAY1CTRL/LLN0$GO$gcbPos 1 on", "BAY1CTRL/LLN0$GO$gcbPos 1 off"])
        yield from differs("digital channels", names, [it.name for it in found.digital])
        spans = [[(TRIP_AT, None)], [(FAULT_AT + 9_000, None)], [(BEGIN + 90_000, OPEN_AT - 12_000)], [(OPEN_AT, None)]]
        unit = fault_station.units()[0]
        times = [unit.captured(at) for at in range(SAMPLES)]
        for channel, held in zip(found.digital, spans):
            wanted = [int(any(since <= now and (until is None or now < until) for since, until in held)) for now in times]
            yield from differs(f"{channel.name} first set, and how often", (wanted.index(1), sum(wanted)), (channel.values.index(1), sum(channel.values)))
            yield from differs(channel.name, wanted, channel.values)


class Header(Each):
    """What .hdr says of the states before the first, of quality and of what is missing."""

    def wrong(self, program):
        it = Made(program, capture(), "--svid", "MU02", scd=fault_station.scd())
        wanted = ["2,200, of which 8 are missing", "Captured: 2023-11-14T22:13:20.902050Z to 2023-11-14T22:13:21.450050Z",
                  "I01ATCTR1.AmpSv.instMag.i: 40 not good, from sample 1601 on: questionable oldData",
                  "XCBR1.Pos.stVal on: its first state is that of packet ", "a sample's is that of its packet less the samples behind it",
                  "by the data set dsSv of MU02MU/LLN0$MS$msv1", "PTRC1.Tr.general from false to true", "by of.scd: smpRate 80, a period at 50 Hz"]
        yield from (f".hdr lacks {part!r}: {it.header}" for part in wanted if part not in it.header)
        if "\n" in it.header.replace("\r\n", ""):
            yield "lines of .hdr do not end with CR LF"
        found = it.recording
        columns = zip(*map(other_values, range(SAMPLES)))
        for channel, column in zip(found.analog, columns):
            yield from unlike(channel.name, [None if at in LOST else value for at, value in enumerate(column)], channel.values, 2e-3)
        yield from differs("scales", [0.002] * 4, [channel.a for channel in found.analog])


class Derived(Each):
    """A value that is derived is good, beside one that is not, too."""

    def wrong(self, program):
        unit = Unit("S", 0x4000, 1, lambda at: pairs([at], 3) + pairs([at], 0x2000) + pairs([at], 0x2002), rate=100, a_frame=1, samples=20)
        header = Made(program, capture(list(unit.packets())), "--period", "100").header
        told = [line.strip() for line in header.splitlines() if " not good, from " in line]
        wanted = [f"X{at}: 20 not good, from sample 1 on: {words}" for at, words in ((1, "questionable"), (3, "invalid derived"))]
        yield from differs("not good", wanted, told)


# ---- Samples that are missing, late, copies ----------------------------------


def counting(at):
    """A sample whose values tell which it is."""
    return pairs([at, -at])


class Moved(Each):
    """Samples that are lost, late or come twice have their places; and they are counted as goose losses counts them."""

    def wrong(self, program):
        rate, order, missing, *words = self.told
        unit = Unit("S", 0x4000, 1, counting, rate=rate, a_frame=1, first=rate - 30)
        held = [(unit.captured(max(order[:at + 1])) + at * 37 % 90, unit.frame(number)) for at, number in enumerate(order)]
        for form in ("binary32", "ascii", "float32"):
            it = Made(program, capture(held), "--period", f"{rate}", "--format", form, *words)
            found, least = it.recording, min(order)
            wanted = [None if at in missing else at for at in range(least, max(order) + 1)]
            yield from differs(f"values in {form}", [None if value is None else round(value, 6) for value in wanted], found.analog[0].stored)
            yield from differs(f"negative values in {form}", [value and -value for value in wanted], found.analog[1].stored)
            yield from differs("stamps", [(2 * at * SECOND + rate) // (2 * rate) for at in range(len(wanted))], found.stamps)
            first = held[0][0] - (order[0] - least) * SECOND / rate
            yield from [] if abs(found.first - first) <= 1 else [f"the first sample is at {found.first}, and not at {first}"]
        wrote, _, _ = run(program, ["losses", "--capture", "--json", "--period", f"{rate}"], capture(held))
        told = json.loads(wrote.splitlines()[-1])
        line = f"{told['late']:,} came late, {told['repeated']:,} were copies"
        yield from [] if line in it.header else [f".hdr lacks {line!r}: {it.header}"]
        after = [len([it for it in held if it >= order[0]]) for held in (missing, late(order))]
        yield from differs("missing after the first, by losses less late ones", after[0], told["missing"] - after[1])


def late(order):
    """Those of samples that come after a later one, once each."""
    return {it for at, it in enumerate(order) if it < max(order[:at + 1]) and it not in order[:at]}


def moved():
    whole = list(range(200))
    yield "none", whole, set()
    yield "some lost", [it for it in whole if it not in (7, 8, 9, 150)], {7, 8, 9, 150}
    yield "one late", [*range(50), *range(51, 53), 50, *range(53, 200)], set()
    yield "two late, of which one is further back", [*range(50), *range(52, 60), 51, *range(60, 90), 50, *range(90, 200)], set()
    yield "copies", [it for at in whole for it in ([at, at] if at % 3 == 0 else [at])], set()
    yield "one before the first", [5, 6, 9, 2, *range(10, 200)], {3, 4, 7, 8}


class Outage(Each):
    """A stream that is silent for longer than its counter takes: whole seconds are missing."""

    def wrong(self, program):
        unit, (until,) = Unit("S", 0x4000, 1, counting, rate=100, a_frame=1, first=0), self.told
        held = [(unit.captured(at), unit.frame(at)) for at in [*range(30), *range(until, until + 20)]]
        found = Made(program, capture(held), "--period", "100").recording
        yield from differs("values", [None if 30 <= at < until else at for at in range(until + 20)], found.analog[0].stored)


class Least(Each):
    """The least number of 32 bits is a value, and in binary32 no missing one."""

    def wrong(self, program):
        unit = Unit("S", 0x4000, 1, lambda at: pairs([-2**31, 2**31 - 1]), rate=100, a_frame=1)
        held = [(unit.captured(at), unit.frame(at)) for at in range(20)]
        for form, least in (("binary32", 1 - 2**31), ("ascii", -2**31), ("float32", -2.0**31)):
            found = Made(program, capture(held), "--period", "100", "--format", form).recording
            yield from differs(form, [least, float(2**31) if form == "float32" else 2**31 - 1], [it.stored[0] for it in found.analog])
            yield from differs(f"min in {form}", {"binary32": 1 - 2**31, "ascii": -2**31}.get(form, found.analog[0].least), found.analog[0].least)


# ---- Time --------------------------------------------------------------------


class Timed(Each):
    """Where smpSynch is 2 and the capture agrees with t, the time is that of the whole second and smpCnt; else that of the capture."""

    def wrong(self, program):
        synch, off, quality, wanted, *delay = self.told
        (delay,) = delay or [1700]
        unit = Unit("MU01", 0x4000, 1, sample_of_line, synch=synch, delay=delay, a_frame=1, samples=1600, first=FIRST)
        held = [(at, octets) for at, octets in unit.packets()] + [(BEGIN + 40_000, goose(1, 7, 20, BEGIN - 3600 * SECOND, trip(False, False))),
                (TRIP_AT, goose(1, 8, 0, TRIP_AT - off, trip(True, True), quality))]
        found = Made(program, capture(held), "--period", f"{RATE}", scd=fault_station.scd()).recording
        first, timed = (BEGIN, "0") if wanted else (BEGIN + delay, "F")
        yield from differs("the first sample", first, found.first)
        yield from differs("the quality of the time", f"{timed},{0 if quality & 0x80 else 3}", found.quality)
        yield from differs("the trigger", first + TRIP_AT - BEGIN - delay, found.trigger)


class AtRate(Each):
    """At other rates, whose sample periods are no whole number of microseconds: each sample's time, the fault's first sample, the trip and the
    sample at which the breaker is open are what was put in."""

    def wrong(self, program):
        it = fault_station.OtherRate(*self.told)
        rate, frequency, samples, exact, tripped, opened, fault = it.rate, it.frequency, it.samples, it.exact, it.trip_at, it.open_at, it.fault
        found = Made(program, capture(it.packets()), "--period", f"{rate}", scd=fault_station.scd()).recording
        got = found.last, found.rate, found.frequency, found.multiplier
        yield from differs("samples, rate, frequency, multiplier", (samples, rate, frequency, 1), got)
        yield from differs("the first sample, to the nearest microsecond", math.floor(exact[0] + fractions.Fraction(1, 2)), found.first)
        off = max(range(samples), key=lambda at: abs(found.at(at) - exact[at]))
        if abs(found.at(off) - exact[off]) > 1:
            yield f"sample {off} is at {found.at(off)}, and not at {float(exact[off])}"
        periods = 3 * rate // frequency
        at = comtrade_reader.inception(found, periods, periods)
        if at is None or abs(at - fault) > 1:
            yield f"the fault begins at sample {at}, and not at {fault}"
        delay = fault_station.DELAY
        if abs(found.trigger - (tripped - delay)) > 1:
            yield f"the trigger is at {found.trigger}, and not at {tripped - delay}"
        for name, moment in (("PTRC1.Tr.general", tripped), ("XCBR1.Pos.stVal off", opened)):
            # A microsecond of rounding may move it by a sample.
            edges = {next(at for at, it in enumerate(exact) if it + delay >= moment + less) for less in (-1, 0, 1)}
            values = found.channel(name).values
            if samples - sum(values) not in edges or values != sorted(values):
                yield f"{name} is set at {values.index(1) if 1 in values else None}, and not at {edges}"


class Hour(Each):
    """Over an hour, and over a gap at rates of which no period is a whole number of microseconds, time stamps do not drift."""

    def wrong(self, program):
        rate, seconds = self.told
        unit, last = Unit("S", 0x4000, 1, counting, rate=rate, a_frame=1, first=0), rate * seconds
        held = [(unit.captured(at), unit.frame(at)) for at in (*range(8), *range(last - 3, last + 1))]
        found = Made(program, capture(held), "--period", f"{rate}").recording
        yield from differs("samples and the last one", (last + 1, last), (found.last, found.analog[0].stored[-1]))
        off = max(range(last + 1), key=lambda at: abs(found.stamps[at] * found.multiplier * rate - at * SECOND))
        if abs(found.stamps[off] * found.multiplier * rate - off * SECOND) * 2 > rate * found.multiplier:
            yield f"sample {off} has the stamp {found.stamps[off]}"
        yield from differs("the last stamp and the multiplier", (seconds * SECOND, 1), (found.stamps[-1], found.multiplier))


class Taken(Each):
    """A late sample whose place is taken stays out."""

    def wrong(self, program):
        unit, other = (Unit("S", 0x4000, 1, it, rate=100, a_frame=1, first=0) for it in (counting, lambda at: pairs([999, 999])))
        held = [(unit.captured(at), unit.frame(at)) for at in (*range(20), *range(25, 40))] + [(unit.captured(39) + 50, other.frame(10))]
        found = Made(program, capture(held), "--period", "100").recording
        yield from differs("values", [None if 20 <= at < 25 else at for at in range(40)], found.analog[0].stored)
        before = [(unit.captured(19) + 50 + at, it.frame(8)) for at, it in enumerate((unit, other))]
        found = Made(program, capture([*held[10:20], *before]), "--period", "100").recording
        yield from differs("values before the first", [8, None, *range(10, 20)], found.analog[0].stored)


class Median(Each):
    """Without a trip it is the half of the states that began which tells that the capture agrees with t."""

    def wrong(self, program):
        unit = Unit("S", 0x4000, 1, counting, a_frame=1, samples=400)
        told = [(7, 20, 3600 * SECOND), (8, 0, -SECOND), (9, 0, 300), (10, 0, 5 * SECOND)]
        held = [(BEGIN + 9_000 * at, goose(1, state, sequence, BEGIN + 9_000 * at - off, trip(False, bool(at % 2))))
                for at, (state, sequence, off) in enumerate(told, 1)]
        found = Made(program, capture([*unit.packets(), *held]), "--period", f"{RATE}").recording
        yield from differs("the first sample", (BEGIN, BEGIN, "0,3"), (found.first, found.trigger, found.quality))


class Busiest(Each):
    """Two control blocks that change at once are no trip."""

    def wrong(self, program):
        unit = Unit("S", 0x4000, 1, counting, a_frame=1, samples=400)
        held = [(BEGIN + 1_000 + 20_000 * at, goose(which, 8 + at, 0, BEGIN + 900 + 20_000 * at, trip(False, bool(at))))
                for at in (0, 1) for which in (1, 2)]
        it = Made(program, capture([*unit.packets(), *held]), "--period", f"{RATE}")
        yield from differs("the trigger", it.recording.first, it.recording.trigger)
        yield from [] if "there is no trip within the recording" in it.header else [it.header]


class Twice(Each):
    """A name that members of two control blocks have stands after the reference of each."""

    def wrong(self, program):
        scd = fault_station.scd()
        for one, other in (('lnClass="XCBR"', 'lnClass="PTRC"'), ('"Pos" daName="stVal"', '"Tr" daName="general"'), ('"Pos" daName="q"', '"Tr" daName="q"'),
                           ('lnType="XCBR_T"', 'lnType="PTRC_T"')):
            scd = scd.replace(one, other)
        unit = Unit("MU01", 0x4000, 1, counting, rate=100, a_frame=1, samples=40)
        held = [(BEGIN + 9_000, goose(1, 7, 20, BEGIN, trip(False, True))), (BEGIN + 19_000, goose(2, 7, 20, BEGIN, trip(True, True)[:2]))]
        found = Made(program, capture([*unit.packets(), *held]), "--period", "100", scd=scd).recording
        names = ["BAY1PROT/LLN0$GO$gcbTrip PTRC1.Tr.general", "PTOC1.Str.general", "BAY1CTRL/LLN0$GO$gcbPos PTRC1.Tr.general"]
        yield from differs("digital channels", names, [it.name for it in found.digital])


class TripLate(Each):
    """A trip after a sample that came late stands after the last one that came before it."""

    def wrong(self, program):
        unit = Unit("S", 0x4000, 1, counting, rate=100, a_frame=1, first=0)
        order = [*range(50), 51, 50, *range(52, 80)]
        held = [(unit.captured(max(order[:at + 1])) + at, unit.frame(number)) for at, number in enumerate(order)]
        tripped = held[49][0] + 1_500
        held += [(BEGIN, goose(1, 7, 20, BEGIN - SECOND, trip(False, False))), (tripped, goose(1, 8, 0, tripped - LATER, trip(True, True)))]
        found = Made(program, capture(held), "--period", "100", scd=fault_station.scd()).recording
        yield from differs("values", list(range(80)), found.analog[0].stored)
        yield from differs("the trigger after its sample", 1_500, found.trigger - found.at(49))


class Tie(Each):
    """Of two numbers that are as near to the time between two samples the greater one is how many lie between them, as goose losses has it."""

    def wrong(self, program):
        unit = Unit("S", 0x4000, 1, counting, rate=100, a_frame=1, first=0)
        held = [*((unit.captured(at), unit.frame(at)) for at in range(30)), (unit.captured(29) + 600_000, unit.frame(39))]
        wrote, _, _ = run(program, ["losses", "--capture", "--json", "--period", "100"], capture(held))
        found = Made(program, capture(held), "--period", "100").recording
        yield from differs("samples, and those missing", (140, 109), (found.last, json.loads(wrote.splitlines()[-1])["missing"]))


class Commands(Each):
    """Two bits that are no position are no digital channels."""

    def wrong(self, program):
        scd = fault_station.scd().replace('bType="Dbpos"', 'bType="Tcmd"')
        found = Made(program, capture(), "--svid", "MU01", scd=scd).recording
        yield from differs("digital channels", ["PTRC1.Tr.general", "PTOC1.Str.general"], [it.name for it in found.digital])


class Named(Each):
    """A long name is cut at its front, and has no comma."""

    def wrong(self, program):
        unit = Unit("N" * 60 + ",MU" + "1" * 20, 0x4000, 1, counting, rate=100, a_frame=1, samples=20)
        found = Made(program, capture(list(unit.packets())), "--period", "100").recording
        yield from differs("the device", "N" * 41 + "_MU" + "1" * 20, found.device)


class Sizes(Each):
    """Members have the sizes and signs of their types; a member t in between is no channel."""

    def wrong(self, program):
        for sort, form, value, least in (("INT8", "b", -7, -128), ("INT16", "h", -300, -32768), ("INT8U", "B", 200, 0), ("INT16U", "H", 60_000, 0),
                                         ("INT32U", "I", 4_000_000_000, 0), ("INT64", "q", -2**40, -2**63), ("FLOAT64", "d", -2.5, None),
                                         ("BOOLEAN", "B", 1, 0), *((it, "i", 1, -2**31) for it in ("Enum", "Dbpos", "Tcmd", "Check"))):
            sample = b"".join(struct.pack(f">{form}I", value + at, 0) for at in range(8))
            unit = Unit("MU01", 0x4000, 1, lambda at: sample, a_frame=1, samples=20)
            scd, octets = fault_station.scd().replace(FLOATS[0], FLOATS[1].replace("FLOAT32", sort)), capture(list(unit.packets()))
            is_wide = sort in ("INT32U", "INT64", "FLOAT64")
            for asked in ("float32", "binary32", "ascii"):
                it = Made(program, octets, "--period", f"{RATE}", "--format", asked, scd=scd)
                if is_wide and asked != "float32":
                    yield from differs(f"{sort} in {asked}", (2, 0), (it.status, len(it.files)))
                    continue
                channel, scale = it.recording.analog[1], 0.001 if sort.startswith("INT") else 1
                yield from [] if abs(channel.values[0] / ((value + 1) * scale) - 1) < 1e-6 else [f"{sort} in {asked}: {channel.values[0]}"]
                if least is not None and abs(channel.a * channel.least - least * scale) > 1e-6 * abs(least * scale):
                    yield f"{sort}: from {channel.least}"
        yield from self.wrong_stamped(program)

    def wrong_stamped(self, program):
        own = 'prefix="I01A" lnClass="TCTR" lnInst="1" doName="AmpSv" daName="q" fc="MX"/>'
        scd = fault_station.scd().replace(own, f'{own}<FCDA ldInst="MU" {own.replace(chr(34) + "q" + chr(34), chr(34) + "t" + chr(34))}', 1)
        scd = scd.replace('<DA name="q" bType="Quality" fc="MX"/>', '<DA name="q" bType="Quality" fc="MX"/><DA name="t" bType="Timestamp" fc="MX"/>')
        unit = Unit("MU01", 0x4000, 1, lambda at: pairs([11]) + bytes(range(8)) + pairs(range(12, 19)), a_frame=1, samples=20)
        it = Made(program, capture(list(unit.packets())), "--period", f"{RATE}", scd=scd)
        yield from differs("values beside a t", list(range(11, 19)), [channel.stored[0] for channel in it.recording.analog])


class Drifting(Each):
    """Where the clocks of the capture and of the merging unit drift apart, the trigger stays at its samples, as the digital channel does."""

    def wrong(self, program):
        synch, trip_after = self.told
        rate, last = 200, 6000
        unit = Unit("MU01", 0x4000, 1, counting, rate=rate, a_frame=1, first=0, begin=fault_station.START, synch=synch)
        taken = [unit.captured(at) + at * SECOND // rate // 2000 for at in range(last)]
        held = [(taken[at], unit.frame(at)) for at in range(last) if not 5100 <= at < 5105]
        tripped = taken[trip_after] + 1_234
        held += [(unit.begin - 50_000, goose(1, 7, 20, unit.begin - SECOND, trip(False, False))),
                 (tripped, goose(1, 8, 0, tripped - LATER, trip(True, True)))]
        found = Made(program, capture(held), "--period", f"{rate}", scd=fault_station.scd()).recording
        yield from differs("the trigger after its sample", 1_234, found.trigger - found.at(trip_after))
        yield from differs("the first sample with the trip", trip_after + 1, found.channel("PTRC1.Tr.general").values.index(1))


class Together(Each):
    """A state that is captured in the microsecond of a sample is that of this sample."""

    def wrong(self, program):
        unit = Unit("S", 0x4000, 1, counting, rate=100, a_frame=1, samples=80)
        held = [*unit.packets(), (unit.captured(10), goose(1, 7, 20, BEGIN - SECOND, trip(False, False))),
                (unit.captured(50), goose(1, 8, 0, unit.captured(50) - LATER, trip(True, True)))]
        found = Made(program, capture(held), "--period", "100", scd=fault_station.scd()).recording
        yield from differs("the trip", [0] * 50 + [1] * 30, found.channel("PTRC1.Tr.general").values)
        yield from differs("the trigger", 0, found.trigger - found.at(50))


class Untripped(Each):
    """Without a trip the trigger is the first sample, and without control blocks there are no digital channels."""

    def wrong(self, program):
        unit = Unit("S", 0x4000, 1, counting, rate=100, a_frame=1)
        found = Made(program, capture([(unit.captured(at), unit.frame(at)) for at in range(20)]), "--period", "100").recording
        yield from differs("times", (BEGIN + 300, BEGIN + 300, "F,3", []), (found.first, found.trigger, found.quality, found.digital))


class Long(Each):
    """Time stamps that would not fit into 32 bits are in units of ten microseconds."""

    def wrong(self, program):
        unit = Unit("S", 0x4000, 1, counting, rate=4, a_frame=1, first=0)
        last = 4 * 4296
        held = [(unit.captured(at), unit.frame(at)) for at in (*range(8), *range(last - 3, last + 1))]
        found = Made(program, capture(held), "--period", "4").recording
        yield from differs("the multiplier, the last stamp and the values", (10, 429_600_000, last, None),
                           (found.multiplier, found.stamps[-1], found.analog[0].stored[-1], found.analog[0].stored[100]))


class Part(Each):
    """--from and --to choose packets; states from before them are known."""

    def wrong(self, program):
        since, until = "2023-11-14T22:13:21.15Z", f"{BEGIN + 400_000}"
        it = Made(program, capture(), "--svid", "MU01", "--from", since, "--to", until, scd=fault_station.scd())
        found, first = it.recording, next(at for at in range(0, SAMPLES, 8) if BEGIN + (at + 7) * 250 + 300 >= BEGIN + 250_000)
        last = next(at for at in range(SAMPLES - 1, 0, -8) if BEGIN + at * 250 + 300 <= BEGIN + 400_000)
        yield from differs("the first sample, and how many", (BEGIN + first * 250, last - first + 1), (found.first, found.last))
        yield from differs("the breaker is on at first", [0, 0, 1, 0], [channel.values[0] for channel in found.digital])
        if "first state" in it.header:
            yield f"states before the first sample are not known: {it.header}"
        after = Made(program, capture(), "--svid", "MU01", "--from", f"{OPEN_AT + 10_000}", scd=fault_station.scd())
        if "there is no trip" not in after.header or after.recording.trigger != after.recording.first:
            yield "a trip before the recording is its trigger"


class Frequency(Each):
    """The line frequency is that of the samples, or what is asked for."""

    def wrong(self, program):
        rate, frequency, words, wanted = self.told
        unit = Unit("MU01", 0x4000, 1, lambda at: sample_of_line(at % FAULT, frequency * RATE / rate), rate=rate, a_frame=8, samples=rate // 4, first=0)
        yield from differs("the frequency", wanted, Made(program, capture(list(unit.packets())), "--period", f"{rate}", *words).recording.frequency)


# ---- What a sample says ------------------------------------------------------

FLOATS = ('<DAType id="INT_T"><BDA name="i" bType="INT32"/></DAType>', '<DAType id="INT_T"><BDA name="i" bType="FLOAT32"/></DAType>')


def raw_words(at):
    return struct.pack(">iI", at, 0x4000)


class Said(Each):
    """The names, units and scales of channels, by the SCL file, by --channels, or by octets alone."""

    def wrong(self, program):
        sample, words, scd, wanted, why = self.told
        unit = Unit("MU01", 0x4000, 1, sample, a_frame=1, samples=40)
        it = Made(program, capture(list(unit.packets())), "--period", f"{RATE}", *words, scd=scd)
        yield from differs("channels", wanted, [(channel.name, channel.unit, channel.a, channel.b) for channel in it.recording.analog])
        yield from [] if why in it.header else [f".hdr lacks {why!r}: {it.header}"]


def named(scale, unit, *at):
    return [(f"{letter}01{phase}{sort}{number}.{name}.instMag.i", unit[sort], scale[sort], 0.0)
            for letter, sort, name in (("I", "TCTR", "AmpSv"), ("U", "TVTR", "VolSv")) for number, phase in enumerate("ABCN", 1)]


def scd_of_own():
    """An SCL file in which the first channel has a scale, an offset and a unit of its own."""
    node = '<LN prefix="I01A" lnClass="TCTR" inst="1" lnType="TCTR_T">'
    told = ('<DOI name="AmpSv"><SDI name="sVC"><DAI name="scaleFactor"><Val>0.5</Val></DAI><DAI name="offset"><Val>-2.5</Val></DAI></SDI>'
            '<SDI name="units"><DAI name="multiplier"><Val>3</Val></DAI></SDI></DOI>')
    return fault_station.scd().replace(f"{node}</LN>", f"{node}{told}</LN>", 1)


class Unread(Each):
    """A number of the SCL file that is none is told with its line and what is taken in its place, by the tool and in .hdr, and the status is 1."""

    def wrong(self, program):
        scale = '<BDA name="scaleFactor" bType="FLOAT32"><Val>'
        currents = "MU01 (I01ATCTR1.AmpSv.instMag.i; I01BTCTR2.AmpSv.instMag.i; I01CTCTR3.AmpSv.instMag.i; 1 more)"
        for old, new, told in ((f"{scale}0.001<", f"{scale}abc<", f"scaleFactor 'abc' of {currents} (line {{}}), and 0.001 A is taken"),
                               ('smpRate="80"', 'smpRate="8O"', "smpRate '8O' of MU01 (line {})"),
                               ('smpRate="80"', 'smpRate="80" smpMod="SmpPerHour"', "smpMod 'SmpPerHour' of MU01 (line {})")):
            before, _, after = fault_station.scd().partition(old)
            it = Made(program, capture(), "--svid", "MU01", scd=before + new + after)
            told = "of.scd: " + told.format(before.count("\n") + 1)
            yield from differs(f"{new}: the status and what is said", (1, f"to_comtrade: {told}: it cannot be read\n"), (it.status, it.said))
            yield from [] if f"What cannot be read:\r\n  {told}\r\n" in it.header else [f".hdr lacks {told!r}: {it.header}"]
            yield from differs(f"{new}: scale and rate", (0.001, RATE), (it.recording.analog[0].a, it.recording.rate))


class Offset(Each):
    """A value is its integer times the scale plus the offset, in each form; of the steps 7, -40 and 2,000 the first channel says so much."""

    def wrong(self, program):
        unit = Unit("MU01", 0x4000, 1, lambda at: pairs([(7, -40, 2000)[at % 3]] * 8), a_frame=1, samples=30)
        for form in ("binary32", "ascii", "float32"):
            found = Made(program, capture(list(unit.packets())), "--period", f"{RATE}", "--format", form, scd=scd_of_own()).recording
            yield from differs(form, ([1.0, -22.5, 997.5] * 10, "kA", "P", 1, 1, 0), (found.analog[0].values, *vars_of(found.analog[0])))


class Limits(Each):
    """In FLOAT32 min and max hold what single precision makes of the ends of 32 bits, closely, in fields of 13 characters."""

    def wrong(self, program):
        unit = Unit("MU01", 0x4000, 1, lambda at: pairs([(-2**31, 2**31 - 1)[at % 2]] * 8), a_frame=1, samples=10)
        for scale in ("0.001", "1000000", "1e-12", "-0.001", "3e30"):
            scd = scd_of_own().replace("<Val>0.5</Val>", f"<Val>{scale}</Val>").replace("<Val>-2.5</Val>", "<Val>0</Val>")
            channel = Made(program, capture(list(unit.packets())), "--period", f"{RATE}", "--format", "float32", scd=scd).recording.analog[0]
            ends = sorted(max(min(float(scale) * it, 3.4028235e38), -3.4028235e38) for it in (-2**31, 2**31 - 1))
            off = max(abs(it / end - 1) for it, end in zip((channel.least, channel.greatest, min(channel.stored), max(channel.stored)), ends * 2))
            yield from [] if off < 2e-6 else [f"{scale}: {channel.least} to {channel.greatest}, {channel.stored[:2]}"]


def vars_of(channel):
    return channel.unit, channel.side, channel.primary, channel.secondary, channel.skew


def channels():
    scd = fault_station.scd()
    yield "of an SCL file", sample_of_line, (), scd, named({"TCTR": 0.001, "TVTR": 0.00001}, {"TCTR": "A", "TVTR": "kV"}), "by the data set dsSv"
    unscaled = scd.replace('<DA name="sVC"', '<DA name="no"')
    yield "of an SCL file without sVC", sample_of_line, (), unscaled, named({"TCTR": 0.001, "TVTR": 0.01}, {"TCTR": "A", "TVTR": "V"}), "by the data set dsSv"
    own = scd_of_own()
    first = ("I01ATCTR1.AmpSv.instMag.i", "kA", 0.5, -2.5)
    yield ("of a DAI, before those of types", sample_of_line, (), own,
           [first, *named({"TCTR": 0.001, "TVTR": 0.00001}, {"TCTR": "A", "TVTR": "kV"})[1:]], "by the data set dsSv")
    pair = [("I1", "A", 0.001, 0.0), ("U1", "V", 0.01, 0.0)]
    yield "of --channels", counting, ("--channels", "1I1U"), None, pair, "1I1U: currents of 1 mA"
    yield "of --channels, voltages first", counting, ("--channels", "1U1I"), None, pair[::-1], "1U1I"
    words, numbers = ([(f"{name}{at}", "NONE", 1.0, 0.0) for at in (1, 2)] for name in ("word ", "X"))
    yield "of pairs that are not eight", counting, (), None, numbers, "--channels says it"
    yield "of pairs of all flags", lambda at: pairs([at, -at], 0x3FFF), (), None, numbers, "--channels says it"
    yield "of raw words", raw_words, (), None, words, "raw words of 32 bits"
    yield "of octets at the end", lambda at: raw_words(at) + b"\x01", (), None, words, "1 octets at its end"
    yield "of another size than the SCL file's", counting, (), scd, numbers, "is of 64 octets, and a sample of 16"
    untyped = scd.replace(FLOATS[0], "")
    yield ("of an SCL file without a type", sample_of_line, (), untyped, [*[(f"I{at}", "A", 0.001, 0.0) for at in range(1, 5)],
           *[(f"U{at}", "V", 0.01, 0.0) for at in range(1, 5)]], "does not say the size")


class Floats(Each):
    """Floating-point values are in float32 alone, as they are."""

    def wrong(self, program):
        values = [0.5, -1.25, 3e38, 1e-3, 100.0, 2.0**30, 0.0, -7.0]
        unit = Unit("MU01", 0x4000, 1, lambda at: b"".join(struct.pack(">fI", it, 0) for it in values), a_frame=1, samples=10)
        octets, scd = capture(list(unit.packets())), fault_station.scd().replace(*FLOATS)
        found = Made(program, octets, "--period", f"{RATE}", scd=scd).recording
        got = [channel.stored[0] for channel in found.analog]
        yield from differs("values", [struct.unpack("<f", struct.pack("<f", it))[0] for it in values], got)
        yield from differs("the form and scales", ("FLOAT32", {(1.0, 0.0)}), (found.form, {(it.a, it.b) for it in found.analog}))
        for form in ("binary32", "ascii"):
            it = Made(program, octets, "--period", f"{RATE}", "--format", form, scd=scd)
            if it.status != 2 or "--format float32" not in it.said or it.files:
                yield f"{form}: status {it.status}, {it.said}, {sorted(it.files)}"


class Qualities(Each):
    """Qualities as words: validity from the lowest bits on, the flags, and derived, which alone is good."""

    def wrong(self, _program):
        values = module("sample_values")
        for quality, words, good in ((0, "good", True), (1, "invalid", False), (2, "invalid", False), (3, "questionable", False), (4, "overflow", False),
                                     (1 << 13, "derived", True), (1 << 13 | 1, "invalid derived", False), (1 << 11, "test", False),
                                     (1 << 12, "operatorBlocked", False), (0x3F8 | 3, "questionable outOfRange badReference oscillatory failure oldData "
                                                                           "inconsistent inaccurate", False),
                                     (1 << 10, "substituted", False), (1 << 20, "reserved bits", False)):
            yield from differs(f"{quality:x}", (words, good), (values.quality_words(quality), values.is_good(quality)))


# ---- What is refused, and how it ends ----------------------------------------


class Ends(Each):
    """How a run ends that makes nothing, or leaves something out."""

    def wrong(self, program):
        octets, words, status, said, files = self.told
        it = Made(program, octets, *words, scd=fault_station.scd() if "--scd" in self.name else None)
        yield from differs("the status", status, it.status)
        yield from [] if said in it.said else [f"standard error lacks {said!r}: {it.said}"]
        yield from [f"a traceback: {it.said}"] if "error of the tool" in it.said else []
        yield from differs("files", files, len(it.files))


def streams(*units):
    return capture([it for unit in units for it in unit.packets()])


def ends():
    short = {"a_frame": 1, "samples": 40, "rate": RATE}
    one, other = Unit("S", 0x4000, 1, counting, **short), Unit("T", 0x4000, 1, counting, **short)
    two = Unit("S", 0x4000, 2, counting, **short)
    octets, asked = streams(one), ("--period", "4000")
    yield "several streams", streams(one, other), asked, 2, "there are several streams, and --svid chooses one: S, T", 0
    yield "a stream that is not there", octets, (*asked, "--svid", "X"), 2, "there is no stream X: there are S", 0
    yield "no stream", capture(list(events())), asked, 3, "the capture has no stream", 0
    yield "two senders of one svID", streams(one, two), asked, 3, "two streams have the svID S", 0
    yield "no rate", octets, (), 2, "no rate is known: give --period N", 0
    yield "another rate than the capture shows", capture(), ("--svid", "MU01", "--period", "4800"), 2, "the capture shows about 4,000 samples a second", 0
    yield "a period that is none", octets, ("--period", "1"), 2, "--period is from 2 to 65536", 0
    yield "a frequency that is none", octets, (*asked, "--frequency", "0"), 2, "--frequency is from 1 to 1000 Hz", 0
    yield "channels that are none", octets, (*asked, "--channels", "4X"), 2, "--channels says how many currents", 0
    yield "channels that do not fit", octets, (*asked, "--channels", "3I"), 2, "--channels 3I are 3 channels, and a sample of the stream has 2", 0
    yield "a form that is none", octets, (*asked, "--format", "binary"), 2, "invalid choice", 0
    for time in ("yesterday", "2023-13-14T22:13:20Z", "-5", "9" * 19, "2023-11-14 22:13:20"):
        yield f"the time {time}", octets, (*asked, f"--from={time}"), 2, "is no time", 0
    yield "a span that is none", octets, (*asked, "--from", "5", "--to", "4"), 2, "--to is before --from", 0
    yield "a span without samples", octets, (*asked, "--from", "5", "--to", "6"), 3, "there is no sample", 0
    yield "no name", octets, (*asked, "-o", ""), 2, "names no file", 0
    yield "a folder that is not there", octets, (*asked, "-o", "none/made"), 4, "No such file or directory", 0
    yield "a name with its ending", octets, (*asked, "-o", "made.cfg"), 0, "", 3
    yield "a capture that breaks off", octets[:-10], asked, 3, "breaks off where packet 40 should be: CaptureShort", 3
    yield "no capture", b"none", asked, 3, "CaptureHeader", 0
    jump = [*one.packets(), (BEGIN + 10**12, one.frame(40))]
    yield "samples without end", capture(jump), asked, 3, "over 100,000,000 samples", 0
    far = [(moment + 2**58, frame) for moment, frame in one.packets()]
    yield "a time after the year 9999", capture(far), asked, 3, "microseconds since 1970 is after the year 9999", 0
    empty = Unit("S", 0x4000, 1, lambda at: b"", **short)
    yield "samples of no octets", streams(empty), asked, 3, "there is no sample that has octets", 0
    few = Unit("S", 0x4000, 1, lambda at: b"\0\1\2", **short)
    yield "samples of fewer octets than a word", streams(few), asked, 3, "of samples of 3 octets it is not known what they say", 0
    mixed = Unit("S", 0x4000, 1, lambda at: counting(at) * (2 if at == 30 else 1), **short)
    yield "a sample of another size", streams(mixed), asked, 1, "1 ASDUs have a sample of another size than 16 octets, from packet 31 on", 3
    beyond = capture([*one.packets(), (BEGIN + 11_000, Unit("S", 0x4000, 1, counting, rate=65536, first=4000).frame(0))])
    yield "a count out of range", beyond, asked, 1, "1 ASDUs have a smpCnt that is not below 4000", 3


class Compressed(Each):
    """A capture that is compressed, or comes by standard input, is read as one that is a file."""

    def wrong(self, program):
        octets = streams(Unit("S", 0x4000, 1, counting, a_frame=1, samples=40))
        wanted = Made(program, octets, "--period", "4000").files["made.dat"]
        it = Made(program, gzip.compress(octets), "--period", "4000")
        yield from differs("compressed", (0, wanted), (it.status, it.files.get("made.dat")))
        with tempfile.TemporaryDirectory() as folder:
            _, said, status = ask(program, "to_comtrade", ["--period", "4000", "-o", f"{folder}/made", "-"], octets)
            yield from differs("standard input", (0, wanted, b""), (status, (pathlib.Path(folder) / "made.dat").read_bytes(), said))


class Kept(Each):
    """Files that are there stay unless --force is given, and a file that is read always does; nothing is left of a run that fails."""

    def wrong(self, program):
        octets = streams(Unit("S", 0x4000, 1, counting, a_frame=1, samples=40))
        for ending in ENDINGS:
            name = f"made.{ending}"
            it = Made(program, octets, "--period", "4000", before=[name])
            yield from differs(f"{name} is there", (2, {name: b"before"}), (it.status, it.files))
            it = Made(program, octets, "--period", "4000", "--force", before=[name])
            yield from differs(f"{name} is replaced", (0, 3, False), (it.status, len(it.files), b"before" in it.files.values()))
        with tempfile.TemporaryDirectory() as folder:
            path = pathlib.Path(folder) / "of.dat"
            path.write_bytes(octets)
            _, said, status = ask(program, "to_comtrade", ["--period", "4000", "--force", "-o", path.with_suffix(""), path])
            yield from differs("the capture itself", (2, True, octets, 1), (status, b"is read" in said, path.read_bytes(), len(list(path.parent.iterdir()))))


class Modes(Each):
    """New files may be read and written by whom other new files may; one that is replaced keeps its mode."""

    def wrong(self, program):
        with tempfile.TemporaryDirectory() as folder:
            folder = pathlib.Path(folder)
            (folder / "of.pcapng").write_bytes(streams(Unit("S", 0x4000, 1, counting, a_frame=1, samples=40)))
            for wanted in ([0o640] * 3, [0o640, 0o604, 0o640]):
                ask(program, "to_comtrade", ["--period", "4000", "--force", "-o", "made", "of.pcapng"], cwd=folder, preexec_fn=lambda: os.umask(0o027))
                yield from differs("modes", wanted, [(folder / f"made.{it}").stat().st_mode & 0o777 for it in ENDINGS])
                (folder / "made.dat").chmod(0o604)


class Stopped(Each):
    """A signal while files are written leaves none of them, nor a part."""

    def wrong(self, program):
        octets = streams(Unit("S", 0x4000, 1, counting, a_frame=1, samples=40))
        with tempfile.TemporaryDirectory() as folder:
            kept = Answers(program, pathlib.Path(folder), octets, ("blocks", "show"))
            # The version is asked for again for .hdr, when .dat is there: it then takes a minute.
            slow = f'[ -e "{folder}/show.asked" ] && touch "{folder}/slow" && exec sleep 60\n'
            kept.script.write_text(kept.script.read_text().replace("\n", f"\n[ $1 = show ] && touch '{folder}/show.asked'\n[ $1 = --version ] && {slow}", 1))
            before = sorted(os.listdir(folder))
            started = subprocess.Popen([TOOLS / "to_comtrade", "--period", "4000", "-o", "made", "of.pcapng"], cwd=folder, stderr=subprocess.DEVNULL,
                                       env={**os.environ, "GOOSE": f"{kept.script}"})
            until = time.monotonic() + SECONDS / 2
            while not (kept.folder / "slow").exists() and time.monotonic() < until:
                time.sleep(0.02)
            written = [it for it in os.listdir(folder) if it.startswith(".comtrade-")]
            started.terminate()
            status = started.wait(SECONDS)
            left = sorted(set(os.listdir(folder)) - {"slow", "show.asked"})
        yield from differs("files while they are written, the status, and what is left", (3, 128 + signal.SIGTERM, before), (len(written), status, left))


class Full(Each):
    """A device that takes no more ends it with status 4: what was there stays, and no part of a file is left."""

    def wrong(self, program):
        octets = streams(Unit("S", 0x4000, 1, counting, a_frame=8, samples=4000))
        for most in (1 << 12, 1 << 16, 80_000, 90_000):
            it = Made(program, octets, "--period", "4000", "--force", before=["made.cfg"], preexec_fn=lambda: limit(most))
            yield from differs(f"{most} octets: the status and files", (4, {"made.cfg": b"before"}), (it.status, it.files))
            yield from [] if "File too large" in it.said else [f"{most} octets: {it.said}"]


def limit(octets):
    resource.setrlimit(resource.RLIMIT_FSIZE, (octets, octets))


# 500,000 packets take at most 8 s of one processor of a quiet machine beside the program, and 60 MB. The measure of the time is what this Python takes to
# read the lines of goose show as JSON, of which those of 500,000 GOOSE frames with 20 members take 6.2 s, and those of as many samples 0.6 of that:
# so 8 s are 2.1 times. It takes 0.6 to 0.9 of it on a busy machine.
PACKETS, FEW, MOST_READINGS, MOST_MEMORY, MOST_GROWTH = 100_000, 1_000, 1.5, 60 * 1024, 2 * 1024


class Fast(Each):
    """Many packets take little processor time, which is measured by what reading their lines takes, and memory that does not grow with them."""

    def wrong(self, program):
        (a_frame,) = self.told
        unit = Unit("MU01", 0x4000, 1, lambda at: sample_of_line(at - 2 * RATE), a_frame=a_frame)
        frames = [unit.frame(*range(at, at + a_frame)) for at in range(0, RATE, a_frame)]
        octets = [capture([(BEGIN + at * a_frame * 250, frames[at % len(frames)]) for at in range(number // a_frame)]) for number in (FEW, PACKETS)]
        words = "to_comtrade", "--period", f"{RATE}", "--force", "-o", "made", "of.pcapng"
        with tempfile.TemporaryDirectory() as folder, tempfile.TemporaryDirectory() as other:
            few, many = (Answers(program, pathlib.Path(it), own, ("blocks", "show")) for it, own in zip((folder, other), octets))
            yield from many.why_slow(MOST_READINGS, words, few)
            (_, least, _), (_, most, status) = few.measured(*words), many.measured(*words)
            rows = comtrade_reader.Recording((many.folder / "made.cfg").read_bytes(), (many.folder / "made.dat").read_bytes()).last
        yield from differs("the status and samples", (0, PACKETS), (status, rows))
        yield from [] if most <= MOST_MEMORY and most - least <= MOST_GROWTH else [f"{least} kB, and {most} kB for {PACKETS:,} samples"]


class Example(Each):
    """The example of a fault is what its helper makes, and small."""

    def wrong(self, _program):
        yield from differs("the capture", True, (EXAMPLES / "fault.pcapng").read_bytes() == capture())
        yield from differs("the SCL file", True, (EXAMPLES / "fault.scd").read_text() == fault_station.scd())
        yield from differs("at most 400,000 octets", True, len(capture()) <= 400_000)


def cases():
    for form in ("binary32", "ascii", "float32"):
        yield Fault(f"a fault in {form}", form, False)
        yield Fault(f"a fault in {form}, with an SCL file", form, True)
    yield Header("what .hdr says")
    yield Derived("values that are derived")
    yield from (Moved(f"samples moved: {name}", 4000, *told) for name, *told in moved())
    yield Moved("samples moved at a rate that divides no second", 4800, [*range(50), *range(51, 53), 50, *range(54, 120)], {53})
    yield Outage("an outage of more than a second", 280)
    yield Outage("an outage after which smpCnt goes on as if nothing lacked", 230)
    yield Least("the least number of 32 bits")
    for name, *told in (("synchronised", 2, LATER, 0x8A, True), ("locally synchronised", 1, LATER, 0x8A, False), ("not synchronised", 0, LATER, 0x8A, False),
                        ("t is half a second before", 2, 500_000, 0x8A, False), ("t is 0.3 s after", 2, -300_000, 0x0A, True),
                        ("t is 0.4 s before", 2, 400_000, 0x8A, True), ("t is a microsecond more than 0.4 s before", 2, 400_001, 0x8A, False),
                        ("t is a microsecond more than 0.4 s after", 2, -400_001, 0x8A, False),
                        ("the capture is 0.3 s slow", 2, -300_000, 0x8A, True, -300_000),
                        ("the capture is 0.3 s fast", 2, 300_000, 0x8A, True, 300_000),
                        ("t is of a clock that failed", 2, LATER, 0xCA, False), ("t is of a clock that is not synchronised", 2, LATER, 0x2A, False)):
        yield Timed(f"time: {name}", *told)
    for rate, frequency, a_frame in ((4800, 60, 8), (14400, 60, 6), (4000, 60, 1), (5760, 60, 1), (12800, 50, 8), (15360, 60, 8)):
        yield AtRate(f"a fault at {rate:,} samples a second and {frequency} Hz", rate, frequency, a_frame)
    for rate, seconds in ((7, 3600), (4800, 20), (14400, 7)):
        yield Hour(f"{seconds:,} seconds at {rate:,} samples a second", rate, seconds)
    for synch, at in ((2, 0), (2, 5000), (2, 5098), (0, 5998), (2, 4095), (2, 4096)):
        yield Drifting(f"clocks that drift, a trip after sample {at}, smpSynch {synch}", synch, at)
    yield Together("a state and a sample at once")
    yield Taken("a late one whose place is taken")
    yield Median("the half of the delays")
    yield Busiest("two blocks at once")
    yield Twice("a name that two blocks have")
    yield TripLate("a trip after a late sample")
    yield Tie("as near to two numbers")
    yield Outage("an outage of one second after which smpCnt goes on", 130)
    yield Commands("two bits of a command")
    yield Named("a long name")
    yield Sizes("sizes of members")
    yield Untripped("no trip and no control blocks")
    yield Long("time stamps of over 32 bits")
    yield Part("--from and --to")
    for name, *told in (("50 Hz", 4000, 50, (), 50), ("60 Hz of 4,000", 4000, 60, (), 60), ("60 Hz of 4,800", 4800, 60, (), 60),
                        ("asked for", 4000, 50, ("--frequency", "60"), 60)):
        yield Frequency(f"the line frequency: {name}", *told)
    yield from (Said(f"channels {name}", *told) for name, *told in channels())
    yield Unread("numbers of an SCL file that are none")
    yield Offset("a scale and an offset")
    yield Limits("the limits of single precision")
    yield Floats("floating-point values")
    yield Qualities("qualities in words")
    yield from (Ends(f"ends: {name}", *told) for name, *told in ends())
    yield Compressed("a compressed capture")
    yield Kept("files that are there")
    yield Modes("modes of files")
    yield Stopped("a signal")
    yield Full("a device that is full")
    for a_frame in (1, 2):
        yield Fast(f"time and memory for many packets, of {a_frame} sample{'s' if a_frame > 1 else ''}", a_frame)
    yield Example("the example of a fault")
