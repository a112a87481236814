#!/usr/bin/env python3
"""Writes examples/fault.pcapng to standard output, or with the word scd examples/fault.scd: a fault on a line of 110 kV, as two merging units
measured it, with the trip and the breaker. All is made from parts, as the standards have them, and when each thing happened is stated here.

MU01 sends four currents and four voltages, as IEC 61850-9-2 LE has them; MU02 four currents of another bay, in steps of 2 mA. One of its frames
is lost, and some samples are questionable."""
import math
import pathlib
import sys
from fractions import Fraction

sys.dont_write_bytecode = True
sys.path.insert(0, str(pathlib.Path(__file__).resolve().parent.parent))

from helpers.capture_parts import interface, packet, section  # noqa: E402
from helpers.frames import asdu, element, framed, with_asdus  # noqa: E402

SECOND = 10**6
START = 1_700_000_000 * SECOND
# Samples a second, and of a frame; the line frequency; the first sample's smpCnt, and how many there are.
RATE, A_FRAME, FREQUENCY, FIRST, SAMPLES = 4000, 8, 50, 3600, 2200
# The sample with which the fault begins, and with which the current ends; how long after its last sample a frame is captured, in microseconds.
FAULT, CLEARED, DELAY = 1200, 1460, 300
BEGIN = START + FIRST * SECOND // RATE
# When the trip and the breaker were captured, and how long before each was by its own clock.
FAULT_AT = BEGIN + FAULT * SECOND // RATE
TRIP_AT = FAULT_AT + 18_400
OPEN_AT, LATER = TRIP_AT + 39_600, 250
# Peaks of the current in A and of the voltage in V, before the fault and in it.
AMPERES, VOLTS, FAULT_AMPERES, FAULT_VOLTS = 400, 89_800, 3000, 21_000
QUESTIONABLE = 0x83
# The samples of MU02 that are in no frame, and those that are questionable.
LOST, DOUBTFUL = range(800, 808), range(1600, 1640)
GOOD_TIME = 0x8A


def wave(at, peak, turned, frequency=FREQUENCY):
    return peak * math.sin(2 * math.pi * (frequency * at / RATE) - math.radians(turned))


def line_values(at, frequency=FREQUENCY):
    """The currents in A and the voltages in V of the line at a sample: three phases and their sum."""
    is_fault, is_open = at >= FAULT, at >= CLEARED
    current = [wave(at, 0 if is_open else FAULT_AMPERES if is_fault and phase == 0 else AMPERES, 120 * phase + (70 if is_fault and phase == 0 else 20),
                    frequency) for phase in range(3)]
    voltage = [wave(at, FAULT_VOLTS if is_fault and not is_open and phase == 0 else VOLTS, 120 * phase, frequency) for phase in range(3)]
    return [*current, sum(current)], [*voltage, sum(voltage)]


def other_values(at, frequency=FREQUENCY):
    """The currents of the other bay."""
    current = [wave(at, AMPERES / 2, 120 * phase + 15, frequency) for phase in range(3)]
    return [*current, sum(current)]


def pairs(values, quality=0):
    return b"".join(value.to_bytes(4, "big", signed=True) + quality.to_bytes(4, "big") for value in values)


def steps(values, scale):
    return [round(it / scale) for it in values]


def sample_of_line(at, frequency=FREQUENCY):
    current, voltage = line_values(at, frequency)
    return pairs(steps(current, 0.001) + steps(voltage, 0.01))


def sample_of_other(at, frequency=FREQUENCY):
    return pairs(steps(other_values(at, frequency), 0.002), QUESTIONABLE if at in DOUBTFUL else 0)


class Unit:
    """A merging unit: what it sends, and what of that is captured."""

    def __init__(self, name, appid, last, sample, **how):
        self.name, self.appid, self.last, self.sample = name, appid, last, sample
        self.rate, self.a_frame, self.samples, self.synch, self.lost = RATE, A_FRAME, SAMPLES, 2, ()
        self.first, self.begin, self.delay = FIRST, BEGIN, DELAY
        vars(self).update(how)

    def asdu(self, at):
        count = (self.first + at) % self.rate
        return asdu(sv_id=element(0x80, self.name.encode()), smp_cnt=element(0x82, count.to_bytes(2, "big")), smp_synch=element(0x85, bytes([self.synch])),
                    sample=element(0x87, self.sample(at)), smp_mod=b"")

    def frame(self, *samples):
        """A frame of some samples."""
        frame = with_asdus(*map(self.asdu, samples))
        return frame[:5] + bytes([self.last]) + frame[6:11] + bytes([0x30 + self.last]) + frame[12:14] + self.appid.to_bytes(2, "big") + frame[16:]

    def captured(self, at):
        """When the frame whose last sample this is was captured."""
        return self.begin + at * SECOND // self.rate + self.delay

    def packets(self):
        for first in range(0, self.samples, self.a_frame):
            samples = [it for it in range(first, min(first + self.a_frame, self.samples)) if it not in self.lost]
            if samples:
                yield self.captured(samples[-1]), self.frame(*samples)


def units():
    return [Unit("MU01", 0x4000, 1, sample_of_line), Unit("MU02", 0x4001, 2, sample_of_other, lost=LOST)]


# ---- GOOSE -------------------------------------------------------------------


def number(value):
    return value.to_bytes(value.bit_length() // 8 + 1, "big")


def utc(moment, quality=GOOD_TIME):
    """A UtcTime, whose fraction is rounded up: read back and cut it is the same microsecond."""
    seconds, rest = divmod(moment, SECOND)
    return seconds.to_bytes(4, "big") + (-(-rest * 2**24 // SECOND)).to_bytes(3, "big") + bytes([quality])


GOOD = bytes.fromhex("8403030000")


def boolean(value):
    return b"\x83\x01" + (b"\xff" if value else b"\x00")


def position(bits):
    """A Dbpos of two bits."""
    return bytes([0x84, 2, 6, int(bits, 2) << 6])


def goose(which, state, sequence, t, members, quality=GOOD_TIME):
    """A frame of a control block: 1 is the trip's, 2 the breaker's."""
    device, name = {1: ("BAY1PROT", "Trip"), 2: ("BAY1CTRL", "Pos")}[which]
    fields = ((0x80, f"{device}/LLN0$GO$gcb{name}".encode()), (0x81, number(3000)), (0x82, f"{device}/LLN0$ds{name}".encode()), (0x83, f"BAY1_{name}".encode()),
              (0x84, utc(t, quality)), (0x85, number(state)), (0x86, number(sequence)), (0x87, b"\x00"), (0x88, number(1)), (0x89, b"\x00"),
              (0x8A, number(len(members))), (0xAB, b"".join(members)))
    apdu = element(0x61, b"".join(element(*it) for it in fields))
    return framed(apdu, envelope=bytes([1, 0x0C, 0xCD, 1, 0, which, 2, 0, 0, 0, 0, 0x10 + which]) + b"\x88\xb8" + (0x3000 + which).to_bytes(2, "big") + bytes(6))


def trip(value, start):
    return [boolean(value), GOOD, boolean(start), GOOD]


def events():
    """The frames of the two control blocks: first states, the start and the trip with a retransmission each, and the breaker that opens."""
    yield BEGIN + 40_000, goose(1, 7, 20, BEGIN - 3600 * SECOND, trip(False, False))
    yield BEGIN + 90_000, goose(2, 3, 90, BEGIN - 7200 * SECOND, [position("10"), GOOD])
    started = FAULT_AT + 9_000
    yield started, goose(1, 8, 0, started - LATER, trip(False, True))
    yield started + 4_000, goose(1, 8, 1, started - LATER, trip(False, True))
    yield TRIP_AT, goose(1, 9, 0, TRIP_AT - LATER, trip(True, True))
    yield TRIP_AT + 4_000, goose(1, 9, 1, TRIP_AT - LATER, trip(True, True))
    yield OPEN_AT - 12_000, goose(2, 4, 0, OPEN_AT - 12_000 - LATER, [position("00"), GOOD])
    yield OPEN_AT, goose(2, 5, 0, OPEN_AT - LATER, [position("01"), GOOD])
    yield OPEN_AT + 4_000, goose(2, 5, 1, OPEN_AT - LATER, [position("01"), GOOD])


class OtherRate:
    """The fault of the line at another rate and line frequency: when each sample was, exactly; and when trip and breaker were captured."""

    def __init__(self, rate, frequency, a_frame):
        self.rate, self.frequency, self.first, self.samples, self.fault = rate, frequency, rate - rate // 10 + 1, rate * 45 // 100, rate * 3 // 10 + 3
        begin, turns = START + Fraction(self.first * SECOND, rate), Fraction(frequency * RATE, rate)
        self.exact = [begin + Fraction(at * SECOND, rate) for at in range(self.samples)]
        self.begin, self.trip_at = round(begin), round(self.exact[self.fault]) + 18_403
        self.open_at = self.trip_at + 39_607
        self.unit = Unit("MU01", 0x4000, 1, lambda at: sample_of_line(at - self.fault + FAULT, turns), rate=rate, a_frame=a_frame,
                         samples=self.samples, first=self.first, begin=self.begin)

    def packets(self):
        early = self.begin + 5_000
        return [*self.unit.packets(), (early, goose(1, 8, 20, early - SECOND, trip(False, True))),
                (self.trip_at, goose(1, 9, 0, self.trip_at - LATER, trip(True, True))),
                (early, goose(2, 4, 9, early - SECOND, [position("10"), GOOD])),
                (self.open_at, goose(2, 5, 0, self.open_at - LATER, [position("01"), GOOD]))]


def packets():
    return [*(it for unit in units() for it in unit.packets()), *events()]


def capture(held=None):
    """A capture of packets in the order of their times."""
    in_order = sorted(packets() if held is None else held, key=lambda it: it[0])
    return section() + interface() + b"".join(packet(at, octets) for at, octets in in_order)


# ---- The SCL file ------------------------------------------------------------

TYPES = """<DataTypeTemplates>
  <LNodeType id="LLN0_T" lnClass="LLN0"/>
  <LNodeType id="PTRC_T" lnClass="PTRC"><DO name="Tr" type="ACT_T"/></LNodeType>
  <LNodeType id="PTOC_T" lnClass="PTOC"><DO name="Str" type="ACT_T"/></LNodeType>
  <LNodeType id="XCBR_T" lnClass="XCBR"><DO name="Pos" type="DPC_T"/></LNodeType>
  <LNodeType id="TCTR_T" lnClass="TCTR"><DO name="AmpSv" type="SAV_A_T"/></LNodeType>
  <LNodeType id="TVTR_T" lnClass="TVTR"><DO name="VolSv" type="SAV_V_T"/></LNodeType>
  <DOType id="ACT_T" cdc="ACT"><DA name="general" bType="BOOLEAN" fc="ST"/><DA name="q" bType="Quality" fc="ST"/></DOType>
  <DOType id="DPC_T" cdc="DPC"><DA name="stVal" bType="Dbpos" fc="ST"/><DA name="q" bType="Quality" fc="ST"/></DOType>
  <DOType id="SAV_A_T" cdc="SAV"><DA name="instMag" bType="Struct" type="INT_T" fc="MX"/><DA name="q" bType="Quality" fc="MX"/>
    <DA name="units" bType="Struct" type="AMPERE_T" fc="CF"/><DA name="sVC" bType="Struct" type="SCALE_T" fc="CF"/></DOType>
  <DOType id="SAV_V_T" cdc="SAV"><DA name="instMag" bType="Struct" type="INT_T" fc="MX"/><DA name="q" bType="Quality" fc="MX"/>
    <DA name="units" bType="Struct" type="KILOVOLT_T" fc="CF"/><DA name="sVC" bType="Struct" type="SCALE_V_T" fc="CF"/></DOType>
  <DAType id="INT_T"><BDA name="i" bType="INT32"/></DAType>
  <DAType id="AMPERE_T"><BDA name="SIUnit" bType="Enum" type="SIUnit"><Val>A</Val></BDA><BDA name="multiplier" bType="Enum" type="multiplier"/></DAType>
  <DAType id="KILOVOLT_T"><BDA name="SIUnit" bType="Enum" type="SIUnit"><Val>V</Val></BDA>
    <BDA name="multiplier" bType="Enum" type="multiplier"><Val>k</Val></BDA></DAType>
  <DAType id="SCALE_T"><BDA name="scaleFactor" bType="FLOAT32"><Val>0.001</Val></BDA><BDA name="offset" bType="FLOAT32"><Val>0</Val></BDA></DAType>
  <DAType id="SCALE_V_T"><BDA name="scaleFactor" bType="FLOAT32"><Val>0.00001</Val></BDA><BDA name="offset" bType="FLOAT32"><Val>0</Val></BDA></DAType>
  <EnumType id="SIUnit"><EnumVal ord="5">A</EnumVal><EnumVal ord="29">V</EnumVal></EnumType>
  <EnumType id="multiplier"><EnumVal ord="0"></EnumVal><EnumVal ord="3">k</EnumVal></EnumType>
</DataTypeTemplates>"""


def address(tag, device, name, mac, appid):
    return (f'<{tag} ldInst="{device}" cbName="{name}"><Address><P type="MAC-Address">01-0C-CD-{mac}</P><P type="APPID">{appid}</P></Address></{tag}>')


def fcda(device, node, *names):
    prefix, sort, instance = node
    return "".join(f'<FCDA ldInst="{device}" prefix="{prefix}" lnClass="{sort}" lnInst="{instance}" doName="{name.split(".")[0]}" '
                   f'daName="{name.partition(".")[2]}" fc="{"MX" if name.partition(".")[0] in ("AmpSv", "VolSv") else "ST"}"/>' for name in names)


def ied(name, device, control, members, nodes):
    inside = "".join(f'<LN prefix="{prefix}" lnClass="{sort}" inst="{instance}" lnType="{sort}_T">{more}</LN>' for (prefix, sort, instance), more in nodes)
    return (f'<IED name="{name}"><AccessPoint name="S1"><Server><LDevice inst="{device}"><LN0 lnClass="LLN0" inst="" lnType="LLN0_T">'
            f'<DataSet name="{control[1]}">\n{members}\n</DataSet>{control[0]}</LN0>\n{inside}</LDevice></Server></AccessPoint></IED>')


def merging_unit(name, nodes, more=""):
    members = "\n".join(fcda("MU", node, *(f"{'AmpSv' if node[1] == 'TCTR' else 'VolSv'}.{it}" for it in ("instMag.i", "q"))) for node in nodes)
    control = (f'<SampledValueControl name="msv1" datSet="dsSv" confRev="1" smvID="{name}" smpRate="80" nofASDU="8"/>', "dsSv")
    return ied(name, "MU", control, members, [(node, more if node[1] == "TCTR" else "") for node in nodes])


def node_names(sort, letter):
    return [(f"{letter}01{phase}", sort, str(at)) for at, phase in enumerate("ABCN", 1)]


def scd():
    own = '<DOI name="AmpSv"><SDI name="sVC"><DAI name="scaleFactor"><Val>0.002</Val></DAI></SDI></DOI>'
    access = "".join(f'<ConnectedAP iedName="{name}" apName="S1">{told}</ConnectedAP>\n' for name, told in (
        ("BAY1", address("GSE", "PROT", "gcbTrip", "01-00-01", "3001")), ("BRK1", address("GSE", "CTRL", "gcbPos", "01-00-02", "3002")),
        ("MU01", address("SMV", "MU", "msv1", "04-00-01", "4000")), ("MU02", address("SMV", "MU", "msv1", "04-00-02", "4001"))))
    trip_control = '<GSEControl name="gcbTrip" datSet="dsTrip" confRev="1" appID="BAY1_Trip"/>', "dsTrip"
    position_control = '<GSEControl name="gcbPos" datSet="dsPos" confRev="1" appID="BAY1_Pos"/>', "dsPos"
    trips, starts, breaker = ("", "PTRC", "1"), ("", "PTOC", "1"), ("", "XCBR", "1")
    ieds = (ied("BAY1", "PROT", trip_control, fcda("PROT", trips, "Tr.general", "Tr.q") + fcda("PROT", starts, "Str.general", "Str.q"),
                [(trips, ""), (starts, "")]),
            ied("BRK1", "CTRL", position_control, fcda("CTRL", breaker, "Pos.stVal", "Pos.q"), [(breaker, "")]).replace(
                '<LDevice inst="CTRL">', '<LDevice inst="CTRL" ldName="BAY1CTRL">'),
            merging_unit("MU01", node_names("TCTR", "I") + node_names("TVTR", "U")), merging_unit("MU02", node_names("TCTR", "I"), own))
    return (f'<?xml version="1.0" encoding="UTF-8"?>\n<SCL xmlns="http://www.iec.ch/61850/2003/SCL" version="2007" revision="B" release="4">\n'
            f'<Header id="a fault"/>\n<Communication><SubNetwork name="Bus">\n{access}</SubNetwork></Communication>\n' + "\n".join(ieds) + f"\n{TYPES}\n</SCL>\n")


if __name__ == "__main__":
    sys.stdout.buffer.write(scd().encode() if sys.argv[1:] == ["scd"] else capture())
