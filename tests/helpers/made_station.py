"""A station that is made here: a capture of twenty control blocks and two streams with every kind of finding, and its SCL file.

What each sender does beside sending states and retransmissions stands in BLOCKS; what its configuration says otherwise in DIFFERENT.
"""
from helpers.capture_parts import interface, option, packet, section
from helpers.frames import asdu, element, framed, with_asdus
from helpers.station_packets import OTHERS

START = 1_700_000_000 * 10**6
SECONDS, LIFE = 10, 1500
# Samples a second of the streams.
PERIOD = 100
BURST = (0, 4, 12, 28, 60, 124)
BLOCKS = {
    1: "sends all", 2: "loses a retransmission", 3: "loses a state", 4: "a frame of an earlier state comes late", 5: "a frame comes twice",
    6: "is silent and comes back", 7: "is silent and restarts", 8: "is silent at the end", 9: "sends a simulated frame",
    10: "has another confRev from its second state on", 11: "needs commissioning", 12: "has floating-point members",
    13: "sends numbers in long encodings", 14: "sends to an unusual address", 15: "has no goID", 16: "has a clock that is not synchronized",
    17: "changes its lifetime", 18: "has no VLAN tag", 19: "has structures", 20: "has two sources",
}
# What the SCL file says of these: they differ, or are not in it.
DIFFERENT = {3: "confRev", 4: "MAC-Address", 5: "VLAN-ID", 6: "VLAN-PRIORITY", 12: "appID", 20: None}


def number(value):
    """An INTEGER in its fewest octets."""
    return value.to_bytes(value.bit_length() // 8 + 1, "big")


class Device:
    """A sender of one control block: what it sends when."""

    def __init__(self, at):
        self.at, self.frames, self.state, self.sequence, self.changed, self.value = at, [], 1, 3, START - 5_000_000, False
        self.reference = f"P{at:02}LD0/LLN0$GO$gcb1"
        self.confrev, self.live = 1, LIFE

    def members(self):
        value = b"\x83\x01" + (b"\xff" if self.value else b"\x00")
        if self.at == 12:
            return [value, bytes.fromhex("8705 08") + (bytes.fromhex("43c80000") if self.value else bytes.fromhex("42c80000"))]
        if self.at == 19:
            return [element(0xA2, value + element(0x85, number(self.state)))]
        return [value, bytes.fromhex("8403 03 0000")]

    def frame(self, **how):
        """The frame of the present state and sqNum, or one in which some fields are others."""
        it = {"st": self.state, "sq": self.sequence, "sim": False, "source": self.at, **how}
        t = (self.changed // 10**6).to_bytes(4, "big") + (self.changed % 10**6 * 2**24 // 10**6).to_bytes(3, "big")
        members = self.members()
        long = (lambda value: value.to_bytes(5, "big")) if self.at == 13 else number
        fields = [
            (0x80, self.reference.encode()), (0x81, number(self.live)), (0x82, f"P{self.at:02}LD0/LLN0$ds1".encode()),
            *([(0x83, f"P{self.at:02}".encode())] if self.at != 15 else []), (0x84, t + (b"\x2a" if self.at == 16 else b"\x0a")),
            (0x85, long(it["st"])), (0x86, long(it["sq"])), (0x87, b"\xff" if it["sim"] else b"\x00"), (0x88, number(self.confrev)),
            (0x89, b"\xff" if self.at == 11 else b"\x00"), (0x8A, number(len(members))), (0xAB, b"".join(members))]
        apdu = element(0x61, b"".join(element(*field) for field in fields))
        destination = bytes([1, 0x0C, 0xCD, 9 if self.at == 14 else 1, 1, self.at])
        envelope = destination + bytes([2, 0, 0, 0, 1, it["source"]]) + b"\x88\xb8" + (0x3000 + self.at).to_bytes(2, "big") + bytes(2)
        envelope += (b"\x80\x00" if it["sim"] else bytes(2)) + bytes(2)
        return framed(apdu, tag=b"" if self.at == 18 else bytes.fromhex("81008005"), envelope=envelope)

    def send(self, milliseconds, **how):
        self.frames.append((START + milliseconds * 1000 + self.at * 37, self.frame(**how)))

    def change(self, milliseconds):
        """A new state, and its burst of retransmissions."""
        self.state, self.sequence, self.value, self.changed = self.state + 1, 0, not self.value, START + milliseconds * 1000 - 200 * self.at
        for later in BURST:
            self.send(milliseconds + later)
            self.sequence += 1

    def beat(self, since, until):
        """A retransmission a second."""
        for milliseconds in range(since, until, 1000):
            self.send(milliseconds + 10 * self.at)
            self.sequence += 1


def device(at):
    """The frames of one control block, all of ten seconds."""
    it = Device(at)
    it.beat(0, 2000)
    it.change(2000 + 20 * at)
    it.beat(3000, 5000)
    if at == 10:
        it.confrev = 2
    it.live = 3000 if at == 17 else LIFE
    it.change(5200 + 3 * at)
    it.beat(6000, 10000)
    return DOES.get(at, lambda frames: frames)(it.frames)


def lacking(*numbers):
    """Without some frames."""
    return lambda frames: [frame for at, frame in enumerate(frames) if at not in numbers]


def late(frames):
    """One frame comes behind the frames of the next state."""
    moment = frames[12][0] + 1000
    return sorted([*frames[:6], (moment, frames[6][1]), *frames[7:]], key=lambda frame: frame[0])


def twice(frames):
    return sorted([*frames, (frames[3][0] + 90, frames[3][1])], key=lambda frame: frame[0])


def restarted(frames):
    """Silent for three seconds, and then as it began."""
    again = Device(7)
    again.state, again.value, again.changed = 1, True, START + 8_000_000
    again.beat(8000, 10000)
    return frames[:10] + again.frames


def simulated(frames):
    it = Device(9)
    it.sequence = 7
    it.send(9100, sim=True)
    return sorted(frames + it.frames, key=lambda frame: frame[0])


def of_two_sources(frames):
    return [(moment, frame if at % 2 else frame[:11] + b"\x99" + frame[12:]) for at, (moment, frame) in enumerate(frames)]


# The frames of a device are: 2 beats, the burst of 6, 2 beats, the burst of 6, 4 beats.
DOES = {2: lacking(4), 3: lacking(*range(2, 10)), 4: late, 5: twice, 6: lacking(*range(8, 17)), 7: restarted, 8: lacking(*range(16, 20)),
        9: simulated, 20: of_two_sources}


# ---- Streams, errors and others ----------------------------------------------


def sample(svid, count, confrev=1, synch=2, appid=0x4001, source=0x31):
    frame = with_asdus(asdu(sv_id=element(0x80, svid), smp_cnt=element(0x82, count.to_bytes(2, "big")), conf_rev=element(0x83, confrev.to_bytes(4, "big")),
                            smp_synch=element(0x85, bytes([synch]))))
    return frame[:11] + bytes([source]) + frame[12:14] + appid.to_bytes(2, "big") + frame[16:]


def streams():
    """A stream with a gap, a repeated sample, a late one, a count out of range, and other clocks; another one that ends early."""
    for at in range(SECONDS * PERIOD):
        moment, count = START + at * 10_000 + 500, at % PERIOD
        if not 250 <= at < 290 and at != 604:
            yield moment, sample(b"MU01", count, synch=1 if 700 <= at < 720 else 2)
        if at == 400:
            yield moment + 200, sample(b"MU01", count)
        if at == 606:
            yield moment + 100, sample(b"MU01", 4)
            yield moment + 200, sample(b"MU01", 1)
        if at == 800:
            yield moment + 300, sample(b"MU01", PERIOD + 1)
        if at < 800:
            yield moment + 77, sample(b"MU02", count, 7, appid=0x4002, source=0x32)


def faulty():
    """Frames with errors of three kinds."""
    good = Device(1).frame()
    for at, bad in enumerate((good[:60], good[:-1], good[:30] + b"\x07" + good[31:], good[:20] + bytes(2) + good[22:])):
        yield START + 4_000_000 + 150_000 * at, bad


def others():
    for at in range(40):
        yield START + at * 250_000 + 333, OTHERS[at % len(OTHERS)](at // len(OTHERS))


def packets():
    held = [frame for at in BLOCKS for frame in device(at)]
    return sorted([*held, *streams(), *faulty(), *others()], key=lambda frame: frame[0])


def capture():
    """The capture, as dumpcap saves it, from two interfaces."""
    named = [interface(options=option(2, name) + bytes(4)) for name in (b"station bus", b"process bus")]
    blocks = (packet(moment, octets, which=int(octets[12:14] == b"\x88\xba")) for moment, octets in packets())
    return b"".join([section(options=option(4, b"made_station") + bytes(4)), *named, *blocks])


# ---- The SCL file ------------------------------------------------------------


def address(element_name, name, **parts):
    told = "".join(f'<P type="{sort.replace("_", "-")}">{value}</P>' for sort, value in parts.items())
    return f'<{element_name} ldInst="LD0" cbName="{name}"><Address>{told}</Address></{element_name}>'


def ied(name, control, data_set, addressed):
    access = f'<ConnectedAP iedName="{name}" apName="S1">{addressed}</ConnectedAP>'
    return access, (f'<IED name="{name}"><AccessPoint name="S1"><Server><LDevice inst="LD0"><LN0 lnClass="LLN0" inst="">{data_set}{control}'
                    f'</LN0></LDevice></Server></AccessPoint></IED>')


def configured_block(at):
    changed = DIFFERENT.get(at)
    parts = {"MAC_Address": f"01-0C-CD-{'09' if at == 14 else '01'}-01-{at:02X}", "APPID": f"{0x3000 + at:04X}", "VLAN_ID": "005", "VLAN_PRIORITY": "4"}
    others = {"MAC-Address": "01-0C-CD-01-01-FF", "VLAN-ID": "006", "VLAN-PRIORITY": "7"}
    parts.update({changed.replace("-", "_"): others[changed]} if changed in others else {})
    members = 1 if at == 19 else 2
    goid = "" if at == 15 else f' appID="P{at:02}{"X" if changed == "appID" else ""}"'
    control = f'<GSEControl name="gcb1" datSet="ds1" confRev="{9 if changed == "confRev" else 1}"{goid}/>'
    return ied(f"P{at:02}", control, f'<DataSet name="ds1">{"<FCDA/>" * members}</DataSet>', address("GSE", "gcb1", **parts))


def configured_stream(at):
    parts = {"MAC_Address": "01-0C-CD-04-00-01", "APPID": f"400{at}"}
    control = f'<SampledValueControl name="ms1" datSet="ds1" confRev="1" smvID="MU0{at}" smpRate="80" nofASDU="1"/>'
    return ied(f"M{at:02}", control, '<DataSet name="ds1"><FCDA/></DataSet>', address("SMV", "ms1", **parts))


def scd():
    """The station's configuration: P21 and a third stream send nothing, P20 is not in it, and SUB receives P01, P02, P07, P10 and MU01."""
    parts = [configured_block(at) for at in (*BLOCKS, 21) if at != 20] + [configured_stream(at) for at in (1, 2, 3)]
    inputs = "".join(f'<ExtRef iedName="{name}" ldInst="LD0" srcCBName="{block}"/>'
                     for name, block in (("P01", "gcb1"), ("P02", "gcb1"), ("P07", "gcb1"), ("P10", "gcb1"), ("M01", "ms1")))
    receiver = ('<IED name="SUB"><AccessPoint name="S1"><Server><LDevice inst="LD0"><LN0 lnClass="LLN0" inst=""><Inputs>'
                f"{inputs}</Inputs></LN0></LDevice></Server></AccessPoint></IED>")
    return ('<?xml version="1.0"?>\n<SCL xmlns="http://www.iec.ch/61850/2003/SCL">\n<Communication><SubNetwork name="S">'
            + "\n".join(access for access, _ in parts) + "</SubNetwork></Communication>\n" + "\n".join(device for _, device in parts)
            + f"\n{receiver}\n</SCL>\n")
