"""A small station for pages: four devices that send states and retransmissions, and faults that are put into it one by one. Its frames are
made from parts, as the standards have them."""
from helpers.capture_parts import interface, packet, section
from helpers.frames import asdu, element, framed, with_asdus, with_fields

START = 1_700_000_000 * 10**6
SECOND, HOUR = 10**6, 3600 * 10**6
DEVICES, SECONDS, LIVE = 4, 12, 2500
# When the devices change their states, in seconds from the beginning.
CHANGES = (3, 7)
GOOD, FAILED, UNSYNCHRONIZED = 0x0A, 0x4A, 0x2A


def utc(moment, quality=GOOD):
    """A UtcTime, whose fraction is rounded to the nearest."""
    seconds, rest = divmod(moment, SECOND)
    return seconds.to_bytes(4, "big") + min((rest * 2**24 + 500000) // SECOND, 2**24 - 1).to_bytes(3, "big") + bytes([quality])


def number(value):
    return value.to_bytes(value.bit_length() // 8 + 1, "big")


class Frame:
    """A frame of GOOSE and when it comes: what is in it can be changed before its octets are made."""

    def __init__(self, at, device, state, sequence, t):
        self.at, self.device, self.state, self.sequence, self.t = at, device, state, sequence, t
        self.quality, self.source, self.simulated, self.commissioning, self.revision = GOOD, device, False, False, 1

    @property
    def reference(self):
        return f"D{self.device}LD0/LLN0$GO$gcb1"

    def octets(self):
        flag = {False: b"\x00", True: b"\xff"}
        frame = with_fields(
            gocb_ref=element(0x80, self.reference.encode()), live=element(0x81, number(LIVE)), dat_set=element(0x82,
                f"D{self.device}LD0/LLN0$ds1".encode()),
            t=element(0x84, utc(self.t, self.quality)), st_num=element(0x85, number(self.state)), sq_num=element(0x86, number(self.sequence)),
            simulation=element(0x87, flag[self.simulated]), conf_rev=element(0x88, number(self.revision)),
            nds_com=element(0x89, flag[self.commissioning]), members=element(0xAB, b"\x83\x01" + flag[self.state % 2 == 0]))
        envelope = bytes([1, 0x0C, 0xCD, 1, 0, self.device, 2, 0, 0, 0, 1, self.source]) + b"\x88\xb8" + (0x1000 + self.device).to_bytes(2,
            "big") + bytes(2)
        return framed(frame[22:], envelope=envelope + (b"\x80\x00" if self.simulated else bytes(2)) + bytes(2))


def device(which):
    """The frames of a device: a retransmission a second, and the first frames of two states, which began a millisecond before."""
    state, sequence, began = 5, 100, START - HOUR
    for second in range(SECONDS):
        yield Frame(START + second * SECOND + which * 1000, which, state, sequence, began)
        sequence += 1
        if second in CHANGES:
            began = START + second * SECOND + 500_000 + which * 1000
            state, sequence = state + 1, 1
            yield Frame(began + 1000, which, state, 0, began)


def frames(change=None):
    """All frames; what `change` does with each is kept, where it does not answer that the frame is left out."""
    held = [it for which in range(1, DEVICES + 1) for it in device(which)]
    return [it for it in held if not change or change(it) is not False]


def packets(change=None):
    return in_order((it.at, it.octets()) for it in frames(change))


def in_order(held):
    return sorted(held, key=lambda it: it[0])


def capture(held, link=1, **how):
    """A capture of packets, each with its time, from one interface."""
    return section() + interface(link=link) + b"".join(packet(at, octets, **how) for at, octets in held)


# ---- Streams -----------------------------------------------------------------


def stream(rate, seconds, name=b"MU1", a_frame=8, source=0x31, count=0, **fields):
    """The frames of a stream, so many samples a second and so many in each frame, from a smpCnt on."""
    whole = round(rate * seconds)
    for first in range(0, whole, a_frame):
        counts = [(count + at) % rate for at in range(first, min(first + a_frame, whole))]
        frame = with_asdus(*(asdu(sv_id=element(0x80, name), smp_cnt=element(0x82, it.to_bytes(2, "big")), **fields) for it in counts))
        yield START + (first + a_frame) * SECOND // rate, frame[:11] + bytes([source]) + frame[12:]


def configured_stream(name, rate, mode=None):
    """An SCL file with a stream."""
    how = f' smpMod="{mode}"' if mode else ""
    return ('<SCL xmlns="http://www.iec.ch/61850/2003/SCL"><Communication><SubNetwork name="S"><ConnectedAP iedName="M1" apName="P1">'
            '<SMV ldInst="LD0" cbName="ms1"><Address><P type="MAC-Address">01-0C-CD-04-00-01</P><P type="APPID">4000</P></Address></SMV>'
            '</ConnectedAP></SubNetwork></Communication><IED name="M1"><AccessPoint name="P1"><Server><LDevice inst="LD0"><LN0 lnClass="LLN0" inst="">'
            f'<DataSet name="ds1"><FCDA/></DataSet><SampledValueControl name="ms1" datSet="ds1" confRev="1" '
            f'smvID="{name}" smpRate="{rate}" nofASDU="8"{how}/>'
            '</LN0></LDevice></Server></AccessPoint></IED></SCL>')


# ---- What a device receives --------------------------------------------------


def configured_blocks(which, longest=None):
    """An SCL file with the blocks of these devices, all of which SUB receives."""
    times = f'<MaxTime unit="s" multiplier="m">{longest}</MaxTime>' if longest else ""
    aps = "".join(f'<ConnectedAP iedName="D{it}" apName="P1"><GSE ldInst="LD0" cbName="gcb1"><Address><P type="MAC-Address">01-0C-CD-01-00-{it:02X}</P>'
                  f'<P type="APPID">{0x1000 + it:04X}</P></Address>{times}</GSE></ConnectedAP>' for it in which)
    ieds = "".join(f'<IED name="D{it}"><AccessPoint name="P1"><Server><LDevice inst="LD0"><LN0 lnClass="LLN0" inst=""><DataSet name="ds1"><FCDA/></DataSet>'
                   f'<GSEControl name="gcb1" datSet="ds1" confRev="1"><IEDName>SUB</IEDName></GSEControl></LN0></LDevice></Server></AccessPoint></IED>'
                   for it in which)
    return ('<SCL xmlns="http://www.iec.ch/61850/2003/SCL"><Communication><SubNetwork name="S">' + aps + "</SubNetwork></Communication>" + ieds
            + '<IED name="SUB"><AccessPoint name="P1"/></IED></SCL>')
