"""A station with a trip, made here: what its control blocks send when, and its SCL file. Bay 1 protects with PTRC, its breaker is XCBR
with an isolator XSWI beside it; a breaker failure protection is RBRF, and RREC closes again. GGIO says by no name what it is."""
from helpers.capture_parts import interface, option, options, packet, section
from helpers.frames import element, framed
from helpers.made_station import number
from helpers.typed_station import HEAD, TYPES, fcda

START = 1_700_000_000 * 10**6
FALSE, TRUE = b"\x83\x01\x00", b"\x83\x01\xff"
GOOD, TEST = b"\x84\x03\x03\x00\x00", b"\x84\x03\x03\x00\x10"
TIME = b"\x91\x08" + bytes(8)
OFF, ON, BETWEEN = (element(0x84, b"\x06" + bytes([it << 6])) for it in (1, 2, 0))
TYPES = TYPES.replace('<LNodeType id="PTRC_T"', '<LNodeType id="XSWI_T" lnClass="XSWI"><DO name="Pos" type="DPC_T"/></LNodeType>'
                      '<LNodeType id="GGIO_T" lnClass="GGIO"><DO name="Ind1" type="SPS_T"/></LNodeType><LNodeType id="PTRC_T"').replace(
    '<DOType id="INS_T"', '<DOType id="SPS_T" cdc="SPS"><DA name="stVal" bType="BOOLEAN" fc="ST"/><DA name="q" bType="Quality" fc="ST"/></DOType>'
    '<DOType id="INS_T"')
# The control blocks: the device of each, its data set, and its first members.
BLOCKS = {
    "trip": ("PROT1", [fcda(",PTRC,1,Tr,general"), fcda(",PTRC,1,Tr,q"), fcda(",PTOC,1,Str,general")], [FALSE, GOOD, FALSE]),
    "breaker": ("CTL1", [fcda(",XCBR,1,Pos,stVal"), fcda(",XCBR,1,Pos,q"), fcda(",XCBR,1,Pos,t")], [ON, GOOD, TIME]),
    "isolator": ("CTL1", [fcda(",XSWI,1,Pos,stVal")], [ON]),
    "failure": ("PROT2", [fcda(",RBRF,1,OpEx,general"), fcda(",RBRF,1,Str,general")], [FALSE, FALSE]),
    "closing": ("PROT2", [fcda(",RREC,1,Op,general")], [FALSE]),
    "input": ("IO1", [fcda(",GGIO,1,Ind1,stVal"), fcda(",GGIO,1,Ind1,q")], [FALSE, GOOD]),
}
NODES = "".join(f'<LN lnClass="{it}" inst="1" lnType="{it}_T"/>' for it in ("XCBR", "XSWI", "PTRC", "PTOC", "RBRF", "RREC", "GGIO"))


def reference(name):
    return f"{BLOCKS[name][0]}LD0/LLN0$GO$gcb_{name}"


def appid(name):
    return 0x3100 + list(BLOCKS).index(name)


def frame(name, members, state=1, sequence=0, moment=START, live=3000, simulated=False, source=1):
    """A frame of a control block; its t is a millisecond before a moment."""
    t = moment - 1000
    t = (t // 10**6).to_bytes(4, "big") + (t % 10**6 * 2**24 // 10**6).to_bytes(3, "big") + b"\x0a"
    fields = [(0x80, reference(name).encode()), (0x81, number(live)), (0x82, f"{BLOCKS[name][0]}LD0/LLN0$ds_{name}".encode()), (0x83, name.encode()),
              (0x84, t), (0x85, number(state)), (0x86, number(sequence)), (0x87, b"\xff" if simulated else b"\x00"), (0x88, b"\x01"), (0x89, b"\x00"),
              (0x8A, number(len(members))), (0xAB, b"".join(members))]
    apdu = element(0x61, b"".join(element(*field) for field in fields))
    envelope = bytes.fromhex("010ccd0101") + bytes([appid(name) % 256, 2, 0, 0, 0, 1, source]) + b"\x88\xb8" + appid(name).to_bytes(2, "big") + bytes(2)
    return framed(apdu, envelope=envelope + (b"\x80\x00" if simulated else bytes(2)) + bytes(2))


def frames(*changes, until=8000):
    """Every block sends its first state at once, each change in its time, in milliseconds, with a retransmission 4 ms later, and a
    retransmission each second."""
    state, sent = {name: [1, 0, members, START] for name, (_, _, members) in BLOCKS.items()}, []
    times = sorted([(at * 1000, "again", name) for name in BLOCKS for at in range(until // 1000)] + [(at, name, members) for at, name, members in changes],
                   key=lambda it: it[0])
    for at, name, what in times:
        again = what if name == "again" else name
        moment, held = START + round(at * 1000) + 50 * list(BLOCKS).index(again), state[again]
        if name != "again":
            held[:] = [held[0] + 1, 0, what, moment]
        sent.append((moment, frame(again, held[2], held[0], held[1], held[3])))
        if name != "again":
            held[1] += 1
            sent.append((moment + 4000, frame(again, held[2], held[0], held[1], held[3])))
        held[1] += 1
    return sorted(sent, key=lambda it: it[0])


def capture(sent, comments=None):
    """The frames as dumpcap saves them; comments are those of packets by their numbers, and that of the capture by 0."""
    told = comments or {}
    head = section(options=option(4, b"trip_station") + (option(1, told[0].encode()) if 0 in told else b"") + bytes(4)) + interface()
    return head + b"".join(packet(moment, octets, options=options([(1, told[at].encode())]) if at in told else b"") for at, (moment, octets) in enumerate(sent, 1))


def scd():
    """The station's configuration."""
    ieds, access = [], []
    for ied in dict.fromkeys(it[0] for it in BLOCKS.values()):
        own = [name for name, it in BLOCKS.items() if it[0] == ied]
        sets = "".join(f'<DataSet name="ds_{name}">{"".join(BLOCKS[name][1])}</DataSet>' for name in own)
        controls = "".join(f'<GSEControl name="gcb_{name}" datSet="ds_{name}" confRev="1" appID="{name}"/>' for name in own)
        access.append(f'<ConnectedAP iedName="{ied}" apName="A">' + "".join(
            f'<GSE ldInst="LD0" cbName="gcb_{name}"><Address><P type="APPID">{appid(name):04X}</P></Address></GSE>' for name in own) + "</ConnectedAP>")
        ieds.append(f'<IED name="{ied}"><AccessPoint name="A"><Server><LDevice inst="LD0"><LN0 lnClass="LLN0" inst="" lnType="LLN0_T">{sets}{controls}</LN0>'
                    f"{NODES}</LDevice></Server></AccessPoint></IED>")
    return f'{HEAD}<Communication><SubNetwork name="S">{"".join(access)}</SubNetwork></Communication>{"".join(ieds)}{TYPES}</SCL>'


# A fault of bay 1: it starts, trips, the isolator is no breaker, the breaker opens, and the failure protection trips another one later.
FAULT = ((3000, "trip", [FALSE, GOOD, TRUE]), (3018.4, "trip", [TRUE, GOOD, TRUE]), (3025, "input", [TRUE, GOOD]), (3030, "isolator", [BETWEEN]),
         (3055.2, "breaker", [BETWEEN, GOOD, TIME]), (3070, "breaker", [OFF, GOOD, TIME]), (3500, "closing", [TRUE]), (3560, "breaker", [ON, GOOD, TIME]),
         (3600, "trip", [FALSE, GOOD, FALSE]), (6000, "failure", [TRUE, FALSE]))
