"""tools/report --subscriptions: every IED of an SCL file beside what it subscribes to, and what came of it."""
import pathlib
import tempfile

from helpers.asked_tools import EXAMPLES, ask
from helpers.capture_parts import interface, packet, section
from helpers.made_station import Device, address, sample
from themes.report import body, words

START = 1_700_000_000 * 10**6


# ---- The capture -------------------------------------------------------------


def sent(at, *milliseconds, **fields):
    """Frames of the control block of P01 to P09 at these times."""
    device = Device(at)
    device.reference = f"P0{at}LD0/LLN0$GO$gcb1"
    for name, value in fields.items():
        setattr(device, name, value)
    for it in milliseconds:
        device.send(it)
        device.sequence += 1
    return device.frames


def capture():
    """P01 and P05 send in time, P02 and P06 what their receivers refuse, and so P07 in its last frame; P04 is silent for 8 s, P03 sends
    nothing; two streams, one of another confRev than it is configured with."""
    frames = [*sent(1, 0, 1000, 2000), *sent(2, 0, 1000), *sent(4, 0, 1000, 9000), *sent(5, 100, 1100), *sent(6, 0),
              *sent(7, 0, 1000), *sent(7, 2000, confrev=2)]
    frames += [(START + 500_000 + at * 1000, sample(b"MU01", at)) for at in range(4)]
    frames += [(START + 600_000 + at * 1000, sample(b"MU02", at, 7, appid=0x4002, source=0x32)) for at in range(2)]
    frames.sort(key=lambda it: it[0])
    return b"".join([section(), interface(), *(packet(moment, octets) for moment, octets in frames)])


# ---- The SCL file ------------------------------------------------------------


def fcda(at):
    return "".join(f'<FCDA ldInst="LD0" lnClass="GGIO" lnInst="{at}" doName="Ind1" daName="{name}" fc="ST"/>' for name in ("stVal", "q"))


def device(name, inside, nodes=""):
    return (f'<IED name="{name}"><AccessPoint name="S1"><Server><LDevice inst="LD0"><LN0 lnClass="LLN0" inst="" lnType="none">{inside}</LN0>{nodes}'
            "</LDevice></Server></AccessPoint></IED>")


def sender(at, receivers="", more="", more_addresses=""):
    """An IED that sends one control block, or more of them."""
    parts = {"MAC_Address": f"01-0C-CD-01-01-{at:02X}", "APPID": f"{0x3000 + at:04X}"}
    revision, entries = 9 if at == 2 else 1, 1 if at == 6 else 2
    control = f'<GSEControl name="gcb1" datSet="ds1" confRev="{revision}">{receivers}</GSEControl>{more}'
    access = f'<ConnectedAP iedName="P0{at}" apName="S1">{address("GSE", "gcb1", **parts)}{more_addresses}</ConnectedAP>'
    data = fcda(at) if entries == 2 else fcda(at).partition("/>")[0] + "/>"
    return access, device(f"P0{at}", f'<DataSet name="ds1">{data}</DataSet>{control}', f'<LN lnClass="GGIO" inst="{at}" lnType="GGIO_T"/>')


def stream(at):
    control = f'<SampledValueControl name="ms1" datSet="ds1" confRev="1" smvID="MU0{at}" smpRate="80" nofASDU="1"/>'
    access = f'<ConnectedAP iedName="M0{at}" apName="S1">{address("SMV", "ms1", MAC_Address="01-0C-CD-04-00-01", APPID=f"400{at}")}</ConnectedAP>'
    return access, device(f"M0{at}", f'<DataSet name="ds1"><FCDA/></DataSet>{control}')


def supervision(node, name, reference):
    return (f'<LN lnClass="{node}" inst="1" lnType="none"><DOI name="{name}"><DAI name="d"><Val>what is received</Val></DAI><DAI name="setSrcRef">'
            f'<Val>{reference}</Val></DAI></DOI></LN>')


def bound(**stated):
    return "<ExtRef " + " ".join(f'{name}="{value}"' for name, value in stated.items()) + "/>"


def data_of(at, name="Ind1", **more):
    return bound(iedName=f"P0{at}", ldInst="LD0", lnClass="GGIO", lnInst=f"{at}", doName=name, daName="stVal", **more)


def block_of(at, name="gcb1", **more):
    return bound(iedName=f"P0{at}", ldInst="LD0", srcCBName=name, **more)


INPUTS = {
    "SUB1": [block_of(1), block_of(1, serviceType="GOOSE"), block_of(2), block_of(3), bound(iedName="M01", ldInst="LD0", srcCBName="ms1"),
             bound(iedName="M02", srcLDInst="LD0", srcCBName="ms1", serviceType="SMV"), block_of(6), block_of(7)],
    # Without srcCBName: two blocks of P05 have the data.
    "SUB2": [data_of(5)], "SUB3": [data_of(5)],
    "SUB5": [bound(pLN="GGIO", intAddr="1"), bound(pLN="CSWI"), bound(iedName="@", ldInst="LD0", lnClass="GGIO", doName="Ind9"),
             block_of(1, "none", serviceType="Report"), data_of(1, "Ind9", serviceType="Poll"), data_of(1, "Ind2"),
             bound(iedName="SUB5", ldInst="LD0", srcCBName="none")],
    "SUB6": [block_of(1, "none"), data_of(1, "Ind9"), data_of(1, "Ind2", serviceType="GOOSE"),
             bound(iedName="P77", ldInst="LD0", lnClass="GGIO", lnInst="1", doName="Ind1")],
    # What another block serves too, and by its name.
    "SUB7": [block_of(5, "gcb2"), data_of(5)],
}
TYPES = ('<DataTypeTemplates><LNodeType id="GGIO_T" lnClass="GGIO"><DO name="Ind1" type="SPS_T"/><DO name="Ind2" type="SPS_T"/></LNodeType>'
         '<DOType id="SPS_T" cdc="SPS"><DA name="stVal" bType="BOOLEAN" fc="ST"/><DA name="q" bType="Quality" fc="ST"/></DOType></DataTypeTemplates>')


def scd():
    second = '<GSEControl name="gcb2" datSet="ds1" confRev="1"><IEDName>SUB3</IEDName></GSEControl>'
    parts = [sender(1), sender(2), sender(3), sender(4, "<IEDName>SUB1</IEDName>"), sender(6), sender(7), stream(1), stream(2),
             sender(5, more=second, more_addresses=address("GSE", "gcb2", APPID="3055"))]
    supervising = (supervision("LGOS", "GoCBRef", "P01LD0/LLN0.gcb1") + supervision("LSVS", "SvCBRef", "M01LD0/LLN0$MS$ms1")
                   + supervision("LGOS", "GoCBRef", "P01LD0/LLN0.none") + supervision("LGOS", "NdsCom", "P03LD0/LLN0.gcb1"))
    receivers = [device(name, f"<Inputs>{''.join(held)}</Inputs>") for name, held in INPUTS.items()] + [device("SUB4", "", supervising)]
    devices = [it for _, it in parts] + receivers
    return ('<?xml version="1.0"?>\n<SCL xmlns="http://www.iec.ch/61850/2003/SCL"><Communication><SubNetwork name="S">'
            + "".join(access for access, _ in parts) + "</SubNetwork></Communication>" + "".join(devices) + TYPES + "</SCL>")


# What the table says of each subscription: by what it is named, received, accepted, refused (up to the first packet), expired, and what it
# comes to.
ROWS = {
    # P01 is silent from 2 s on, and so its lifetime is over before the last packet, at 9 s.
    ("SUB1", "P01LD0/LLN0$GO$gcb1"): ("ExtRef", 3, 3, "", 1, "accepted"),
    ("SUB1", "P02LD0/LLN0$GO$gcb1"): ("ExtRef", 2, 0, "2 refused (ConfRev)", 0, "no frame accepted"),
    ("SUB1", "P03LD0/LLN0$GO$gcb1"): ("ExtRef", 0, 0, "", 0, "never seen"),
    ("SUB1", "P04LD0/LLN0$GO$gcb1"): ("IEDName", 3, 3, "", 1, "accepted"),
    ("SUB1", "P06LD0/LLN0$GO$gcb1"): ("ExtRef", 1, 0, "1 refused (Entries)", 0, "no frame accepted"),
    ("SUB1", "P07LD0/LLN0$GO$gcb1"): ("ExtRef", 3, 2, "1 refused (ConfRev)", 1, "refused in part"),
    ("SUB1", "MU01 (stream)"): ("ExtRef", 4, 4, "", 0, "accepted"),
    ("SUB1", "MU02 (stream)"): ("ExtRef", 2, 0, "2 refused (confRev 7, configured 1", 0, "no frame accepted"),
    ("SUB2", "P05LD0/LLN0$GO$gcb1"): ("ExtRef: one of 2", 2, 2, "", 1, "accepted"),
    ("SUB2", "P05LD0/LLN0$GO$gcb2"): ("ExtRef: one of 2", 0, 0, "", 0, "not needed: P05LD0/LLN0$GO$gcb1 serves"),
    ("SUB3", "P05LD0/LLN0$GO$gcb2"): ("IEDName; ExtRef", 0, 0, "", 0, "never seen"),
    ("SUB7", "P05LD0/LLN0$GO$gcb1"): ("ExtRef: one of 2", 2, 2, "", 1, "accepted"),
    ("SUB7", "P05LD0/LLN0$GO$gcb2"): ("ExtRef; ExtRef: one of 2", 0, 0, "", 0, "never seen"),
    ("SUB4", "P01LD0/LLN0$GO$gcb1"): ("GoCBRef of LGOS", 3, 3, "", 1, "accepted"),
    ("SUB4", "MU01 (stream)"): ("SvCBRef of LSVS", 4, 4, "", 0, "accepted"),
}
UNNAMED = [("SUB4", "GoCBRef of LGOS: P01LD0/LLN0.none"), ("SUB6", "an ExtRef: iedName P01, ldInst LD0, srcCBName none"),
           ("SUB6", "an ExtRef: iedName P01, ldInst LD0, lnClass GGIO, lnInst 1, doName Ind9, daName stVal"),
           ("SUB6", "an ExtRef: iedName P01, ldInst LD0, lnClass GGIO, lnInst 1, doName Ind2, daName stVal, serviceType GOOSE"),
           ("SUB6", "an ExtRef: iedName P77, ldInst LD0, lnClass GGIO, lnInst 1, doName Ind1")]
TOLD = ["no frame of P02LD0/LLN0$GO$gcb1 is accepted by SUB1: 2 refused (ConfRev), first: packet 2.",
        "no frame of P06LD0/LLN0$GO$gcb1 is accepted by SUB1: 1 refused (Entries), first: packet 4.",
        "no frame of MU02 (stream) is accepted by SUB1: 2 refused (confRev 7, configured 1, first: packet 11).",
        "some frames of P07LD0/LLN0$GO$gcb1 are refused by SUB1: 1 refused (ConfRev), first: packet 19.",
        "5 inputs name no block or data of the file (",
        "no frame came of 2 blocks and streams that are subscribed to in packets 1 to 20: P03LD0/LLN0$GO$gcb1 (SUB1); "
        "P05LD0/LLN0$GO$gcb2 (SUB3, SUB7).",
        "8 of 15 subscriptions are served in packets 1 to 20.",
        "Without a subscription: P01, P02, P03, P04, P06, P07, M01, M02, P05, SUB5, SUB6.", "2 ExtRefs are bound to nothing.",
        "1 ExtRef names data that no control block sends."]


class Matrix:
    """Each subscription has its row, and no other has one; what is found is said of each block by itself."""

    name = "the subscriptions of a made station"

    def why_wrong(self, program):
        with tempfile.TemporaryDirectory() as folder:
            folder = pathlib.Path(folder)
            (folder / "of.pcapng").write_bytes(capture())
            (folder / "of.scd").write_text(scd())
            wrote, said, status = ask(program, "report", ["--scd", "of.scd", "--subscriptions", "of.pcapng"], cwd=folder)
            if status != 1 or not (folder / "report.html").exists():
                return [f"status {status}: {wrote + said!r}"]
            return list(self.why_page_wrong(body((folder / "report.html").read_bytes())))

    @staticmethod
    def why_page_wrong(root):
        tables = {words(it.find("caption")): [[words(cell) for cell in row] for row in it.find("tbody")] for it in root.iter("table")}
        found = {}
        for ied, name, by, received, accepted, refused, expired, state in tables["Subscriptions"]:
            first = [it.partition(" ")[0] for it in (received, expired)]
            found[ied, name] = (by, int(first[0]), int(accepted), refused.partition(", first")[0], int(first[1]), state)
        for key in found.keys() | ROWS.keys():
            if found.get(key) != ROWS.get(key):
                yield f"{key}: wanted {ROWS.get(key)}, got {found.get(key)}"
        states = [1 if row[-1] == "never seen" else 0 if "refused" in row[-1] or "no frame" in row[-1] else 2 for row in tables["Subscriptions"]]
        if states != sorted(states):
            yield f"the rows stand in another order: {states}"
        unnamed = [(ied, what) for ied, _, what in tables["Inputs that name no block or data of the file"]]
        if sorted(unnamed) != sorted(UNNAMED):
            yield f"inputs: wanted {UNNAMED}, got {unnamed}"
        text = words(root)
        yield from (f"the page lacks {it!r}" for it in TOLD if it not in text)


class NoSubscription:
    """A file without a subscription judges none."""

    name = "a file without a subscription"

    def why_wrong(self, program):
        with tempfile.TemporaryDirectory() as folder:
            ask(program, "report", ["--scd", EXAMPLES / "station.scd", "--subscriptions", EXAMPLES / "two_bays.pcapng"], cwd=folder)
            text = words(body((pathlib.Path(folder) / "report.html").read_bytes()))
        wanted = "Subscriptions, not judged: station.scd has no subscription, so none is judged."
        return [] if wanted in text and "Without a subscription: BAY1, BAY2, BRK1." in text else [text]


class Received:
    """scl_blocks --subscriber has what supervising logical nodes name too."""

    name = "scl_blocks: what a supervising node names"

    def why_wrong(self, program):
        with tempfile.TemporaryDirectory() as folder:
            (pathlib.Path(folder) / "of.scd").write_text(scd())
            told = ask(program, "scl_blocks", ["--streams", "--subscriber", "SUB4", "of.scd"], cwd=folder)
        wanted = (b'3001,P01LD0/LLN0$GO$gcb1,P01LD0/LLN0$ds1,,1,2\nstream id="MU01" rev=1\n', b"", 0)
        return [] if sorted(told[0].splitlines()) == sorted(wanted[0].splitlines()) and told[1:] == wanted[1:] else [f"wanted {wanted}, got {told}"]


class Refused:
    """--subscriptions without a file is refused."""

    name = "subscriptions without an SCL file"

    def why_wrong(self, program):
        _, said, status = ask(program, "report", ["--subscriptions", "/dev/null"])
        return [] if status == 2 and b"--subscriptions needs --scd" in said else [f"status {status}: {said!r}"]


def cases():
    yield Matrix()
    yield NoSubscription()
    yield Received()
    yield Refused()
