"""tools/scl_blocks and compare_blocks beyond BLOCKs: what an IED receives, streams, and addresses."""
from helpers.frames import SAMPLED, WORKED, framed, put
from helpers.harness import listed, run
from themes.tool_blocks import HEAD, Compared, Configured

# ---- Receivers and streams ---------------------------------------------------

SOURCE = """<IED name="P"><AccessPoint name="A"><Server><LDevice inst="L"><LN0 lnClass="LLN0" inst="">
<DataSet name="d"><FCDA ldInst="L" lnClass="GGIO" lnInst="1" doName="Ind1" daName="stVal" fc="ST"/></DataSet>
<DataSet name="e"><FCDA ldInst="L" prefix="X" lnClass="GGIO" lnInst="2" doName="Ind2" fc="ST"/></DataSet>
<DataSet name="s"><FCDA ldInst="L" lnClass="TCTR" lnInst="1" doName="Amp" fc="MX"/></DataSet>
<GSEControl name="g" datSet="d" confRev="1"/>
<GSEControl name="h" datSet="e" confRev="2"><IEDName>Q</IEDName><IEDName apRef="A"> R </IEDName></GSEControl>
<SampledValueControl name="v" datSet="s" confRev="3" smvID="MU01" smpRate="80" nofASDU="1"><IEDName>Q</IEDName></SampledValueControl>
<SampledValueControl name="u" datSet="s" confRev="3" smvID="one" multicast="false" smpRate="80" nofASDU="1"/>
</LN0><LN lnClass="GGIO" inst="1"><GSEControl name="x" datSet="d" confRev="1"><IEDName>Q</IEDName></GSEControl></LN>
</LDevice></Server></AccessPoint></IED>"""
PARTS = '<P type="MAC-Address">01-0c-cd-01-00-0{0}</P><P type="VLAN-ID">01F</P><P type="APPID">000{0}</P><P type="VLAN-PRIORITY">4</P>'
SENT = "".join(f'<{sort} ldInst="L" cbName="{name}"><Address>{PARTS.format(at)}</Address></{sort}>'
               for at, (sort, name) in enumerate((("GSE", "g"), ("GSE", "h"), ("SMV", "v"), ("SMV", "u")), 1))
BLOCK_G, BLOCK_H, STREAM_V = "0001,PL/LLN0$GO$g,PL/LLN0$d,,1,1", "0002,PL/LLN0$GO$h,PL/LLN0$e,,2,1", 'stream id="MU01" rev=3'


def station(of_q="", in_ln=""):
    """A station in which P sends two blocks and two streams, and Q has these ExtRefs in LLN0 and in another logical node."""
    inputs = [f"<Inputs>{it}</Inputs>" for it in (of_q, in_ln)]
    return (f'{HEAD}<Communication><SubNetwork name="S"><ConnectedAP iedName="P" apName="A">{SENT}</ConnectedAP></SubNetwork></Communication>'
            f'{SOURCE}<IED name="Q"><AccessPoint name="A"><Server><LDevice inst="M"><LN0 lnClass="LLN0" inst="">{inputs[0]}</LN0>'
            f'<LN lnClass="GAPC" inst="1">{inputs[1]}</LN></LDevice></Server></AccessPoint></IED><IED name="R"/></SCL>')


def external(**stated):
    return "<ExtRef " + " ".join(f'{name}="{it}"' for name, it in {"iedName": "P", "ldInst": "L", **stated}.items()) + "/>"


def received():
    """What an IED receives, by IEDName and by ExtRef."""
    of_q, data = ["--subscriber", "Q"], {"lnClass": "GGIO", "lnInst": "1", "doName": "Ind1"}
    yield Configured("received by IEDName", station(), [BLOCK_H], words=of_q)
    yield Configured("received by IEDName, with streams", station(), [BLOCK_H, STREAM_V], words=[*of_q, "--streams"])
    yield Configured("an IEDName among blanks", station(), [BLOCK_H], words=["--subscriber", "R"])
    for name, given in (("srcCBName", {"srcCBName": "g"}), ("srcLDInst", {"ldInst": "Z", "srcLDInst": "L", "srcCBName": "g"}),
                        ("srcCBName and GOOSE", {"srcCBName": "g", "serviceType": "GOOSE"}), ("its data", {**data, "daName": "stVal"}),
                        ("all of its data", data), ("its data and GOOSE", {**data, "serviceType": "GOOSE"})):
        for place in ("of_q", "in_ln"):
            yield Configured(f"received by {name}, {place}", station(**{place: external(**given)}), [BLOCK_G, BLOCK_H], words=of_q)
    for name, given in (("another attribute", {**data, "daName": "q"}), ("another prefix", {**data, "prefix": "X"}), ("another IED", {**data, "iedName": "I"}),
                        ("a report", {"srcCBName": "g", "serviceType": "Report"}), ("data in a report", {**data, "serviceType": "Report"}),
                        ("nothing yet", {"iedName": ""})):
        yield Configured(f"not received: {name}", station(external(**given)), [BLOCK_H], words=of_q)
    yield Configured("data of a stream", station(external(lnClass="TCTR", lnInst="1", doName="Amp")), [BLOCK_H, STREAM_V],
                     words=[*of_q, "--streams"], status=1, stderr=[b"PL/LLN0$MS$u: it sends to one device alone"])
    lost = station(external(srcCBName="k") * 2 + external(srcCBName="g", srcLDInst="K"))
    yield Configured("a block that is not there", lost, [BLOCK_H], words=of_q, status=1, stderr=[
        b"line 2: an ExtRef of Q names a block that is not there: iedName P, ldInst L, srcCBName k\n"
        .replace(b"line 2", b"line %d" % (station().count("\n") + 1)), b"srcLDInst K, ldInst L, srcCBName g"])
    yield Configured("no such subscriber", station(), words=["--subscriber", "Z"], status=1, stderr=[b"there is no IED Z in ", b": there are P, Q, R\n"])
    yield Configured("sent by one and received by another", station(), words=[*of_q, "--ied", "R"])


def streams():
    """Streams, and the objects of blocks and streams with their addresses."""
    unicast = {"status": 1, "stderr": [b"PL/LLN0$MS$u: it sends to one device alone"]}
    yield Configured("blocks alone", station(), [BLOCK_G, BLOCK_H])
    yield Configured("blocks and streams", station(), [BLOCK_G, BLOCK_H, STREAM_V], words=["--streams"], **unicast)
    address = '"destination":"010ccd0100%s","vlan":31,"priority":4}'
    blocks = [f'{{"kind":"block","text":"{text}","appid":"{text[:4]}","gocbRef":"{text.split(",")[1]}","datSet":"{text.split(",")[2]}","goID":null,'
              f'"confRev":{text.split(",")[4]},"entries":1,{address % text[2:4]}' for text in (BLOCK_G, BLOCK_H)]
    # smpMod is absent in the file, and is SmpPerPeriod then.
    rate = ',"nofASDU":1,"smpRate":80,"smpMod":"SmpPerPeriod"}'
    stream = f'{{"kind":"stream","confRev":3,"svID":"MU01","appid":"0003",{(address % "03").replace("}", rate)}'
    yield Configured("objects", station(), [*blocks, stream], words=["--json"], **unicast)
    odd = station().replace("01F", "4096").replace(">4<", ">8<").replace("01-0c", "010c")
    nothing = '"destination":null,"vlan":null,"priority":null}'
    yield Configured("odd addresses", odd, [*(it.partition('"destination"')[0] + nothing for it in blocks), stream.partition('"destination"')[0] + nothing.replace("}", rate)],
                     words=["--json"], status=1,
                     stderr=[b"its address has the MAC-Address '010c-cd-01-00-01', VLAN-ID '4096', VLAN-PRIORITY '8', which is left out"])
    yield Configured("odd addresses of BLOCKs", odd, [BLOCK_G, BLOCK_H])
    for name, old, new, why in (("no svID", ' smvID="MU01"', "", b"it has no smvID"), ("no address", 'cbName="v"', 'cbName="w"', b"no SMV address"),
                                ("another alphabet", "MU01", "\u00dc", b"a stream cannot have the svID"), ("no revision", ' confRev="3" smvID="MU01"',
                                 ' smvID="MU01"', b"it has no confRev"), ("no data set", 'name="s"', 'name="t"', b"no data set of that name")):
        yield Configured(f"a stream with {name}", station().replace(old, new), [BLOCK_G, BLOCK_H], words=["--streams"], status=1,
                         stderr=[b"PL/LLN0$MS$v: " if why[:2] != b"it" else b"PL/LLN0$MS$v: it", why])
    quoted = station().replace('smvID="MU01"', "smvID='M\"1\\'")
    yield Configured("a stream in quotes", quoted, [BLOCK_G, BLOCK_H, 'stream id="M\\"1\\\\" rev=3'], words=["--streams"], **unicast)


# ---- Addresses compared ------------------------------------------------------

WORKED_BLOCK = "0001,G,D,,1,1"
TAGGED = framed(WORKED[22:67], tag=bytes.fromhex("8100801f"))


def objects(program, *frames):
    """The objects that show writes of frames."""
    return run(program, ["show", "--json"], listed(*frames))[0].decode().splitlines()


class ComparedObjects:
    """Objects of scl_blocks or of an earlier capture, and those of frames."""

    def __init__(self, name, wanted, frames, lines, status):
        self.name, self.wanted, self.frames, self.lines, self.status = f"compare_blocks: {name}", wanted, frames, lines, status

    def why_wrong(self, program):
        wanted = objects(program, *self.wanted) if isinstance(self.wanted, tuple) else self.wanted
        return Compared(self.name, wanted, objects(program, *self.frames), self.lines, self.status).why_wrong(program)


def configured_block(destination="010ccd010001", vlan="null", priority="null", confrev=1):
    return (f'{{"kind":"block","text":"0001,G,D,,{confrev},1","appid":"0001","gocbRef":"G","datSet":"D","goID":null,"confRev":{confrev},"entries":1,'
            f'"destination":{destination and f"{chr(34)}{destination}{chr(34)}" or "null"},"vlan":{vlan},"priority":{priority}}}')


def configured_stream(svid="S", appid="4000", destination="010ccd040001"):
    return f'{{"kind":"stream","confRev":1,"svID":"{svid}","appid":"{appid}","destination":"{destination}","vlan":null,"priority":null}}'


def compared_addresses():
    """MAC address, VLAN and priority, where both sides have them."""
    agrees, differs = f"agrees {WORKED_BLOCK}", f"differs {WORKED_BLOCK}: the capture has "
    yield ComparedObjects("the same address", [configured_block()], [WORKED], [agrees], 0)
    yield ComparedObjects("no address", [configured_block(None)], [TAGGED], [agrees], 0)
    yield ComparedObjects("another address", [configured_block("010ccd0100ff")], [WORKED], [f"{differs}MAC address 01-0C-CD-01-00-01"], 1)
    yield ComparedObjects("the same VLAN", [configured_block(vlan=31, priority=4)], [TAGGED], [agrees], 0)
    yield ComparedObjects("another VLAN and priority", [configured_block(vlan=0, priority=5)], [TAGGED], [f"{differs}VLAN 31, priority 4"], 1)
    yield ComparedObjects("a VLAN, and a frame without a tag", [configured_block(vlan=0, priority=5)], [WORKED], [agrees], 0)
    yield ComparedObjects("one block in two VLANs", [configured_block(vlan=31)], [TAGGED, put(TAGGED, at15=30)],
                          [agrees, f"{differs}VLAN 30"], 1)
    yield ComparedObjects("many frames", [configured_block()], [put(WORKED, at49=at) for at in range(9)], [agrees], 0)
    yield ComparedObjects("another confRev and address", [configured_block("010ccd0100ff", confrev=2)], [WORKED],
                          ["differs 0001,G,D,,2,1: the capture has confRev 1, MAC address 01-0C-CD-01-00-01"], 1)
    yield ComparedObjects("BLOCKs beside shown frames", [WORKED_BLOCK], [WORKED, SAMPLED], [agrees], 0)
    yield ComparedObjects("frames with errors, and other ones", [WORKED_BLOCK], [WORKED[:40], put(WORKED, at13=0)], [f"missing {WORKED_BLOCK}"], 1)
    stream = 'stream id="S" rev=1'
    yield ComparedObjects("a stream", [configured_stream()], [SAMPLED], [f"agrees {stream}"], 0)
    yield ComparedObjects("a stream at another address", [configured_stream(appid="4001", destination="010ccd0400ff")], [SAMPLED],
                          [f"differs {stream}: the capture has APPID 4000, MAC address 01-0C-CD-04-00-01"], 1)
    yield ComparedObjects("a stream that is silent", [configured_stream("T")], [SAMPLED], ['missing stream id="T" rev=1', f"extra {stream}"], 1)
    yield ComparedObjects("an earlier capture", (TAGGED, SAMPLED), [put(TAGGED, at14=0x40), SAMPLED], [f"{differs}priority 2", f"agrees {stream}"], 1)
    blocks = ['{"line":1,"microseconds":0,"time":"1970-01-01T00:00:00.000000Z","kind":"stream","confRev":2,"svID":"S"}']
    yield Compared("objects of goose blocks", ['stream id="S" rev=1'], blocks, [f"differs {stream}: the capture has confRev 2"], 1)
    yield Compared("objects of a capture with an error", [WORKED_BLOCK], ['{"packet":3,"kind":"capture","error":"BlockForm"}'], [], 3,
                   b"the capture ends with an error: packet 3: BlockForm")
    for line in ('{"line":1,"kind":"act","block":0}', "{}", "[]", '{"line":', "{" * 100000):
        yield Compared(f"an object of another command: {line[:20]}", [WORKED_BLOCK], [line], [], 2, b"line 1 of standard input is none")


def cases():
    yield from received()
    yield from streams()
    yield from compared_addresses()
