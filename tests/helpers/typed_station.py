"""An SCL file with types of every sort, for the names of members: the station that it describes, and what each data set's members are."""

HEAD = '<?xml version="1.0"?>\n<SCL xmlns="http://www.iec.ch/61850/2003/SCL" version="2007" revision="B">'
# Types: a DPC whose parts are of several functional constraints, a three-phase measurement of SDOs, an array of harmonics, enumerations.
TYPES = """<DataTypeTemplates>
<LNodeType id="LLN0_T" lnClass="LLN0"><DO name="Beh" type="ENS_T"/></LNodeType>
<LNodeType id="XCBR_T" lnClass="XCBR"><DO name="Beh" type="ENS_T"/><DO name="Pos" type="DPC_T"/><DO name="OpCnt" type="INS_T"/></LNodeType>
<LNodeType id="PTOC_T" lnClass="PTOC"><DO name="Str" type="ACD_T"/><DO name="Op" type="ACT_T"/></LNodeType>
<LNodeType id="PTRC_T" lnClass="PTRC"><DO name="Tr" type="ACT_T"/></LNodeType>
<LNodeType id="RBRF_T" lnClass="RBRF"><DO name="OpEx" type="ACT_T"/><DO name="OpIn" type="ACT_T"/><DO name="Str" type="ACD_T"/></LNodeType>
<LNodeType id="RREC_T" lnClass="RREC"><DO name="Op" type="ACT_T"/><DO name="Tr" type="ACT_T"/></LNodeType>
<LNodeType id="GAPC_T" lnClass="GAPC"><DO name="Op" type="ACT_T"/></LNodeType>
<LNodeType id="MMXU_T" lnClass="MMXU"><DO name="PhV" type="WYE_T"/><DO name="TotW" type="MV_T"/></LNodeType>
<LNodeType id="MHAI_T" lnClass="MHAI"><DO name="HA" type="HWYE_T"/></LNodeType>
<LNodeType id="ENDLESS_T" lnClass="GGIO"><DO name="Loop" type="LOOP_T"/><DO name="Wide" type="WIDE_T"/><DO name="Half" type="HALF_T"/></LNodeType>
<DOType id="ENS_T" cdc="ENS"><DA name="stVal" bType="Enum" type="BehKind" fc="ST"/><DA name="q" bType="Quality" fc="ST"/>
 <DA name="t" bType="Timestamp" fc="ST"/><DA name="d" bType="VisString255" fc="DC"/></DOType>
<DOType id="INS_T" cdc="INS"><DA name="stVal" bType="INT32" fc="ST"/></DOType>
<DOType id="DPC_T" cdc="DPC"><DA name="SBOw" bType="Struct" type="OPER_T" fc="CO"/><DA name="origin" bType="Struct" type="ORIGIN_T" fc="ST"/>
 <DA name="stVal" bType="Dbpos" fc="ST"/><DA name="q" bType="Quality" fc="ST"/><DA name="t" bType="Timestamp" fc="ST"/>
 <DA name="subVal" bType="Dbpos" fc="SV"/><Private type="x"><DA name="odd" bType="INT8" fc="ST"/></Private></DOType>
<DOType id="ACD_T" cdc="ACD"><DA name="general" bType="BOOLEAN" fc="ST"/><DA name="dirGeneral" bType="Enum" type="Dir" fc="ST"/>
 <DA name="q" bType="Quality" fc="ST"/><DA name="t" bType="Timestamp" fc="ST"/></DOType>
<DOType id="ACT_T" cdc="ACT"><DA name="general" bType="BOOLEAN" fc="ST"/><DA name="phsA" bType="BOOLEAN" fc="ST"/>
 <DA name="phsB" bType="BOOLEAN" fc="ST"/><DA name="phsC" bType="BOOLEAN" fc="ST"/><DA name="neut" bType="BOOLEAN" fc="ST"/>
 <DA name="q" bType="Quality" fc="ST"/><DA name="t" bType="Timestamp" fc="ST"/></DOType>
<DOType id="WYE_T" cdc="WYE"><SDO name="phsA" type="CMV_T"/><SDO name="phsB" type="CMV_T"/><SDO name="info" type="TEXT_T"/>
 <DA name="angRef" bType="Enum" type="Angle" fc="CF"/></DOType>
<DOType id="TEXT_T" cdc="DPL"><DA name="vendor" bType="VisString255" fc="DC"/></DOType>
<DOType id="CMV_T" cdc="CMV"><DA name="cVal" bType="Struct" type="VECTOR_T" fc="MX"/><DA name="q" bType="Quality" fc="MX"/></DOType>
<DOType id="MV_T" cdc="MV"><DA name="mag" bType="Struct" type="ANALOGUE_T" fc="MX"/></DOType>
<DOType id="HWYE_T" cdc="HWYE"><SDO name="phsAHar" type="CMV_T" count="3"/><DA name="numHar" bType="INT16U" fc="CF"/>
 <DA name="rms" bType="FLOAT32" fc="MX" count="2"/></DOType>
<DOType id="LOOP_T" cdc="DPL"><SDO name="again" type="LOOP_T"/><DA name="stVal" bType="BOOLEAN" fc="ST"/></DOType>
<DOType id="WIDE_T" cdc="DPL"><DA name="many" bType="INT32" fc="ST" count="999999999"/>
 <DA name="asMany" bType="INT32" fc="MX" count="numHar"/></DOType>
<DOType id="HALF_T" cdc="DPL"><DA name="part" bType="Struct" type="none" fc="ST"/><DA name="stVal" bType="BOOLEAN" fc="ST"/></DOType>
<DAType id="OPER_T"><BDA name="ctlVal" bType="BOOLEAN"/></DAType>
<DAType id="ORIGIN_T"><BDA name="orCat" bType="Enum" type="OrCat"/><BDA name="orIdent" bType="Octet64"/></DAType>
<DAType id="VECTOR_T"><BDA name="mag" bType="Struct" type="ANALOGUE_T"/><BDA name="ang" bType="Struct" type="ANALOGUE_T"/></DAType>
<DAType id="ANALOGUE_T"><BDA name="f" bType="FLOAT32"/></DAType>
<EnumType id="BehKind"><EnumVal ord="1">on</EnumVal><EnumVal ord="5">off</EnumVal></EnumType>
<EnumType id="Dir"><EnumVal ord="0">unknown</EnumVal><EnumVal ord="1">forward</EnumVal></EnumType>
<EnumType id="OrCat"><EnumVal ord="-1">none of these</EnumVal><EnumVal ord="3">remote-control</EnumVal></EnumType>
</DataTypeTemplates>"""
NODES = ('<LN lnClass="XCBR" prefix="Q0" inst="1" lnType="XCBR_T"/>'
         '<LN lnClass="PTOC" inst="1" lnType="PTOC_T"/><LN lnClass="PTRC" inst="1" lnType="PTRC_T"/>'
         '<LN lnClass="RBRF" inst="1" lnType="RBRF_T"/><LN lnClass="RREC" inst="1" lnType="RREC_T"/><LN lnClass="GAPC" inst="1" lnType="GAPC_T"/>'
         '<LN lnClass="MMXU" inst="1" lnType="MMXU_T"/>'
         '<LN lnClass="MHAI" inst="1" lnType="MHAI_T"/><LN lnClass="GGIO" inst="1" lnType="ENDLESS_T"/>')


def fcda(text, fc="ST", device="LD0", ix=None):
    """An FCDA of a text: prefix, class and instance of the logical node, data object, and where it has one the attribute, with a comma
    between each two."""
    prefix, node, instance, name, *attribute = text.split(",")
    told = {"ldInst": device, "prefix": prefix, "lnClass": node, "lnInst": instance, "doName": name, "daName": attribute and attribute[0], "fc": fc,
            "ix": ix}
    return "<FCDA " + " ".join(f'{key}="{value}"' for key, value in told.items() if value) + "/>"


# The data sets: the FCDAs of each.
DATA_SETS = {
    "dsAttributes": [fcda("Q0,XCBR,1,Pos,stVal"), fcda("Q0,XCBR,1,Pos,q"), fcda("Q0,XCBR,1,Pos,t"), fcda(",PTRC,1,Tr,general"),
                     fcda(",LLN0,,Beh,stVal")],
    "dsObjects": [fcda("Q0,XCBR,1,Pos"), fcda(",PTOC,1,Str")],
    "dsMeasured": [fcda(",MMXU,1,PhV", "MX"), fcda(",MMXU,1,PhV.phsB,cVal", "MX"), fcda(",MMXU,1,TotW,mag.f", "MX")],
    "dsArrays": [fcda(",MHAI,1,HA.phsAHar,cVal.mag.f", "MX", ix="2"), fcda(",MHAI,1,HA,rms", "MX", ix="0"), fcda(",MHAI,1,HA,rms", "MX")],
    "dsDevices": [fcda("Q0,XCBR,1,Pos,stVal"), fcda("Q0,XCBR,1,Pos,stVal", device="LD1")],
    "dsUnknown": [fcda("Q0,XCBR,1,NoSuch,stVal"), fcda(",GGIO,1,Loop"), fcda(",GGIO,1,Wide"), fcda(",GGIO,1,Wide,asMany", "MX"),
                  fcda(",CALH,1,GrAlm,stVal"), fcda(",GGIO,1,Half"),
                  fcda(",MHAI,1,HA.phsAHar,cVal.mag.f", "MX"), fcda("Q0,XCBR,1,Pos,stVal", ix="1")],
    "dsTrips": [fcda(f",{node},1,{name}") for node, name in (("PTRC", "Tr"), ("PTOC", "Op"), ("PTOC", "Str"), ("RBRF", "OpEx"),
                                                           ("RBRF", "Str"), ("RREC", "Op"), ("RREC", "Tr"), ("GAPC", "Op"))],
}


def appid(data_set):
    """The APPID of the control block of a data set."""
    return f"{0x3000 + list(DATA_SETS).index(data_set):04x}"


def reference(data_set):
    return f"CTLLD0/LLN0$GO$gcb{data_set[2:]}"


def scd(types=TYPES):
    """The file: one IED, of which each data set is sent by a control block."""
    addresses = "".join(f'<GSE ldInst="LD0" cbName="gcb{it[2:]}"><Address><P type="APPID">{appid(it)}</P></Address></GSE>' for it in DATA_SETS)
    sets = "".join(f'<DataSet name="{name}">{"".join(members)}</DataSet>' for name, members in DATA_SETS.items())
    controls = "".join(f'<GSEControl name="gcb{it[2:]}" datSet="{it}" confRev="1" appID="{it}"/>' for it in DATA_SETS)
    devices = (f'<LDevice inst="LD0"><LN0 lnClass="LLN0" inst="" lnType="LLN0_T">{sets}{controls}</LN0>{NODES}</LDevice>'
               f'<LDevice inst="LD1"><LN0 lnClass="LLN0" inst="" lnType="LLN0_T"/>{NODES}</LDevice>')
    return (f'{HEAD}<Communication><SubNetwork name="S"><ConnectedAP iedName="CTL" apName="A">{addresses}</ConnectedAP></SubNetwork></Communication>'
            f'<IED name="CTL"><AccessPoint name="A"><Server>{devices}</Server></AccessPoint></IED>{types}</SCL>')
