"""tools/scl_blocks and compare_blocks: configured blocks, and those of a list or a capture."""
import pathlib
import resource
import subprocess
import tempfile

from helpers.asked_tools import TOOLS, ask
from helpers.harness import SECONDS, first_difference, text


# ---- SCL ---------------------------------------------------------------------

HEAD = '<?xml version="1.0"?>\n<SCL xmlns="http://www.iec.ch/61850/2003/SCL">'
ADDRESS = '<GSE ldInst="L" cbName="g"><Address><P type="MAC-Address">01-0C-CD-01-00-01</P><P type="APPID">{}</P></Address></GSE>'
FCDA = '<FCDA ldInst="L" lnClass="GGIO" doName="Ind1" fc="ST"/>'
CONTROL = '<GSEControl name="g" datSet="d" confRev="7" appID="ID"/>'


def scl(address=ADDRESS.format("1a"), data_set=f'<DataSet name="d">{FCDA}{FCDA}</DataSet>', control=CONTROL, device='inst="L"', before="",
        within=""):
    """An SCL file of one IED with one control block, from its parts."""
    return (f'{HEAD}{before}<Communication><SubNetwork name="S"><ConnectedAP iedName="I" apName="A">{address}</ConnectedAP></SubNetwork>'
            f'</Communication><IED name="I"><AccessPoint name="A"><Server><LDevice {device}>{within}<LN0 lnClass="LLN0" inst="">{data_set}'
            f'{control}</LN0><LN lnClass="GGIO" inst="1"><DataSet name="d">{FCDA}</DataSet></LN></LDevice></Server></AccessPoint></IED></SCL>')


BLOCK = "001a,IL/LLN0$GO$g,IL/LLN0$d,ID,7,2"


class Configured:
    """A file, the BLOCKs of it, and what is said of it."""

    def __init__(self, name, source, blocks=(), status=0, stderr=(), words=(), encoding="utf-8"):
        self.name, self.octets, self.words = f"scl_blocks: {name}", source.encode(encoding), words
        self.wanted, self.stderr = (text(blocks), status), stderr

    def why_wrong(self, _program):
        with tempfile.NamedTemporaryFile(suffix=".scd") as file:
            file.write(self.octets)
            file.flush()
            ran = subprocess.run([TOOLS / "scl_blocks", *self.words, file.name], stdout=subprocess.PIPE, stderr=subprocess.PIPE,
                                 stdin=subprocess.DEVNULL, timeout=SECONDS, preexec_fn=self.limit)
        got = (ran.stdout, ran.returncode)
        why = [] if got == self.wanted else [f"wanted {self.wanted}, got {got}: {ran.stderr!r}"]
        return why + [f"standard error lacks {it!r}: {ran.stderr!r}" for it in self.stderr if it not in ran.stderr]

    @staticmethod
    def limit():
        """Half a GiB, which no small file may ask for."""
        resource.setrlimit(resource.RLIMIT_AS, (1 << 29, 1 << 29))


class Apart:
    """Files whose IEDs have one name, as templates do, say nothing of each other's blocks."""

    name = "scl_blocks: two files"

    def why_wrong(self, _program):
        other = scl(address=ADDRESS.format("2b"), data_set=f'<DataSet name="d">{FCDA * 5}</DataSet>', control=CONTROL.replace("7", "9"))
        with tempfile.TemporaryDirectory() as folder:
            files = [pathlib.Path(folder) / name for name in ("one.icd", "other.icd", "bare.icd")]
            for file, source in zip(files, (scl(), other, scl(address=""))):
                file.write_text(source)
            ran = subprocess.run([TOOLS / "scl_blocks", *files], stdin=subprocess.DEVNULL, stdout=subprocess.PIPE, stderr=subprocess.PIPE,
                                 timeout=SECONDS)
            got = (ran.stdout, ran.returncode, ran.stderr.startswith(f"scl_blocks: {files[2]}: line 2: IL/LLN0$GO$g: ".encode()))
        wanted = (text([BLOCK, "002b,IL/LLN0$GO$g,IL/LLN0$d,ID,9,5"]), 1, True)
        return [] if got == wanted else [f"wanted {wanted}, got {got}: {ran.stderr!r}"]


def configured():
    yield Apart()
    yield Configured("one block", scl(), [BLOCK])
    yield Configured("UTF-16", scl().replace('"1.0"', '"1.0" encoding="UTF-16"'), [BLOCK], encoding="utf-16")
    yield Configured("a logical device with a name of its own", scl(device='inst="L" ldName="MY"'), ["001a,MY/LLN0$GO$g,MY/LLN0$d,ID,7,2"])
    yield Configured("no members", scl(data_set='<DataSet name="d"/>'), ["001a,IL/LLN0$GO$g,IL/LLN0$d,ID,7,0"])
    yield Configured("an empty appID", scl(control=CONTROL.replace('"ID"', '""')), ["001a,IL/LLN0$GO$g,IL/LLN0$d,,7,2"])
    yield Configured("two addresses", scl(address=ADDRESS.format("1A") + ADDRESS.format("001b")), [BLOCK, "001b" + BLOCK[4:]])
    yield Configured("one address twice", scl(address=ADDRESS.format("1A") * 2), [BLOCK])
    private = f'<Private type="x">{CONTROL.replace("7", "8")}<FCDA/><IED name="J"/></Private>'
    yield Configured("elements of others", scl(data_set=f'<DataSet name="d"><Text>{FCDA}</Text>{FCDA}{private}{FCDA}</DataSet>', before=private,
                                               control=private + CONTROL), [BLOCK])
    foreign = '<x:GSEControl xmlns:x="urn:other" name="g" datSet="d" confRev="1" appID="X"/>'
    yield Configured("elements of another namespace", scl(control=foreign + CONTROL), [BLOCK])
    yield Configured("this IED", scl(), [BLOCK], words=["--ied", "I"])
    yield Configured("another IED", scl(), words=["--ied", "J"], status=1, stderr=[b"scl_blocks: there is no IED J in ", b": there are I\n"])
    silent = scl().replace("</IED>", '</IED><IED name="J"/>')
    yield Configured("an IED that sends nothing", silent, words=["--ied", "J"])
    for name, how, why in (
            ("no address", {"address": ""}, b"no GSE address with an APPID"),
            ("an address of another block", {"address": ADDRESS.format(1).replace('"g"', '"h"')}, b"no GSE address with an APPID"),
            ("an APPID that is none", {"address": ADDRESS.format("12345")}, b"'12345' is no number of a BLOCK"),
            ("an empty APPID", {"address": ADDRESS.format("")}, b"'' is no number of a BLOCK"),
            ("a confRev that is too great", {"control": CONTROL.replace('"7"', '"4294967296"')}, b"IL/LLN0$GO$g: '4294967296' is no number of a BLOCK"),
            ("a confRev of other digits", {"control": CONTROL.replace('"7"', '"\u0667"')}, b"is no number of a BLOCK"),
            ("texts that no frame can have", {"control": CONTROL.replace('"ID"', f'"{"I" * 4096}"')}, b"its texts have over 4,096 octets"),
            ("no data set", {"data_set": ""}, b"no data set of that name"),
            ("a block without a data set", {"control": CONTROL.replace('datSet="d" ', "")}, b"no data set of that name"),
            ("no confRev", {"control": CONTROL.replace('confRev="7" ', "")}, b"no confRev"),
            ("GSSE", {"control": CONTROL.replace("/>", ' type="GSSE"/>')}, b"its type is GSSE"),
            ("a comma", {"control": CONTROL.replace('"ID"', '"I,D"')}, b"a BLOCK cannot hold 'I,D'"),
            ("another alphabet", {"device": 'inst="L" ldName="\u00dc"'}, b"a BLOCK cannot hold")):
        yield Configured(name, scl(**how), status=1, stderr=[why])
    bomb = "<!DOCTYPE SCL [<!ENTITY a0 'x'>" + "".join(f"<!ENTITY a{at} '{f'&a{at - 1};' * 10}'>" for at in range(1, 12)) + "]>"
    named = scl(device='inst="L" ldName="&a11;"').replace("?>", f"?>{bomb}")
    yield Configured("entities in entities", named, status=3, stderr=[b"it has a document type"])
    outside = '<!DOCTYPE SCL [<!ENTITY f SYSTEM "file:///etc/hostname">]>'
    yield Configured("an entity of another file", scl(within="&f;").replace("?>", f"?>{outside}"), status=3, stderr=[b"it has a document type"])
    yield Configured("a file that is cut", scl()[:-20], status=3, stderr=[b": "])
    yield Configured("no XML", "SCL", status=3, stderr=[b": "])
    for encoding in ("GB2312", "no-such-encoding"):
        yield Configured(f"a file in {encoding}", scl().replace('"1.0"', f'"1.0" encoding="{encoding}"'), status=3, stderr=[b": "])
    yield Configured("the greatest confRev", scl(control=CONTROL.replace('"7"', '"4294967295"')), [BLOCK.replace(",7,", ",4294967295,")])
    nested = '<SCL><GSE ldInst="a" cbName="b"><Address><P type="APPID">1<P type="APPID"/></P></Address></GSE></SCL>'
    yield Configured("a part of an address in another one", nested, status=3, stderr=[b"line 1: a P has an element P in it"])
    yield Configured("an address of nobody", nested.replace('<P type="APPID"/>', ""), status=3, stderr=[b"line 1: an element lacks 'ConnectedAP'"])
    yield Configured("a part of an address elsewhere", "<SCL><GSE><LN><P/></LN></GSE></SCL>")
    yield Configured("a block without a name", scl(control=CONTROL.replace('name="g" ', "")), status=3, stderr=[b"an element lacks 'name'"])
    yield Configured("an IED without a name", scl().replace('<IED name="I"', "<IED"), status=3, stderr=[b"an element lacks 'name'"])
    yield Configured("elements in elements", scl(before="<Private>" * 100000 + "</Private>" * 100000), [BLOCK])
    nothing = b": it has no GSE and no SMV"
    yield Configured("neither addresses nor control blocks", f"{HEAD}</SCL>", status=1, stderr=[nothing])
    yield Configured("no addresses", scl(address=""), status=1, stderr=[b"no GSE address with an APPID", nothing])


# ---- Blocks compared ---------------------------------------------------------

ONE, OTHER = "0001,G,D,,1,1", "0001,G,D,ID,2,1"


class Compared:
    """Configured BLOCKs, those of a list, and the lines of the comparison."""

    def __init__(self, name, configured, found, lines, status, said=b""):
        self.name, self.configured, self.found, self.lines, self.status = f"compare_blocks: {name}", configured, found, lines, status
        self.said = said

    def why_wrong(self, program):
        with tempfile.NamedTemporaryFile() as file:
            file.write(text(self.configured))
            file.flush()
            wrote, complained, status = ask(program, "compare_blocks", [file.name], text(self.found))
        difference = first_difference(text(self.lines), wrote)
        why = [difference] if difference else []
        return why + ([f"ended with status {status}: {complained!r}"] if status != self.status or self.said not in complained else [])


def compared():
    full = "00AB,G,D,ID,01,1"
    yield Compared("agreeing", [ONE, full], [f"2 block {ONE}", "3 block 00ab,G,D,ID,1,1"], [f"agrees {ONE}", f"agrees {full}"], 0)
    yield Compared("nothing of either", [], [], [], 0)
    yield Compared("missing and extra", [ONE], ["2 block 0002,G,D,,1,1", 'N block appid=0001 ref="G,"'],
                   [f"missing {ONE}", "extra 0002,G,D,,1,1", 'extra appid=0001 ref="G,"'], 1)
    for found, why in (("0001,G,E,ID,1,1", "datSet E"), ("0001,G,D,,1,1", "goID absent"), ("0001,G,D,ID,2,3", "confRev 2, entries 3")):
        wanted = "0001,G,D,ID,1,1"
        yield Compared(f"another {why}", [wanted], [f"2 block {found}"], [f"differs {wanted}: the capture has {why}"], 1)
    yield Compared("any goID", [ONE], ["2 block 0001,G,D,ID,1,1"], [f"agrees {ONE}"], 0)
    yield Compared("a block that changes", [ONE], [f"2 block {ONE}", "3 stream id=\"S\" rev=1", f"4 block-changed {OTHER}", f"5 block-changed {ONE}"],
                   [f"agrees {ONE}", f"differs {ONE}: the capture has confRev 2"], 1)
    yield Compared("all forms of a block", [f"2 block {ONE}", f"4 block-changed {OTHER}"], [f"2 block {OTHER}", f"3 block-changed {ONE}"],
                   [f"agrees {ONE}", f"agrees {OTHER}"], 0)
    yield Compared("one form of two", [f"2 block {ONE}", f"4 block-changed {OTHER}"], [f"2 block {ONE}"],
                   [f"agrees {ONE}", f"differs {OTHER}: the capture has goID absent, confRev 1"], 1)
    streams = [f"{number} stream id=\"{name}\" rev=1" for number, name in enumerate("ABC", 2)]
    yield Compared("streams that vanished", [f"1 block {ONE}", *streams], [f"1 block {ONE}", streams[0].replace("rev=1", "rev=2"), '9 stream id="D" rev=1'],
                   [f"agrees {ONE}", 'differs stream id="A" rev=1: the capture has confRev 2', 'missing stream id="B" rev=1',
                    'missing stream id="C" rev=1', 'extra stream id="D" rev=1'], 1)
    yield Compared("streams beside a configuration", [ONE], [f"1 block {ONE}", *streams], [f"agrees {ONE}"], 0)
    long = '2 block appid=0001 ref="G," set="D" id=- rev=1 entries=1'
    yield Compared("a block that no BLOCK can hold", [long], [long], [f"agrees {long[8:]}"], 0)
    yield Compared("blocks of a list with an error", [f"2 block {ONE}", "3 list LineForm"], [], [], 3)
    for line in (ONE, f"block {ONE}", "2 goose 010ccd010001", ""):
        yield Compared(f"another line: {line}", [ONE], [line], [], 2, b"line 1 of standard input is none that goose blocks writes")
    yield Compared("another line after others", [ONE], [f"2 block {ONE}", ONE], [], 2, b"line 2 of standard input")
    yield Compared("a list with an error", [ONE], [f"2 block {ONE}", "3 list LineForm"], [], 3, b"the list ends with an error: line 3: LineForm")
    yield Compared("a capture with an error", [ONE], [f"2 block {ONE}", "3 capture BlockForm"], [], 3,
                   b"the capture ends with an error: packet 3: BlockForm")
    yield Compared("a BLOCK that is none", ["0001,G"], [], [], 3)


def cases():
    yield from configured()
    yield from compared()
