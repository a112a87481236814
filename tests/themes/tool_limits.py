"""The tools on input that goose does not write: each bad line has a message with its place, none is a traceback, and what is long or
nested takes time and memory by its length alone, or is refused at a limit that is told."""
import csv
import io
import json
import os
import resource
import subprocess
import tempfile
import time

from helpers.asked_tools import TOOLS, Asked
from helpers.harness import SECONDS, clipped, text
from themes.tool_blocks import CONTROL, HEAD, Compared, scl

MOST_LINE = 1 << 20
ONE = "0001,G,D,,1,1"
TIME = {"microseconds": 1, "time": "1970-01-01T00:00:00.000001Z"}


# ---- Bad lines ---------------------------------------------------------------

SHOWN = {"packet": 1, **TIME, "kind": "goose", "destination": "010ccd010001", "source": "020000000001", "tag": None, "appid": "0001", "reserved1": "0000",
         "reserved2": "0000", "gocbRef": "G", "timeAllowedtoLive": 2000, "datSet": "D", "goID": None, "t": "0000000000000000",
         "tTime": "1970-01-01T00:00:00.000000Z", "tQuality": {"leapSecondsKnown": False, "clockFailure": False, "clockNotSynchronized": False,
                                                              "timeAccuracy": 0},
         "stNum": 1, "sqNum": 0, "simulation": False, "confRev": 1, "ndsCom": False, "members": [True], "trailer": None}
SAMPLED = {"packet": 1, **TIME, "kind": "sv", "destination": "010ccd040001", "source": "020000000001", "tag": None, "appid": "4000", "reserved1": "0000",
           "reserved2": "0000", "asdus": [{"svID": "S", "datSet": None, "smpCnt": 3998, "confRev": 1, "refrTm": None, "smpSynch": 2, "smpRate": None,
                                           "sample": "002a", "smpMod": None, "field89": None}], "trailer": None}


def line_of(record, *lacking, **other):
    return json.dumps({name: it for name, it in {**record, **other}.items() if name not in lacking}, separators=(",", ":"))


def bad_objects():
    """Objects that lack what their kind has, or have another value there, and what is said of them."""
    yield '{"kind":"block"}', b"lacks text"
    yield '{"kind":"block-changed"}', b"lacks text"
    yield '{"kind":"stream","svID":"S"}', b"lacks confRev"
    for name in ("appid", "gocbRef", "datSet", "confRev", "members"):
        yield line_of(SHOWN, name), b"lacks " + name.encode()
    for name, value in (("destination", 5), ("destination", "zz0ccd010001"), ("tag", "81008005"), ("appid", None), ("gocbRef", ["G"]), ("datSet", "\u00dc"),
                        ("goID", {}), ("confRev", "1"), ("confRev", True), ("members", {"0": 1}), ("members", None), ("gocbRef", "\ud800")):
        yield line_of(SHOWN, **{name: value}), b"has the " + name.encode()
    for asdus, why in ((5, b"has the asdus"), ([5], b"is no object"), ([{}], b"lacks svID"), ([{"svID": "S", "confRev": -1}], b"has the confRev")):
        yield line_of(SAMPLED, asdus=asdus), why
    for name, value in (("text", 5), ("text", "a\nb"), ("destination", "01-0C"), ("vlan", "1"), ("priority", -1)):
        yield json.dumps({"kind": "block", "text": ONE, name: value}), b"has the " + name.encode()
    for kind in (["block"], {"a": 1}, None, 5):
        yield json.dumps({"kind": kind, "text": ONE}), b"is none that goose blocks writes"


def bad_lines():
    where = b"line 2 of standard input is none that goose blocks writes"
    for at, (line, why) in enumerate(bad_objects()):
        yield Compared(f"a bad object {at}: {line[-40:]}", [ONE], [f"1 block {ONE}", line], [], 2, why)
        yield Compared(f"a bad object {at} beside others", [ONE], [f"1 block {ONE}", line], [], 2, where)
        if "kind" not in why.decode() and "none" not in why.decode():
            yield Compared(f"a bad object {at} of BLOCKS", [ONE, line], [], [], 3, b": line 2: its ")
    for name, line in (("octets above 7E", "2 block 0001,G\xff,D,,1,1"), ("a superscript as a number", "2 block 0001,G,D,,\xb2,1")):
        yield Compared(name, [ONE], [f"1 block {ONE}", line], [], 2, where)
    for line in ("0001,G\xff,D,,1,1", "0001,G,D,,\xb2,1", f"0001,G,D,,{'9' * 5000},1"):
        yield Compared(f"BLOCKS with {clipped(line.encode('latin-1'), 30)}", [ONE, line], [], [], 3, b": line 2: a BLOCK is ")


def deep():
    """Brackets in brackets, of objects and of shown lines."""
    for count in (1000, 100000):
        for name, line in (("arrays", '{"kind":"act","members":' + "[" * count + "]" * count + "}"), ("objects", '{"a":' * count + "1" + "}" * count),
                           ("brackets that stay open", '{"members":' + "[" * count), ("shown structures", "2 act 0 st=1 sq=0 t=0000000000000000 {" + "(" * count)):
            for tool, head in (("to_json", b'{"line":1,"kind":"not-subscribed"}\n'), ("to_csv", b"")):
                yield Refused(f"{count} {name}", tool, f"1 not-subscribed\n{line}\n".encode(), b"line 2: its brackets are over 64 deep", head)


class Refused(Asked):
    """A tool that ends with a message and status 3. What it wrote before is compared where it is told."""

    def __init__(self, name, tool, stdin, why, stdout=b"", words=()):
        super().__init__(name, tool, words, stdin, stdout, 3, [why])


def numbers():
    """Numbers of thousands of digits are kept as a text."""
    for line in (f"1 1 {'9' * 5000} next", f"blocks SameBlockTwice {'9' * 5000}", f"1 clock {'9' * 5000}", '{"a":' + "9" * 5000 + "}"):
        yield Asked(f"a number of 5,000 digits: {line[:10]}", "to_json", (), text([line]), text([json.dumps({"text": line}, separators=(",", ":"))]), 1)
    yield Asked("half a character", "to_csv", ["--columns", "kind,gocbRef"], b'{"kind":"act","gocbRef":"\\ud800"}\n', b"kind,gocbRef\nact,\\ud800\n")


# ---- Lines and lists without an end ------------------------------------------


class Endless:
    """Input without an end of line ends the tool at a limit, which it tells, and takes no memory to speak of."""

    def __init__(self, tool, why, source="/dev/zero", words=()):
        self.tool, self.why, self.source, self.words = tool, why, source, words
        self.name = f"{tool} < {source}"

    def why_wrong(self, _program):
        with open(self.source, "rb") as stdin:
            ran = subprocess.run([TOOLS / self.tool, *self.words], stdin=stdin, stdout=subprocess.PIPE, stderr=subprocess.PIPE, timeout=SECONDS,
                                 preexec_fn=limit)
        return [] if (ran.returncode, self.why in ran.stderr) == (3, True) else [f"{ran.returncode}: {clipped(ran.stderr)!r}"]


def limit():
    """256 MiB of memory."""
    resource.setrlimit(resource.RLIMIT_AS, (1 << 28, 1 << 28))


def endless():
    too_long = b"line 1: it has over 1048576 octets"
    for tool, words in (("to_json", ()), ("to_csv", ()), ("hex_to_list", ()), ("compare_blocks", ("/dev/null",))):
        yield Endless(tool, too_long, words=words)
    yield Endless("compare_blocks", b"/dev/zero: line 1: it has over", "/dev/null", ("/dev/zero",))
    yield Endless("list_to_pcap", b"line 1: LineTooLong")
    yield Endless("field_at", b"line 1: LineTooLong", words=("1", "0"))
    longest, other = b"x" * MOST_LINE, b'{"text":"x"}\n'
    yield Asked("the longest line", "to_json", (), longest + b"\nx\n", b'{"text":"' + longest + b'"}\n' + other, 1)
    yield Refused("a line that is longer", "to_json", b"x\nx" + longest + b"\nx\n", b"line 2: it has over", other)


# ---- Time by length ----------------------------------------------------------


class Grows:
    """An input of twice the size takes at most about twice the time of the processor, beside what a start takes."""

    def __init__(self, name, make, size):
        self.name, self.make, self.size = f"time by size: {name}", make, size

    def why_wrong(self, _program):
        least, once, twice = (min(self.seconds(size) for _ in range(2)) for size in (1, self.size, 2 * self.size))
        return [] if twice - least <= 3 * (once - least) + 0.3 else [f"{self.size}: {once - least:.2f} s, twice: {twice - least:.2f} s"]

    def seconds(self, size):
        """The seconds of the processor that a run takes."""
        with tempfile.NamedTemporaryFile() as file, tempfile.TemporaryFile() as stdin:
            words, of_file, given = self.make(size)
            file.write(of_file)
            file.flush()
            stdin.write(given)
            stdin.seek(0)
            words = [TOOLS / words[0], *words[1:], *([file.name] if of_file else [])]
            started = subprocess.Popen(words, stdin=stdin, stdout=subprocess.DEVNULL, stderr=subprocess.DEVNULL)
            _, _, used = os.wait4(started.pid, 0)
            started.returncode = 0
        return used.ru_utime + used.ru_stime


def dump(size):
    """One dump of a large file, as hexdump -v -C writes it."""
    row = " ".join(["ab"] * 8)
    rows = "".join(f"{at:08x}  {row}  {row}  |................|\n" for at in range(0, 16 * size, 16))
    return ["hex_to_list"], b"", rows.encode()


def inputs_by_data(size):
    """A data set of so many FCDAs, and an ExtRef without srcCBName for each."""
    data = lambda element, more: "".join(f'<{element} {more} ldInst="L" lnClass="GGIO" lnInst="{at}" doName="Ind1"/>' for at in range(size))
    inputs = f'<Inputs>{data("ExtRef", "iedName=" + chr(34) + "I" + chr(34))}</Inputs>'
    return ["scl_blocks", "--subscriber", "I"], scl(data_set=f'<DataSet name="d">{data("FCDA", "fc=" + chr(34) + "ST" + chr(34))}</DataSet>',
                                                    control=CONTROL + inputs).encode(), b""


def long_part(size):
    """A part of an address whose text has so many KiB."""
    return ["scl_blocks"], scl(before="<!-- -->").replace("</P><P", "x" * (size << 10) + "</P><P").encode(), b""


def open_texts(size):
    """A shown line with so many texts that do not end."""
    return ["to_json"], b"", b"2 act 0 " + b'"\\' * size + b"\n"


def grows():
    yield Grows("one dump", dump, 4000)
    yield Grows("ExtRefs without srcCBName", inputs_by_data, 500)
    yield Grows("the text of a part of an address", long_part, 4096)
    yield Grows("texts that do not end", open_texts, 100000)


class Forms:
    """Of 256 forms of one block each is compared; further ones are counted, and the status is 1."""

    name = "compare_blocks: forms of one block"

    def why_wrong(self, program):
        blocks = [f"0001,G,D{at},,1,1" for at in range(300)]
        most, more = blocks[:256], b"over 256 forms of the sender of 0001,G,D256,,1,1: not compared are 44 lines"
        cases = (Compared("as many as are compared", most, [f"2 block {it}" for it in most], [f"agrees {it}" for it in most], 0),
                 Compared("more of a capture", most, [f"2 block {it}" for it in blocks], [f"agrees {it}" for it in most], 1, b"the capture has " + more),
                 Compared("more of a file", blocks, [f"2 block {it}" for it in most], [f"agrees {it}" for it in most], 1, more))
        return [why for case in cases for why in case.why_wrong(program)]


# ---- Frames that are known again ---------------------------------------------


def streamed():
    """Frames of goose show --json are compared by what differs in them, however many there are."""
    frames = [line_of(SHOWN, packet=at, sqNum=at, members=[at % 2 == 0], t=f"{at:016x}") for at in range(1, 100)]
    sampled = [line_of(SAMPLED, packet=at, asdus=[{**SAMPLED["asdus"][0], "smpCnt": at, "sample": f"{at:04x}"}]) for at in range(1, 100)]
    stream = 'stream id="S" rev=1'
    wanted = [f"agrees {ONE}", f"agrees {stream}"]
    yield Compared("many frames of two senders", [ONE, stream], frames + sampled, wanted, 0)
    differs = f"differs {ONE}: the capture has "
    for name, other, what in (("datSet", line_of(SHOWN, datSet="E"), "datSet E"), ("goID", line_of(SHOWN, goID="I"), None), ("confRev", line_of(SHOWN, confRev=2), "confRev 2"),
                              ("members", line_of(SHOWN, members=[True, {"bits": "01"}]), "entries 2")):
        lines = [wanted[0], f"{differs}{what}"] if what else [wanted[0], wanted[0]]
        yield Compared(f"another {name} among many frames", [ONE], [*frames, other, *frames], lines, 1 if what else 0)
    two = line_of(SAMPLED, asdus=[*SAMPLED["asdus"], {**SAMPLED["asdus"][0], "svID": "T"}])
    yield Compared("a second stream in a frame", [stream], [*sampled, two], [wanted[1], 'extra stream id="T" rev=1'], 1)
    torn = b"line 101 of standard input is none"
    for name, other in (("that is cut", frames[0][:-9]), ("with more behind it", frames[0] + "}"), ("without its members' end", frames[0].replace("[false]", "[false")),
                        ("of Sampled Values that is cut", sampled[0][:-20])):
        yield Compared(f"a frame {name}", [ONE], [*frames, sampled[0], other], [], 2, torn)


# compare_blocks takes at most 3 s of one processor of a quiet machine for 500,000 objects with 20 members each. The measure is what this Python takes to
# read as many lines as JSON, which grows with it where the machine is busy or slow: 6.2 s, of which 3 s are 0.48. It takes 0.32 to 0.38 of it, and
# 0.5 to 0.6 where each line is looked at twice. Of some runs the least tells.
OBJECTS, SENDERS, MOST_READING, RUNS, SOME = 100000, 200, 0.45, 6, 10


class Once:
    """Many objects are read in little time: each is looked at once, and few are read as JSON."""

    name = "compare_blocks: the time of many objects"

    def why_wrong(self, program):
        members = [False, {"bits": "0" * 13}] * 10
        names = [f"BAY{at:03}PROT/LLN0$GO$gcbTrip" for at in range(SENDERS)]
        lines = [line_of(SHOWN, packet=at, gocbRef=names[at % SENDERS], datSet="BAYPROT/LLN0$dsTrip", goID="BAY_TRIP", sqNum=at, members=members)
                 for at in range(OBJECTS)]
        blocks, owns, starts, readings = [f"0001,{it},BAYPROT/LLN0$dsTrip,BAY_TRIP,1,20" for it in names], [], [], []
        why = Compared("many objects", blocks, lines, [f"agrees {it}" for it in blocks], 0).why_wrong(program)
        for _ in () if why else range(RUNS):
            owns.append(self.seconds(blocks, text(lines)))
            starts.append(self.seconds(blocks, text(lines[:SENDERS])))
            readings.append(self.reading(lines))
            if min(owns) - min(starts) <= MOST_READING * min(readings):
                return []
        return why or [f"it takes {min(owns) - min(starts):.2f} s, and reading its lines as JSON {min(readings):.2f} s"]

    def seconds(self, blocks, given):
        """The processor time of a run."""
        with tempfile.NamedTemporaryFile() as file, tempfile.TemporaryFile() as stdin:
            file.write(text(blocks))
            file.flush()
            stdin.write(given)
            stdin.seek(0)
            started = subprocess.Popen([TOOLS / "compare_blocks", file.name], stdin=stdin, stdout=subprocess.DEVNULL)
            _, _, used = os.wait4(started.pid, 0)
            started.returncode = 0
        return used.ru_utime + used.ru_stime

    def reading(self, lines):
        """The processor time for all lines, by that for some."""
        before = time.process_time()
        for line in lines[::SOME]:
            json.loads(line)
        return (time.process_time() - before) * SOME


# ---- Cells -------------------------------------------------------------------


class Table:
    """The head and the rows that to_csv makes of lines without --columns."""

    def __init__(self, name, lines, head, *rows, status=0, said=b""):
        self.name, self.lines, self.table, self.status, self.said = f"to_csv: {name}", lines, [head, *rows], status, said

    def why_wrong(self, _program):
        ran = subprocess.run([TOOLS / "to_csv"], input=text(self.lines), stdout=subprocess.PIPE, stderr=subprocess.PIPE, timeout=SECONDS)
        got = list(csv.reader(io.StringIO(ran.stdout.decode(), newline="")))
        why = [f"wanted {a}, got {b}" for a, b in zip(self.table, got) if a != b] + ([] if len(got) == len(self.table) else [f"{len(got)} lines"])
        why += [] if ran.returncode == self.status else [f"ended with status {ran.returncode}: {ran.stderr!r}"]
        return why[:2] + ([] if self.said in ran.stderr and bool(self.said) == bool(ran.stderr) else [f"said {ran.stderr!r}"])


FORMULAS = ("=cmd|' /C calc'!A0", "@SUM(1)", "+1+1", "-1+1", "\t=1", "\r=1", "-5")


def cells():
    for it in FORMULAS:
        record = json.dumps({"kind": "act", "gocbRef": it, "delay": -5, "members": [it, {"int": -7}, {"float": "08c1200000", "value": -10.0}]})
        yield Table(f"a text that looks like a formula: {it!r}", [record], ["kind", "gocbRef", "member1", "member2", "member3", "delay"],
                    ["act", f"'{it}".replace("\t=", "\t'=").replace("\r=", "\r'="), f"'{it}".replace("\t=", "\t'=").replace("\r=", "\r'="), "-7", "-10.0", "-5"])
    yield Asked("formulas in columns that are asked for", "to_csv", ["--columns", "gocbRef,delay"], b'{"gocbRef":"=1","delay":-5,"kind":"act"}\n' * 2,
                b"gocbRef,delay\n'=1,-5\n'=1,-5\n")
    yield Asked("formulas behind a semicolon", "to_csv", ["--columns", "gocbRef"], b'{"gocbRef":"a;=1","kind":"act"}\n', b"gocbRef\n\"a;'=1\"\n")
    yield Table("lines of text that look like formulas", ["=1", "2 clock 5"], ["time", "line", "kind", "microseconds", "text"], ["", "", "", "", "'=1"],
                ["1970-01-01T00:00:00.000005Z", "2", "clock", "5", ""], status=1)
    members = [False, {"bits": "0010"}, {"structure": [{"uint": 5}, {"array": []}, {"structure": [{"oct": "00"}, "x"]}]},
               {"utc": "0000000000000000", "time": "1970-01-01T00:00:00.000000Z", "quality": {}}, {"float": "0900", "value": None}]
    yield Table("members, and what is in them", [json.dumps({"kind": "act", "members": members})],
                ["kind", "member1", "member2", "member3.1", "member3.2", "member3.3.1", "member3.3.2", "member4", "member5"],
                ["act", "false", "bits:0010", "5", "[]", "oct:00", "x", "1970-01-01T00:00:00.000000Z", "float:0900"])
    yield Table("twelve members, in order", [json.dumps({"kind": "act", "members": [True] * count}) for count in (2, 12)],
                ["kind", *(f"member{at}" for at in range(1, 13))], ["act", *["true"] * 2, *[""] * 10], ["act", *["true"] * 12])
    yield Asked("members, some of them", "to_csv", ["--columns", "member2,members,member9"], b'{"kind":"act","members":["a",1]}\n',
                b'member2,members,member9\n1,"[""a"", 1]",\n')
    yield Table("ASDUs and qualities", [line_of(SAMPLED), line_of(SHOWN)],
                ["time", "packet", "kind", "gocbRef", "stNum", "sqNum", "microseconds", "destination", "source", "tag", "appid", "reserved1", "reserved2",
                 "timeAllowedtoLive", "datSet", "goID", "t", "tTime", "simulation", "confRev", "ndsCom", "member1",
                 *(f"asdu1.{name}" for name in SAMPLED["asdus"][0]), "trailer", *(f"tQuality.{name}" for name in SHOWN["tQuality"])],
                [TIME["time"], "1", "sv", "", "", "", "1", "010ccd040001", "020000000001", "", "4000", "0000", "0000", *[""] * 9,
                 "S", "", "3998", "1", "", "2", "", "002a", "", "", *[""] * 5],
                [TIME["time"], "1", "goose", "G", "1", "0", "1", "010ccd010001", "020000000001", "", "0001", "0000", "0000", "2000", "D", "",
                 "0" * 16, "1970-01-01T00:00:00.000000Z", "false", "1", "false", "true", *[""] * 11, "false", "false", "false", "0"])
    lost = [{"packet": 3, **TIME, "kind": "frames-missing", "appid": "0001", "gocbRef": "G", "simulation": False, "stNum": 1, "from": 2, "to": 3},
            {"packet": 4, **TIME, "kind": "silent", "appid": "0001", "gocbRef": "G", "simulation": False, "since": 5, "sinceTime": None, "for": 6},
            {"kind": "total-goose", "appid": "0001", "gocbRef": "G", "simulation": False, "frames": 3, "longest": 7}]
    yield Table("losses", map(json.dumps, lost), ["time", "packet", "kind", "gocbRef", "stNum", "microseconds", "appid", "simulation", "since", "sinceTime",
                                                  "for", "from", "to", "frames", "longest"],
                [TIME["time"], "3", "frames-missing", "G", "1", "1", "0001", "false", "", "", "", "2", "3", "", ""],
                [TIME["time"], "4", "silent", "G", "", "1", "0001", "false", "5", "", "6", "", "", "", ""],
                ["", "", "total-goose", "G", "", "", "0001", "false", "", "", "", "", "", "3", "7"])
    yield Table("nothing", [], ["time", "packet", "line", "kind", "gocbRef", "stNum", "sqNum"])
    clock = ['{"packet":1,"kind":"clock"}'] * 10000
    late = ['{"packet":2,"kind":"act","members":[1]}', '{"packet":3,"kind":"clock","x":1}', *clock[:2]]
    yield Table("names after the first 10,000 lines", clock + late, ["packet", "kind"], *[["1", "clock"]] * 10000, ["2", "act"], ["3", "clock"], *[["1", "clock"]] * 2,
                status=1, said=b"rows without what came too late for a column: 2 (member1, x); --columns chooses columns")
    yield Table("names in the 10,000th line", clock[1:] + late[:1], ["packet", "kind", "member1"], *[["1", "clock", ""]] * 9999, ["2", "act", "1"])
    many = json.dumps({f"n{at}": at for at in range(16385)})
    yield Asked("too many columns", "to_csv", (), text([many]), b"", 3, [b"line 1: with it there are over 16384 columns"])


def cases():
    yield from bad_lines()
    yield from deep()
    yield from numbers()
    yield from endless()
    yield from grows()
    yield Forms()
    yield from streamed()
    yield Once()
    yield from cells()
