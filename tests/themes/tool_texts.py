"""tools/to_json and tools/to_csv, of text and of objects: no line is lost or invented, and each says what it said.

What JSON has of a line is written as a line again, by the formats of docs/FORMATS.md, and held against that line.
"""
import csv
import io
import json
import os
import random
import select
import shutil
import subprocess
import tempfile
import time

from helpers import by_chance
from helpers.asked_tools import EXAMPLES, TOOLS, Asked, ask
from helpers.captured import ASKED, capturing
from helpers.frames import WORKED, WORKED_LINE, put
from helpers.harness import SECONDS, Skipped, classic_pcap, clipped, listed, run, text
from themes import replaying

SEED, COUNT = 8259, 400
COLUMNS = ("line", "microseconds", "time", "kind", "block", "reason", "offset", "error", "mode", "destination", "source", "tag",
           "appid", "reserved1", "reserved2", "gocbRef", "timeAllowedtoLive", "datSet", "goID", "t", "tTime", "stNum", "sqNum",
           "simulation", "confRev", "ndsCom", "members", "asdus", "trailer", "asdu", "smpCnt", "missing", "svID", "text",
           "packet", "tQuality", "delay", "entries")
LOSSES = ("since", "sinceTime", "for", "by", "from", "to", "frames", "statesMissing", "framesMissing", "late", "repeated", "restarted", "silent",
          "samples", "outOfRange", "outages", "longest")
FRONT = ("time", "packet", "line", "kind", "gocbRef", "stNum", "sqNum")
REPLAYED = ["0001,G,D,,1,1", "0002,G,D,,1,1", "3001,BAY1PROT/LLN0$GO$gcbTrip,BAY1PROT/LLN0$dsTrip,BAY1_Trip,1,2"]
COMMANDS = (["show"], ["check"], ["replay", *REPLAYED], ["replay", REPLAYED[0], REPLAYED[0]], ["watch", "--period", "4000", "--id", "MU01"])


# ---- A record as a line ------------------------------------------------------


def quoted(told):
    return "-" if told is None else '"' + told.replace("\\", "\\\\").replace('"', '\\"') + '"'


def plain(told):
    return "-" if told is None else str(told).lower() if isinstance(told, bool) else str(told)


def member(told):
    """A member of a data set as it is shown."""
    if isinstance(told, bool):
        return "true" if told else "false"
    if isinstance(told, str):
        return quoted(told)
    (kind, held), = told.items()
    opens, closes = {"array": "[]", "structure": "()"}.get(kind, ("", ""))
    return opens + " ".join(map(member, held)) + closes if opens else f"{kind}:{held}"


def members(it):
    return "{" + " ".join(map(member, it["members"])) + "}"


def asdu(it):
    return (f"(id={quoted(it['svID'])} set={quoted(it['datSet'])} cnt={it['smpCnt']} rev={it['confRev']} t={plain(it['refrTm'])} "
            f"synch={it['smpSynch']} rate={plain(it['smpRate'])} sample={it['sample']} mod={plain(it['smpMod'])} "
            f"f89={plain(it['field89'])})")


def envelope(it):
    return (f"{it['destination']} {it['source']} tag={plain(it['tag'])} appid={it['appid']} r1={it['reserved1']} "
            f"r2={it['reserved2']}")


def shown_goose(it):
    return (f"goose {envelope(it)} ref={quoted(it['gocbRef'])} live={it['timeAllowedtoLive']} set={quoted(it['datSet'])} "
            f"id={quoted(it['goID'])} t={it['t']} st={it['stNum']} sq={it['sqNum']} sim={plain(it['simulation'])} "
            f"rev={it['confRev']} com={plain(it['ndsCom'])} {members(it)} trailer={plain(it['trailer'])}")


def shown_sampled(it):
    return f"sv {envelope(it)} {{{' '.join(map(asdu, it['asdus']))}}} trailer={plain(it['trailer'])}"


def counted(it):
    return f"{it['asdu']} {it['smpCnt']} {it['kind']}" + (f" {it['missing']}" if "missing" in it else "")


def entry(it):
    return f"{it['kind']} {it['block']} st={it['stNum']} sq={it['sqNum']}"


FORMS = {
    "goose": shown_goose, "sv": shown_sampled, "clock": lambda it: f"clock {it['microseconds']}",
    "mode": lambda it: f"mode {it['microseconds']} {it['mode']}", "fault": lambda it: f"fault {it['offset']} {it['error']}",
    "list": lambda it: f"list {it['error']}", "capture": lambda it: f"capture {it['error']}", "act": lambda it: f"{entry(it)} t={it['t']} {members(it)}",
    "refused": lambda it: f"refused {it['block']} {it['reason']}",
    **dict.fromkeys(("refreshed", "repeated", "old"), entry),
    **dict.fromkeys(("expired", "switched"), lambda it: f"{it['kind']} {it['block']}"),
    **dict.fromkeys(("first", "next", "skipped", "same", "late", "out-of-range"), counted),
    **dict.fromkeys(("not-written", "destination", "not-subscribed", "sampled"), lambda it: it["kind"]),
}


def line_of(it):
    """The line that a record was made of."""
    if it.get("kind") == "blocks":
        return f"blocks {it['error']} {it['block']}"
    return f"{it['line']} {FORMS[it['kind']](it)}"


# ---- Cases -------------------------------------------------------------------


class Whole:
    """Under each command, each line of a list's text, or of a capture's, is one object and one row, in its order, with all that it
    says."""

    def __init__(self, name, octets, commands=None):
        self.name, self.octets, self.commands = name, octets, commands or COMMANDS

    def why_wrong(self, program):
        return [f"{' '.join(words)}: {why}" for words in self.commands for why in self.why_command_wrong(program, words)]

    def why_command_wrong(self, program, words):
        wrote, _, _ = run(program, words, self.octets)
        lines = wrote.decode("ascii").splitlines()
        made, complained, status = ask(program, "to_json", given=wrote)
        if status or complained:
            yield f"to_json ended with status {status}: {clipped(complained)!r}"
        records = [json.loads(it) for it in made.splitlines()]
        yield from different(lines, [line_of(it) for it in records], "objects")
        made, complained, status = ask(program, "to_csv", given=wrote)
        if status or complained:
            yield f"to_csv ended with status {status}: {clipped(complained)!r}"
        head, *rows = csv.reader(io.StringIO(made.decode(), newline=""))
        cells = [{name: cell for name, cell in zip(head, row) if cell} for row in rows]
        wanted = [{name: it for name, it in cells_of(record) if it} for record in records]
        yield from different(wanted, cells, "rows")


def cells_of(record):
    """What the cells of a record of a text have: a member or a field of an ASDU each."""
    for name, it in record.items():
        if name == "members":
            yield from (cell for at, held in enumerate(it, 1) for cell in cells_of_member(f"member{at}", held))
        elif name == "asdus":
            yield from ((f"asdu{at}.{field}", cell(held)) for at, fields in enumerate(it, 1) for field, held in fields.items())
        else:
            yield name, cell(it)


def cells_of_member(name, it):
    """A text or a number as it is, arrays and structures part by part, and others as they are shown."""
    (kind, held), = it.items() if isinstance(it, dict) else [(None, it)]
    if kind in ("array", "structure") and held:
        return [cell for at, part in enumerate(held, 1) for cell in cells_of_member(f"{name}.{at}", part)]
    return [(name, cell(held) if kind in (None, "int", "uint") else member(it))]


def cell(it):
    """What a cell has of a value."""
    return guarded(it) if isinstance(it, str) else "" if it is None else json.dumps(it)


def guarded(it):
    """A text with a ' where a spreadsheet would begin a formula."""
    return "".join("'" * (letter in "=+-@" and it[:at][-1:] in ("", ";")) + letter for at, letter in enumerate(it))


def different(wanted, got, what):
    if len(wanted) != len(got):
        yield f"{len(got)} {what} of {len(wanted)} lines"
    yield from [f"{what}: wanted {it}, got {other}" for it, other in zip(wanted, got) if it != other][:1]


class Queried:
    """jq reads as many objects as there are lines, of each command and each example."""

    name = "jq reads each object"

    def why_wrong(self, program):
        if not shutil.which("jq"):
            raise Skipped("there is no jq: run tests/get_tools")
        for example in sorted(EXAMPLES.glob("*.list")):
            for words in COMMANDS:
                wrote, _, _ = run(program, words, example.read_bytes())
                made, _, _ = ask(program, "to_json", given=wrote)
                counted = subprocess.run(["jq", "-c", "keys"], input=made, stdout=subprocess.PIPE, stderr=subprocess.PIPE, timeout=SECONDS)
                counts = (wrote.count(b"\n"), counted.stdout.count(b"\n"))
                if counted.returncode or counts[0] != counts[1]:
                    return [f"{example.name}, {words}: lines and objects are {counts}: {counted.stderr!r}"]
        return []


class Dated:
    """Each event's time is that of its line, as a number and as a date, in lists of both versions."""

    name = "times and dates"
    events = [(0, "1970-01-01T00:00:00.000000Z"), (999999, "1970-01-01T00:00:00.999999Z"),
              (1700000000123456, "2023-11-14T22:13:20.123456Z"), (253402300799999999, "9999-12-31T23:59:59.999999Z"),
              (253402300800000000, None), (999999999999999999, None)]

    def why_wrong(self, program):
        return list(self.why_lists_wrong(program))

    def why_lists_wrong(self, program):
        lists = {"version 2": text(["V2", "# a comment", *(f"C {moment}" for moment, _ in self.events)]),
                 "version 1": text(["# a comment", "", *(f"C {moment // 1000}" for moment, _ in self.events)])}
        for version, octets in lists.items():
            wrote, _, _ = run(program, ["show"], octets)
            with tempfile.NamedTemporaryFile() as recorded:
                recorded.write(octets)
                recorded.flush()
                made, _, _ = ask(program, "to_json", [recorded.name], wrote)
            got = [(it["microseconds"], it["time"]) for it in map(json.loads, made.splitlines())]
            unit = 1 if version == "version 2" else 1000
            wanted = [(moment // unit * unit, date and (date if unit == 1 else date[:-4] + "000Z")) for moment, date in self.events]
            if got != wanted:
                yield f"{version}: wanted {wanted}, got {got}"


class Live:
    """Each row is handed on before the tool waits for the next line, although nothing asks Python to. The list can be written
    beside it, and later than what goose says of it."""

    def __init__(self, tool, head, rows, is_late=False):
        self.name, self.tool, self.head, self.rows = f"{tool} in a live pipe{', and a list that comes late' * is_late}", tool, head, rows
        self.is_late = is_late

    def why_wrong(self, _program):
        environment = {name: value for name, value in os.environ.items() if name != "PYTHONUNBUFFERED"}
        with tempfile.NamedTemporaryFile() as recorded:
            recorded.write(b"V2\n" if self.is_late else b"V2\nC 1\nC 2\n")
            recorded.flush()
            with subprocess.Popen([TOOLS / self.tool, recorded.name], stdin=subprocess.PIPE, stdout=subprocess.PIPE, bufsize=0,
                                  env=environment) as started:
                why = list(self.why_rows_wrong(started, recorded))
                started.stdin.close()
                status = started.wait(timeout=SECONDS)
        return why + ([] if status == 0 else [f"status {status}"])

    def sent(self, number):
        return f"{number + 1} clock {number}"

    def why_rows_wrong(self, started, recorded):
        for number, row in enumerate(self.rows, 1):
            started.stdin.write(f"{self.sent(number)}\n".encode())
            if self.is_late:
                time.sleep(0.2)
                recorded.write(f"C {number}\n".encode())
                recorded.flush()
            got, wanted = b"", self.head + row if number == 1 else row
            while len(got) < len(wanted) and select.select([started.stdout], [], [], SECONDS / 4)[0]:
                got += os.read(started.stdout.fileno(), 4096)
            if got != wanted:
                yield f"row {number}: wanted {wanted}, got {got}"
                return


class LiveObjects(Live):
    """The same of lines of JSON, which need no list."""

    def __init__(self, head, rows):
        super().__init__("to_csv", head, rows)
        self.name = "to_csv of objects in a live pipe"

    def sent(self, number):
        return json.dumps({"line": number + 1, "microseconds": number, "time": f"1970-01-01T00:00:00.{number:06}Z", "kind": "clock"})


def live():
    """The head has all names that goose writes, as none can be waited for."""
    columns = [it for it in dict.fromkeys(FRONT + COLUMNS + LOSSES) if it not in ("members", "asdus", "tQuality")]
    head = ",".join(columns).encode() + b"\n"
    of_clock = lambda number: {"line": number + 1, "microseconds": number, "time": f"1970-01-01T00:00:00.00000{number}Z", "kind": "clock"}
    rows = [",".join(str(of_clock(number).get(it, "")) for it in columns).encode() + b"\n" for number in (1, 2)]
    objects = [f'{{"line":{number + 1},"microseconds":{number},"time":"1970-01-01T00:00:00.00000{number}Z","kind":"clock"}}\n'.encode()
               for number in (1, 2)]
    for is_late in (False, True):
        yield Live("to_csv", head, rows, is_late)
        yield Live("to_json", b"", objects, is_late)
    yield LiveObjects(head, rows)


def of_objects():
    """What `to_csv` makes of lines of JSON: each is a row, and needs no list. One that is no object is kept whole."""
    quality = {"leapSecondsKnown": False, "clockFailure": False, "clockNotSynchronized": True, "timeAccuracy": 10}
    acted = {"packet": 7, "microseconds": 1, "time": "1970-01-01T00:00:00.000001Z", "kind": "act", "block": 0, "appid": "0001",
             "gocbRef": 'a"b', "t": "0000000000000000", "tTime": "1970-01-01T00:00:00.000000Z", "tQuality": quality, "delay": -3,
             "stNum": 2**64 - 1, "sqNum": 0, "members": [True, {"float": "0843c80000", "value": 400.0}, "x,y"]}
    late = {"packet": 8, "microseconds": 253402300800000000, "time": None, "kind": "clock"}
    lines = [json.dumps(acted, separators=(",", ":")), json.dumps(late), '{"packet":9', '{"packet":9} x', "9 clock 5"]
    columns = "packet,line,time,kind,gocbRef,tQuality,delay,stNum,members,text"
    rows = [",".join(columns.split(",")), '7,,1970-01-01T00:00:00.000001Z,act,"a""b","' + json.dumps(quality).replace('"', '""')
            + '",-3,18446744073709551615,"[true, {""float"": ""0843c80000"", ""value"": 400.0}, ""x,y""]",', "8,,,clock,,,,,,",
            ',,,,,,,,,"{""packet"":9"', ',,,,,,,,,"{""packet"":9} x"', ",9,1970-01-01T00:00:00.000005Z,clock,,,,,,"]
    yield Asked("objects, and lines that are none", "to_csv", ["--columns", columns], text(lines), text(rows), 1)
    lost = ['{"line":3,"kind":"frames-missing","appid":"0001","gocbRef":"G","simulation":false,"stNum":1,"from":2,"to":3}',
            '{"kind":"total-goose","appid":"0001","gocbRef":"G","simulation":false,"frames":3,"statesMissing":0,"framesMissing":2,"late":0,'
            '"repeated":0,"restarted":0,"silent":1,"longest":3000000}']
    yield Asked("objects of losses", "to_csv", ["--columns", "line,kind,gocbRef,simulation,from,to,framesMissing,longest"], text(lost), (
        b"line,kind,gocbRef,simulation,from,to,framesMissing,longest\n3,frames-missing,G,false,2,3,,\n,total-goose,G,false,,,2,3000000\n"))
    yield Asked("one column, that an object does not have", "to_csv", ["--columns", "delay"], text(lines[:2]), b'delay\n-3\n""\n')
    yield Asked("a column that is asked for twice", "to_csv", ["--columns", "kind,packet,kind"], text(lines[1:2]), b"kind,packet,kind\nclock,8,clock\n")


class Another:
    """A LIST that is a capture, or another list than goose has read, is refused."""

    def __init__(self, name, written, octets, why):
        self.name, self.written, self.octets, self.why = f"a LIST that is {name}", written, octets, why

    def why_wrong(self, program):
        with tempfile.NamedTemporaryFile() as recorded:
            recorded.write(self.octets)
            recorded.flush()
            told = {tool: ask(program, tool, [recorded.name], self.written) for tool in ("to_csv", "to_json")}
        return [f"{tool}: {got}" for tool, got in told.items()
                if got[2] != 3 or self.why not in got[1] or got[1].count(b"\n") != 1 or got[0].count(b"\n") > 1]


def another():
    frame = listed(WORKED)
    shown = b"1 " + WORKED_LINE.encode() + b"\n"
    acted = b"1 act 0 st=1 sq=0 t=0000000000000000 {true}\n"
    other = b"is another list than goose has read: its line 1 gives no such line"
    yield Another("a capture", acted, classic_pcap([WORKED]), b"is a capture: give the list that goose import makes of it")
    yield Another("a capture of pcapng", acted, (EXAMPLES / "two_frames.pcapng").read_bytes(), b"is a capture")
    yield Another("empty", acted, b"", other)
    yield Another("shorter", acted.replace(b"1 act", b"3 act"), frame * 2, b"its line 3 gives")
    yield Another("one of clock times", acted, b"C 0\n", other)
    yield Another("one without that clock time", b"1 clock 1000\n", b"C 2\n", other)
    yield Another("one without that mode", b"1 mode 1000 on\n", b"C 1\n", other)
    yield Another("one of other addresses", shown, listed(put(WORKED, at5=2)), other)
    yield Another("one of another t", acted, listed(put(WORKED, at36=9, at43=9)), other)
    yield Another("one without that error", b"1 list LineForm\n", frame, other)
    yield Another("one with another error", b"1 list LineForm\n", b"C x\n", other)


def cases():
    yield from live()
    yield from of_objects()
    yield from another()
    chance = random.Random(SEED)
    yield Whole("frames of GOOSE by chance", listed(*[by_chance.goose(chance) for _ in range(COUNT)]))
    yield Whole("frames of Sampled Values by chance", listed(*[by_chance.sampled(chance) for _ in range(COUNT)]))
    yield Whole("a list by chance", replaying.some_list(chance, COUNT))
    for example in sorted(EXAMPLES.glob("*.list")):
        yield Whole(f"examples/{example.name}", example.read_bytes())
    bays = (EXAMPLES / "two_bays.pcapng").read_bytes()
    yield Whole("a capture that is cut off", bays[:-1], [capturing(command) for command in ASKED if command not in ("blocks", "losses")])
    yield Queried()
    yield Dated()
    strange = b"3 acts 0 st=1\nx\n\n4 \xff\n"
    yield Asked("lines of other forms", "to_json", stdin=strange, status=1,
                stdout=b'{"text":"3 acts 0 st=1"}\n{"text":"x"}\n{"text":""}\n{"text":"4 \\u00ff"}\n')
    yield Asked("lines of other forms", "to_csv", ["--columns", "line,text"], strange, status=1,
                stdout='line,text\n,3 acts 0 st=1\n,x\n,\n,4 \xff\n'.encode())
    yield Asked("a column that is none", "to_csv", ["--columns", "line,lien"], status=2, stderr=[b"there is no column lien"])
    shown = b'2 act 0 st=1 sq=0 t=6553f1008000000a {true "a,\\"b" (int:-9223372036854775808 uint:18446744073709551615)}\n'
    yield Asked("a text with a comma and a quote", "to_csv", ["--columns", "line,tTime,members"], shown,
                b'line,tTime,members\n2,2023-11-14T22:13:20.500000Z,"[true, ""a,\\""b"", {""structure"": '
                b'[{""int"": -9223372036854775808}, {""uint"": 18446744073709551615}]}]"\n')
