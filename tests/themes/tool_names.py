"""Members in the words of an SCL file: their names and types, values in words, what trips and opens a breaker, and tools/name_members."""
import json
import pathlib
import subprocess
import tempfile

from helpers import made_station
from helpers.asked_tools import EXAMPLES, TOOLS, Asked, ask, module
from helpers.frames import element, with_fields
from helpers.harness import SECONDS, classic_pcap, run, text
from helpers.typed_station import appid, reference, scd
from themes.report import body, words

POSITION, GOOD = {"bits": "10"}, {"bits": "0000000000000"}
TIME = {"utc": "6553f1000000000a", "time": "2023-11-14T22:13:20.000000Z", "quality": {}}
FLOAT = {"float": "0843c80000", "value": 400.0}


def structure(*members):
    return {"structure": list(members)}


ORIGIN = structure({"int": 3}, {"oct": "00"})
PHASE = structure(structure(structure(FLOAT), structure(FLOAT)), GOOD)
ACT = [False] * 5 + [GOOD, TIME]
ACT_PARTS = ("general", "phsA", "phsB", "phsC", "neut", "q", "t")
PHASES = [[[f"MMXU1.PhV.{it}.cVal.mag.f"], [f"MMXU1.PhV.{it}.cVal.ang.f"]] for it in ("phsA", "phsB")]
OBJECTS = [["Q0XCBR1.Pos.origin.orCat", "Q0XCBR1.Pos.origin.orIdent"], "Q0XCBR1.Pos.stVal", "Q0XCBR1.Pos.q", "Q0XCBR1.Pos.t"]
START = ["PTOC1.Str.general", "PTOC1.Str.dirGeneral", "PTOC1.Str.q", "PTOC1.Str.t"]
# Data sets, members of a frame, and their names; None where these are not the members of the file.
NAMED = [
    ("attributes", "dsAttributes", [POSITION, GOOD, TIME, True, {"int": 1}],
     ["Q0XCBR1.Pos.stVal", "Q0XCBR1.Pos.q", "Q0XCBR1.Pos.t", "PTRC1.Tr.general", "LLN0.Beh.stVal"]),
    ("an enumeration as an unsigned number", "dsAttributes", [POSITION, GOOD, TIME, True, {"uint": 1}],
     ["Q0XCBR1.Pos.stVal", "Q0XCBR1.Pos.q", "Q0XCBR1.Pos.t", "PTRC1.Tr.general", "LLN0.Beh.stVal"]),
    ("another kind", "dsAttributes", [POSITION, GOOD, TIME, {"int": 1}, {"int": 1}], None),
    ("a quality of two bits", "dsAttributes", [POSITION, POSITION, TIME, True, {"int": 1}], None),
    ("a member less", "dsAttributes", [POSITION, GOOD, TIME, True], None),
    ("a member more", "dsAttributes", [POSITION, GOOD, TIME, True, {"int": 1}, True], None),
    ("a structure for a value", "dsAttributes", [structure(POSITION), GOOD, TIME, True, {"int": 1}], None),
    ("data objects", "dsObjects", [structure(ORIGIN, POSITION, GOOD, TIME), structure(True, {"int": 0}, GOOD, TIME)], [OBJECTS, START]),
    ("data objects without their structures", "dsObjects", [{"int": 3}, {"oct": "00"}, POSITION, GOOD, TIME, True, {"int": 0}, GOOD, TIME],
     [*OBJECTS[0], *OBJECTS[1:], *START]),
    ("one of two structures", "dsObjects", [structure(ORIGIN, POSITION, GOOD, TIME), True, {"int": 0}, GOOD, TIME], [OBJECTS, *START]),
    ("a structure that has a member less", "dsObjects", [structure(ORIGIN, POSITION, GOOD), structure(True, {"int": 0}, GOOD, TIME)], None),
    ("an array for a structure", "dsObjects", [{"array": [ORIGIN, POSITION, GOOD, TIME]}, structure(True, {"int": 0}, GOOD, TIME)], None),
    ("data objects in data objects", "dsMeasured", [structure(PHASE, PHASE), structure(structure(FLOAT), structure(FLOAT)), FLOAT],
     [[[PHASES[0], "MMXU1.PhV.phsA.q"], [PHASES[1], "MMXU1.PhV.phsB.q"]], PHASES[1], "MMXU1.TotW.mag.f"]),
    ("arrays", "dsArrays", [FLOAT, FLOAT, {"array": [FLOAT, FLOAT]}],
     ["MHAI1.HA.phsAHar(2).cVal.mag.f", "MHAI1.HA.rms(0)", ["MHAI1.HA.rms(0)", "MHAI1.HA.rms(1)"]]),
    ("an array of another size", "dsArrays", [FLOAT, FLOAT, {"array": [FLOAT] * 3}], None),
    ("two logical devices", "dsDevices", [POSITION, POSITION], ["LD0/Q0XCBR1.Pos.stVal", "LD1/Q0XCBR1.Pos.stVal"]),
    ("members that the types do not have", "dsUnknown",
     [True, structure(True, False), FLOAT, "x", POSITION, structure(True, False), FLOAT, POSITION],
     ["Q0XCBR1.NoSuch.stVal", ["GGIO1.Loop.1", "GGIO1.Loop.2"], "GGIO1.Wide", "GGIO1.Wide.asMany", "CALH1.GrAlm.stVal",
      ["GGIO1.Half.1", "GGIO1.Half.2"], "MHAI1.HA.phsAHar.cVal.mag.f", "Q0XCBR1.Pos(1).stVal"]),
]


def names_by(how, source=None):
    """The names of the made station, by its file or by what scl_blocks --names writes of it."""
    with tempfile.TemporaryDirectory() as folder:
        file, written = pathlib.Path(folder) / "of.scd", pathlib.Path(folder) / "of.names"
        file.write_text(source or scd())
        if how == "--scd":
            return module("member_names").asked(str(file), None)
        written.write_bytes(subprocess.run([TOOLS / "scl_blocks", "--names", file], stdout=subprocess.PIPE, timeout=SECONDS).stdout)
        return module("member_names").asked(None, str(written))


class Each:
    """A case that tells what is wrong, one after another."""

    def why_wrong(self, program):
        return list(self.wrong(program))


class Names(Each):
    """The names of each data set's members."""

    def __init__(self, how):
        self.how, self.name = how, f"names of members by {how}"

    def wrong(self, _program):
        names = names_by(self.how)
        for name, data_set, members, wanted in NAMED:
            found = names.names_of(appid(data_set), reference(data_set), members)
            if (found.names, found.differs) != (wanted, wanted is None):
                yield f"{name}: wanted {wanted}, got {found.names}, differs {found.differs}"
        other = names.names_of(appid("dsDevices"), "CTLLD0/LLN0$GO$other", [POSITION, POSITION])
        if (other.is_known, other.differs, other.path("1"), other.word("1", POSITION), other.kind("1")) != (False, False, "1", "10", None):
            yield f"a block that is not in the file: {vars(other)}"
        if not names.names_of(appid("dsDevices"), reference("dsDevices"), [POSITION, POSITION], "CTLLD0/LLN0$ds").differs:
            yield "another data set does not differ"


class Nameless(Each):
    """FCDAs that name nothing tell the number of members alone."""

    name = "FCDAs that name nothing"

    def wrong(self, _program):
        names = names_by("--scd", made_station.scd())
        for members, wanted in (([True, POSITION], (False, False)), ([True], (False, True))):
            found = names.names_of("3001", "P01LD0/LLN0$GO$gcb1", members)
            if (found.is_known, found.differs) != wanted:
                yield f"{members}: known {found.is_known}, differs {found.differs}"


class Words(Each):
    """What values are in words, and what they are by their types."""

    name = "values in words"

    def wrong(self, _program):
        names = names_by("--scd")
        named = names.names_of(appid("dsAttributes"), reference("dsAttributes"), NAMED[0][2])
        for path, member, wanted in (
                ("1", {"bits": "00"}, "intermediate"), ("1", {"bits": "01"}, "off"), ("1", {"bits": "10"}, "on"), ("1", {"bits": "11"}, "bad"),
                ("2", GOOD, "good"), ("2", {"bits": "0110000000000"}, "invalid overflow"), ("2", {"bits": "1100000100000"}, "questionable oldData"),
                ("2", {"bits": "0000000000010"}, "test"), ("2", {"bits": "0000000000001"}, "operatorBlocked"),
                ("2", {"bits": "1000000000000"}, "reserved"),
                ("2", {"bits": "0000000000100"}, "substituted"), ("2", {"bits": "0000000001000"}, "inaccurate"),
                ("2", {"bits": "0101111110011"}, "invalid outOfRange badReference oscillatory failure oldData inconsistent test operatorBlocked"),
                ("3", TIME, TIME["time"]), ("3", {"utc": "ff" * 8, "time": None}, "utc:ffffffffffffffff"),
                ("4", True, "true"), ("5", {"int": 1}, "on"), ("5", {"uint": 5}, "off"), ("5", {"int": 7}, "7")):
            if named.word(path, member) != wanted:
                yield f"{member}: wanted {wanted}, got {named.word(path, member)}"
        if [named.kind(f"{at}") for at in range(1, 6)] != ["Dbpos", "Quality", "Timestamp", "BOOLEAN", "Enum"]:
            yield "other kinds"
        measured = names.names_of(appid("dsMeasured"), reference("dsMeasured"), NAMED[12][2])
        for octets, value, wanted in (("0843c80000", 400.0, "400"), ("083dcccccd", 0.10000000149011612, "0.1"),
                                      ("087f800000", None, "float:087f800000"),
                                      ("084b800001", 16777218.0, "16777218"), ("0b3fb999999999999a", 0.1, "0.1")):
            if measured.word("3", {"float": octets, "value": value}) != wanted:
                yield f"{octets}: wanted {wanted}, got {measured.word('3', {'float': octets, 'value': value})}"
        if (measured.path("1"), measured.path("1.2"), measured.path("9")) != ("MMXU1.PhV", "MMXU1.PhV.phsB", "9"):
            yield f"names of structures: {measured.path('1')}, {measured.path('1.2')}, {measured.path('9')}"


class Trips(Each):
    """Which members tell of a trip, and which of a breaker's position."""

    name = "what trips, and what opens a breaker"

    def wrong(self, _program):
        for how, source in (("--scd", scd()), ("--names", scd()), ("--scd", scd(types=""))):
            yield from self.why_names_wrong(names_by(how, source), how)

    @staticmethod
    def why_names_wrong(names, how):
        start = structure(False, {"int": 0}, GOOD, TIME)
        act = structure(*ACT)
        if names.names_of(appid("dsDevices"), reference("dsDevices"), [POSITION] * 2).is_breaker("2") is not True:
            yield f"{how}: the position of a breaker is none"
        attributes = names.names_of(appid("dsAttributes"), reference("dsAttributes"), NAMED[0][2])
        if [attributes.is_breaker(f"{at}") for at in range(1, 6)] != [True, False, False, False, False]:
            yield f"{how}: other positions of a breaker"
        if [attributes.is_trip(f"{at}") for at in range(1, 6)] != [False, False, False, True, False]:
            yield f"{how}: other trips of attributes"
        trips = names.names_of(appid("dsTrips"), reference("dsTrips"), [act, act, start, act, start, act, act, act])
        told = [f"{at}.{part}" for at in range(1, 9) for part in range(1, 8) if trips.is_trip(f"{at}.{part}")]
        wanted = [f"{at}.{part}" for at in (1, 2, 4) for part in range(1, 6)]
        # Without types nobody knows which part of an object is which.
        if told != (wanted if trips.path("1.1") == "PTRC1.Tr.general" else []):
            yield f"{how}: trips {told}"


# ---- The tool ----------------------------------------------------------------

HEAD = '{{"line":{},"microseconds":7,"time":"1970-01-01T00:00:00.000007Z","kind":"{}"'
FRAME = (',"destination":"010ccd010001","source":"001122334455","tag":null,"appid":"{}","reserved1":"0000","reserved2":"0000","gocbRef":"{}",'
         '"timeAllowedtoLive":2000,"datSet":"{}","goID":null,"t":"6553f1000000000a","tTime":"2023-11-14T22:13:20.000000Z","tQuality":{{}},'
         '"stNum":1,"sqNum":2,"simulation":false,"confRev":1,"ndsCom":false,"members":{}{},"trailer":{}}}')
ACTED = ',"block":0,"appid":"{}","gocbRef":"{}","t":"6553f1000000000a","tTime":null,"tQuality":{{}},"delay":1,"stNum":1,"sqNum":2,"members":{}{}}}'


def compact(value):
    return json.dumps(value, separators=(",", ":"))


def frame(line, data_set, members, names=None, trailer="null", told=None):
    """An object of goose show, with names where they are given."""
    added = f',"names":{compact(names)}' if names else ""
    data_set, of = told or f"CTLLD0/LLN0${data_set}", (appid(data_set), reference(data_set))
    return HEAD.format(line, "goose") + FRAME.format(*of, data_set, compact(members), added, trailer)


def acted(line, data_set, members, names=None):
    added = f',"names":{compact(names)}' if names else ""
    return HEAD.format(line, "act") + ACTED.format(appid(data_set), reference(data_set), compact(members), added)


def lines():
    """Lines that are given, and as they must be handed on."""
    for number, (_, data_set, members, names) in enumerate(NAMED, 1):
        yield frame(number, data_set, members), frame(number, data_set, members, names)
        yield acted(number, data_set, members), acted(number, data_set, members, names)
    members, names = NAMED[0][2], NAMED[0][3]
    yield frame(90, "dsAttributes", members, trailer='"00ff"'), frame(90, "dsAttributes", members, names, trailer='"00ff"')
    odd = ['a","members":[', '"trailer":null', "\\", "\u00fc"]
    single = [it if isinstance(it, str) else it[0].rpartition(".")[0] for it in NAMED[-1][3]]
    yield frame(91, "dsUnknown", odd + [True] * 4), frame(91, "dsUnknown", odd + [True] * 4, single)
    spaced = json.loads(frame(92, "dsAttributes", members))
    yield json.dumps(spaced), frame(92, "dsAttributes", members, names)
    short = {name: spaced[name] for name in ("appid", "gocbRef", "members")}
    yield json.dumps({**short, "more": 1}), compact({**short, "names": names, "more": 1})
    other = HEAD.format(93, "goose") + FRAME.format("3999", reference("dsAttributes"), "D", compact(members), "", "null")
    yield other, other
    for it in (frame(94, "dsAttributes", members, told="CTLLD0/LLN0$other"), HEAD.format(95, "clock") + "}", HEAD.format(96, "sampled") + "}",
               '{"kind":"total-goose"}', "no object", ""):
        yield it, it


class Put(Each):
    """Names are put into objects; all else is handed on as it is, and blocks that differ are named once."""

    def __init__(self, how):
        self.how, self.name = how, f"name_members {how}"

    def wrong(self, program):
        given, wanted = zip(*lines())
        with tempfile.TemporaryDirectory() as folder:
            file = pathlib.Path(folder) / "of"
            file.write_text(scd())
            if self.how == "--names":
                file.write_bytes(ask(program, "scl_blocks", ["--names", file])[0])
            wrote, complained, status = ask(program, "name_members", [self.how, file], text(given))
        for number, (ours, theirs) in enumerate(zip(wanted, wrote.decode("latin-1").split("\n"))):
            if ours != theirs:
                yield f"line {number}: wanted {ours}, got {theirs}"
        differing = "".join(f"name_members: {reference(it)} (APPID {appid(it)}): data set differs from the file: its members are not named\n"
                            for it in ("dsAttributes", "dsObjects", "dsArrays"))
        if (complained.decode(), status, wrote.count(b"\n")) != (differing, 1, len(wanted)):
            yield f"status {status}, {complained!r}"


class Live(Each):
    """Each line is handed on before the next one comes."""

    name = "name_members in a live pipe"

    def wrong(self, _program):
        with tempfile.NamedTemporaryFile(suffix=".scd") as file:
            file.write(scd().encode())
            file.flush()
            with subprocess.Popen([TOOLS / "name_members", "--scd", file.name], stdin=subprocess.PIPE, stdout=subprocess.PIPE, bufsize=0) as ran:
                for number in range(3):
                    ran.stdin.write(text([frame(number, "dsDevices", [POSITION] * 2)]))
                    line = ran.stdout.readline()
                    wanted = text([frame(number, "dsDevices", [POSITION] * 2, ["LD0/Q0XCBR1.Pos.stVal", "LD1/Q0XCBR1.Pos.stVal"])])
                    if line != wanted:
                        yield f"line {number}: {line!r}"
                ran.stdin.close()
                if ran.wait(SECONDS):
                    yield f"ended with status {ran.returncode}"


class OfExample(Each):
    """The frames of the example in a pipe of goose: a breaker's position by a file without types has its name, and its parts positions."""

    name = "name_members behind goose show and replay"

    def wrong(self, program):
        scl = EXAMPLES / "station.scd"
        octets, block = (EXAMPLES / "two_bays.list").read_bytes(), "3001,BAY1PROT/LLN0$GO$gcbTrip,BAY1PROT/LLN0$dsTrip,BAY1_Trip,1,2"
        shown, _, _ = run(program, ["show", "--json"], octets)
        replayed, _, _ = run(program, ["replay", "--json", block], octets)
        for given, kinds in ((shown, ("goose",)), (replayed, ("act",))):
            wrote, complained, status = ask(program, "name_members", ["--scd", scl], given)
            if complained or status or not given:
                yield f"status {status}: {complained!r}, given {len(given)} octets"
            for before, after in zip(given.splitlines(), wrote.splitlines(), strict=True):
                record, named = json.loads(before), json.loads(after)
                names = {"BAY1PROT/LLN0$GO$gcbTrip": ["PTRC1.Tr.general", "PTRC1.Tr.q"],
                         "BAY2PROT/LLN0$GO$gcbStart": ["PTOC1.Str.general", "PTOC1.Str.q"]}
                wanted = {**record, "names": names[record["gocbRef"]]} if record["kind"] in kinds else record
                if named != wanted or (record["kind"] in kinds and list(named).index("names") != list(named).index("members") + 1):
                    yield f"{after!r}"


CSV = ("kind,gocbRef,member1,member2,member2.1,PTRC1.Tr.general,Q0XCBR1.Pos.origin.orCat,LLN0.Beh.stVal,Q0XCBR1.Pos.stVal,Q0XCBR1.Pos.q,"
       "Q0XCBR1.Pos.t,PTOC1.Str.general,MMXU1.TotW.mag.f")


class Table(Each):
    """Columns of to_csv by the names of members: words, times and numbers, and positions where a data set differs."""

    def __init__(self, how):
        self.how, self.name = how, f"to_csv {how}"

    def wrong(self, program):
        given = [acted(1, "dsAttributes", NAMED[0][2]),
                 frame(2, "dsObjects", [structure(ORIGIN, POSITION, GOOD, TIME), True, {"int": 0}, GOOD, TIME]),
                 acted(3, "dsAttributes", [True, structure(POSITION)]), frame(4, "dsMeasured", NAMED[12][2]), HEAD.format(5, "clock") + "}"]
        of = [reference(it) for it in ("dsAttributes", "dsObjects", "dsAttributes", "dsMeasured")]
        wanted = [CSV, f"act,{of[0]},,,,true,,on,on,good,2023-11-14T22:13:20.000000Z,,",
                  f"goose,{of[1]},,,,,remote-control,,on,good,2023-11-14T22:13:20.000000Z,true,",
                  f"act,{of[2]},true,,bits:10,,,,,,,,", f"goose,{of[3]},,,,,,,,,,,400.0", "clock,,,,,,,,,,,,"]
        with tempfile.TemporaryDirectory() as folder:
            file = pathlib.Path(folder) / "of"
            file.write_text(scd())
            if self.how == "--names":
                file.write_bytes(ask(program, "scl_blocks", ["--names", file])[0])
            wrote, complained, status = ask(program, "to_csv", [self.how, file, "--columns", CSV], text(given))
            all_names, _, _ = ask(program, "to_csv", [self.how, file], text(given))
        said = f"to_csv: {of[0]} (APPID {appid('dsAttributes')}): data set differs from the file: its members are not named\n"
        if (wrote.decode().splitlines(), complained.decode(), status) != (wanted, said, 1):
            yield f"status {status}, {complained!r}: wanted {wanted}, got {wrote.decode().splitlines()}"
        head = all_names.decode().split("\n")[0].split(",")
        if not {*CSV.split(",")} - {"member2"} <= {*head} or "members" in head:
            yield f"the head of all columns is {head}"


def captured(values, at=0):
    """A frame of the two positions of dsDevices, or of other members, in its state `at`."""
    members = b"".join(values)
    told = {"gocb_ref": (0x80, reference("dsDevices").encode()), "dat_set": (0x82, b"CTLLD0/LLN0$dsDevices"), "go_id": (0x83, b"dsDevices"),
            "st_num": (0x85, bytes([at + 1])), "entries": (0x8A, bytes([len(values)])), "members": (0xAB, members)}
    frame = with_fields(**{name: element(*it) for name, it in told.items()})
    return frame[:14] + bytes.fromhex(appid("dsDevices")) + frame[16:]


class OnPage(Each):
    """The page has names and words, or positions where the data set differs."""

    def __init__(self, name, states, scl_words, wanted, unwanted):
        self.name, self.states, self.scl_words, self.wanted, self.unwanted = f"report: {name}", states, scl_words, wanted, unwanted

    def wrong(self, program):
        with tempfile.TemporaryDirectory() as folder:
            folder = pathlib.Path(folder)
            (folder / "of.pcap").write_bytes(classic_pcap([captured(it, at) for at, it in enumerate(self.states)]))
            (folder / "of.scd").write_text(scd())
            (folder / "of.names").write_bytes(ask(program, "scl_blocks", ["--names", folder / "of.scd"])[0])
            _, said, _ = ask(program, "report", [*self.scl_words, "of.pcap"], cwd=folder)
            if not (folder / "report.html").exists():
                return [f"{said!r}"]
            page = words(body((folder / "report.html").read_bytes()))
        return [f"the page lacks {it!r}" for it in self.wanted if it not in page] + [f"the page has {it!r}" for it in self.unwanted if it in page]


def on_page():
    on, off, true = (bytes.fromhex(it) for it in ("84020680", "84020640", "8301ff"))
    change = "LD1/Q0XCBR1.Pos.stVal: on \u2192 off"
    differs = "data set differs from the file: CTLLD0/LLN0$GO$gcbDevices, packet 1: their members are told by positions."
    for words_of_scl in (["--scd", "of.scd"], ["--names", "of.names"]):
        yield OnPage(f"names and words by {words_of_scl[0]}", [[on, on], [on, off]], words_of_scl, [change], ["data set differs"])
        yield OnPage(f"a data set that differs by {words_of_scl[0]}", [[true, true], [on, off]], words_of_scl, [differs], [change])
    yield OnPage("positions without a file", [[on, on], [on, off]], [], ["2: 10 \u2192 01"], ["Pos.stVal"])


def cases():
    yield from on_page()
    yield Names("--scd")
    yield Names("--names")
    yield Nameless()
    yield Words()
    yield Trips()
    yield Put("--scd")
    yield Put("--names")
    yield Live()
    yield Table("--scd")
    yield Table("--names")
    yield OfExample()
    named = frame(2, "dsObjects", NAMED[7][2], NAMED[7][3]).replace(',"tQuality":{}', "")
    yield Asked("objects that have names", "to_csv", ["--columns", "line,member1"], text([named]), b"line,member1\n2,\n")
    some = {name: json.loads(named)[name] for name in ("kind", "members", "names")}
    yield Asked("all columns of objects that have names", "to_csv", [], text([compact(some)]),
                text(["kind," + ",".join([*OBJECTS[0], *OBJECTS[1:], *START]),
                      "goose,3,oct:00,bits:10,bits:0000000000000,2023-11-14T22:13:20.000000Z,true,0,bits:0000000000000,2023-11-14T22:13:20.000000Z"]))
    yield Asked("a file of names that is none", "name_members", ["--names", "/dev/stdin"], b"{}\n", status=3,
                stderr=[b"/dev/stdin: line 1 is none that scl_blocks --names writes"])
    yield Asked("a line that is no object", "name_members", ["--scd", str(EXAMPLES / "station.scd")], b"no object\n", b"no object\n", status=1)
    yield Asked("neither a file nor names", "name_members", [], status=2, stderr=[b"one of the arguments --scd --names is required"])
