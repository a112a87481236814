"""--json: an object for each line of the text, beside a slow writer of them, beside `tools/to_json`, and as Python and `jq` read them:
over the examples, lists and captures by chance, floating-point numbers of each kind, live and failing."""
import itertools
import json
import random
import re
import shutil
import struct
import subprocess
import tempfile

from helpers import by_chance
from helpers.asked_tools import EXAMPLES, TOP, ask, module
from helpers.capture_parts import interface, packet, section
from helpers.captured import ASKED, Read, asking, capturing
from helpers.frames import SAMPLED, WORKED, element, put, with_fields, with_members
from helpers.harness import SECONDS, Case, Skipped, clipped, first_difference, listed, run, text
from oracles.packets import LAST_MOMENT
from oracles.reading import JSON, TIME
from themes import losses, replaying, watching
from themes.capture_streams import FailsAtEach, WritesAtMost
from themes.captures import FORMS
from themes.dated import inputs
from themes.inventory import some_list as some_blocks
from themes.live import InTurn
from themes.replaying import BLOCK, BLOCKS, line, state
from themes.streaming import DoesNotGrow, WantsMemory
from themes.tool_texts import COLUMNS

SEED, LISTS, NUMBERS = 7159, 2000, 2000
# The commands whose text `tools/to_json` knows.
KNOWN = [command for command in ASKED if command != "losses"]
AT = '"microseconds":1700000000000000,"time":"2023-11-14T22:13:20.000000Z"'
NO_QUALITY = '{"leapSecondsKnown":false,"clockFailure":false,"clockNotSynchronized":false,"timeAccuracy":0}'
# The names that --json adds to those of `tools/to_json`, and the name that says where.
ADDED = {"block": {"appid", "gocbRef"}, "t": {"tQuality", "delay"}, "refrTm": {"refrTime", "refrQuality"}, "float": {"value"},
         "utc": {"time", "quality"}, "text": {"appid", "gocbRef", "datSet", "goID", "confRev", "entries"}}
TOKEN = re.compile(rb'"(?:[^"\\]|\\.)*"|-?[0-9][0-9.eE+-]*')


# ---- Worked objects ----------------------------------------------------------


def of(name, command, lines, *objects, status=0):
    """A list, and its objects under a command."""
    return Case(f"{command}: {name}", asking(command, JSON), text(["V2", *lines]), text(objects), status)


def at_start(frame):
    """The line of a frame on a day in 2023."""
    return f"F 1700000000000000 {frame.hex()}"


def worked():
    dated = b"\x84\x08" + bytes.fromhex("6553f0ff800000ea")
    quality = '{"leapSecondsKnown":true,"clockFailure":true,"clockNotSynchronized":true,"timeAccuracy":10}'
    utc = f'{{"utc":"6553f0ff800000ea","time":"2023-11-14T22:13:19.500000Z","quality":{quality}}}'
    members = element(0x91, dated[2:]) + element(0x87, b"\x08\x43\xc8\0\0") + element(0x8A, b'a"\\/') + element(0xA1, element(0x85, b"\x80"))
    frame = with_fields(go_id=element(0x83, b""), t=dated, entries=b"\x8a\1\4", members=element(0xAB, members))
    shown = (f'{{"line":2,{AT},"kind":"goose","destination":"010ccd010001","source":"020000000001","tag":null,"appid":"0001","reserved1":"0000",'
             f'"reserved2":"0000","gocbRef":"G","timeAllowedtoLive":2000,"datSet":"D","goID":"","t":"6553f0ff800000ea",'
             f'"tTime":"2023-11-14T22:13:19.500000Z","tQuality":{quality},"stNum":1,"sqNum":0,"simulation":false,"confRev":1,"ndsCom":false,'
             f'"members":[{utc},{{"float":"0843c80000","value":400.0}},"a\\"\\\\/",{{"array":[{{"int":-128}}]}}],"trailer":null}}')
    yield of("each field of a frame", "show", [at_start(frame)], shown)
    block = '"block":0,"appid":"0001","gocbRef":"G"'
    acted = f'"tTime":"1970-01-01T00:00:00.000000Z","tQuality":{NO_QUALITY},"delay":1700000000000000,"stNum":1,"sqNum":0,"members":[true]}}'
    yield of("an act, and its expiry", "replay", [at_start(WORKED), "C 1700000002000000"],
             f'{{"line":2,{AT},"kind":"act",{block},"t":"0000000000000000",{acted}',
             f'{{"line":3,"microseconds":1700000002000000,"time":"2023-11-14T22:13:22.000000Z","kind":"expired",{block}}}')
    late = with_fields(t=b"\x84\x08" + bytes.fromhex("6553f10000008600"))
    yield of("t is later than the event", "replay", [at_start(late)],
             f'{{"line":2,{AT},"kind":"act",{block},"t":"6553f10000008600","tTime":"2023-11-14T22:13:20.000007Z",'
             f'"tQuality":{NO_QUALITY},"delay":-7,"stNum":1,"sqNum":0,"members":[true]}}')
    yield of("a sample", "watch", [at_start(SAMPLED), "C 253402300800000000"], f'{{"line":2,{AT},"kind":"first","asdu":0,"smpCnt":3998}}')
    yield of("a time that has no date", "show", ["C 253402300800000000"],
             '{"line":2,"microseconds":253402300800000000,"time":null,"kind":"clock"}')
    yield of("a block, a stream and the error of the list", "blocks", [at_start(WORKED), at_start(SAMPLED), "X"],
             f'{{"line":2,{AT},"kind":"block","text":"0001,G,D,,1,1","appid":"0001","gocbRef":"G","datSet":"D","goID":null,"confRev":1,"entries":1}}',
             f'{{"line":3,{AT},"kind":"stream","confRev":1,"svID":"S"}}', '{"line":4,"kind":"list","error":"LineForm"}', status=3)
    yield of("an error and a note", "check", [at_start(WORKED[:12]), at_start(WORKED[:-1] + b"\1")],
             f'{{"line":2,{AT},"kind":"fault","offset":12,"error":"Truncated"}}',
             f'{{"line":3,{AT},"kind":"not-written"}}', status=1)
    yield Case("a block given twice", ["replay", JSON, BLOCK, "ABCD,G,D,,1,1", "abcd,G,D,,1,1"], b"X\n",
               b'{"kind":"blocks","block":2,"appid":"abcd","gocbRef":"G","error":"SameBlockTwice"}\n', 3)
    yield Case("a capture that is cut off", ["show", "--capture", JSON], section() + interface() + packet(1700000000000000, b"") + b"\6",
               f'{{"packet":1,{AT},"kind":"clock"}}\n{{"packet":2,"kind":"capture","error":"CaptureShort"}}\n'.encode(), 3)
    yield Case("the error of a header", ["show", "--capture", JSON], b"abcd", b'{"packet":0,"kind":"capture","error":"CaptureHeader"}\n', 3)


# ---- Beside the slow programs ------------------------------------------------


def floats(chance):
    """Floating-point numbers of both widths, at borders and by chance, and of other forms."""
    for first, form, mantissa in ((8, ">I", 23), (11, ">Q", 52)):
        bits = 8 * struct.calcsize(form)
        greatest, sign = 2**(bits - 1) - 1, 2**(bits - 1)
        infinity = greatest >> mantissa << mantissa
        borders = [at + step for at in (0, 2**mantissa, infinity, greatest) for step in (-2, -1, 0, 1, 2) if 0 <= at + step <= greatest]
        near_ten = [struct.unpack(form, struct.pack({8: ">f", 11: ">d"}[first], 10.0**at))[0] + step for at in range(-37, 38) for step in (-1, 0, 1)]
        drawn = [chance.getrandbits(bits - 1) for _ in range(NUMBERS)]
        for at in (*borders, *near_ten, *drawn):
            yield bytes([first]) + struct.pack(form, at)
            yield bytes([first]) + struct.pack(form, sign + at)
        for whole in (1, 3, 10, 123456, 2**24, 2**24 + 1, 2**53 - 1):
            yield bytes([first]) + struct.pack({8: ">f", 11: ">d"}[first], whole / chance.choice([1, 8, 10, 100]))
    yield from (bytes([first, *octets]) for first in (0, 7, 8, 9, 10, 11, 12, 255) for octets in (b"", b"\0\0\0\0", b"\1" * 8, b"\x7f" * 15))


def of_floats(chance):
    """A list of frames of these, ten a frame."""
    made = [element(0x87, octets) for octets in floats(chance)]
    return b"V2\n" + b"".join(line(7, with_members(b"".join(made[at:at + 10]), len(made[at:at + 10]))) for at in range(0, len(made), 10))


def commands(*options):
    """The words of each command with these options."""
    return [asking(command, *options) for command in ASKED]


def beside():
    for name, octets, options in inputs():
        yield Read(name, octets, *commands(JSON, *options))
    chance = random.Random(SEED)
    yield Read("floating-point numbers", of_floats(chance), ["show", JSON], ["replay", JSON, "0001,G,D,,1,10"])
    for at in range(10):
        yield Read(f"blocks by chance, {at}", some_blocks(chance, 60), ["blocks", JSON], ["replay", JSON, BLOCK])
    yield Read("three blocks", replaying.some_list(chance, 3000), ["replay", JSON, *BLOCKS])
    odd = 'ABCD,a"b\\/,D,,1,1'
    frames = [put(state(at, 0, gocb_ref=element(0x80, b'a"b\\/')), at14=0xAB, at15=0xCD) for at in (1, 2)]
    yield Read("a gocbRef with a quote", listed(*frames), ["replay", JSON, odd, BLOCK], ["blocks", JSON], ["show", JSON])
    yield Read("options in another order, and an end of options", listed(WORKED), ["replay", JSON, "--skip-other", "--", BLOCK],
               ["replay", "--skip-other", JSON, BLOCK], ["watch", "--id", "S", JSON, "--period", "4000"])


# ---- Beside other readers ----------------------------------------------------


def without_added(value):
    """A value without the names that --json adds."""
    if isinstance(value, list):
        return [without_added(it) for it in value]
    if not isinstance(value, dict):
        return value
    added = set().union(*(names for where, names in ADDED.items() if where in value))
    return {name: without_added(it) for name, it in value.items() if name not in added}


def some_list(chance):
    """A list of one of several kinds."""
    kind = chance.randrange(6)
    if kind < 2:
        made = (by_chance.goose, by_chance.sampled)[kind]
        return b"V2\n" + b"".join(line(chance.randrange(chance.choice([10**15, LAST_MOMENT]) + 1), made(chance)) for _ in range(chance.randrange(8)))
    if kind == 2:
        return watching.some_list(chance, 4000, 12)
    return some_blocks(chance, 12) if kind == 3 else replaying.some_list(chance, 20)


class BesideTool:
    """The objects are those that `tools/to_json` writes of the text and the list, but for the names that are added."""

    name = f"beside tools/to_json: the examples, and {LISTS} lists by chance"

    def why_wrong(self, program):
        chance, why = random.Random(SEED), []
        for example in sorted(EXAMPLES.glob("*.list")):
            for command in KNOWN:
                why += self.why_list_wrong(program, command, example.read_bytes(), example.name)
        for at in range(LISTS):
            why += self.why_list_wrong(program, KNOWN[at % len(KNOWN)], some_list(chance), f"list {at}")
            if len(why) > 3:
                break
        return why

    def why_list_wrong(self, program, command, octets, name):
        wrote, objects = (run(program, asking(command, *options), octets)[0] for options in ((), (JSON,)))
        with tempfile.NamedTemporaryFile() as recorded:
            recorded.write(octets)
            recorded.flush()
            times = module("lists").Times(recorded.name)
            wanted = [json.dumps(it) for it in module("output").records(wrote.decode("ascii").splitlines(), times)]
        got = [json.dumps(without_added(json.loads(it))) for it in objects.splitlines()]
        return [f"{name}, {command}: wanted {a}, got {b}" for a, b in itertools.zip_longest(wanted, got) if a != b][:1]


class Told:
    """The table of docs/FORMATS.md has the names of each object in their order."""

    name = "the names of objects in docs/FORMATS.md"

    def why_wrong(self, program):
        table = (TOP / "docs" / "FORMATS.md").read_text().partition("\n## What `--json` writes\n")[2].partition("\n## ")[0]
        rows = {words: re.findall(r'"(\w+)":', forms) for words, forms in re.findall(r"(?m)^\| (.*?) \| (.*) \|$", table)}
        told = {kind: names for words, names in rows.items() for kind in re.findall(r"`([\w-]+)`", words)}
        told.update({"clock": [], "mode": rows["a mode"], **dict.fromkeys(("not-written", "destination", "not-subscribed", "sampled"), [])})
        of_lost = dict(told)
        told.update(dict.fromkeys(("first", "next", "same", "late", "out-of-range"), told["watch"][:2]), skipped=told["watch"])
        seen, why = set(), []
        for name, command, it in self.objects(program):
            kind = it["kind"]
            seen.add(kind)
            names = [it for it in it if it not in ("line", "packet", "microseconds", "time", "kind")]
            is_lost = command == "losses" and "appid" in it
            wanted = self.whose(it, told["losses"]) + of_lost[kind] if is_lost else told.get(kind, ["error"])
            why += [f"{name}: {kind} has {names}"] if names != wanted else []
            for inside, row in self.inside(it):
                why += [f"{name}: {row} has {list(inside)}"] if list(inside) != rows[row] else []
        return why[:3] or [f"no object is {it}" for it in sorted(set(told) - seen - {"watch", "blocks", "losses"})]

    def objects(self, program):
        """The objects of each input by each command, and of a file whose blocks are all replayed."""
        for name, octets, options in (*inputs(), ("losses", losses.of(*losses.recorded()), ())):
            for command in ASKED:
                for line in run(program, asking(command, JSON, *options), octets)[0].splitlines():
                    yield name, command, json.loads(line)
        with tempfile.NamedTemporaryFile() as file:
            file.write(listed(WORKED))
            file.flush()
            for line in run(program, ["replay", "-r", file.name, JSON], b"")[0].splitlines():
                yield "a file", "replay", json.loads(line)

    @staticmethod
    def whose(it, names):
        """The names of a sender, or of a stream."""
        return names[:3] if "gocbRef" in it else names[3:]

    @staticmethod
    def inside(it):
        """The objects in an object, and their rows."""
        yield from ((asdu, "an ASDU") for asdu in it.get("asdus", []) if asdu["refrTm"])
        yield from ((it[name], "a quality") for name in ("tQuality",) if name in it)


class AsRows:
    """`tools/to_csv` makes the same rows of the objects as of the text and its list, but for the columns that objects alone fill."""

    name = "rows of objects, and rows of text"
    columns = [it for it in COLUMNS if it not in (
        "appid", "gocbRef", "datSet", "goID", "confRev", "members", "asdus", "tQuality", "delay", "entries")]

    def why_wrong(self, program):
        why = []
        for example in sorted(EXAMPLES.glob("*.list")):
            for command in ("show", "replay", "watch"):
                wrote, objects = (run(program, asking(command, *options), example.read_bytes())[0] for options in ((), (JSON,)))
                chosen = ["--columns", ",".join(self.columns)]
                rows = [ask(program, "to_csv", words, given) for words, given in (([*chosen, str(example)], wrote), (chosen, objects))]
                why += [f"{example.name}, {command}: {it}" for it in [first_difference(*(it[0] for it in rows))] if it]
                why += [f"{example.name}, {command}: status {it[1:]}" for it in rows if it[1:] != (b"", 0)]
        return why[:3]


def asks(program, octets, options):
    """The words of each command, and those of a replay by the blocks that are seen."""
    yield from (asking(command, JSON, *options) for command in ASKED)
    seen = map(json.loads, run(program, ["blocks", *options, JSON], octets)[0].splitlines())
    blocks = [it["text"] for it in seen if it["kind"] == "block" and it["text"].count(",") == 5]
    if blocks:
        yield ["replay", *options, JSON, *blocks]


class OncePerName:
    """Python reads one object of each line, in ASCII and without a space between its parts, which has each name once."""

    name = "each line is an object with each name once"

    def why_wrong(self, program):
        return [f"{name}, {asked}: {why}" for name, octets, options in inputs() for asked in asks(program, octets, options)
                for why in self.why_text_wrong(run(program, asked, octets)[0])]

    def why_text_wrong(self, wrote):
        twice = []

        def of_pairs(pairs):
            names = [name for name, _ in pairs]
            twice.extend(name for name in names if names.count(name) > 1)
            return dict(pairs)

        for octets in wrote.splitlines():
            is_object = isinstance(json.loads(octets.decode("ascii"), object_pairs_hook=of_pairs), dict)
            rest = TOKEN.sub(b"", octets)
            if not is_object or twice or re.search(rb"[^\[\]{},:a-z]", rest):
                yield f"twice {twice}: {clipped(octets)}"
                return


class Exact:
    """Python reads each number of 64 bits whole."""

    name = "numbers of 64 bits"
    signed = (-2**63, 1 - 2**63, -2**53 - 1, -1, 0, 2**53 + 1, 2**63 - 1)
    unsigned = (0, 2**53 + 1, 2**63 - 1, 2**63, 2**64 - 1)

    def why_wrong(self, program):
        whole = [(0x85, "int", it) for it in self.signed] + [(0x86, "uint", it) for it in self.unsigned]
        members = b"".join(element(tag, it.to_bytes(max(it, ~it).bit_length() // 8 + 1, "big", signed=True)) for tag, _, it in whole)
        wrote = run(program, ["show", JSON], b"V2\n" + line(LAST_MOMENT, with_members(members, len(whole))))[0]
        got = json.loads(wrote)
        wanted = {"microseconds": LAST_MOMENT, "members": [{name: it} for _, name, it in whole]}
        return [f"{name}: wanted {it}, got {got[name]}" for name, it in wanted.items() if got[name] != it]


class Queried:
    """`jq -c .` writes them as they are, but for numbers, which are the same as far as a binary64 tells."""

    name = "jq writes what it reads"

    def why_wrong(self, program):
        if not shutil.which("jq"):
            raise Skipped("there is no jq: run tests/get_tools")
        for name, octets, options in inputs():
            wrote = b"".join(run(program, asked, octets)[0] for asked in asks(program, octets, options))
            read = subprocess.run(["jq", "-c", "."], input=wrote, stdout=subprocess.PIPE, stderr=subprocess.PIPE, timeout=SECONDS)
            why = first_difference(*(TOKEN.sub(plain_number, it) for it in (wrote, read.stdout)))
            if why or read.returncode:
                return [f"{name}: {why}: {read.stderr!r}"]
        return []


def plain_number(token):
    """A number as a binary64; a text as it is."""
    return token[0] if token[0].startswith(b'"') else repr(float(token[0])).encode()


# ---- Words, live, failing ----------------------------------------------------


def words():
    for asked in (["rewrite", JSON], ["publish", JSON], ["import", JSON], ["show", JSON, JSON], [JSON, "show"], ["show", f"{JSON}=x"],
                  ["show", JSON, TIME], ["replay", TIME, "--capture", JSON, BLOCK]):
        yield Case(f"refuses {asked}", asked, b"C 1\n", b"", 2, [b"error: "])


def streams():
    lines = [b"V2\n", line(7, state(1, 0)), line(8, state(1, 1)), b"C 2000008\n"]
    block, quality = b'"block":0,"appid":"0001","gocbRef":"G"', NO_QUALITY.encode()
    head = b'{"line":%d,"microseconds":%d,"time":"1970-01-01T00:00:0%d.%06dZ","kind":"%s",' + block
    act = (b',"t":"0000000000000000","tTime":"1970-01-01T00:00:00.000000Z","tQuality":' + quality
           + b',"delay":7,"stNum":1,"sqNum":0,"members":[true]}\n')
    shown = [b"", head % (2, 7, 0, 7, b"act") + act, head % (3, 8, 0, 8, b"refreshed") + b',"stNum":1,"sqNum":1}\n',
             head % (4, 2000008, 2, 8, b"expired") + b"}\n"]
    yield InTurn("each line is answered before the next", ["replay", JSON, BLOCK], list(zip(lines, shown)))
    start = section() + interface()
    few = start + packet(1, WORKED) + packet(2, b"\1") + packet(3, SAMPLED)
    for form, made in itertools.islice(FORMS.items(), 0, None, 5):
        yield FailsAtEach(form, made, JSON)
    for command in ASKED:
        asked = capturing(command, JSON)
        yield WritesAtMost(command, "pcapng", lambda: few, JSON)
        yield DoesNotGrow(f"a capture under {' '.join(asked[:3])}", asked, packet(1, WORKED), start)
        yield WantsMemory(asked, few + b"X", f"{command}, in objects")


def cases():
    yield from (*worked(), *beside(), BesideTool(), Told(), AsRows(), OncePerName(), Exact(), Queried(), *words(), *streams())
