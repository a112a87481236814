"""What standard error says of an input that ends a run, against the tables of docs/FORMATS.md: each cause of lists, scripts and
captures, what to do about what the input shows, which field of a control block is wrong, and what is awaited on a
terminal. The tables say what the sources say, and what the errors of the crates display."""
import contextlib
import os
import pathlib
import re

from helpers.capture_parts import custom, header, interface, packet, record, section
from helpers.captured import ASKED, asking, capturing
from helpers.frames import WORKED, put
from helpers.harness import Case, Pieces, clipped, cut, descriptor, listed, run
from themes.devices import CHANGE, SCRIPT, WORDS, words

TOP = pathlib.Path(__file__).resolve().parent.parent.parent
FORMATS = (TOP / "docs" / "FORMATS.md").read_text()
CRATES = TOP / "crates"
# The files in which an error has a sentence for each name, and how a name stands in the table.
ERRORS = {
    "list_core/src/list_fault.rt": ("ListCause", "list"), "script_core/src/script.rt": ("ScriptCause", "script"),
    "capture_core/src/capture_fault.rt": ("CaptureCause", "capture"), "subscribe_core/src/fault.rt": ("SubscribeFault", "blocks"),
    "block_core/src/block_text.rt": ("BlockError", "blocks"),
}
# What callers of the crates are told, where the program has words of its own.
OWN = {"BlockForm": "a block is APPID,gocbRef,datSet,goID,confRev,entries, as 0001,IED1LD/LLN0$GO$gcb,IED1LD/LLN0$ds,,1,2"}
# No text ends with status 3 by these: statuses 4 and 5 have texts of their own.
UNTOLD = {("list", "ReadFailed"), ("script", "ReadFailed"), ("capture", "ReadFailed"), ("blocks", "Memory")}


def tables():
    """The rows of both tables, each by its first cell."""
    part = FORMATS.split("\n## Messages\n")[1]
    part = part.replace("\\|", "/pipe/")
    found = [dict(re.findall(r"(?m)^\| (.*?) \| (.*) \|$", table)) for table in re.split(r"\n\| \w+.* \| Says \|\n\|-.*\n", part)[1:]]
    return [{cell: text.replace("/pipe/", "|") for cell, text in rows.items()} for rows in found]


SAYS, ADVICE = tables()


def said(name, sort):
    """The sentence of a name, in a list or a script where it has two."""
    return OWN.get(name) if sort == "blocks" and name in OWN else SAYS.get(f"{name}, in a {sort}", SAYS.get(name))


class Displayed:
    """The sentence with which an error is displayed is that of the table."""

    def __init__(self, file, enum, sort):
        self.name, self.sort = f"the sentences of {enum}", sort
        source = (CRATES / file).read_text()
        body = re.search(rf"pub enum {enum} \{{\n(.*?)\n\}}", source, re.DOTALL)[1]
        self.shown = dict((name, text) for text, name in re.findall(r'#\[error\("(.*?)"\)\]\n    (\w+)', body))

    def why_wrong(self, _program):
        why = [] if self.shown else ["no sentence was found"]
        for name, text in self.shown.items():
            if (self.sort, name) not in UNTOLD:
                wanted = re.sub("NAME at offset OFFSET|(?<=block )B\\b", "{0}", said(name, self.sort) or "")
                why += [] if text == wanted else [f"{name} is displayed as {text!r}, and the table has {wanted!r}"]
        return why


class Tabled:
    """The advice of the program is that of the table and no other, and its other sentences are those of the errors."""

    name = "the advice of the program is that of docs/FORMATS.md"

    def why_wrong(self, _program):
        stop, told = (CRATES / "task_engine/src/stop.rt").read_text(), (CRATES / "goose/src/messages/advice.rt").read_text()
        advised = {text.replace("\\\\", "\\") for text in re.findall(r'(?s)Advice::\w+ =>\s*(?:\{\s*)?"(.*?)"', told)}
        own = [text for text in SAYS.values() if text in stop]
        return ([f"not alike: {sorted(advised ^ set(ADVICE.values()))}"] if advised != set(ADVICE.values()) else []) + (
            [f"sentences of errors stand in stop.rt: {own}"] if own else [])


class Says(Case):
    """Input that ends the run with status 3: the last line of the text tells the place and the name, and standard error has
    the sentence of that name, and behind it what to do, in these lines and no others."""

    def __init__(self, name, asked, stdin, last, sentence, advice=None, first=""):
        super().__init__(name, asked, stdin)
        self.last, self.sentence, self.advice, self.first = last, sentence, advice, first

    def why_wrong(self, program):
        wrote, complained, status = self.run(program)
        wanted = f"{self.first}goose {self.words[0]}: {self.sentence}\n" + (f"{ADVICE[self.advice]}\n" if self.advice else "")
        why = [] if status == 3 else [f"ended with status {status}"]
        why += [] if wrote.endswith(f"{self.last}\n".encode()) else [f"wrote at last {wrote[-80:]!r}"]
        return why + ([] if complained == wanted.encode() else [f"said {clipped(complained)!r}, and not {wanted!r}"])


def of_list(command, number, name, stdin, advice, what):
    """A list that ends a command."""
    mark, sort = {"rewrite": ("# ", "list"), "publish": ("# ", "script")}.get(command, ("", "list"))
    sentence = f"line {number}: {name}: {said(name, sort)}"
    return Says(f"{command}: {what}", words(command), stdin, f"{mark}{number} {sort} {name}", sentence, advice)


FORM, OTHER = "has another unrecognised line, in a list", "has another unrecognised line, in a script"
FRAME = f"F 0 {WORKED.hex()}\n".encode()


def lists():
    for command in ("show", "check", "rewrite", "blocks", "replay", "watch"):
        yield of_list(command, 3, "LineForm", FRAME * 2 + b"X\n", FORM, "an unrecognised line")
    yield of_list("show", 1, "LineTooLong", b"#" * 4097, None, "a line that is too long")
    yield of_list("show", 2, "Moment", b"\nC 1.5\n", None, "a moment with a point")
    yield of_list("show", 1, "Hex", b"F 0 0g\n", None, "octets that are none")
    yield of_list("show", 1000001, "ListTooLong", b"\n" * 1000001, None, "a list that is too long")
    for size in (1000, 4095, 8192, 65536, 73727, 73728, 200000):
        before = b"#" * 62 + b"\n"
        yield of_list("show", size // 63 + 1, "LineForm", before * (size // 63) + b"C\t0\n" + FRAME * 400, "has a tab, in a list",
                      f"a tab behind {size} octets")
    yield of_list("show", 80001, "LineForm", b"\n" * 80000 + b"C\t0\n", "has a tab, in a list", "a tab behind 80,000 empty lines")
    parted = b"".join((before * 1000, b"C\t", b"0" * 4000, b"\n", FRAME * 400))
    yield of_list("show", 1001, "LineForm", parted, "has a tab, in a list", "a tab in a line that two reads give")


def shown_by_octets():
    """What the input tells."""
    mark, wide = b"\xef\xbb\xbfV2\n", "V2\nC 0\n".encode("utf-16")
    yield of_list("show", 1, "LineForm", mark, "begins with the byte order mark of UTF-8", "a byte order mark")
    yield of_list("show", 1, "LineForm", wide, "begins with a byte order mark of UTF-16", "UTF-16")
    yield of_list("show", 1, "LineForm", b"V2\rC 0\rC 1\r", "has a CR inside the line", "CR alone")
    yield of_list("show", 1, "LineTooLong", b"C 0\r" * 2000, "has a CR inside the line", "a long list with CR alone")
    yield of_list("show", 2, "LineForm", b"V2\nC\t0\n", "has a tab, in a list", "a tab")
    yield of_list("show", 1, "Moment", b"C 0\t\n", "has a tab, in a list", "a tab at the end")
    yield of_list("show", 1, "LineForm", b"C 0 \r\n", "has a space at the end of the line", "a space at the end")
    yield of_list("show", 3, "LineForm", b"V2\nC 0\nV2\r\n", "has a line `V2` that is not the first", "a second version")
    apart = "has more than digits in the octets of a frame, as spaces, colons or hyphens between them"
    yield of_list("show", 1, "LineForm", b"F 0 01 0c cd\n", apart, "spaces between octets")
    yield of_list("show", 1, "LineForm", b"F 0 01 0c\n", apart, "one space between octets")
    yield of_list("show", 1, "Hex", b"F 0 01:0c:cd\n", apart, "colons between octets")
    yield of_list("show", 1, "Hex", b"F 0 01-0c-cd\n", apart, "hyphens between octets")
    yield of_list("show", 1, "Moment", b"F 2023-11-14T22:13:20Z 00\n", None, "a date as the time of a frame")
    yield of_list("show", 1, "Moment", b"F -1 00\n", None, "a time below zero")
    yield of_list("show", 1, "LineForm", b"F  0 00\n", FORM, "two spaces before a time")
    yield of_list("show", 1, "LineForm", SCRIPT, "is a script, and the command is not `publish`", "a script")
    for line in (FRAME, b"C 0\n", b"M 0 on\n"):
        yield of_list("publish", 1, "ScriptForm", line, "is a list, and the command is `publish`", f"a list that begins with {line[:3]!r}")
    pcapng = (TOP / "examples" / "two_frames.pcapng").read_bytes()
    yield Says("import of pcapng", ["import"], pcapng, "# 0 capture CaptureHeader",
               f"header: CaptureHeader: {SAYS['CaptureHeader']}", "begins as a pcapng capture, and the command does not")
    forms = {f"classic capture, {order} {magic:x}": header(order, magic) + record(1, 2, WORKED, order)
             for order in ("little", "big") for magic in (0xA1B2C3D4, 0xA1B23C4D)}
    for what, octets in {"pcapng": pcapng, **forms}.items():
        # Behind the LF with which it begins a pcapng capture has a line of two CRs, and a classic one its first zero.
        number = 2 if what == "pcapng" else octets.count(b"\n", 0, octets.find(b"\0")) + 1
        for command in ASKED:
            yield of_list(command, number, "LineForm", octets, "begins as a capture, and the command takes `--capture`", what)
        advice = ("begins as a pcapng capture, and the command does not" if what == "pcapng"
                  else "begins as a libpcap capture, and the command is `rewrite` or `publish`")
        yield of_list("rewrite", number, "LineForm", octets, advice, what)
        yield of_list("publish", number, "ScriptForm", octets, advice, what)


def compressed():
    """Files that are compressed, under commands that read a list, a script and a capture. The system's tools would write these
    first octets; what follows is not read."""
    for how, head in (("gzip", "1f8b0800"), ("xz", "fd377a585a00"), ("zstd", "28b52ffd"), ("bzip2", "425a6839")):
        octets = bytes.fromhex(head) + b"\t\r \n"
        yield of_list("show", 1, "LineForm", octets, f"is compressed by {how}", f"a list in {how}")
        yield of_list("publish", 1, "ScriptForm", octets, f"is compressed by {how}", f"a script in {how}")
        for asked, last in ((["import"], "# 0 capture CaptureHeader"), (capturing("replay"), "0 capture CaptureHeader")):
            yield Says(f"{asked[0]}: a capture in {how}", asked, octets + b"\0" * 24, last,
                       f"header: CaptureHeader: {SAYS['CaptureHeader']}", f"is compressed by {how}")
    yield of_list("show", 1, "LineForm", b"\x1f\t\n", "has a tab, in a list", "a first octet of gzip alone")


# How much a reader of lines holds, and how much a read of the system asks for.
HELD, BLOCK = 8192, 65536


def advice_on(line, is_list=True):
    """Which advice a line without its LF gets whose form is wrong, as FORMATS says it; of a long one its front is looked at."""
    shown = line[:4097].removesuffix(b"\r")
    if b"\r" in shown:
        return "has a CR inside the line"
    if len(line) > 4096:
        return None
    for is_so, advice in ((is_list and b"\t" in shown, "has a tab, in a list"), (shown.endswith(b" "), "has a space at the end of the line"),
                          (shown == b"V2", "has a line `V2` that is not the first"),
                          (is_list and shown.startswith(b"control,"), "is a script, and the command is not `publish`"),
                          (not is_list and shown[:2] in (b"F ", b"C ", b"M "), "is a list, and the command is `publish`")):
        if is_so:
            return advice
    return FORM if is_list else OTHER


class Fed(Pieces):
    """Pieces, of which the last ones may come when the program has ended."""

    def feed(self, pipe):
        with contextlib.suppress(BrokenPipeError):
            super().feed(pipe)


class At:
    """An input whose first error is in a line that begins behind so many octets, from a file and in pieces through a pipe: what
    is said is what FORMATS says of that line."""

    def __init__(self, line, start, more=b"", command="show", pieces=0):
        self.line, self.start, self.more, self.command, self.pieces = line, start, more, command, pieces
        end, place = f" in pieces of {pieces}" if pieces else "", f" with a CR at {line.find(13)}" if 13 in line else ""
        self.name = f"{command}: {clipped(line[:20])!r} of {len(line)} octets{place} behind {start}, before {len(more)}{end}"

    def before(self):
        """Comments of 64 octets, an empty line after another to fill them up."""
        return (b"#" * 63 + b"\n") * (self.start // 64) + b"\n" * (self.start % 64)

    def told(self, program, octets):
        if not self.pieces:
            return run(program, words(self.command), octets)
        return Fed(self.name, words(self.command), cut(octets, self.pieces), b"", waits=self.pieces < 64).run(program)

    def why_wrong(self, program):
        before = self.before()
        wrote, complained, status = self.told(program, before + self.line + self.more)
        is_list, number = self.command != "publish", before.count(b"\n") + 1
        sort, cause = ("list", "LineForm") if is_list else ("script", "ScriptForm")
        name = "LineTooLong" if len(self.line) > 4096 else cause
        wanted = f"goose {self.command}: line {number}: {name}: {said(name, sort)}\n"
        advice = advice_on(self.line, is_list)
        wanted += f"{ADVICE[advice]}\n" if advice else ""
        last = f"{'' if is_list else '# '}{number} {sort} {name}\n".encode()
        why = [] if (status, wrote[-len(last):]) == (3, last) else [f"status {status}, wrote at last {clipped(wrote[-80:])!r}"]
        return why + ([] if complained == wanted.encode() else [f"said {clipped(complained)!r}, and not {wanted!r}"])


def places():
    """An error at each place of a read: at its first octet and at its last, in a line that two reads give, in the first line, in
    a later read; and in lines as long as may be and longer."""
    lines = (b"C\t0", b"X", b"X\r", b"X ", b"X Y\rZ", b"X\t\r", b"control,")
    for line in lines:
        yield At(line, 0)
        yield At(line, 0, b"\n" + FRAME)
        for block in (HELD, BLOCK, 2 * BLOCK):
            for start in {block, block - 1, block + 1, block - len(line) // 2, block - len(line), block - len(line) - 1}:
                yield At(line, start, b"\n" + FRAME * 3)
    for line in (b"C 0", b"V2", b"poll", b"step,1", b"X\t"):
        for start in (0, HELD - 1, BLOCK - 1, BLOCK):
            if start or line != b"V2":
                yield At(line, start, b"\n", "publish")
    for size in (4095, 4096, 4097, 4098, HELD - 1, HELD, HELD + 1, 70000):
        for at in sorted({0, 4094, 4095, 4096, 4097, size - 1}):
            if at < size:
                line = b"X" * at + b"\r" + b"X" * (size - at - 1)
                yield At(line, 0, b"\n")
                yield At(line, BLOCK - 5000, b"\n" + FRAME)
        yield At(b"X" * size, BLOCK - 100)
    for pieces in (1, 5, 63, 4096, 5000):
        for line in (b"C\t0", b"X Y\rZ", b"X" * 4096 + b"\rX", b"X" * 4097 + b"\rX"):
            yield At(line, 130, b"\n" + FRAME, pieces=pieces)
    for pieces in (HELD, 10000, BLOCK):
        yield At(b"C\t0", 2 * BLOCK - 2, b"\n" + FRAME, pieces=pieces)


class InParts:
    """A case whose input comes through a pipe: its first octets alone, and the others when the program has taken these."""

    def __init__(self, case, size):
        self.case, self.size, self.name = case, size, f"{case.name}, of which {size} octets come first"

    def why_wrong(self, program):
        octets = self.case.stdin
        self.case.run = Fed(self.name, self.case.words, [octets[:self.size], octets[self.size:]], b"", waits=True).run
        return self.case.why_wrong(program)


def in_parts():
    """What the first octets tell is told also where two reads give them."""
    for case in (*shown_by_octets(), *compressed()):
        yield InParts(case, 2)
    for size in (2, 22):
        yield InParts(OfLink(113, "LINUX_SLL", capturing("blocks")), size)


def passed_before():
    """Frames that were passed over are told of before the error that ended the input."""
    arp = WORKED[:12] + b"\x08\x06" + bytes(46)
    cut_off = header() + record(1, 2, arp) + record(1, 2, WORKED)[:-1]
    for command in ASKED:
        passed = f"goose {command}: passed over: 1 of EtherType 0806 (ARP), from 1 on\n"
        yield Says(f"{command}: an unrecognised line behind frames passed over", asking(command, "--skip-other"), listed(arp, WORKED) + b"X\n",
                   "3 list LineForm", f"line 3: LineForm: {SAYS['LineForm']}", FORM, passed)
        yield Says(f"{command}: a capture that is cut off behind frames passed over", asking(command, "--capture", "--skip-other"), cut_off,
                   "2 capture CaptureShort", f"packet 2: CaptureShort: {SAYS['CaptureShort']}", None, passed)


def failing():
    """Devices that fail: which, and why."""
    read, write = "cannot read: Is a directory", "cannot write: No space left on device"
    yield Fails("blocks --capture of a directory", capturing("blocks"), read, stdin="/")
    yield Fails("show --capture to a full disk", capturing("show"), write, stdin=section() + interface() + packet(1, WORKED), stdout="/dev/full")
    for command in ("show", "publish", "import"):
        yield Fails(f"{command} of a directory", words(command), read, stdin="/")
        yield Fails(f"{command} to a full disk", words(command), write, stdin=FRAME, stdout="/dev/full")
    yield Fails("help to a full disk", ["--help"], write, stdout="/dev/full")
    yield Fails("a directory, to a full disk", ["show"], write, stdin="/", stdout="/dev/full")


class Fails:
    """A read or a write fails: status 4, and standard error says which device and why, in one line."""

    def __init__(self, name, asked, why, stdin=b"", stdout=None):
        self.name, self.asked, self.why, self.stdin, self.stdout = name, asked, why, stdin, stdout

    def why_wrong(self, program):
        with contextlib.ExitStack() as opened:
            how = {"stdout": opened.enter_context(descriptor(self.stdout, os.O_WRONLY))} if self.stdout else {}
            if isinstance(self.stdin, str):
                how["stdin"] = opened.enter_context(descriptor(self.stdin))
                _, complained, status = run(program, self.asked, **how)
            else:
                _, complained, status = run(program, self.asked, self.stdin, **how)
        wanted = f"read or write fault: {self.why}\n".encode()
        return [] if (complained, status) == (wanted, 4) else [f"status {status}, said {complained!r}, and not {wanted!r}"]


def scripts():
    control, change = SCRIPT.split(b"\n")[0] + b"\n", CHANGE
    step = b"step,4,1000\n"
    for what, number, name, stdin, advice in (
        ("an unrecognised line", 3, "ScriptForm", SCRIPT + b"X\n", OTHER),
        ("nothing at all", 1, "ScriptForm", b"", OTHER),
        ("a tab before a number", 2, "ScriptForm", control + b"step,10,\t2000\n", OTHER),
        ("a state 0", 1, "FirstState", control.replace(b",1\n", b",0\n"), None),
        ("a step that waits for nothing", 2, "StepTimes", control + b"step,0,1\n", None),
        ("17 steps", 18, "StepCount", control + step * 17, None),
        ("a moment that is none", 3, "Moment", SCRIPT + b"poll,x\n", None),
        ("a time that is none", 3, "Hex", SCRIPT + b"change,0,00,8301ff\n", None),
        ("two values", 3, "EntriesDiffer", SCRIPT + change.replace(b"8301ff", b"8301ff830100"), None),
        ("too long a state", 3, "WouldNotFit", SCRIPT + b"change,0,0000000000000000,898205b4" + b"00" * 1460 + b"\n", None),
        ("a script that is too long", 1000001, "ListTooLong", b"\n" * 1000001, None),
    ):
        yield of_list("publish", number, name, stdin, advice, what)
    for before in (b"", b"898203e8" + b"00" * 1000):
        offset = str(len(before) // 2 + 1)
        sentence = SAYS["Members"].replace("NAME", "BooleanLength").replace("OFFSET", offset)
        yield Says(f"publish: members with an error at {offset}", ["publish"], SCRIPT + change.replace(b"8301ff", before + b"8302ffff"),
                   f"# 3 script Members {offset} BooleanLength", f"line 3: Members: {sentence}")


def captures():
    good = header() + record(1, 2, WORKED)
    split = "is a capture with a record after the last that is read"
    for what, number, name, stdin in (
        ("another version", 0, "CaptureHeader", header(version=(2, 3))), ("nothing at all", 0, "CaptureShort", b""),
        ("a record that is cut off", 2, "CaptureShort", good + record(1, 2, WORKED)[:-1]),
        ("a record of 262,145 octets", 2, "RecordLength", good + record(1, 2, b"", captured=262145)),
        ("a million records", 1000000, "TooManyRecords", header() + record(1, 2, b"") * 1000000),
    ):
        place = f"record {number}" if number else "header"
        yield Says(f"import: {what}", ["import"], stdin, f"# {number} capture {name}", f"{place}: {name}: {SAYS[name]}",
                   split if name == "TooManyRecords" else None)
    yield from captures_as_they_are()
    twice = ["replay", "0001,G,D,,1,1", "0002,G,D,,1,1", "0001,G,X,,2,2"]
    yield Says("replay: a block given twice", twice, b"", "blocks SameBlockTwice 2",
               f"SameBlockTwice: {SAYS['SameBlockTwice'].replace('block B', 'block 2')}")


def captures_as_they_are():
    """The same with --capture: the place is a packet, and all names are met but TooManyRecords."""
    start, frame = section() + interface(), packet(1, WORKED)
    met = {
        "CaptureHeader": (0, b"abcd"), "CaptureShort": (2, start + frame + frame[:-1]), "BlockLength": (1, start + frame[:-4] + bytes(4)),
        "RecordLength": (3, start + frame * 2 + packet(1, b"", captured=262145)), "BlockForm": (2, start + frame + section(version=(2, 0))),
        "Interface": (1, start + packet(1, WORKED, which=1)), "PacketTime": (1, start + custom() + packet(2**64 - 1, WORKED)),
    }
    for name, (number, stdin) in met.items():
        for command in ASKED:
            place = f"packet {number}" if number else "header"
            yield Says(f"{command} --capture: {name}", capturing(command), stdin, f"{number} capture {name}",
                       f"{place}: {name}: {SAYS[name]}")
    for head in (b"V2\nF 0 010c\n", b"F 0 010c\n", b"C 12\n", b"M 1 on\n", b"# a list\n", b"#\n\nV2\n"):
        yield Says(f"show --capture: a list that begins with {head!r}", capturing("show"), head, "0 capture CaptureHeader",
                   f"header: CaptureHeader: {SAYS['CaptureHeader']}", "begins as a list, and `--capture` is given")
    for link, name in ((113, "LINUX_SLL"), (276, "LINUX_SLL2"), (105, "Wi-Fi"), (127, "Wi-Fi"), (0, ""), (101, ""), (147, ""), (65535, "")):
        for asked in (capturing("blocks"), ["import"]):
            yield OfLink(link, name, asked)


class OfLink(Case):
    """A classic capture that is not of Ethernet: standard error says of which link type it is, by number and usual name."""

    def __init__(self, link, usual, asked):
        mark = "V2\n# " if asked == ["import"] else ""
        said = [b"goose %s: header: CaptureHeader: " % asked[0].encode(), b"\nThe link type is %d" % link, usual.encode(),
                b"and only 1 (Ethernet) is read"]
        super().__init__(f"{asked[0]}: a capture of link type {link}", asked, header(link=link) + record(1, 2, WORKED),
                         f"{mark}0 capture CaptureHeader\n".encode(), 3, said)


class Quiet(Case):
    """A run that ends well says nothing on standard error."""

    def why_wrong(self, program):
        _, complained, status = self.run(program)
        return [] if status in (0, 1) and not complained else [f"ended with status {status}, and said {complained!r}"]


class NeverSeen:
    """A replay of BLOCKs of which no frame came says which, and asks about single quotes where a text has no $. Nothing is said
    where a frame came, if it was refused too."""

    def __init__(self, name, blocks, frames, said):
        self.name, self.blocks, self.frames, self.said = f"replay: {name}", blocks, frames, said

    def why_wrong(self, program):
        _, complained, status = run(program, ["replay", *self.blocks], listed(*self.frames))
        wanted = "".join(f"goose replay: {line}\n" for line in self.said)
        return [] if (complained.decode(), status) == (wanted, 0) else [f"status {status}, said {complained.decode()!r}, and not {wanted!r}"]


def unseen():
    own, other, torn = "0001,G,D,,1,1", "0002,BAY/LLN0$GO$g,D,,1,1", "0002,BAY/LLN0,D,,1,1"
    of = "was never seen: no frame has the APPID and the gocbRef of"
    quotes = ". Is it in single quotes? Otherwise a shell takes words like $GO out of it"
    yield NeverSeen("a block of which a frame came", [own], [WORKED], [])
    yield NeverSeen("a block of which a frame was refused", ["0001,G,D,,2,1"], [WORKED], [])
    yield NeverSeen("a block of which no frame came", [own, other], [WORKED], [f"block 1 {of} {other}"])
    yield NeverSeen("a block without a $, behind the mark", ["--", torn, own], [WORKED], [f"block 0 {of} {torn}{quotes}"])
    yield NeverSeen("no frame at all", [own, other], [], [f"block 0 {of} {own}{quotes}", f"block 1 {of} {other}"])
    many = [f"0001,L$GO${at},D,,1,1" for at in range(20)]
    yield NeverSeen("very many blocks", many, [], [f"block {at} {of} {many[at]}" for at in range(16)] + ["4 more were never seen"])


class WrongField:
    """A text that is no control block: standard error says which field is wrong, what it is and what it must be."""

    def __init__(self, block, said, before=("0001,G,D,,1,1",)):
        self.name, self.block, self.said, self.before = f"no block: {[*before, block]}", block, said, before

    def why_wrong(self, program):
        wrote, complained, status = run(program, ["replay", *self.before, self.block])
        number = len([it for it in self.before if it != "--"])
        wanted = f"block {number} BlockForm\n{self.said}\nA BLOCK is "
        why = [] if (wrote, status) == (b"", 2) else [f"wrote {wrote!r}, status {status}"]
        return why + ([] if complained.decode().startswith(wanted) and complained.count(b"\n") == 3 else [f"said {complained!r}"])


def blocks():
    digits, characters = "4 hexadecimal digits", "characters from space to ~"
    number = "1 to 10 decimal digits, at most 4294967295"
    for block, said in (
        ("", "It has 1 field, and must have 6, divided by commas"), ("0001,G,D,,1", "It has 5 fields, and must have 6"),
        ("0001,G,D,,1,1,1", "It has 7 fields, and must have 6"), ("," * 13, "It has over 13 fields, and must have 6"),
        ("001,G,D,,1,1", f'APPID is "001", and must be {digits}'), ("000g,G,D,,1,x", f'APPID is "000g", and must be {digits}'),
        ("0001,\u00e9,D,,1,1", f'gocbRef is "\u00e9", and must be {characters}'),
        ("0001,G,\t,,1,1", f'datSet is "\\t", and must be {characters}'),
        ("0001,G,D,\x7f,1,1", f'goID is "\\u{{7f}}", and must be {characters}, or empty'),
        ("0001,G,D,,,1", f'confRev is "", and must be {number}'), ("0001,G,D,,4294967296,1", f'confRev is "4294967296", and must be {number}'),
        ("0001,G,D,,1,-1", f'entries is "-1", and must be {number}'), ("0001,G,D,,1,1 ", f'entries is "1 ", and must be {number}'),
    ):
        yield WrongField(block, said)
    for before in ((), ("--",), ("--", "0001,G,D,,1,1"), ("0001,G,D,,1,1", "--"), ("0001,G,D,,1,1", "0002,G,D,,1,1", "--")):
        yield WrongField("1,G,D,,1,1", f'APPID is "1", and must be {digits}', before)
        if "--" in before:
            yield WrongField("--1,G,D,,1,1", f'APPID is "--1", and must be {digits}', before)
            yield WrongField("--json", "It has 1 field, and must have 6, divided by commas", before)


def cases():
    yield Tabled()
    for file, (enum, sort) in ERRORS.items():
        yield Displayed(file, enum, sort)
    yield from (*lists(), *shown_by_octets(), *compressed(), *in_parts(), *places(), *passed_before())
    yield from (*failing(), *scripts(), *captures(), *blocks(), *unseen())
    frames = listed(WORKED, put(WORKED, at66=1))
    for command in ("show", "check", "rewrite", "blocks", *WORDS):
        yield Quiet(f"{command} that ends well says nothing", words(command), frames)
    for command in ASKED:
        octets = header() + record(1, 2, WORKED) + record(1, 2, put(WORKED, at66=1)) + record(3, 4, b"")
        yield Quiet(f"{command} --capture that ends well says nothing", capturing(command), octets)
    yield Quiet("publish that ends well says nothing", ["publish"], SCRIPT + CHANGE)
    yield Quiet("import that ends well says nothing", ["import"], header() + record(1, 2, WORKED))
