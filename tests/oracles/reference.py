"""A slow reader of recorded GOOSE and Sampled Values frames, written from the formats' definitions alone.

It shares nothing with the program: it reads by recursion, keeps whole lists in memory and raises the first fault that
it finds. The tests compare the program with it, line by line. `tests/oracles/reference_program` runs it as a program, so
that the tests themselves can be tried (it takes minutes, and it holds whole inputs, which some themes refuse):

    tests/run --program tests/oracles/reference_program --without streaming
"""
import os
import re
import sys

# What the program reads today. A kind of Data that is not named here is refused by its identifier (UnexpectedTag), and
# the frames of an APDU that is not named here by their EtherType. To widen the tests with the program, add to these two.
KINDS_READ = {
    "array", "structure", "boolean", "bits", "int", "uint", "float", "oct", "visible", "btime", "mms", "utc",
}
APDUS_READ = {"goose", "sv"}

# ISO 9506-2, Data: the identifier of each kind.
KIND_OF = {
    0xA1: "array", 0xA2: "structure", 0x83: "boolean", 0x84: "bits", 0x85: "int", 0x86: "uint",
    0x87: "float", 0x89: "oct", 0x8A: "visible", 0x8C: "btime", 0x90: "mms", 0x91: "utc",
}
IDENTIFIER_OF = {kind: identifier for identifier, kind in KIND_OF.items()}

# A sequence of fields: identifier, name, contents, and whether the field is always there. Contents are named by a word,
# by the counts of octets that they may have, or by the fields of a sequence inside.
ONE, TWO, FOUR, TIME, RAW = (1,), (2,), (4,), (8,), range(1, 17)

# IEC 61850-8-1, IECGoosePdu.
GOOSE_FIELDS = [
    (0x80, "gocb_ref", "text", True),
    (0x81, "live", "number", True),
    (0x82, "dat_set", "text", True),
    (0x83, "go_id", "text", False),
    (0x84, "t", TIME, True),
    (0x85, "st_num", "number", True),
    (0x86, "sq_num", "number", True),
    (0x87, "simulation", "boolean", False),
    (0x88, "conf_rev", "number", True),
    (0x89, "nds_com", "boolean", False),
    (0x8A, "entries", "number", True),
    (0xAB, "members", "members", True),
]

# IEC 61850-9-2, ASDU and savPdu.
ASDU_FIELDS = [
    (0x80, "sv_id", "text", True),
    (0x81, "dat_set", "text", False),
    (0x82, "smp_cnt", TWO, True),
    (0x83, "conf_rev", FOUR, True),
    (0x84, "refr_tm", TIME, False),
    (0x85, "smp_synch", ONE, True),
    (0x86, "smp_rate", TWO, False),
    (0x87, "sample", "any", True),
    (0x88, "smp_mod", RAW, False),
    (0x89, "field_89", RAW, False),
]
ASDU_IDENTIFIER = 0x30
SAMPLED_FIELDS = [
    (0x80, "asdu_count", "asdu count", True),
    (0xA2, "asdus", "asdus", True),
]

# Each EtherType's APDU, by the name that shown lines give it: a region that one element fills.
APDU_OF = {0x88B8: "goose", 0x88BA: "sv"}
APDUS = {
    "goose": [(0x61, "pdu", GOOSE_FIELDS, True)],
    "sv": [(0x60, "pdu", SAMPLED_FIELDS, True)],
}

MOST_FRAME, LEAST_LENGTH, MOST_LENGTH = 1600, 8, 1500
MOST_LINE, MOST_LINES, MOST_LISTED = 4096, 1000000, 2000

# The version of a list: the most digits of its moments, and how many microseconds one of their units is.
VERSIONS = {1: (15, 1000), 2: (18, 1)}

# IEC 61850-8-1 and IEC 61850-9-2: the destinations that each APDU is recommended to be sent to, first and last.
DESTINATIONS = {
    "goose": ("010ccd010000", "010ccd0101ff"),
    "sv": ("010ccd040000", "010ccd0401ff"),
}
GREATEST_NUMBER, MOST_ASDUS = 2**32 - 1, 2**16 - 1
LEVELS = 16


class Fault(Exception):
    """The first fault of a frame: the place that it stands at and its cause."""

    def __init__(self, place, cause):
        super().__init__(place, cause)
        self.place, self.cause = place, cause

    def __str__(self):
        return f"fault {self.place} {self.cause}"


# ---- BER (ISO/IEC 8825-1) ---------------------------------------------------


def is_high(identifier):
    """Whether the low five bits announce a longer identifier (8.1.2.4)."""
    return identifier & 0x1F == 0x1F


def contents(octets, place, end):
    """Where the contents of the element at `place` begin and end (8.1.3)."""
    if place + 1 >= end:
        raise Fault(end, "Ends")
    first = octets[place + 1]
    if first == 0x80:
        raise Fault(place + 1, "Indefinite")
    if first > 0x84:
        raise Fault(place + 1, "LengthForm")
    following = first - 0x80 if first > 0x80 else 0
    start = place + 2 + following
    if start > end:
        raise Fault(end, "Ends")
    size = int.from_bytes(octets[place + 2:start], "big") if following else first
    if size > end - start:
        raise Fault(place + 1, "LengthPastEnd")
    return start, start + size


def whole_number(octets, place, start, end, least, most):
    """An INTEGER of 1 to 9 octets (8.3) from `least` to `most`."""
    if not 1 <= end - start <= 9:
        raise Fault(place + 1, "IntegerLength")
    number = int.from_bytes(octets[start:end], "big", signed=True)
    if not least <= number <= most:
        raise Fault(start, "IntegerRange")
    return number


def boolean(octets, place, start, end):
    """A BOOLEAN (8.2)."""
    if end - start != 1:
        raise Fault(place + 1, "BooleanLength")
    return octets[start] != 0


def bits(octets, start, end):
    """A BIT STRING (8.6) as its count of unused bits and its octets, the unused bits cleared."""
    if start == end or octets[start] > 7 or octets[start] > 0 and end - start == 1:
        raise Fault(start, "BitUnused")
    unused, held = octets[start], bytearray(octets[start + 1:end])
    if held:
        held[-1] &= 0xFF << unused & 0xFF
    return unused, bytes(held)


def visible(octets, start, end):
    """A VisibleString: octets 20 to 7E."""
    for place in range(start, end):
        if not 0x20 <= octets[place] <= 0x7E:
            raise Fault(place, "NotVisible")
    return octets[start:end]


def counted(octets, place, start, end, counts):
    """Raw contents of one of these counts of octets."""
    if end - start not in counts:
        raise Fault(place + 1, "FixedLength")
    return octets[start:end]


# ---- Data (ISO 9506-2) ------------------------------------------------------


def members(octets, place, end, level):
    """The members between two places, as pairs of kind and contents."""
    found = []
    while place < end:
        if level > LEVELS:
            raise Fault(place, "TooDeep")
        if is_high(octets[place]):
            raise Fault(place, "HighTag")
        kind = KIND_OF.get(octets[place])
        if kind not in KINDS_READ:
            raise Fault(place, "UnexpectedTag")
        start, after = contents(octets, place, end)
        found.append((kind, value(octets, kind, place, start, after, level)))
        place = after
    return found


def value(octets, kind, place, start, end, level):
    """The contents of one member."""
    if kind in ("array", "structure"):
        return members(octets, start, end, level + 1)
    if kind == "boolean":
        return boolean(octets, place, start, end)
    if kind == "bits":
        return bits(octets, start, end)
    if kind == "int":
        return whole_number(octets, place, start, end, -(2**63), 2**63 - 1)
    if kind == "uint":
        return whole_number(octets, place, start, end, 0, 2**64 - 1)
    if kind == "visible":
        return visible(octets, start, end)
    counts = {"float": range(1, 17), "btime": (4, 6), "utc": (8,)}.get(kind)
    return counted(octets, place, start, end, counts) if counts else octets[start:end]


# ---- APDUs (IEC 61850-8-1 and IEC 61850-9-2) --------------------------------


def field(octets, contents_of, place, start, end):
    """The contents of one field."""
    if isinstance(contents_of, list):
        return fields(octets, contents_of, start, end)
    if contents_of == "text":
        return visible(octets, start, end)
    if contents_of == "number":
        return whole_number(octets, place, start, end, 0, GREATEST_NUMBER)
    if contents_of == "asdu count":
        return whole_number(octets, place, start, end, 1, MOST_ASDUS)
    if contents_of == "boolean":
        return boolean(octets, place, start, end)
    if contents_of == "members":
        return members(octets, start, end, 1)
    if contents_of == "asdus":
        return asdus(octets, start, end)
    if contents_of == "any":
        return octets[start:end]
    return counted(octets, place, start, end, contents_of)


def fields(octets, table, place, end):
    """The sequence of fields between two places, by name, an absent one as None, and under "at" where each stands."""
    found = {"at": {}}
    for identifier, name, contents_of, is_always in table:
        found[name] = None
        if is_always and place == end:
            raise Fault(end, "ElementMissing")
        if place < end and octets[place] == identifier:
            start, after = contents(octets, place, end)
            found[name] = field(octets, contents_of, place, start, after)
            found["at"][name] = place
            place = after
        elif is_always:
            raise Fault(place, "HighTag" if is_high(octets[place]) else "UnexpectedTag")
    if place < end:
        raise Fault(place, "ExtraOctets")
    return found


def asdus(octets, place, end):
    """The ASDUs between two places."""
    found = []
    while place < end:
        if is_high(octets[place]):
            raise Fault(place, "HighTag")
        if octets[place] != ASDU_IDENTIFIER:
            raise Fault(place, "UnexpectedTag")
        start, after = contents(octets, place, end)
        found.append(fields(octets, ASDU_FIELDS, start, after))
        place = after
    return found


def apdu(octets, name, place, end):
    """The APDU of this name that fills the region, as its fields by name; what it counts is judged last."""
    pdu = fields(octets, APDUS[name], place, end)["pdu"]
    if name == "goose" and pdu["entries"] != len(pdu["members"]):
        raise Fault(pdu["at"]["entries"], "EntryCount")
    if name == "sv" and pdu["asdu_count"] != len(pdu["asdus"]):
        raise Fault(pdu["at"]["asdu_count"], "AsduCount")
    return pdu


# ---- Frames (IEC 61850-8-1, IEC 61850-9-2 and IEEE 802.1Q) ------------------


def number_at(octets, place):
    """Two octets, big-endian."""
    return octets[place] << 8 | octets[place + 1]


def frame(octets):
    """A frame as its fields by name."""
    size = len(octets)

    def needed(count):
        if size < count:
            raise Fault(size, "Truncated")

    if size > MOST_FRAME:
        raise Fault(MOST_FRAME, "FrameTooLong")
    needed(14)
    tag, type_at = None, 12
    if number_at(octets, 12) == 0x8100:
        needed(18)
        tag, type_at = number_at(octets, 14), 16
    name = APDU_OF.get(number_at(octets, type_at))
    if name not in APDUS_READ:
        raise Fault(type_at, "EtherType")
    from_app_id = type_at + 2
    needed(from_app_id + 8)
    length = number_at(octets, from_app_id + 2)
    if not LEAST_LENGTH <= length <= MOST_LENGTH:
        raise Fault(from_app_id + 2, "LengthField")
    needed(from_app_id + length)
    return {
        "destination": octets[:6],
        "source": octets[6:12],
        "tag": tag,
        "name": name,
        "app_id": number_at(octets, from_app_id),
        "reserved1": number_at(octets, from_app_id + 4),
        "reserved2": number_at(octets, from_app_id + 6),
        "apdu": apdu(octets, name, from_app_id + 8, from_app_id + length),
        "trailer": octets[from_app_id + length:],
    }


# ---- The one written form ---------------------------------------------------


def element(identifier, inside):
    """An element with its length in the fewest octets."""
    size = len(inside)
    if size < 0x80:
        return bytes([identifier, size]) + inside
    count = (size.bit_length() + 7) // 8
    return bytes([identifier, 0x80 + count]) + size.to_bytes(count, "big") + inside


def short_number(number):
    """Two's complement in the fewest octets."""
    count = 1
    while not -(1 << 8 * count - 1) <= number < 1 << 8 * count - 1:
        count += 1
    return number.to_bytes(count, "big", signed=True)


def written_value(kind, held):
    """The written form of one member."""
    if kind in ("array", "structure"):
        inside = b"".join(written_value(*it) for it in held)
    elif kind == "boolean":
        inside = b"\xff" if held else b"\x00"
    elif kind == "bits":
        inside = bytes([held[0]]) + held[1]
    elif kind in ("int", "uint"):
        inside = short_number(held)
    else:
        inside = held
    return element(IDENTIFIER_OF[kind], inside)


def written_field(contents_of, held):
    """The written form of a field's contents."""
    if isinstance(contents_of, list):
        return written_fields(contents_of, held)
    if contents_of in ("number", "asdu count"):
        return short_number(held)
    if contents_of == "boolean":
        return b"\xff" if held else b"\x00"
    if contents_of == "members":
        return b"".join(written_value(*it) for it in held)
    if contents_of == "asdus":
        return b"".join(element(ASDU_IDENTIFIER, written_fields(ASDU_FIELDS, it)) for it in held)
    return held


def written_fields(table, found):
    """The written form of a sequence of fields. An absent boolean is false, and is written."""
    inside = b""
    for identifier, name, contents_of, _ in table:
        if found[name] is not None or contents_of == "boolean":
            inside += element(identifier, written_field(contents_of, found[name]))
    return inside


def written_frame(it):
    """The written form of a frame, or None where it is too long."""
    inside = written_fields(APDUS[it["name"]], {"pdu": it["apdu"]})
    length = 8 + len(inside)
    tag = b"" if it["tag"] is None else b"\x81\x00" + it["tag"].to_bytes(2, "big")
    numbers = (it["app_id"], length, it["reserved1"], it["reserved2"])
    if length > MOST_LENGTH:
        return None
    (ether_type,) = (number for number, name in APDU_OF.items() if name == it["name"])
    octets = it["destination"] + it["source"] + tag + ether_type.to_bytes(2, "big")
    octets += b"".join(number.to_bytes(2, "big") for number in numbers) + inside + it["trailer"]
    return octets if len(octets) <= MOST_FRAME else None


# ---- Texts ------------------------------------------------------------------


def quoted(octets):
    """A visible text between double quotes."""
    return '"' + octets.decode("ascii").replace("\\", "\\\\").replace('"', '\\"') + '"'


def value_text(kind, held):
    """The text of one member."""
    if kind in ("array", "structure"):
        inside = " ".join(value_text(*it) for it in held)
        return "[" + inside + "]" if kind == "array" else "(" + inside + ")"
    if kind == "boolean":
        return "true" if held else "false"
    if kind == "bits":
        text = "".join(f"{octet:08b}" for octet in held[1])
        return "bits:" + text[:len(text) - held[0]]
    if kind in ("int", "uint"):
        return f"{kind}:{held}"
    return quoted(held) if kind == "visible" else f"{kind}:{held.hex()}"


def members_text(members):
    """The text of members in braces."""
    return "{" + " ".join(value_text(*member) for member in members) + "}"


def or_dash(held, text):
    """The text of what is there, and a dash for what is not."""
    return "-" if held is None else text(held)


def number_text(octets):
    """Octets as a big-endian number, in decimal."""
    return str(int.from_bytes(octets, "big"))


def goose_text(pdu):
    """The text of an IECGoosePdu."""
    truth = lambda held: "true" if held else "false"
    return " ".join([
        "ref=" + quoted(pdu["gocb_ref"]),
        f"live={pdu['live']}",
        "set=" + quoted(pdu["dat_set"]),
        "id=" + or_dash(pdu["go_id"], quoted),
        "t=" + pdu["t"].hex(),
        f"st={pdu['st_num']}",
        f"sq={pdu['sq_num']}",
        "sim=" + truth(pdu["simulation"]),
        f"rev={pdu['conf_rev']}",
        "com=" + truth(pdu["nds_com"]),
        members_text(pdu["members"]),
    ])


def asdu_text(asdu):
    """The text of an ASDU."""
    return "(" + " ".join([
        "id=" + quoted(asdu["sv_id"]),
        "set=" + or_dash(asdu["dat_set"], quoted),
        "cnt=" + number_text(asdu["smp_cnt"]),
        "rev=" + number_text(asdu["conf_rev"]),
        "t=" + or_dash(asdu["refr_tm"], bytes.hex),
        "synch=" + number_text(asdu["smp_synch"]),
        "rate=" + or_dash(asdu["smp_rate"], number_text),
        "sample=" + asdu["sample"].hex(),
        "mod=" + or_dash(asdu["smp_mod"], bytes.hex),
        "f89=" + or_dash(asdu["field_89"], bytes.hex),
    ]) + ")"


def sampled_text(pdu):
    """The text of a savPdu."""
    return "{" + " ".join(asdu_text(asdu) for asdu in pdu["asdus"]) + "}"


PDU_TEXTS = {"goose": goose_text, "sv": sampled_text}


def frame_text(it):
    """The line that shows a frame, without its number."""
    return " ".join([
        it["name"],
        it["destination"].hex(),
        it["source"].hex(),
        "tag=" + or_dash(it["tag"], "{:04x}".format),
        f"appid={it['app_id']:04x}",
        f"r1={it['reserved1']:04x}",
        f"r2={it['reserved2']:04x}",
        PDU_TEXTS[it["name"]](it["apdu"]),
        "trailer=" + (it["trailer"].hex() or "-"),
    ])


# ---- Recorded lists ---------------------------------------------------------


class ListFault(Exception):
    """The fault that ends a list: the number of its line and its cause."""

    def __init__(self, line, cause):
        super().__init__(line, cause)
        self.line, self.cause = line, cause

    # What is read, as the last line of a text names it.
    sort = "list"

    def status(self):
        """The exit status of a run that it ends."""
        return 4 if self.cause == "ReadFailed" else 3

    def text(self):
        """The last line of the text of a run that it ends."""
        return f"{self.line} {self.sort} {self.cause}"


def moment_of(digits, version):
    """A moment in microseconds, by its digits in a list of this version."""
    most, microseconds = VERSIONS[version]
    if not 1 <= len(digits) <= most or not all(digit in b"0123456789" for digit in digits):
        raise ValueError("Moment")
    return int(digits) * microseconds


def line_event(line, version):
    """The event of a line without its ending, as its sort, its moment in microseconds, and what it holds: the octets
    of a frame, whether a mode is on, nothing of a clock. None where the line has no event."""
    if not line or line[:1] == b"#":
        return None
    fields = line.split(b" ")
    if b"" in fields or (fields[0], len(fields)) not in ((b"F", 3), (b"C", 2), (b"M", 3)):
        raise ValueError("LineForm")
    if fields[0] == b"M" and fields[2] not in (b"on", b"off"):
        raise ValueError("LineForm")
    moment = moment_of(fields[1], version)
    if fields[0] == b"C":
        return "clock", moment, None
    if fields[0] == b"M":
        return "mode", moment, fields[2] == b"on"
    digits = fields[2]
    if not 2 <= len(digits) <= 2 * MOST_LISTED or len(digits) % 2:
        raise ValueError("Hex")
    if not all(digit in b"0123456789abcdefABCDEF" for digit in digits):
        raise ValueError("Hex")
    return "frame", moment, bytes.fromhex(digits.decode("ascii"))


def numbered(octets, has_failed):
    """The lines of an input without their endings, each with its number; a ListFault ends them where there is one."""
    *ended, rest = octets.split(b"\n")
    for number, line in enumerate([*ended, rest], 1):
        is_last = number == len(ended) + 1
        if number > MOST_LINES and (line or not is_last):
            raise ListFault(number, "ListTooLong")
        if len(line) > MOST_LINE:
            raise ListFault(number, "LineTooLong")
        if is_last and has_failed:
            raise ListFault(number, "ReadFailed")
        if line or not is_last:
            yield number, line[:-1] if line[-1:] == b"\r" else line


def events(octets, has_failed):
    """The events of a list with their line numbers; a ListFault ends them where the list has one."""
    version = 1
    for number, line in numbered(octets, has_failed):
        if number == 1 and line == b"V2":
            version = 2
            continue
        try:
            event = line_event(line, version)
        except ValueError as why:
            raise ListFault(number, str(why)) from None
        if event is not None:
            yield number, event


# ---- What the program writes ------------------------------------------------


def mode_text(is_on):
    """The word for a mode."""
    return "on" if is_on else "off"


def shown(sort, moment, held):
    """The line that shows an event, without its number."""
    if sort == "clock":
        return f"clock {moment}"
    if sort == "mode":
        return f"mode {moment} {mode_text(held)}"
    try:
        return frame_text(frame(held))
    except Fault as fault:
        return str(fault)


def notes(sort, held):
    """What is to be noted of an event: nothing of a clock and of a mode."""
    if sort != "frame":
        return []
    try:
        it = frame(held)
    except Fault as fault:
        return [fault]
    first, last = DESTINATIONS[it["name"]]
    is_recommended = first <= it["destination"].hex() <= last
    return ["not-written"] * (written_frame(it) != held) + ["destination"] * (not is_recommended)


def rewritten(sort, moment, held):
    """The line that is written for an event, and whether a frame keeps its own octets."""
    if sort == "clock":
        return f"C {moment}", False
    if sort == "mode":
        return f"M {moment} {mode_text(held)}", False
    try:
        written = written_frame(frame(held))
    except Fault:
        written = None
    return f"F {moment} {(held if written is None else written).hex()}", written is None


def show(octets, has_failed=False, events_of=events):
    """The text of `show` over the events that are read of octets, and the exit status."""
    lines = []
    try:
        for number, event in events_of(octets, has_failed):
            lines.append(f"{number} {shown(*event)}")
    except ListFault as fault:
        return [*lines, fault.text()], fault.status()
    return lines, 0


def check(octets, has_failed=False, events_of=events):
    """The text of `check` over the events that are read of octets, and the exit status."""
    lines = []
    try:
        for number, (sort, _, held) in events_of(octets, has_failed):
            lines += [f"{number} {note}" for note in notes(sort, held)]
    except ListFault as fault:
        return [*lines, fault.text()], fault.status()
    return lines, 1 if lines else 0


def rewrite(octets, has_failed=False):
    """The text of `rewrite` and the exit status."""
    lines, keeps = ["V2"], False
    try:
        for _, event in events(octets, has_failed):
            line, is_kept = rewritten(*event)
            lines.append(line)
            keeps = keeps or is_kept
    except ListFault as fault:
        return [*lines, f"# {fault.text()}"], fault.status()
    return lines, 1 if keeps else 0


COMMANDS = {"show": show, "check": check, "rewrite": rewrite}

# What help says of the program and of each command (docs/FORMATS.md), and the version.
ABOUT = "Reads recorded GOOSE and Sampled Values frames from standard input and tells what they say"
HELP = {
    "show": "Shows each event on one line: every field of a frame, or its first error",
    "check": "Writes a line for each error of a frame, and for each note on a valid one",
    "rewrite": "Writes the list again, each valid frame in its canonical encoding",
    "blocks": "Lists control blocks and streams, and each whose datSet, goID, confRev or size changes",
    "replay": "Shows what a device that subscribes to control blocks does with each frame",
    "publish": "Reads a script and writes the list of frames that a publisher sends",
    "watch": "Shows each sample of one stream, and whether its count is the next one",
    "losses": "Shows what is missing of each control block and stream, and when",
    "import": "Reads a capture (classic libpcap, as tcpdump -w writes) and writes it as a list",
}
# The words behind a command's name, as its help writes them, and what help says of the options.
TAKES = {"show": " [OPTIONS]", "check": " [OPTIONS]", "rewrite": " [OPTIONS]", "blocks": " [OPTIONS]", "replay": " [OPTIONS] [BLOCK]...",
         "publish": " [OPTIONS]", "watch": " [OPTIONS] --period <N> --id <TEXT>", "losses": " [OPTIONS]", "import": " [OPTIONS]"}
READ = "-r, --read <FILE> Reads FILE in place of standard input, which - stands for"


def options_told():
    """What help says of each option of the commands over events, as docs/FORMATS.md has it."""
    with open(os.path.join(os.path.dirname(__file__), "..", "..", "docs", "FORMATS.md"), encoding="utf-8") as formats:
        return dict(re.findall(r"(?m)^\| `(--[\w-]+)` \| (.*?) \|$", formats.read().partition("\n| Option of ")[2].partition("\n\n")[0]))


OPTIONS = options_told()
VERSION = "goose 1.0.0"


# ---- As a program -----------------------------------------------------------

# Python itself does not start with a directory as standard input, so that `tests/oracles/reference_program` hands it on
# as 3.
LIST_DESCRIPTOR = 3


def read_input(descriptor):
    """What is read there, up to the place where every list has ended, and whether reading failed."""
    octets, lines, unfinished = bytearray(), 0, 0
    try:
        while lines <= MOST_LINES and unfinished <= MOST_LINE:
            some = os.read(descriptor, 65536)
            if not some:
                return bytes(octets), False
            octets += some
            lines += some.count(b"\n")
            unfinished = len(octets) - (octets.rfind(b"\n") + 1)
        return bytes(octets), False
    except OSError:
        return bytes(octets), True


def help_of(words):
    """The lines that these words ask for in place of a list, or None."""
    if words in (["-V"], ["--version"]):
        return [VERSION]
    flag = ["-h, --help  Print help"]
    if words in (["-h"], ["--help"]):
        told = [f"{name}  {said}" for name, said in HELP.items()]
        return [ABOUT, "Usage: goose <COMMAND>", *told, *flag, "-V, --version  Print version"]
    if len(words) == 2 and words[0] in HELP and words[1] in ("-h", "--help"):
        return [HELP[words[0]], f"Usage: goose {words[0]}{TAKES.get(words[0], '')}", *flag]
    return None


def refusal(words):
    """Why words are refused, or None."""
    if not words:
        return "'goose' requires a subcommand"
    if any("\udc80" <= letter <= "\udcff" for word in words for letter in word):
        return "no text (UTF-8)"
    name, *more = words
    if name == "--" and more and more[0] in COMMANDS or name not in COMMANDS:
        return f"unexpected '{(more if name == '--' else words)[0]}'"
    more = more[1:] if more[:1] == ["--"] else more
    return f"unexpected '{more[0]}'" if more else None


def main(words):
    status, lines, why = 0, help_of(words), refusal(words)
    if lines is None and why:
        put(2, [f"error: {why}"])
        return 2
    if lines is None:
        lines, status = COMMANDS[words[0]](*read_input(LIST_DESCRIPTOR))
    status = status if put(1, lines) else 4
    if status == 4:
        put(2, ["read or write fault"])
    return status


def put(descriptor, lines):
    """Writes lines, and answers whether they could be written."""
    rest = memoryview("".join(line + "\n" for line in lines).encode("ascii"))
    try:
        while rest:
            rest = rest[os.write(descriptor, rest):]
    except OSError:
        return False
    return True


if __name__ == "__main__":
    sys.exit(main(sys.argv[1:]))
