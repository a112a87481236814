"""Each error that ends a script, at its line, and which of several comes first. Scripts are those of themes/publishing.py."""
from helpers.harness import text
from oracles import publisher
from themes.devices import FAULT, FailsAfter
from themes.publishing import FULL, GREATEST, START, Publishes, change, control, end_script, of_string, poll, script, sent, step
from themes.replaying import state

BAD_ADDRESSES = {"none": b"", "a digit less": b"010ccd01000", "a digit more": b"010ccd0100010", "an octet less": b"010ccd0100",
                 "an octet more": b"010ccd01000102", "another letter": b"010ccd01000g", "colons": b"01:0c:cd:01:",
                 "spaces": b"01 0c cd 01 ", "0x": b"0x010ccd0100"}
BAD_WORDS = {"a digit less": b"001", "a digit more": b"00001", "an octet less": b"01", "an octet more": b"000001",
             "another letter": b"000g", "0x": b"0x01", "a space": b"001 "}
BAD_NUMBERS = {"none": b"", "a plus": b"+1", "a minus": b"-1", "a space": b" 1", "a point": b"1.0", "a letter": b"0x1",
               "the greatest and one": b"4294967296", "ten nines": b"9999999999", "eleven digits": b"00000000001"}
BAD_TEXTS = {"1F": b"G\x1f", "7F": b"\x7fG", "80": b"G\x80G", "a tab": b"\t", "a NUL": b"\0", "a CR": b"\rG"}
BAD_FLAGS = {"none": b"", "two": b"2", "a zero more": b"00", "a word": b"true", "a space": b"1 "}
BAD_FIELDS = {
    **dict.fromkeys(["destination", "source"], BAD_ADDRESSES),
    **dict.fromkeys(["gocb_ref", "dat_set", "go_id"], BAD_TEXTS),
    **dict.fromkeys(["conf_rev", "entries", "first"], BAD_NUMBERS),
    **dict.fromkeys(["simulation", "nds_com"], BAD_FLAGS),
    "tag": BAD_WORDS,
    "app_id": {"none": b"", **BAD_WORDS},
}


def bad_fields():
    """Fields of `control` and `step` lines that are none."""
    for name, bad in BAD_FIELDS.items():
        for how, it in bad.items():
            yield end_script(f"no {name}: {how}", [], control(**{name: it}), "ScriptForm")
    for how, it in BAD_NUMBERS.items():
        yield end_script(f"no WAIT: {how}", START[:1], b"step," + it + b",3000", "ScriptForm")
        yield end_script(f"no LIVE: {how}", START[:1], b"step,1," + it, "ScriptForm")


# What is no line of a script, wherever it stands.
NO_LINES = [
    b"M 0 on", b"F 0 00", b"C 0", b"v2", b"V2 ", b" ", b"\t", b",", b"x", b" # x", b"\xef\xbb\xbf# x", b"\r\r", b"\0", b"\xff",
    b"control", b"step", b"change", b"poll", b"Poll,0", b"POLL,0", b" poll,0", b"poll ,0", b"poll\t0", b"poll 0", b"poll;0",
    b"polls,0", b"poll,0,", b"poll,0,0", b"change,0", b"change,0,0000000000000000", change(0) + b",", b"C" + change(0)[1:],
    b"step,10", b"step,10,2000,", b"step,10,2000,0", b"Step,10,2000", b",step,10,2000",
    control()[:-2], control() + b",", control() + b",0", control()[1:], control().upper(), b" " + control(),
    control().replace(b",", b" "),
]

# Lines that would be good in another place.
WRONG_PLACES = {
    "a second control line": START[:1] * 2,
    "a control line behind a step": [*START, control()],
    "a control line behind a poll": [*START, poll(0), control()],
    "a step first": [step(10, 2000)],
    "a poll first": [poll(0)],
    "a change first": [change(0)],
    "a step behind a poll": [*START, poll(0), step(10, 2000)],
    "a version behind the control line": [*START, b"V2"],
    "a version behind a comment": [b"# x", b"V2"],
    "a version behind an empty line": [b"", b"V2"],
    "a version twice": [b"V2", b"V2"],
}


def bad_lines():
    for at, line in enumerate(NO_LINES):
        for place in range(4):
            yield end_script(f"no line, behind {place}: {at} {line[:20]!r}", [*START[:2], poll(0)][:place], line, "ScriptForm")
    for name, (*before, line) in WRONG_PLACES.items():
        yield end_script(f"a wrong place: {name}", before, line, "ScriptForm")
    before = [*START, change(0)]
    yield end_script("a wrong place: a step behind a change", before, step(10, 2000), "ScriptForm", (0, state(1, 0)))


def each_cause():
    """The other errors: a cause, the lines before, and the line that has it."""
    for first in (b"0", b"0000000000"):
        yield "FirstState", [b"# x"], control(first=first)
    for wait, live in ((0, 1), (0, 0), (0, GREATEST), (1, 1), (10, 9), (10, 10), (10, 0), (GREATEST, GREATEST), (GREATEST, 1)):
        yield "StepTimes", START[:2], step(wait, live)
    yield "StepCount", FULL, step(1, 2)
    yield "StepCount", [*FULL[:5], b"# x", *FULL[5:], b""], step(1, 2)
    yield "StepCount", START[:1], poll(0)
    yield "StepCount", [START[0], b"", b"# x"], change(0)
    for t in (b"", b"0" * 14, b"0" * 15, b"0" * 17, b"0" * 18, b"0" * 15 + b"g", b"0x" + b"0" * 14, b" " + b"0" * 15):
        yield "Hex", [*START, poll(0)], change(0, t=t)
    for given in (b"8", b"8301f", b"8301fg", b"0x8301ff", b"83 01 ff", b" 8301ff", b"8301ff ", b"\xff\xff"):
        yield "Hex", START, change(0, given)
    for given in (b"", b"8301ff8301ff", b"8301ff" * 257, b"a100a100"):
        yield "EntriesDiffer", START, change(0, given)
    for entries in (b"0", b"2", b"257", b"4294967295"):
        yield "EntriesDiffer", [control(entries=entries), START[1]], change(0)
    yield "EntriesDiffer", [control(entries=b"2"), START[1]], change(0, b"a2068301ff8301ff")


BAD_MOMENTS = {"none": b"", "a plus": b"+5", "a minus": b"-5", "a point": b"1.5", "a space": b" 5", "a letter": b"0x5",
               "an exponent": b"1e3", "a full-width digit": "５".encode()}


def bad_moments():
    """Moments that are none in one version or the other."""
    for version, digits in (([], 15), ([b"V2"], 18)):
        for how, moment in {**BAD_MOMENTS, "a zero more": b"0" * (digits + 1), "a digit more": b"1" + b"0" * digits}.items():
            for line in (b"poll,%s" % moment, b"change,%s,0000000000000000,8301ff" % moment):
                yield end_script(f"no moment of {digits} digits: {how}, {line[:4].decode()}", [*version, *START], line, "Moment")


# Members with an error, its offset in them and its name.
BAD_MEMBERS = [
    ("83", 1, "Ends"), ("8301ff83", 4, "Ends"), ("a20183", 3, "Ends"), ("8382", 2, "Ends"),
    ("9f1f00", 0, "HighTag"), ("8301ffbf", 3, "HighTag"), ("8380ff", 1, "Indefinite"),
    ("8385ff", 1, "LengthForm"), ("83ffff", 1, "LengthForm"),
    ("8302ff", 1, "LengthPastEnd"), ("a203830201", 3, "LengthPastEnd"), ("8301ff8302ff", 4, "LengthPastEnd"),
    ("8384ffffffffff", 1, "LengthPastEnd"), ("8500", 1, "IntegerLength"), ("850a00000000000000000001", 1, "IntegerLength"),
    ("8801ff", 0, "UnexpectedTag"), ("00", 0, "UnexpectedTag"), ("a2028000", 2, "UnexpectedTag"),
    ("8302ffff", 1, "BooleanLength"), ("8300", 1, "BooleanLength"), ("8601ff", 2, "IntegerRange"),
    ("8509008000000000000000", 2, "IntegerRange"), ("8609010000000000000000", 2, "IntegerRange"),
    ("8400", 2, "BitUnused"), ("84020800", 2, "BitUnused"), ("840101", 2, "BitUnused"),
    ("8700", 1, "FixedLength"), ("8c03000000", 1, "FixedLength"), ("910700000000000000", 1, "FixedLength"),
    ("8a01418a011f", 5, "NotVisible"), ("8a027e7f", 3, "NotVisible"),
    ("".join(f"a1{size:02x}" for size in range(33, 1, -2)) + "8301ff", 32, "TooDeep"),
]


def causes():
    for at, (cause, before, line) in enumerate(each_cause()):
        yield end_script(f"{cause}: {at} {line[:40]!r}", before, line, cause)
    for given, place, cause in BAD_MEMBERS:
        before, line = [*START, change(0)], change(1, given.encode())
        yield end_script(f"Members: {given[:40]}", before, line, f"Members {place} {cause}", (0, state(1, 0)))


# Lines with two errors or more: the one that counts, the lines before, and the line.
TWO_ERRORS = [
    ("LineTooLong", [], b"X" * 4097),
    ("LineTooLong", START, b"poll," + b"0" * 4092),
    ("ScriptForm", [], control(first=b"0", simulation=b"2")),
    ("ScriptForm", [], control(first=b"0", destination=b"")),
    ("ScriptForm", [], control(first=b"0") + b","),
    ("ScriptForm", START, control(first=b"0")),
    ("ScriptForm", [], step(10, 10)),
    ("ScriptForm", START, b"step,0,x"),
    ("ScriptForm", FULL, b"step,1,"),
    ("ScriptForm", [*FULL, poll(0)], step(0, 0)),
    ("ScriptForm", START[:1], b"poll,0,"),
    ("ScriptForm", START[:1], b"change,0,0000000000000000"),
    ("ScriptForm", [], b"change,x,y,z"),
    ("StepTimes", FULL, step(2, 2)),
    ("StepTimes", FULL, step(0, 2)),
    ("StepCount", START[:1], b"poll,x"),
    ("StepCount", START[:1], b"change,x,y,z"),
    ("StepCount", START[:1], change(0, b"8")),
    ("StepCount", START[:1], change(0, b"83")),
    ("StepCount", START[:1], change(0, b"")),
    ("StepCount", START[:1], change(0, of_string(1500))),
    ("Moment", START, b"change,x,y,z"),
    ("Moment", START, b"change,,0000000000000000,83"),
    ("Moment", START, b"change,-1,0000000000000000,"),
    ("Moment", START, b"change,x,0000000000000000," + of_string(1500)),
    ("Hex", START, change(0, b"83", t=b"0")),
    ("Hex", START, change(0, b"", t=b"0")),
    ("Hex", START, change(0, b"838")),
    ("Hex", START, change(0, of_string(1500) + b"0")),
    ("Members 1 Ends", START, change(0, b"83")),
    ("Members 4 LengthPastEnd", START, change(0, b"8301ff8302ff")),
    ("Members 1505 UnexpectedTag", START, change(0, of_string(1501) + b"00")),
    ("EntriesDiffer", START, change(0, of_string(800) * 2)),
]


def two_errors():
    """Two errors in one line, and in two lines, of which the earlier one counts."""
    for at, (cause, before, line) in enumerate(TWO_ERRORS):
        yield end_script(f"two errors in a line: {at} {line[:40]!r}", before, line, cause)
    bad = {"LineTooLong": b"X" * 4097, "ScriptForm": b"X", "Moment": b"poll,x", "Hex": change(0, b"8"),
           "Members 1 Ends": change(0, b"83"), "EntriesDiffer": change(0, b""), "WouldNotFit": change(0, of_string(1439))}
    for cause, earlier in bad.items():
        for later in bad:
            yield Publishes(f"{cause}, then {later}", script(*START, earlier, bad[later]), sent(fault=f"4 script {cause}"))


# What stands before the line that is missing, and how many lines that is.
EMPTY = {b"": 0, b"\n": 1, b"\r\n": 1, b"\r": 1, b"# x\n": 1, b"# x": 1, b"V2\n": 1, b"V2": 1, b"V2\r\n": 1, b"V2\r": 1,
         b"V2\n# x": 2, b"V2\n# x\n": 2, b"\n\n\n": 3, b"\n" * 1000000: 1000000}


def what_is_missing():
    """Scripts that end without a control line, and without a step: where the next line would come."""
    for octets, count in EMPTY.items():
        missing = sent(fault=f"{count + 1} script ScriptForm")
        yield Publishes(f"no control line behind {len(octets)}: {octets[:8]!r}", octets, missing)
    for before in ([], [b""], [b"# x"], [b"V2"], [b"V2", b"", b"# x"]):
        octets, missing = script(*before, control()), sent(fault=f"{len(before) + 2} script StepCount")
        yield Publishes(f"no step behind {before} and LF", octets, missing)
        yield Publishes(f"no step behind {before} and no LF", octets[:-1], missing)
        yield Publishes(f"no step behind {before} and CR", octets[:-1] + b"\r", missing)
    yield Publishes("no step before a comment", script(control(), b"# x"), sent(fault="3 script StepCount"))


def cuts():
    """A script that ends, and one of which reading fails, behind each octet."""
    octets = b"V2\r\n# x\n" + script(*START[:2], change(0), poll(10000), b"X")
    for size in range(len(octets) + 1):
        yield Publishes(f"cut to {size}", octets[:size])
        wrote, status = publisher.publish(octets[:size], has_failed=True)
        said = FAULT if status == 4 else ()
        yield FailsAfter(f"reading fails behind {size}", ["publish"], octets[:size], text(wrote), status, said)


def cases():
    for made in (bad_fields, bad_lines, causes, bad_moments, two_errors, what_is_missing, cuts):
        yield from made()
