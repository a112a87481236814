"""Lists of both versions, their moments, and modes."""
from helpers.frames import WORKED, WORKED_LINE
from helpers.harness import Case, Pieces, end_list, text

FRAME = WORKED.hex().encode()
MARK = b"\xef\xbb\xbf"


def versions():
    """A first line `V2`, and what else the first line may be."""
    for name, octets in (("LF", b"V2\n"), ("CR and LF", b"V2\r\n"), ("the input's end", b"V2"), ("CR and the input's end", b"V2\r")):
        yield Case(f"V2 before {name} has no event", ["show"], octets)
        yield Case(f"V2 before {name} has no note", ["check"], octets)
        yield Case(f"V2 before {name} is written again", ["rewrite"], octets, b"V2\n")
        if octets.endswith(b"\n"):
            yield Case(f"V2 before {name} counts as a line", ["show"], octets + b"C 7\nC 8", b"2 clock 7\n3 clock 8\n")
            yield Case(f"V2 before {name} has microseconds", ["rewrite"], octets + b"C 7\n", b"V2\nC 7\n")
    yield Case("no version is milliseconds", ["show"], b"C 7\n", b"1 clock 7000\n")
    yield Case("a comment is no version", ["show"], b"#V2\nC 7\n", b"2 clock 7000\n")
    yield Case("an empty list is rewritten as a version", ["rewrite"], b"", b"V2\n")
    yield Case("a list without events is rewritten as a version", ["rewrite"], b"# x\n\r\n\n", b"V2\n")
    yield Case("both versions say one list", ["rewrite"], b"C 7\nM 8 on\nF 9 " + FRAME + b"\n",
               b"V2\nC 7000\nM 8000 on\nF 9000 " + FRAME + b"\n")
    for name, line in (
        ("a space behind", b"V2 "), ("a space before", b" V2"), ("two CR", b"V2\r\r"), ("a small letter", b"v2"),
        ("another version", b"V1"), ("a later version", b"V3"), ("a digit more", b"V22"), ("a digit less", b"V"),
        ("a NUL behind", b"V2\0"), ("a tab behind", b"V2\t"), ("a field behind", b"V2 0"), ("a comment behind", b"V2#"),
        ("a space between", b"V 2"), ("a byte order mark before", MARK + b"V2"), ("a byte order mark behind", b"V2" + MARK),
    ):
        yield end_list(f"no version: {name}", line + b"\nC 7\n", [], "1 list LineForm")
        yield Case(f"no version at the input's end: {name}", ["check"], line, b"1 list LineForm\n", 3)
    yield end_list("a version with too many octets", b"V2" + b" " * 4095 + b"\n", [], "1 list LineTooLong")
    yield end_list("a version twice", b"V2\nV2\n", [], "2 list LineForm")
    yield end_list("a version twice, a CR before", b"V2\r\nV2\r\n", [], "2 list LineForm")
    yield end_list("a version behind an event of version 2", b"V2\nC 7\nV2\n", ["2 clock 7"], "3 list LineForm")
    yield end_list("a version behind an event", b"C 7\nV2\n", ["1 clock 7000"], "2 list LineForm")
    yield end_list("a version behind a comment", b"# x\nV2\n", [], "2 list LineForm")
    yield end_list("a version behind an empty line", b"\nV2\n", [], "2 list LineForm")
    yield end_list("a version behind a line of one CR", b"\r\nV2\n", [], "2 list LineForm")
    yield end_list("a version in a last line", b"C 7\nV2", ["1 clock 7000"], "2 list LineForm")
    for name, line in (("an event", b"C 7"), ("a comment", b"# x"), ("an empty line", b"")):
        yield end_list(f"a byte order mark before {name}", MARK + line + b"\n", [], "1 list LineForm")
    yield end_list("a byte order mark in the second line", b"V2\n" + MARK + b"C 7\n", [], "2 list LineForm")


def moments():
    """The least and the greatest moment of each version, and one digit more."""
    for version, first, digits, zeros in ((1, b"", 15, b"000"), (2, b"V2\n", 18, b"")):
        number = 1 + first.count(b"\n")
        for letter, rest, shown in (
            ("C", b"", "clock MOMENT"), ("M", b" on", "mode MOMENT on"), ("F", b" " + FRAME, WORKED_LINE),
        ):
            of = lambda moment: letter.encode() + b" " + moment + rest + b"\n"
            title = f"of {letter} in version {version}"
            for name, moment, written in (
                ("the least", b"0", b"0"),
                ("the least in all digits", b"0" * digits, b"0"),
                ("one in all digits", b"1".rjust(digits, b"0"), b"1" + zeros),
                ("the greatest", b"9" * digits, b"9" * digits + zeros),
            ):
                yield Case(f"{name} moment {title}, shown", ["show"], first + of(moment),
                           text([f"{number} {shown.replace('MOMENT', written.decode())}"]))
                yield Case(f"{name} moment {title}, rewritten", ["rewrite"], first + of(moment), b"V2\n" + of(written))
                yield Case(f"{name} moment {title}, checked", ["check"], first + of(moment))
            for name, moment in (
                ("a digit more", b"1" + b"0" * digits), ("a leading zero more", b"0" * (digits + 1)), ("a plus", b"+5"),
                ("a minus", b"-5"), ("a point", b"1.5"), ("a letter", b"0x5"), ("an exponent", b"1e3"),
                ("a full-width digit", "５".encode()),
            ):
                yield end_list(f"no moment {title}: {name}", first + of(moment), [], f"{number} list Moment")
    yield end_list("16 digits are too many in version 1", b"C 1000000000000000\n", [], "1 list Moment")
    yield Case("16 digits are fine in version 2", ["show"], b"V2\nC 1000000000000000\n", b"2 clock 1000000000000000\n")


def modes():
    """Lines that set the simulation mode, and lines that look like it."""
    given = b"M 3 on\nM 4 off\r\nM 4 off\nM 0005 on\nM 1 on"
    yield Case("modes, shown", ["show"], given, text(
        ["1 mode 3000 on", "2 mode 4000 off", "3 mode 4000 off", "4 mode 5000 on", "5 mode 1000 on"]))
    yield Case("modes, rewritten", ["rewrite"], given, b"V2\nM 3000 on\nM 4000 off\nM 4000 off\nM 5000 on\nM 1000 on\n")
    yield Case("modes, checked", ["check"], given)
    yield Case("modes of version 2", ["show"], b"V2\nM 3 on\n", b"2 mode 3 on\n")
    for name, line in (
        ("another word", b"M 0 up"), ("a capital", b"M 0 On"), ("capitals", b"M 0 OFF"), ("a letter less", b"M 0 of"),
        ("a letter more", b"M 0 offf"), ("one letter", b"M 0 o"), ("a number", b"M 0 1"), ("no mode", b"M 0"),
        ("an empty mode", b"M 0 "), ("no moment", b"M on"), ("a letter alone", b"M"), ("a space at the end", b"M 0 on "),
        ("two spaces", b"M 0  on"), ("two spaces before the moment", b"M  0 on"), ("a space at the front", b" M 0 on"),
        ("two modes", b"M 0 on off"), ("a small letter", b"m 0 on"), ("tabs", b"M\t0\ton"), ("a CR inside", b"M 0 on\r "),
        ("a NUL behind", b"M 0 on\0"), ("an octet FF behind", b"M 0 on\xff"), ("the digits of a frame", b"M 0 " + FRAME),
    ):
        yield end_list(f"no mode: {name}", line + b"\n", [], "1 list LineForm")
    yield end_list("no mode: two CR", b"M 0 on\r\r\n", [], "1 list LineForm")
    yield end_list("a clock has no mode", b"C 0 on\n", [], "1 list LineForm")
    yield end_list("a frame has no mode", b"F 0 on\n", [], "1 list Hex")
    yield end_list("the mode before its moment", b"M x up\n", [], "1 list LineForm")
    yield end_list("the moment of a mode", b"M x on\n", [], "1 list Moment")


def limits():
    """The lines of a list, the version among them."""
    clocks = b"C 0\n" * 1000000
    yield Case("a million events are rewritten in a line more", ["rewrite"], clocks, b"V2\n" + clocks)
    yield end_list("a million events behind a version", b"V2\n" + clocks,
                   [f"{number} clock 0" for number in range(2, 1000001)], "1000001 list ListTooLong")
    yield Case("a version among a million lines", ["show"], b"V2\n" + b"\n" * 999999)
    yield end_list("a version and a million lines", b"V2\n" + b"\n" * 1000000, [], "1000001 list ListTooLong")


def pieces():
    """Input that comes cut at every octet of the version and of the line behind it."""
    for name, octets in (("LF", b"V2\nM 7 on\n"), ("CR and LF", b"V2\r\nM 7 on\r\n")):
        for at in range(1, len(octets)):
            yield Pieces(f"V2 before {name}, cut at {at}", ["show"], [octets[:at], octets[at:]], b"2 mode 7 on\n", waits=True)
        each = [octets[at:at + 1] for at in range(len(octets))]
        for command, wrote in (("show", b"2 mode 7 on\n"), ("check", b""), ("rewrite", b"V2\nM 7 on\n")):
            yield Pieces(f"{command} of V2 before {name}, octet by octet", [command], each, wrote, waits=True)


def cases():
    return [*versions(), *moments(), *modes(), *limits(), *pieces()]
