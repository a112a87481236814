"""Each cause that ends a list, and which of two comes first."""
from helpers.frames import WORKED, WORKED_LINE
from helpers.harness import Case, end_list, listed, relisted, text

FRAME = WORKED.hex().encode()


def each_cause():
    yield end_list("a line of another shape", b"C 1\nC 2\nX\n", ["1 clock 1000", "2 clock 2000"], "3 list LineForm")
    yield end_list("a moment of sixteen digits", b"C 1234567890123456\n", [], "1 list Moment")
    yield end_list("an odd count of digits", b"C 1\nF 2 0\nC 3\n", ["1 clock 1000"], "2 list Hex")
    yield end_list("a digit that is none", b"F 2 0g\n", [], "1 list Hex")
    yield end_list("over 4,000 digits", b"F 0 " + b"00" * 2001 + b"\n", [], "1 list Hex")
    yield end_list("over 4,096 octets", b"#" * 4096 + b"\n" + b"#" * 4097 + b"\n", [], "2 list LineTooLong")
    yield end_list("a line without end", b"#" * 4097, [], "1 list LineTooLong")
    yield end_list("a line more than a million", b"\n" * 1000001, [], "1000001 list ListTooLong")


BAD_LINES = {"LineTooLong": b"#" * 4097, "LineForm": b"F 0", "Moment": b"C -1", "Hex": b"F 0 0"}


def earlier_and_later():
    """Two bad lines in a row: the earlier one ends the list, whatever their causes."""
    for earlier, first in BAD_LINES.items():
        for later, second in BAD_LINES.items():
            octets = b"C 1\n" + first + b"\n" + second + b"\n"
            yield end_list(f"{earlier}, then {later}", octets, ["1 clock 1000"], f"2 list {earlier}")


def first_of_two():
    yield end_list("shape before moment", b"C x x\n", [], "1 list LineForm")
    yield end_list("moment before digits", b"F 0x 0\n", [], "1 list Moment")
    yield end_list("length before shape", b"X" * 4097 + b"\n", [], "1 list LineTooLong")
    yield end_list("count before length", b"\n" * 1000000 + b"#" * 5000, [], "1000001 list ListTooLong")
    yield end_list("a carriage return counts", b"#" * 4095 + b"\r\n" + b"#" * 4096 + b"\r\n", [], "2 list LineTooLong")
    yield end_list("an earlier shape before a later length", b"X\n" + b"#" * 5000, [], "1 list LineForm")


def shapes():
    for name, line in (
        ("two spaces", b"F  0 00"),
        ("a space at the end", b"F 0 00 "),
        ("a space at the front", b" F 0 00"),
        ("a space alone", b" "),
        ("a tab in place of a space", b"F\t0\t00"),
        ("a frame without digits", b"F 0"),
        ("a clock with digits", b"C 0 00"),
        ("a small letter", b"c 0"),
        ("an octet above 7F", b"\xff"),
        ("a NUL", b"\0"),
        ("a word", b"FF 0 00"),
    ):
        yield end_list(f"no shape: {name}", line + b"\n", [], "1 list LineForm")
    for name, moment in (("a plus", b"+5"), ("a minus", b"-5"), ("a point", b"1.5"), ("a tab", b"1\t")):
        yield end_list(f"no moment: {name}", b"C " + moment + b"\n", [], "1 list Moment")
    yield end_list("a carriage return inside", b"C 1\r \n", [], "1 list LineForm")
    yield end_list("two carriage returns", b"F 0 00\r\r\n", [], "1 list Hex")


def no_faults():
    yield Case("a million lines", ["show"], b"\n" * 1000000)
    yield Case("a millionth line without LF", ["show"], b"\n" * 999999 + b"F 0 00", b"1000000 fault 1 Truncated\n")
    yield Case("comments of any octets", ["show"], b"#\xff\x00\r\t\n\r\n\nC 3\n", b"4 clock 3000\n")
    yield Case("upper case and carriage returns", ["show"], b"C 1\r\nF 0 " + FRAME.upper() + b"\r",
               text(["1 clock 1000", f"2 {WORKED_LINE}"]))
    yield Case("2,000 octets", ["show"], listed(bytes(2000)), b"1 fault 1600 FrameTooLong\n")
    every_size = [bytes(size) for size in range(1, 2001)]
    yield Case("each count of octets that a frame's line can have", ["rewrite"], listed(*every_size), relisted(*every_size), 1)


def rewriting():
    yield Case("a list fault is written as a comment", ["rewrite"], b"C 1\nC 2\nX\n",
               b"V2\nC 1000\nC 2000\n# 3 list LineForm\n", 3)
    yield Case("a list fault overrides findings", ["rewrite"], b"F 0 00\nX\n", b"V2\nF 0 00\n# 2 list LineForm\n", 3)
    yield Case("events are written in one way", ["rewrite"], b"# x\n\nC 007\r\nF 0007 " + FRAME.upper(),
               b"V2\nC 7000\n" + listed(WORKED, moment=7000))
    yield Case("a list fault overrides what is noted", ["check"], b"F 0 00\nX\n", b"1 fault 1 Truncated\n2 list LineForm\n", 3)
    yield Case("of a list fault alone", ["check"], b"C 1\nX\n", b"2 list LineForm\n", 3)


def cases():
    return [*each_cause(), *earlier_and_later(), *first_of_two(), *shapes(), *no_faults(), *rewriting()]
