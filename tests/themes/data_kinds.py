"""Each kind of Data: its text, its written form and its faults. A kind that is not read is an unexpected identifier."""
from helpers.frames import WORKED, WORKED_LINE, element, put, with_members
from helpers.harness import Case, check, listed, refuse, rewrite, show, text
from oracles.reference import KIND_OF, KINDS_READ, members

# Octets of the members, the kinds among them in their order, their text, and their written form.
READ = [
    ("83 01 00", "boolean", "false", "83 01 00"),
    ("83 01 01", "boolean", "true", "83 01 ff"),
    ("a1 00", "array", "[]", "a1 00"),
    ("a2 00", "structure", "()", "a2 00"),
    ("a1 06 83 01 ff 83 01 00", "array boolean", "[true false]", "a1 06 83 01 ff 83 01 00"),
    ("a2 81 05 a1 03 83 01 07", "structure array boolean", "([true])", "a2 05 a1 03 83 01 ff"),
    ("a2 08 83 01 ff 85 03 12 34 56", "structure boolean int", "(true int:1193046)", "a2 08 83 01 ff 85 03 12 34 56"),
    ("84 03 03 ff ff", "bits", "bits:1111111111111", "84 03 03 ff f8"),
    ("84 01 00", "bits", "bits:", "84 01 00"),
    ("85 08 80 00 00 00 00 00 00 00", "int", "int:-9223372036854775808", "85 08 80 00 00 00 00 00 00 00"),
    ("85 04 00 00 00 05", "int", "int:5", "85 01 05"),
    ("85 09 ff ff ff ff ff ff ff ff fe", "int", "int:-2", "85 01 fe"),
    ("86 09 00 ff ff ff ff ff ff ff ff", "uint", "uint:18446744073709551615", "86 09 00 ff ff ff ff ff ff ff ff"),
    ("87 05 08 3f c0 00 00", "float", "float:083fc00000", "87 05 08 3f c0 00 00"),
    ("89 03 00 80 ff", "oct", "oct:0080ff", "89 03 00 80 ff"),
    ("89 00", "oct", "oct:", "89 00"),
    ("8a 03 61 22 5c", "visible", '"a\\"\\\\"', "8a 03 61 22 5c"),
    ("8a 00", "visible", '""', "8a 00"),
    ("8c 04 00 00 00 01", "btime", "btime:00000001", "8c 04 00 00 00 01"),
    ("8c 06 00 00 00 00 00 01", "btime", "btime:000000000001", "8c 06 00 00 00 00 00 01"),
    ("90 02 c3 a9", "mms", "mms:c3a9", "90 02 c3 a9"),
    ("91 08 00 00 00 01 80 00 00 0a", "utc", "utc:000000018000000a", "91 08 00 00 00 01 80 00 00 0a"),
]

# Members in other spellings than their written form, and that form: numbers, unused bits and lengths of more octets than
# they need, alone and beside members in their written form.
REWRITTEN = [
    ("83 01 07", "83 01 ff"),
    ("83 01 80", "83 01 ff"),
    ("85 02 00 05", "85 01 05"),
    ("85 02 ff ff", "85 01 ff"),
    ("85 03 ff ff 80", "85 01 80"),
    ("85 03 00 00 80", "85 02 00 80"),
    ("85 09 00 7f ff ff ff ff ff ff ff", "85 08 7f ff ff ff ff ff ff ff"),
    ("85 09 ff 80 00 00 00 00 00 00 00", "85 08 80 00 00 00 00 00 00 00"),
    ("86 02 00 05", "86 01 05"),
    ("86 03 00 00 c8", "86 02 00 c8"),
    ("86 09 00 00 00 00 00 00 00 00 00", "86 01 00"),
    ("84 02 06 7f", "84 02 06 40"),
    ("84 02 07 ff", "84 02 07 80"),
    ("84 02 01 01", "84 02 01 00"),
    ("83 81 01 ff", "83 01 ff"),
    ("83 81 01 07", "83 01 ff"),
    ("84 81 01 00", "84 01 00"),
    ("84 84 00 00 00 01 00", "84 01 00"),
    ("84 82 00 02 06 7f", "84 02 06 40"),
    ("85 82 00 01 05", "85 01 05"),
    ("85 83 00 00 02 00 05", "85 01 05"),
    ("86 84 00 00 00 01 05", "86 01 05"),
    ("87 81 05 08 41 20 00 00", "87 05 08 41 20 00 00"),
    ("89 82 00 00", "89 00"),
    ("89 84 00 00 00 01 07", "89 01 07"),
    ("8a 82 00 01 41", "8a 01 41"),
    ("8c 81 04 00 00 00 01", "8c 04 00 00 00 01"),
    ("90 83 00 00 01 43", "90 01 43"),
    ("91 81 08 65 53 f1 00 12 34 56 0a", "91 08 65 53 f1 00 12 34 56 0a"),
    ("a1 81 00", "a1 00"),
    ("a2 84 00 00 00 00", "a2 00"),
    ("a1 82 00 03 83 01 ff", "a1 03 83 01 ff"),
    ("a2 81 03 83 01 ff", "a2 03 83 01 ff"),
    ("a2 84 00 00 00 03 85 01 05", "a2 03 85 01 05"),
    ("a1 81 08 a2 81 05 83 82 00 01 07", "a1 05 a2 03 83 01 ff"),
    ("83 01 ff 85 01 05 89 02 01 02 86 02 00 05", "83 01 ff 85 01 05 89 02 01 02 86 01 05"),
    ("83 01 07 85 01 05 89 02 01 02 86 01 05", "83 01 ff 85 01 05 89 02 01 02 86 01 05"),
    ("83 01 ff 85 02 00 05 89 02 01 02 86 01 05", "83 01 ff 85 01 05 89 02 01 02 86 01 05"),
    ("83 01 07 85 02 00 05 89 81 02 01 02 86 02 00 05", "83 01 ff 85 01 05 89 02 01 02 86 01 05"),
    ("a1 03 83 01 ff a2 07 89 01 07 84 02 06 7f", "a1 03 83 01 ff a2 07 89 01 07 84 02 06 40"),
    ("a1 08 a2 06 85 02 00 05 89 00 83 01 ff", "a1 07 a2 05 85 01 05 89 00 83 01 ff"),
    ("a2 81 08 a1 06 84 02 06 7f 89 00", "a2 08 a1 06 84 02 06 40 89 00"),
    ("a1 81 80 83 81 01 ff 89 7a" + " 00" * 122, "a1 7f 83 01 ff 89 7a" + " 00" * 122),
    ("a1 7e 85 02 00 05 89 78" + " 00" * 120, "a1 7d 85 01 05 89 78" + " 00" * 120),
    ("a2 82 01 00 85 02 00 05 89 81 f9" + " 00" * 249, "a2 81 ff 85 01 05 89 81 f9" + " 00" * 249),
]

# Octets of one member, its kind, and the fault's place from its identifier on.
FAULTY = [
    ("83 00", "boolean", 1, "BooleanLength"),
    ("a1 01 83", "array", 3, "Ends"),
    ("a1 02 83 01", "array", 3, "LengthPastEnd"),
    ("a2 02 1f 00", "structure", 2, "HighTag"),
    ("84 00", "bits", 2, "BitUnused"),
    ("84 01 01", "bits", 2, "BitUnused"),
    ("84 02 08 00", "bits", 2, "BitUnused"),
    ("85 00", "int", 1, "IntegerLength"),
    ("85 0a 00 00 00 00 00 00 00 00 00 00", "int", 1, "IntegerLength"),
    ("85 09 00 80 00 00 00 00 00 00 00", "int", 2, "IntegerRange"),
    ("86 01 ff", "uint", 2, "IntegerRange"),
    ("87 00", "float", 1, "FixedLength"),
    ("87 11" + " 00" * 17, "float", 1, "FixedLength"),
    ("8a 03 61 7f 62", "visible", 3, "NotVisible"),
    ("8a 03 1f 7f 62", "visible", 2, "NotVisible"),
    ("8c 05 00 00 00 00 00", "btime", 1, "FixedLength"),
    ("91 07 00 00 00 00 00 00 00", "utc", 1, "FixedLength"),
]


def first_unread(octets, kinds):
    """The place of the first identifier of a kind that is not read, if there is one: kinds nest from the front on."""
    identifiers = {"int": 0x85}
    for position, kind in enumerate(kinds):
        if kind not in KINDS_READ:
            return octets.index(identifiers[kind], 2) if position else 0
    return None


def each_identifier():
    """A member of one octet FF under each identifier, in one list."""
    good = {0x83: "true", 0x85: "int:-1", 0x87: "float:ff", 0x89: "oct:ff", 0x90: "mms:ff"}
    bad = {0xA1: (66, "HighTag"), 0xA2: (66, "HighTag"), 0x84: (66, "BitUnused"), 0x86: (66, "IntegerRange"),
           0x8A: (66, "NotVisible"), 0x8C: (65, "FixedLength"), 0x91: (65, "FixedLength")}
    for identifier in range(256):
        if identifier % 32 == 31:
            yield "fault 64 HighTag"
        elif KIND_OF.get(identifier) not in KINDS_READ:
            yield "fault 64 UnexpectedTag"
        elif identifier in good:
            yield WORKED_LINE.replace("{true}", "{" + good[identifier] + "}")
        else:
            yield "fault {} {}".format(*bad[identifier])


def rewritten():
    """Members in other spellings, as they stand and inside an array of a structure."""
    for spelled, written in REWRITTEN:
        octets, form = bytes.fromhex(spelled), bytes.fromhex(written)
        count = len(members(octets, 0, len(octets), 1))
        yield rewrite(f"{spelled[:60]} is written {written[:60]}", with_members(octets, count), with_members(form, count))
        nested, nested_form = (element(0xA1, element(0xA2, it)) for it in (octets, form))
        yield rewrite(f"{spelled[:60]}, nested", with_members(nested), with_members(nested_form))


def cases():
    yield Case("each identifier of a member", ["show"], listed(*[put(WORKED, at64=it) for it in range(256)]),
               text(f"{number} {line}" for number, line in enumerate(each_identifier(), 1)))
    for spelled, kinds, shown, written in READ:
        octets = bytes.fromhex(spelled)
        unread = first_unread(octets, kinds.split())
        if unread is None:
            yield show(f"{spelled} is {shown}", with_members(octets), WORKED_LINE.replace("{true}", "{" + shown + "}"))
            form = bytes.fromhex(written)
            yield rewrite(f"{spelled} is written {written}", with_members(octets), with_members(form))
            yield check(f"{spelled}, checked", with_members(octets), *["not-written"] * (octets != form))
        else:
            yield refuse(f"{spelled} is not read", with_members(octets), 64 + unread, "UnexpectedTag")
    if set(KIND_OF.values()) <= set(KINDS_READ):
        yield from rewritten()
    for spelled, kind, place, cause in FAULTY:
        is_read = kind in KINDS_READ
        place, cause = (64 + place, cause) if is_read else (64, "UnexpectedTag")
        yield refuse(f"{spelled} has a fault", with_members(bytes.fromhex(spelled)), place, cause)
    yield show("no members", with_members(b"", 0), WORKED_LINE.replace("{true}", "{}"))
    texts = "{" + " ".join(["true", "false"] * 50) + "}"
    many = with_members(bytes.fromhex("8301ff 830100") * 50, 100)
    yield show("a hundred members", many, WORKED_LINE.replace("{true}", texts))
