"""Grammatical frames by chance: fields and members of every kind, in any accepted spelling."""
from helpers.frames import ENVELOPE, SAMPLED_ENVELOPE, asdu, element, framed, with_fields
from oracles.reference import IDENTIFIER_OF, KINDS_READ, LEVELS, MOST_LENGTH

VISIBLE = range(0x20, 0x7F)


def some(chance, count):
    """So many octets."""
    return bytes(chance.randrange(256) for _ in range(count))


def text(chance, most):
    """Visible octets, at most so many."""
    return bytes(chance.choice(VISIBLE) for _ in range(chance.randrange(most + 1)))


def spelled(chance, identifier, inside):
    """An element whose length has any accepted count of octets, mostly the fewest."""
    fewest = 0 if len(inside) < 128 else (len(inside).bit_length() + 7) // 8
    longer = [count for count in (1, 2, 3, 4) if count >= fewest]
    return element(identifier, inside, chance.choice(longer) if chance.random() < 0.3 else None)


def integer(chance, number, most=9):
    """The contents of an INTEGER of at most so many octets, mostly the fewest."""
    fewest = (number if number >= 0 else ~number).bit_length() // 8 + 1
    count = chance.randrange(fewest, most + 1) if chance.random() < 0.3 else fewest
    return number.to_bytes(count, "big", signed=True)


def number(chance, bits):
    """A number of at most so many bits, often at a border."""
    borders = [0, 1, 127, 128, 255, 256, 2**(bits - 1) - 1, 2**(bits - 1), 2**bits - 1]
    return chance.choice([chance.choice(borders) % 2**bits, chance.randrange(2**chance.randrange(1, bits + 1))])


# The contents of each kind without members.
CONTENTS = {
    "boolean": lambda chance: bytes([chance.choice([0, 0, 1, 255, chance.randrange(256)])]),
    "bits": lambda chance: chance.choice([b"\0", bytes([chance.randrange(8)]) + some(chance, chance.randrange(1, 5))]),
    "int": lambda chance: integer(chance, chance.choice([1, -1]) * number(chance, 63) - chance.randrange(2)),
    "uint": lambda chance: integer(chance, number(chance, 64)),
    "float": lambda chance: chance.choice([b"\x08" + some(chance, 4), b"\x0b" + some(chance, 8), some(chance, chance.randrange(1, 17))]),
    "oct": lambda chance: some(chance, chance.randrange(20)),
    "visible": lambda chance: text(chance, 20),
    "btime": lambda chance: some(chance, chance.choice([4, 6])),
    "mms": lambda chance: some(chance, chance.randrange(20)),
    "utc": lambda chance: some(chance, 8),
}


def members(chance, level, most=6):
    """Members at one level, at most so many; fewer below."""
    return [member(chance, level) for _ in range(chance.randrange(most + 1))]


def member(chance, level=1):
    """A member of a kind that is read."""
    kind = chance.choice(sorted(KINDS_READ))
    if kind in ("array", "structure"):
        inside = b"".join(members(chance, level + 1, 3)) if level < LEVELS else b""
    else:
        inside = CONTENTS[kind](chance)
    return spelled(chance, IDENTIFIER_OF[kind], inside)


def nested(chance, level=1):
    """A member inside others, down to the last level."""
    if level == LEVELS:
        return member(chance, level)
    inside = [nested(chance, level + 1), *chance.choice([[], [member(chance, LEVELS)]])]
    return spelled(chance, chance.choice([0xA1, 0xA2]), b"".join(inside))


def maybe(chance, *element_of):
    """An element, or nothing."""
    return spelled(chance, *element_of) if chance.random() < 0.5 else b""


def goose_apdu(chance):
    """An IECGoosePdu."""
    inside = members(chance, 1) + [nested(chance)] * (chance.random() < 0.05)
    count = lambda: integer(chance, number(chance, 32))
    frame = with_fields(
        gocb_ref=spelled(chance, 0x80, text(chance, 40)),
        live=spelled(chance, 0x81, count()),
        dat_set=spelled(chance, 0x82, text(chance, 40)),
        go_id=maybe(chance, 0x83, text(chance, 30)),
        t=spelled(chance, 0x84, some(chance, 8)),
        st_num=spelled(chance, 0x85, count()),
        sq_num=spelled(chance, 0x86, count()),
        simulation=maybe(chance, 0x87, CONTENTS["boolean"](chance)),
        conf_rev=spelled(chance, 0x88, count()),
        nds_com=maybe(chance, 0x89, CONTENTS["boolean"](chance)),
        entries=spelled(chance, 0x8A, integer(chance, len(inside))),
        members=spelled(chance, 0xAB, b"".join(inside)),
        following=2,
    )
    return spelled(chance, 0x61, frame[26:])


def one_asdu(chance):
    """An ASDU."""
    made = asdu(
        sv_id=spelled(chance, 0x80, text(chance, 30)),
        dat_set=maybe(chance, 0x81, text(chance, 30)),
        smp_cnt=spelled(chance, 0x82, number(chance, 16).to_bytes(2, "big")),
        conf_rev=spelled(chance, 0x83, number(chance, 32).to_bytes(4, "big")),
        refr_tm=maybe(chance, 0x84, some(chance, 8)),
        smp_synch=spelled(chance, 0x85, bytes([chance.choice([0, 1, 2, chance.randrange(256)])])),
        smp_rate=maybe(chance, 0x86, number(chance, 16).to_bytes(2, "big")),
        sample=spelled(chance, 0x87, some(chance, chance.choice([0, 2, 8, 64, chance.randrange(100)]))),
        smp_mod=maybe(chance, 0x88, some(chance, chance.randrange(1, 17))),
        field_89=maybe(chance, 0x89, some(chance, chance.randrange(1, 17))),
        following=2,
    )
    return spelled(chance, 0x30, made[4:])


def sampled_apdu(chance):
    """A savPdu."""
    asdus = [one_asdu(chance) for _ in range(chance.choice([1, 1, 2, 3, 8]))]
    count = spelled(chance, 0x80, integer(chance, len(asdus)))
    return spelled(chance, 0x60, count + spelled(chance, 0xA2, b"".join(asdus)))


def frame(chance, apdu_of, envelope):
    """A frame of an APDU that fits, in an envelope of any addresses, numbers, tag and trailer."""
    apdu = apdu_of(chance)
    while 8 + len(apdu) > MOST_LENGTH:
        apdu = apdu_of(chance)
    if chance.random() < 0.5:
        envelope = some(chance, 12) + envelope[12:14] + some(chance, 2) + envelope[16:18] + some(chance, 4)
    tag = chance.choice([b"", b"\x81\x00" + some(chance, 2)])
    return framed(apdu, tag=tag, trailer=some(chance, chance.choice([0, 0, 4, 6])), envelope=envelope)


def goose(chance):
    """A GOOSE frame."""
    return frame(chance, goose_apdu, ENVELOPE)


def sampled(chance):
    """A Sampled Values frame."""
    return frame(chance, sampled_apdu, SAMPLED_ENVELOPE)
