"""Which control blocks and streams a list holds: worked lists, lists made by chance of which the slow inventory says what
comes, and replays with the blocks that are listed."""
import random

from helpers import by_chance
from helpers.frames import SAMPLED, WORKED, asdu, element, put, with_asdus, with_fields, with_members
from helpers.harness import Case, first_difference, listed, run, text, why_told
from oracles import inventory

SEED = 61850
G = "0001,G,D,,1,1"


class Lists:
    """A list of which the program writes what the slow inventory writes."""

    def __init__(self, name, octets):
        self.name, self.octets = name, octets

    def why_wrong(self, program):
        lines, wanted_status = inventory.blocks(self.octets)
        wrote, complained, status = run(program, ["blocks"], self.octets)
        difference = first_difference(text(lines), wrote)
        why = [difference] if difference else []
        why += why_told("blocks", wrote, complained, status)
        return why + ([f"ended with status {status}, and not {wanted_status}"] if status != wanted_status else [])


class Subscribes:
    """A list whose blocks are never configured anew, replayed with the blocks that are listed."""

    def __init__(self, name, octets):
        self.name, self.octets = name, octets

    def why_wrong(self, program):
        told = [line.split(" ", 2) for line in run(program, ["blocks"], self.octets)[0].decode().splitlines()]
        found = [shown for _, word, shown in told if word == "block"]
        wrote = run(program, ["replay", *found], self.octets)[0].decode()
        refused = [line for line in wrote.splitlines() if line.split(" ", 1)[1] in ("not-subscribed",)
                   or line.endswith((" DatSet", " GoId", " ConfRev", " Entries"))]
        return [f"the listed blocks do not take {line!r}" for line in refused[:3]]


def worked():
    blocks = ["blocks"]
    yield Case("one block, seen twice", blocks, listed(WORKED, put(WORKED, at49=1)), text([f"1 block {G}"]))
    yield Case("a block that is configured anew, and back", blocks, listed(WORKED, put(WORKED, at55=2), WORKED, WORKED), text(
        [f"1 block {G}", "2 block-changed 0001,G,D,,2,1", f"3 block-changed {G}"]))
    two = with_members(bytes.fromhex("8301ff 830100"), 2)
    yield Case("a data set that grows", blocks, listed(WORKED, two), text([f"1 block {G}", "2 block-changed 0001,G,D,,1,2"]))
    yield Case("two blocks of one name", blocks, listed(WORKED, put(WORKED, at15=2), WORKED), text([f"1 block {G}", "2 block 0002,G,D,,1,1"]))
    yield Case("an APPID of four digits", blocks, listed(put(WORKED, at14=0xAB, at15=0xCD)), text(["1 block abcd,G,D,,1,1"]))
    named = with_fields(go_id=element(0x83, b"I 1"))
    yield Case("a goID", blocks, listed(named, WORKED), text(["1 block 0001,G,D,I 1,1,1", f"2 block-changed {G}"]))
    yield Case("an empty goID is as none", blocks, listed(WORKED, with_fields(go_id=b"\x83\0")), text([f"1 block {G}"]))
    quotes = with_fields(gocb_ref=element(0x80, b'a,"\\'))
    yield Case("a comma in a gocbRef", blocks, listed(quotes, quotes, with_fields(gocb_ref=element(0x80, b'a,"\\'), go_id=b"\x83\0")), text(
        ['1 block appid=0001 ref="a,\\"\\\\" set="D" id=- rev=1 entries=1',
         '3 block-changed appid=0001 ref="a,\\"\\\\" set="D" id="" rev=1 entries=1']))
    for name, field in (("datSet", {"dat_set": element(0x82, b"a,b")}), ("goID", {"go_id": element(0x83, b"a,b")})):
        shown = 'set="a,b" id=-' if name == "datSet" else 'set="D" id="a,b"'
        yield Case(f"a comma in a {name}", blocks, listed(WORKED, with_fields(**field)), text(
            [f"1 block {G}", f'2 block-changed appid=0001 ref="G" {shown} rev=1 entries=1']))
    yield Case("an empty gocbRef", blocks, listed(with_fields(gocb_ref=b"\x80\0", dat_set=b"\x82\0")), text(["1 block 0001,,,,1,1"]))
    greatest = with_fields(conf_rev=element(0x88, b"\0\xff\xff\xff\xff"))
    yield Case("the greatest confRev", blocks, listed(greatest), text(["1 block 0001,G,D,,4294967295,1"]))
    yield Case("one stream, seen twice", blocks, listed(SAMPLED, put(SAMPLED, at34=0)), text(['1 stream id="S" rev=1']))
    revised = asdu(conf_rev=b"\x83\4\0\0\0\2")
    yield Case("a stream that is configured anew", blocks, listed(SAMPLED, with_asdus(revised)), text(
        ['1 stream id="S" rev=1', '2 stream-changed id="S" rev=2']))
    other = asdu(sv_id=element(0x80, b'T"'))
    yield Case("streams of one frame", blocks, listed(with_asdus(asdu(), other, revised, asdu(), other)), text(
        ['1 stream id="S" rev=1', '1 stream id="T\\"" rev=1', '1 stream-changed id="S" rev=2', '1 stream-changed id="S" rev=1']))
    same = with_asdus(asdu(sv_id=element(0x80, b"G")))
    yield Case("a stream named as a block", blocks, listed(WORKED, same, WORKED), text([f"1 block {G}", '2 stream id="G" rev=1']))
    yield Case("no frame, no block", blocks, b"C 1\nM 2 on\n" + listed(put(WORKED, at64=1), b"\0"))
    yield Case("the blocks of an empty list", blocks)
    yield Case("a list's error behind a block", blocks, listed(WORKED) + b"X\n", text([f"1 block {G}", "2 list LineForm"]), 3)
    for words in (["blocks", "x"], ["blocks", G], ["block"]):
        yield Case(f"words that are refused: {words}", words, b"", b"", 2, [b"error: "])
    yield Case("nothing behind two hyphens", ["blocks", "--"], listed(WORKED), text([f"1 block {G}"]))


def some_frame(chance, is_steady=False):
    """A frame of one of few blocks or streams, mostly configured as before."""
    name, other = chance.choice([b"G", b"H", b"GG", b""]), 1 if is_steady else chance.choice([1] * 12 + [2, 3])
    if chance.random() < 0.5:
        streams = [asdu(sv_id=element(0x80, name), conf_rev=element(0x83, other.to_bytes(4, "big"))) for _ in range(chance.choice([1, 1, 2, 4]))]
        return with_asdus(*streams)
    fields = {} if is_steady else chance.choice([{}] * 9 + [
        {"dat_set": element(0x82, b"E,")}, {"go_id": element(0x83, b"I")}, {"go_id": b"\x83\0"}])
    made = with_fields(gocb_ref=element(0x80, name), conf_rev=element(0x88, bytes([other])), **fields)
    return put(made, at15=chance.choice([1, 2]))


def some_list(chance, count):
    """A list of such frames, with faulty frames, frames of any kind, clocks and modes."""
    lines = [chance.choice([b"", b"V2\n", b"# x\n"])]
    for _ in range(count):
        sort = chance.randrange(16)
        lines.append(listed(some_frame(chance)) if sort < 11 else [
            b"C 7\n", b"M 7 on\n", listed(put(WORKED, at64=1)), listed(by_chance.goose(chance)), listed(by_chance.sampled(chance))][sort - 11])
    return b"".join(lines + chance.choice([[], [], [], [b"X\n"]]))


def cases():
    yield from worked()
    chance = random.Random(SEED)
    for at in range(60):
        yield Lists(f"blocks by chance, {at}", some_list(chance, 60))
    many = [put(with_fields(gocb_ref=element(0x80, b"%d" % chance.randrange(400))), at15=chance.randrange(4)) for _ in range(3000)]
    yield Lists("many blocks by chance", listed(*many))
    for at in range(20):
        yield Subscribes(f"a replay of the listed blocks, {at}", listed(*[some_frame(chance, is_steady=True) for _ in range(60)]))
