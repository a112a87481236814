"""tools/list_to_pcap and tools/hex_to_list: what they write reads back as the frames that were given."""
import random

from helpers import by_chance
from helpers.asked_tools import EXAMPLES, Asked, ask
from helpers.capture_parts import header, record
from helpers.frames import WORKED
from helpers.harness import first_difference, run, text
from themes import replaying

SEED, COUNT = 20041, 300


# ---- Lists to captures -------------------------------------------------------


class Back:
    """The capture of a list, imported, is the list of its frames."""

    def __init__(self, name, octets):
        self.name, self.octets = name, octets

    def why_wrong(self, program):
        written, _, _ = run(program, ["rewrite"], self.octets)
        kept = [line for line in written.decode().splitlines() if line.startswith("F ")]
        original = [line.split(" ")[2].lower() for line in self.octets.decode("latin-1").splitlines() if line.startswith("F ")]
        wanted = text(["V2", *(f"{line.rsplit(' ', 1)[0]} {octets.strip()}" for line, octets in zip(kept, original))])
        capture, complained, status = ask(program, "list_to_pcap", given=self.octets)
        imported, _, _ = run(program, ["import"], capture)
        difference = first_difference(wanted, imported)
        return ([difference] if difference else []) + ([f"ended with status {status}: {complained!r}"] if status else [])


# ---- Dumps to lists ----------------------------------------------------------


def rows(frame, most=16):
    """The rows of a dump: offset, and up to so many octets."""
    return [(at, frame[at:at + most]) for at in range(0, len(frame), most)]


def visible(octets):
    return "".join(chr(it) if 0x20 <= it < 0x7F else "." for it in octets)


def halves(octets):
    return octets[:8].hex(" ") + "  " + octets[8:].hex(" ")


# How each tool writes a dump of a frame. The octets that can be read stand beside them.
STYLES = {
    "tshark -x": lambda frame: [f"{at:04x}  {it.hex(' '):<48}  {visible(it)}" for at, it in rows(frame)] + [""],
    "Copy as Hex Dump": lambda frame: [f"{at:04x}   {it.hex(' ')}" for at, it in rows(frame)],
    "tcpdump -xx": lambda frame: [f"\t0x{at:04x}:  {it.hex(' ', -2)}" for at, it in rows(frame)],
    "tcpdump -XX": lambda frame: [f"\t0x{at:04x}:  {it.hex(' ', -2):<39}  {visible(it)}" for at, it in rows(frame)],
    "xxd": lambda frame: [f"{at:08x}: {it.hex(' ', -2):<39}  {visible(it)}" for at, it in rows(frame)],
    "xxd -c 8": lambda frame: [f"{at:08x}: {it.hex(' ', -2):<19}  {visible(it)}" for at, it in rows(frame, 8)],
    "an old Wireshark": lambda frame: [f"{at:04x}  {halves(it):<48}  {visible(it)}" for at, it in rows(frame)],
    "hexdump -C": lambda frame: [f"{at:08x}  {halves(it):<48}  |{visible(it)}|" for at, it in rows(frame)] + [f"{len(frame):08x}"],
    "od -A x -t x1": lambda frame: [f"{at:06x} {it.hex(' ')}" for at, it in rows(frame)] + [f"{len(frame):06x}"],
    "a stream": lambda frame: [frame.hex()],
    "octets with colons": lambda frame: [frame.hex(":").upper()],
    "octets with blanks": lambda frame: [frame.hex(" ") + " "],
    "octets with 0x": lambda frame: [" ".join(f"0x{it:02x}" for it in frame)],
}


def looks_like_digits(chance, size):
    """Octets that can be read as hexadecimal digits and blanks, so that what stands beside a dump looks like more of it."""
    return bytes(chance.choice(b"0123456789abcdef  ") for _ in range(size))


def dumped(chance):
    """A case for each style: frames of each size around a row's, also such as look like digits."""
    frames = [by_chance.some(chance, size) for size in (*range(1, 50), 64, 65, 2000)]
    frames += [looks_like_digits(chance, size) for size in range(1, 50)]
    wanted = text(["V2", *(f"F 0 {frame.hex()}" for frame in frames)])
    for style, lines in STYLES.items():
        yield Asked(f"as {style} has it", "hex_to_list", stdin=text(line for frame in frames for line in lines(frame)), stdout=wanted)


def cases():
    chance = random.Random(SEED)
    yield Back("frames of version 1 as a capture", replaying.some_list(chance, COUNT).replace(b"V2\n", b"# x\n"))
    yield Back("frames of version 2 as a capture", b"V2\r\n" + replaying.some_list(chance, COUNT).partition(b"\n")[2])
    yield Back("examples/two_bays.list as a capture", (EXAMPLES / "two_bays.list").read_bytes())
    head, octets = header(), WORKED.hex().encode()
    last = 2**32 * 10**6 - 1
    yield Asked("clocks and modes", "list_to_pcap", stdin=b"C 1\nF 1 " + octets + b"\nM 2 on\n", stderr=[b"2 clock times and modes left out"],
                stdout=head + record(0, 1000, WORKED))
    yield Asked("the latest time", "list_to_pcap", stdin=b"V2\nF %d %s\n" % (last, octets),
                stdout=head + record(2**32 - 1, 999999, WORKED))
    yield Asked("a time that is too late", "list_to_pcap", stdin=b"V2\nF %d %s\n" % (last + 1, octets), stdout=head, status=3,
                stderr=[b"line 2: "])
    for name, line in (("LineForm", b"F 0  00"), ("Moment", b"F 1000000000000000 00"), ("Hex", b"F 0 0"), ("Hex ", b"F 0 00\r\r"), ("LineTooLong", b"#" * 4097)):
        yield Asked(f"a list that ends with {name}", "list_to_pcap", stdin=b"F 0 " + octets + b"\n" + line + b"\nF 0 00\n", status=3,
                    stdout=head + record(0, 0, WORKED), stderr=[f"line 2: {name.strip()}".encode()])
    full = b"\n" * 999999 + b"F 0 " + octets + b"\n"
    yield Asked("the most lines", "list_to_pcap", stdin=full, stdout=head + record(0, 0, WORKED))
    yield Asked("a line too many", "list_to_pcap", stdin=full + b"#", stdout=head + record(0, 0, WORKED), status=3,
                stderr=[b"line 1000001: ListTooLong"])
    yield from dumped(chance)
    tshark = STYLES["tshark -x"]
    timed = [("    1 1700000000.123456789 02:00:00:00:00:01 -> 01:0c:cd:01:00:01 GOOSE 67", 1700000000123456),
             ("1700000001.000001 02:00:00:00:00:01 > 01:0c:cd:01:00:01, ethertype Unknown (0x88b8), length 67: ", 1700000001000001)]
    yield Asked("times above dumps", "hex_to_list", stdin=text(line for head, _ in timed for line in [head, "", *tshark(WORKED)]),
                stdout=text(["V2", *(f"F {moment} {WORKED.hex()}" for _, moment in timed)]), stderr=[b"2 lines of other text passed over"])
    yield Asked("times that are given", "hex_to_list", ["--time", "5", "--step", "1000"], text(["0102", "0304", "0506"]),
                text(["V2", "F 5 0102", "F 1005 0304", "F 2005 0506"]))
    heads = ["Frame (67 bytes):", *tshark(WORKED), "Reassembled PDU (3 bytes):", *tshark(b"abc"), "Frame (67 bytes):", *tshark(WORKED)]
    latest = str(10**18 - 1)
    yield Asked("the latest time", "hex_to_list", ["--time", latest], b"00\n", f"V2\nF {latest} 00\n".encode())
    yield Asked("a time that no list has", "hex_to_list", ["--time", "1" + "0" * 18], b"00\n", status=2, stderr=[b"times are from 0 to " + latest.encode()])
    yield Asked("a step to a time that no list has", "hex_to_list", ["--time", latest, "--step", "1"], b"00\n11\n", f"V2\nF {latest} 00\n".encode(),
                status=2, stderr=[b"a list has none after " + latest.encode()])
    yield Asked("a dump that is no frame", "hex_to_list", stdin=text(heads), stdout=text(["V2", *[f"F 0 {WORKED.hex()}"] * 2]))
    parted = ["Frame (67 bytes):", *tshark(WORKED), "Reassembled TCP (3 bytes):", *tshark(b"abc"), *tshark(WORKED) * 2]
    yield Asked("frames after one of two parts", "hex_to_list", stdin=text(parted), stdout=text(["V2", *[f"F 0 {WORKED.hex()}"] * 3]))
    for row, end in (("000000 {}", "000040"), ("00000000  {}", "00000040")):
        yield Asked(f"rows that '*' stands for: {end}", "hex_to_list", stdin=text([row.format(" ".join(["00"] * 16)), "*", end]), stdout=b"V2\n",
                    status=3, stderr=[b"line 2: a row stands for others like it"])
    for row in ("\t0x0010:  0102 0304", "00000010: 0102 0304", "0010  01 02 03 04   ...."):
        yield Asked(f"a dump without its first row: {row.strip()}", "hex_to_list", stdin=text([row]), stdout=b"V2\n", status=3,
                    stderr=[b"line 1: offset 0010 comes after 0 octets"])
    yield Asked("texts that look like offsets", "hex_to_list", stdin=text(["2026: a year", "2026: 12 events", "0102: 0304"]),
                stdout=b"V2\nF 0 01020304\n", stderr=[b"2 lines of other text passed over"])
    yield Asked("a dump that lacks a row", "hex_to_list", stdin=text([*tshark(WORKED)[:2], *tshark(WORKED)[3:]]), stdout=b"V2\n", status=3,
                stderr=[b"line 3: offset 0030 comes after 32 octets"])
    yield Asked("a frame that is too long", "hex_to_list", stdin=text(["00" * 2001, "00"]), status=1,
                stdout=b"V2\n# frame 1 of 2001 octets left out\nF 0 00\n")
    yield Asked("half an octet", "hex_to_list", stdin=b"0102\n010\n", stdout=b"V2\nF 0 0102\n", status=3, stderr=[b"line 2: half an octet"])
