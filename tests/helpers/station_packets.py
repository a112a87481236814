"""Packets that stand in a capture of a station beside GOOSE and Sampled Values."""
import struct

from helpers.frames import element

SWITCH, SERVER, CLIENT, CLOCK = (bytes.fromhex(f"0200000000{last:02x}") for last in (0x51, 0x61, 0x62, 0x71))
SHORTEST = 60


def packet(destination, source, ether_type, contents):
    """An Ethernet frame, padded as a card pads it."""
    return (destination + source + ether_type.to_bytes(2, "big") + contents).ljust(SHORTEST, b"\0")


def address(last):
    return bytes([192, 168, 10, last])


def arp(number):
    """A question for the address of one of 200 devices."""
    asked = struct.pack(">HHBBH", 1, 0x0800, 6, 4, 1) + CLIENT + address(2) + bytes(6) + address(10 + number % 200)
    return packet(b"\xff" * 6, CLIENT, 0x0806, asked)


def lldp(number):
    """What a switch says of itself, of one of 24 ports."""
    port = b"\x07port-%02d" % (1 + number % 24)
    parts = [(1, b"\x04" + SWITCH), (2, port), (3, struct.pack(">H", 120)), (5, b"SWITCH1"), (0, b"")]
    told = b"".join((kind << 9 | len(value)).to_bytes(2, "big") + value for kind, value in parts)
    return packet(bytes.fromhex("0180c200000e"), SWITCH, 0x88CC, told)


def ptp(number, nanoseconds=0):
    """A sync message of a clock: IEEE 1588, domain 0, every second."""
    seconds, rest = divmod(nanoseconds, 10**9)
    head = struct.pack(">BBHBBHq4x", 0, 2, 44, 0, 0, 0, 0) + CLOCK[:3] + b"\xff\xfe" + CLOCK[3:]
    told = head + struct.pack(">HHBb", 1, number % 65536, 0, 0) + seconds.to_bytes(6, "big") + rest.to_bytes(4, "big")
    return packet(bytes.fromhex("011b19000000"), CLOCK, 0x88F7, told)


def spanning_tree(number):
    """A hello of rapid spanning tree: a frame with a length in place of an EtherType."""
    bridge = struct.pack(">H", 0x8000) + SWITCH
    told = b"\x42\x42\x03" + bytes.fromhex("000002023c") + bridge + bytes(4) + bridge
    told += struct.pack(">HHHHHB", 0x8000 + 1 + number % 24, 0, 20 * 256, 2 * 256, 15 * 256, 0)
    return packet(bytes.fromhex("0180c2000000"), SWITCH, len(told), told)


def checksum(octets):
    total = sum(struct.unpack(f">{len(octets) // 2}H", octets))
    return 0xFFFF - (total % 0xFFFF or 0xFFFF)


def report(number):
    """A report of a server: an MMS InformationReport, in presentation, session, transport (RFC 1006)."""
    values = (0x8A, b"SERVER1/LLN0$BR$brcb01"), (0x86, bytes([number % 128])), (0x89, bytes(73 * number % 1200))
    results = b"".join(element(*value) for value in values)
    told = element(0xA1, element(0x80, b"RPT")) + element(0xA0, results)
    shown = element(0x61, element(0x30, b"\x02\x01\x03" + element(0xA0, element(0xA3, element(0xA0, told)))))
    sent = bytes.fromhex("02f080 01000100") + shown
    return b"\x03\x00" + (len(sent) + 4).to_bytes(2, "big") + sent


def mms(number):
    """The report of this number on its way to a client: TCP from port 102."""
    before = 1 + sum(len(report(earlier)) for earlier in range(number))
    segment = struct.pack(">HHIIBBHHH", 102, 49152, before, 1, 0x50, 0x18, 8192, 0, 0) + report(number)
    pseudo = address(61) + address(2) + struct.pack(">BBH", 0, 6, len(segment))
    segment = segment[:16] + checksum(pseudo + segment + bytes(len(segment) % 2)).to_bytes(2, "big") + segment[18:]
    head = struct.pack(">BBHHHBBH", 0x45, 0, 20 + len(segment), number % 65536, 0x4000, 64, 6, 0) + address(61) + address(2)
    head = head[:10] + checksum(head).to_bytes(2, "big") + head[12:]
    return packet(CLIENT, SERVER, 0x0800, head + segment)


OTHERS = (arp, lldp, ptp, spanning_tree, mms)
