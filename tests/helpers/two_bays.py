#!/usr/bin/env python3
"""Writes examples/two_bays.pcapng to standard output: the frames of examples/two_bays.list as dumpcap saves them, with packets of
other protocols between. Bay 1 is on the first interface, bay 2 on the second. Times are in nanoseconds."""
import pathlib
import struct
import sys

sys.dont_write_bytecode = True
TESTS = pathlib.Path(__file__).resolve().parent.parent
sys.path.insert(0, str(TESTS))

from helpers.capture_parts import block, interface, options, packet, section  # noqa: E402
from helpers.station_packets import arp, lldp, mms, ptp, spanning_tree  # noqa: E402

LIST = TESTS.parent / "examples" / "two_bays.list"
INTERFACES = (b"bay1", b"bay2")
BAY_2 = bytes.fromhex("010ccd010002")
START, SECONDS = 1_700_000_000 * 10**9, 8


def frames():
    """The interface, the nanoseconds and the octets of each frame of the list. The list has their microseconds."""
    lines = (line.split() for line in LIST.read_text().splitlines())
    for number, (_, moment, digits) in enumerate(it for it in lines if it[0] == "F"):
        octets = bytes.fromhex(digits)
        yield int(octets.startswith(BAY_2)), int(moment) * 1000 + 379 * number % 1000, octets


def others():
    """The same of packets of other protocols: a clock each second, a switch each other one, and two devices that talk."""
    for second in range(SECONDS):
        for at in range(len(INTERFACES)):
            now = START + second * 10**9 + 3_141_592 + 271_828 * at
            yield at, now, ptp(second, now)
            if second % 2 == 0:
                yield at, now + 402_718_281, spanning_tree(12 * at)
    for number, (at, milliseconds) in enumerate(((0, 913), (1, 914), (0, 2350), (1, 5950))):
        yield at, START + milliseconds * 10**6 + 57_721, arp(number)
    for number, milliseconds in enumerate((1503, 1512, 6203)):
        yield 0, START + milliseconds * 10**6 + 915_965, mms(number)
    yield 1, START + 1_690_220_463, lldp(12)


def counted(at, packets):
    """How many packets an interface received, as the capture ends."""
    now = packets[-1][1]
    received = sum(interface == at for interface, *_ in packets)
    return block(5, struct.pack("<III", at, now >> 32, now % 2**32) + options([(4, struct.pack("<Q", received))]))


def capture():
    packets = sorted([*frames(), *others()], key=lambda packet: packet[1])
    head = section(options=options([(2, b"x86_64"), (3, b"Linux"), (4, b"tests/helpers/two_bays.py")]))
    described = (interface(snapshot=262144, options=options([(2, name), (9, b"\x09")])) for name in INTERFACES)
    return b"".join([head, *described, *(packet(moment, octets, which=at) for at, moment, octets in packets),
                     *(counted(at, packets) for at in range(len(INTERFACES)))])


if __name__ == "__main__":
    sys.stdout.buffer.write(capture())
