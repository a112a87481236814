"""Captures made from parts."""
from oracles.captures import MICROSECONDS


def header(order="little", magic=MICROSECONDS, version=(2, 4), link=1):
    numbers = [(magic, 4), (version[0], 2), (version[1], 2), (0, 4), (0, 4), (0xFFFF, 4), (link, 4)]
    return b"".join(it.to_bytes(size, order) for it, size in numbers)


def record(seconds, fraction, octets, order="little", captured=None):
    captured = len(octets) if captured is None else captured
    return b"".join(it.to_bytes(4, order) for it in (seconds, fraction, captured, captured)) + octets


def fours(order, *numbers):
    """Numbers of four octets."""
    return b"".join((it % 2**32).to_bytes(4, order) for it in numbers)


def twos(order, *numbers):
    """Numbers of two octets."""
    return b"".join(it.to_bytes(2, order) for it in numbers)


def padded(octets):
    """Octets, and zeros up to a multiple of four."""
    return octets + bytes(-len(octets) % 4)


def block(kind, body, order="little", total=None, after=None):
    """A block of pcapng, whose two lengths may say something else."""
    size = 12 + len(body)
    return fours(order, kind, size if total is None else total) + body + fours(order, size if after is None else after)


def section(order="little", version=(1, 0), mark=0x1A2B3C4D, options=b"", **how):
    """A section header block, of a section whose length is not said."""
    return block(0x0A0D0D0A, fours(order, mark) + twos(order, *version) + b"\xff" * 8 + options, order, **how)


def option(code, value, order="little", size=None):
    """An option, whose length may say something else."""
    return twos(order, code, len(value) if size is None else size) + padded(value)


def options(pairs, order="little"):
    """Options, and the code that ends them."""
    return b"".join(option(code, value, order) for code, value in pairs) + bytes(4)


def resolution(octet, order="little"):
    """The option if_tsresol."""
    return option(9, bytes([octet]), order)


def offset(seconds, order="little"):
    """The option if_tsoffset."""
    return option(14, seconds.to_bytes(8, order, signed=True), order)


def interface(order="little", link=1, snapshot=0, options=b"", **how):
    """An interface description block."""
    return block(1, twos(order, link, 0) + fours(order, snapshot) + options, order, **how)


def packet(ticks, octets, order="little", which=0, captured=None, original=None, options=b"", **how):
    """An enhanced packet block."""
    captured = len(octets) if captured is None else captured
    sizes = captured, captured if original is None else original
    return block(6, fours(order, which, ticks >> 32, ticks, *sizes) + padded(octets) + options, order, **how)


def old_packet(ticks, octets, order="little", which=0, drops=0, captured=None, **how):
    """An obsolete packet block."""
    captured = len(octets) if captured is None else captured
    body = twos(order, which, drops) + fours(order, ticks >> 32, ticks, captured, captured) + padded(octets)
    return block(2, body, order, **how)


def simple_packet(octets, order="little", original=None, **how):
    """A simple packet block."""
    return block(3, fours(order, len(octets) if original is None else original) + padded(octets), order, **how)


def names(order="little"):
    """A name resolution block: one address, and the end of its records."""
    return block(4, twos(order, 1, 8) + bytes([10, 0, 0, 1]) + b"IED\0" + twos(order, 0, 0), order)


def statistics(order="little"):
    """An interface statistics block."""
    return block(5, fours(order, 0, 0, 7), order)


def custom(order="little", size=8):
    """A custom block that may be copied, of a private enterprise number."""
    return block(0x0BAD, fours(order, 32473) + bytes(size), order)
