"""A slow reader of captures, written from docs/FORMATS.md alone."""
MOST_RECORDS, MOST_CAPTURED, MOST_OCTETS = 999999, 262144, 2000
MICROSECONDS, NANOSECONDS = 0xA1B2C3D4, 0xA1B23C4D


def imported(octets):
    """The text of `import` and the exit status."""
    lines, leaves_out = ["V2"], False

    def ends(number, cause):
        return [*lines, f"# {number} capture {cause}"], 3

    head = octets[:24]
    if len(head) < 24:
        return ends(0, "CaptureShort")
    order = next((it for it in ("big", "little") if int.from_bytes(head[:4], it) in (MICROSECONDS, NANOSECONDS)), None)
    if order is None:
        return ends(0, "CaptureHeader")
    number = lambda octets: int.from_bytes(octets, order)
    if (number(head[4:6]), number(head[6:8]), number(head[20:24]) & 0xFFFF) != (2, 4, 1):
        return ends(0, "CaptureHeader")
    divisor = 1000 if number(head[:4]) == NANOSECONDS else 1
    place, at = 24, 1
    while place < len(octets):
        if at > MOST_RECORDS:
            return ends(at, "TooManyRecords")
        if len(octets) - place < 16:
            return ends(at, "CaptureShort")
        seconds, fraction, captured = (number(octets[place + it:place + it + 4]) for it in (0, 4, 8))
        if captured > MOST_CAPTURED:
            return ends(at, "RecordLength")
        held = octets[place + 16:place + 16 + captured]
        if len(held) < captured:
            return ends(at, "CaptureShort")
        if 1 <= captured <= MOST_OCTETS:
            lines.append(f"F {seconds * 1000000 + fraction // divisor} {held.hex()}")
        else:
            lines.append(f"# record {at} of {captured} octets left out")
            leaves_out = True
        place, at = place + 16 + captured, at + 1
    return lines, 1 if leaves_out else 0
