"""A slow watch over a sample counter, written from docs/FORMATS.md alone: it looks for the last count anew at each one."""
from oracles import reference

# The answers that move the last count.
MOVES = ("first", "next", "skipped")


def answer(earlier, period, count):
    """What a count is after the earlier ones, each with its answer."""
    if count >= period:
        return "out-of-range"
    last = next((it for it, said in reversed(earlier) if said.split()[0] in MOVES), None)
    if last is None:
        return "first"
    way = (count - last) % period
    if way < 2:
        return ("same", "next")[way]
    return f"skipped {way - 1}" if 2 * way < period else "late"


def samples(octets, period, sv_id, has_failed=False, events_of=reference.events):
    """The samples of a stream in the events that are read of octets, each behind the number and the time of its event: the position of
    its ASDU, its count and the answer. A frame with an error is there as that."""
    earlier = []
    for number, (sort, moment, held) in events_of(octets, has_failed):
        try:
            it = reference.frame(held) if sort == "frame" else None
        except reference.Fault as fault:
            yield number, moment, fault
            continue
        asdus = it["apdu"]["asdus"] if it and it["name"] == "sv" else []
        for position, asdu in enumerate(asdus):
            if asdu["sv_id"] != sv_id.encode():
                continue
            count = int.from_bytes(asdu["smp_cnt"], "big")
            earlier.append((count, answer(earlier, period, count)))
            yield number, moment, (position, *earlier[-1])


def watch(octets, period, sv_id, has_failed=False, events_of=reference.events):
    """The text of `watch` over the events that are read of octets, and the exit status."""
    lines, finds = [], False
    try:
        for number, _, sample in samples(octets, period, sv_id, has_failed, events_of):
            is_fault = isinstance(sample, reference.Fault)
            lines.append(f"{number} {sample if is_fault else ' '.join(map(str, sample))}")
            finds = finds or is_fault or sample[2] not in ("first", "next")
    except reference.ListFault as fault:
        return [*lines, fault.text()], fault.status()
    return lines, 1 if finds else 0
