"""The objects that --json writes, from docs/FORMATS.md alone: one for each line of the text, from what the slow programs find and not
from their lines. Of a floating-point number any digits will do that read as it and are laid out alike: `numbers_read` puts the octets in
their place."""
import decimal
import fractions
import json
import re
import struct

from oracles import inventory, losses, reference, subscriber, watcher
from oracles.dates import date

# The members that are their octets in hexadecimal.
OCTETS = ("oct", "btime", "mms")
# The formats of IEEE 754 by the first octet of a floating-point number, which is the width of the exponent.
FORMATS = {8: ">f", 11: ">d"}
# How many digits stand before the point, and zeros after it, before an exponent is written.
LAYOUT = {">f": (13, 5), ">d": (16, 4)}
VALUE = re.compile(rb'"float":"([0-9a-f]*)","value":(-?[0-9][0-9.eE+-]*)(?=\})')


# ---- Values ------------------------------------------------------------------


def texts(octets):
    """A visible text, or null."""
    return None if octets is None else octets.decode("ascii")


def digits(octets):
    """Octets in hexadecimal, or null."""
    return None if octets is None else octets.hex()


def quality(octet):
    """The quality of a time (IEC 61850-7-2, TimeQuality)."""
    return {"leapSecondsKnown": octet & 0x80 > 0, "clockFailure": octet & 0x40 > 0, "clockNotSynchronized": octet & 0x20 > 0,
            "timeAccuracy": octet & 0x1F}


def moment_of(octets):
    """The microseconds since 1970 of a UtcTime; the fraction of a second is cut."""
    return int(fractions.Fraction(int.from_bytes(octets[:7], "big"), 2**24) * 10**6)


def stamped(octets, name, dated, qualified):
    """A time that a frame has, under these names."""
    return {name: octets.hex(), dated: date(moment_of(octets)), qualified: quality(octets[7])}


class Number(str):
    """A number as JSON writes it."""


def laid_out(told, form):
    """A decimal number with a point, or with an exponent where it has many digits before the point or zeros after it."""
    sign, digits, exponent = decimal.Decimal(told).normalize().as_tuple()
    (whole, zeros), shown, point = LAYOUT[form], "".join(map(str, digits)), len(digits) + exponent
    if not any(digits):
        size = "0.0"
    elif 0 < point <= whole:
        size = f"{shown[:point].ljust(point, '0')}.{shown[point:] or '0'}"
    elif -zeros <= point <= 0:
        size = f"0.{'0' * -point}{shown}"
    else:
        size = f"{shown[0]}{'.' * (len(shown) > 1)}{shown[1:]}e{point - 1}"
    return "-" * sign + size


def number(octets):
    """The number that a floating-point number of a frame is, or None where it is none, or of another form."""
    form = FORMATS.get(octets[0])
    if form is None or struct.calcsize(form) != len(octets) - 1:
        return None
    (value,) = struct.unpack(form, octets[1:])
    return Number(laid_out(repr(value), form)) if abs(value) < float("inf") else None


def member(kind, held):
    """A member of a data set."""
    if kind in ("array", "structure"):
        return {kind: members(held)}
    if kind == "boolean":
        return held
    if kind == "bits":
        return {kind: reference.value_text(kind, held).partition(":")[2]}
    if kind in ("int", "uint"):
        return {kind: held}
    if kind == "visible":
        return texts(held)
    if kind == "float":
        return {kind: held.hex(), "value": number(held)}
    return stamped(held, "utc", "time", "quality") if kind == "utc" else {kind: held.hex()}


def members(held):
    return [member(*it) for it in held]


# ---- Objects -----------------------------------------------------------------


def head(name, place, moment, kind, **rest):
    """The object of a line about an event: its number, its time, its kind, and more."""
    return {name: place, "microseconds": moment, "time": date(moment), "kind": kind, **rest}


def fault_of(fault):
    return {"offset": fault.place, "error": fault.cause}


def goose(pdu):
    """The fields of an IECGoosePdu."""
    return {
        "gocbRef": texts(pdu["gocb_ref"]), "timeAllowedtoLive": pdu["live"], "datSet": texts(pdu["dat_set"]), "goID": texts(pdu["go_id"]),
        **stamped(pdu["t"], "t", "tTime", "tQuality"), "stNum": pdu["st_num"], "sqNum": pdu["sq_num"],
        "simulation": bool(pdu["simulation"]), "confRev": pdu["conf_rev"], "ndsCom": bool(pdu["nds_com"]), "members": members(pdu["members"]),
    }


def asdu(it):
    """The fields of an ASDU."""
    count = lambda octets: None if octets is None else int.from_bytes(octets, "big")
    time = {"refrTm": None} if it["refr_tm"] is None else stamped(it["refr_tm"], "refrTm", "refrTime", "refrQuality")
    return {"svID": texts(it["sv_id"]), "datSet": texts(it["dat_set"]), "smpCnt": count(it["smp_cnt"]), "confRev": count(it["conf_rev"]),
            **time, "smpSynch": count(it["smp_synch"]), "smpRate": count(it["smp_rate"]), "sample": digits(it["sample"]),
            "smpMod": digits(it["smp_mod"]), "field89": digits(it["field_89"])}


def shown(name, place, sort, moment, held):
    """The object of an event under `show`."""
    if sort == "clock":
        return head(name, place, moment, "clock")
    if sort == "mode":
        return head(name, place, moment, "mode", mode="on" if held else "off")
    try:
        it = reference.frame(held)
    except reference.Fault as fault:
        return head(name, place, moment, "fault", **fault_of(fault))
    pdu = it["apdu"]
    inside = goose(pdu) if it["name"] == "goose" else {"asdus": [asdu(one) for one in pdu["asdus"]]}
    envelope = {"destination": it["destination"].hex(), "source": it["source"].hex(),
                "tag": None if it["tag"] is None else f"{it['tag']:04x}", "appid": f"{it['app_id']:04x}",
                "reserved1": f"{it['reserved1']:04x}", "reserved2": f"{it['reserved2']:04x}"}
    return head(name, place, moment, it["name"], **envelope, **inside, trailer=it["trailer"].hex() or None)


def noted(name, place, moment, note):
    """The object of a note on a frame."""
    is_fault = isinstance(note, reference.Fault)
    return head(name, place, moment, "fault", **fault_of(note)) if is_fault else head(name, place, moment, note)


def listed(name, place, moment, word, sighting):
    """The object of a control block or of a stream."""
    _, _, text, it = sighting
    if word.startswith("stream"):
        return head(name, place, moment, word, confRev=int.from_bytes(it["conf_rev"], "big"), svID=texts(it["sv_id"]))
    pdu = it["apdu"]
    return head(name, place, moment, word, text=text, appid=f"{it['app_id']:04x}", gocbRef=texts(pdu["gocb_ref"]), datSet=texts(pdu["dat_set"]),
                goID=texts(pdu["go_id"]), confRev=pdu["conf_rev"], entries=len(pdu["members"]))


def entered(name, blocks, place, moment, word, position, held):
    """The object of an entry of a replay."""
    if word == "fault":
        return head(name, place, moment, word, **fault_of(held))
    if position is None:
        return head(name, place, moment, word)
    it = head(name, place, moment, word, **block_of(blocks, position))
    if word == "refused":
        return {**it, "reason": held}
    if word == "act":
        it = {**it, **stamped(held["t"], "t", "tTime", "tQuality"), "delay": moment - moment_of(held["t"])}
    if held is not None:
        it = {**it, "stNum": held["st_num"], "sqNum": held["sq_num"]}
    return {**it, "members": members(held["members"])} if word == "act" else it


def block_of(blocks, position):
    """A block by its position, and how it was given."""
    block = blocks[position]
    return {"block": position, "appid": f"{block.app_id:04x}", "gocbRef": block.gocb_ref}


def counted(name, place, moment, sample):
    """The object of a sample."""
    if isinstance(sample, reference.Fault):
        return head(name, place, moment, "fault", **fault_of(sample))
    position, count, answer = sample
    kind, _, missing = answer.partition(" ")
    it = head(name, place, moment, kind, asdu=position, smpCnt=count)
    return {**it, "missing": int(missing)} if missing else it


# The names of what `losses` says, where they differ from the words of its lines.
LOST_NAMES = {"st": "stNum", "sq": "sqNum", "cnt": "smpCnt", "states-missing": "statesMissing", "frames-missing": "framesMissing",
              "out-of-range": "outOfRange"}


def lost(name, place, moment, word, key, values):
    """The object of what `losses` says of a sender, a stream or a time. At the end there is no event."""
    if key is None:
        return {**head(name, place, moment, word), **values}
    sort, app_id, *own = key
    whose = {"gocbRef": texts(own[0]), "simulation": own[1]} if sort == "goose" else {"source": own[0].hex(), "svID": texts(own[1])}
    kind = word.replace(" ", "-")
    it = {"kind": kind} if place is None else head(name, place, moment, kind)
    told = {LOST_NAMES.get(named, named): value for named, value in values.items()}
    dated = {"since": told.pop("since"), "sinceTime": date(values["since"])} if "since" in told else {}
    return {**it, "appid": f"{app_id:04x}", **whose, **dated, **told}


# ---- Commands ----------------------------------------------------------------


def show(name, how):
    return (shown(name, number, *event) for number, event in how[-1](*how[:-1]))


def check(name, how):
    for number, (sort, moment, held) in how[-1](*how[:-1]):
        yield from (noted(name, number, moment, note) for note in reference.notes(sort, held))


def blocks(name, how):
    return (listed(name, *found) for found in inventory.findings(*how))


def replay(name, how, words, options=()):
    octets, *rest = how
    given = [subscriber.Block(word) for word in words]
    twice = subscriber.twice(given)
    if twice is not None:
        return iter([{"kind": "blocks", **block_of(given, twice), "error": "SameBlockTwice"}])
    return (entered(name, given, *entry) for entry in subscriber.told(options, subscriber.entries(octets, given, *rest, options)))


def watch(name, how, period, sv_id):
    octets, *rest = how
    return (counted(name, *sample) for sample in watcher.samples(octets, period, sv_id, *rest))


def missing(name, how, period):
    octets, *rest = how
    return (lost(name, *found) for found in losses.findings(octets, period, *rest))


def json_of(value):
    """A value as JSON, with no space between its parts."""
    if isinstance(value, dict):
        return "{" + ",".join(f"{json.dumps(name)}:{json_of(it)}" for name, it in value.items()) + "}"
    if isinstance(value, list):
        return "[" + ",".join(map(json_of, value)) + "]"
    return value if isinstance(value, Number) else json.dumps(value)


COMMANDS = {"show": show, "check": check, "blocks": blocks, "replay": replay, "watch": watch, "losses": missing}


def objects(command, name, own, octets, has_failed, events_of):
    """The objects of a command line's text, one a line: numbers stand under this name, packet or line, and own words follow the
    command."""
    try:
        for it in COMMANDS[command](name, (octets, has_failed, events_of), *own):
            yield json_of(it)
    except reference.ListFault as fault:
        yield json_of({name: fault.line, "kind": fault.sort, "error": fault.cause})


# ---- Digits ------------------------------------------------------------------


def read(told, form):
    """The octets of the floating-point number that is nearest to a decimal number, of two the even one; nothing where that is too large.
    Python reads a binary64: of binary32 the one beside it can be nearer."""
    try:
        near = int.from_bytes(struct.pack(form, abs(float(told))), "big")
    except OverflowError:
        return b""
    exact, whole = abs(fractions.Fraction(told)), struct.calcsize(form)
    values = {at: struct.unpack(form, at.to_bytes(whole, "big"))[0] for at in (near - 1, near, near + 1) if at >= 0}
    found = min((abs(fractions.Fraction(value) - exact), at % 2, at) for at, value in values.items() if value < float("inf"))[2]
    return (found + (told.startswith("-") << 8 * whole - 1)).to_bytes(whole, "big")


def numbers_read(octets):
    """JSON with the octets of each floating-point number in place of the digits of its value, where these are laid out as they should."""
    def nearest(found):
        form, told = FORMATS.get(int(found[1][:2] or b"0", 16)), found[2].decode()
        is_well = form and re.fullmatch(r"-?\d+(\.\d+)?(e-?\d+)?", told) and laid_out(told, form) == told
        return b'"float":"%s","value":(%s)' % (found[1], read(told, form).hex().encode()) if is_well else found[0]
    return VALUE.sub(nearest, octets)
