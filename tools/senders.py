"""Control blocks and streams, as an SCL file configures them or as a capture has them, and how two of them differ.

A block is the same as another of its APPID and gocbRef, a stream as another of its svID. What only one side tells is not
compared.
"""
import collections
import functools
import json
import re

NAMES = ("APPID", "gocbRef", "datSet", "goID", "confRev", "entries")
STREAM = re.compile(r'(stream id=".*") rev=([0-9]{1,20})')
# The texts of frames, and numbers.
VISIBLE, DIGITS = re.compile("[ -~]*"), re.compile("[0-9]{1,20}")
# What only objects tell of both.
ADDRESS = ("MAC address", "VLAN", "priority")
# What streams alone have.
SAMPLING = ("nofASDU", "smpRate", "smpMod")
# What smpRate counts, by the numbers that frames have for it.
MODES = ("SmpPerPeriod", "SmpPerSec", "SecPerSmp")


class Sender:
    """A control block or a stream: the text of goose blocks, its kind, and its fields. A field that is not told is None."""

    def __init__(self, text, kind, fields, **more):
        self.text, self.kind, self.fields, self.more = text, kind, fields, more

    @property
    def key(self):
        """What two senders have in common that are compared. Of a block that no BLOCK can hold it is its whole text."""
        if self.kind == "stream":
            return self.text.rpartition(" ")[0]
        return (self.fields["APPID"], self.fields["gocbRef"]) if "gocbRef" in self.fields else self.text

    @property
    def form(self):
        """What is equal of two senders that are the same in all that is told."""
        return self.text, *self.fields.items()

    def object(self):
        """What JSON has of a sender that is configured."""
        fields = self.fields
        address = {"destination": squeezed(fields["MAC address"]), "vlan": number(fields["VLAN"]), "priority": number(fields["priority"])}
        if self.kind == "stream":
            own = {"kind": "stream", "confRev": int(fields["confRev"]), "svID": self.more["svID"], "appid": fields["APPID"]}
            address |= {name: it if name == "smpMod" else int(it) for name in SAMPLING if (it := fields.get(name)) is not None}
        else:
            own = {"kind": "block", "text": self.text, "appid": fields["APPID"], "gocbRef": fields["gocbRef"], "datSet": fields["datSet"],
                   "goID": fields["goID"] or None, "confRev": int(fields["confRev"]), "entries": int(fields["entries"])}
        return {**own, **address}


def number(digits):
    return None if digits is None else int(digits)


def squeezed(address):
    """A MAC address as goose writes it."""
    return address and address.replace("-", "").lower()


def hyphened(address):
    """A MAC address of twelve digits as SCL writes it."""
    return "-".join(address[at:at + 2] for at in range(0, 12, 2)).upper()


def quoted(text):
    """A text as goose shows it."""
    return '"' + re.sub(r'(["\\])', r"\\\1", text) + '"'


def address_fields(destination=None, vlan=None, priority=None):
    return {"MAC address": destination, "VLAN": None if vlan is None else str(vlan), "priority": None if priority is None else str(priority)}


def sampling_fields(count=None, rate=None, mode=None):
    """How many samples a frame has, and how fast they come. smpMod alone tells nothing."""
    return {"nofASDU": None if count is None else str(count), "smpRate": None if rate is None else str(rate),
            "smpMod": None if None in (rate, mode) else MODES[mode] if mode < len(MODES) else str(mode)}


# ---- Senders of texts --------------------------------------------------------


def block_fields(text):
    """The fields of a BLOCK, APPID in lower case and numbers without leading zeros, or None where it is none."""
    fields = text.split(",")
    if len(fields) != 6 or not re.fullmatch(r"[0-9a-fA-F]{4}", fields[0]) or not all(map(DIGITS.fullmatch, fields[4:])):
        return None
    return dict(zip(NAMES, [fields[0].lower(), *fields[1:4], *(str(int(it)) for it in fields[4:])]))


def of_text(text):
    """The sender that goose blocks tells by a text."""
    stream = STREAM.fullmatch(text)
    if stream:
        return Sender(text, "stream", {"confRev": stream[2]})
    return Sender(text, "block", block_fields(text) or {})


# ---- Senders of objects ------------------------------------------------------


def block_text(appid, reference, data_set, goid, revision, entries):
    """A block as goose blocks writes it."""
    if "," not in reference + data_set + (goid or ""):
        return ",".join([appid, reference, data_set, goid or "", str(revision), str(entries)])
    shown = "-" if goid is None else quoted(goid)
    return f"appid={appid} ref={quoted(reference)} set={quoted(data_set)} id={shown} rev={revision} entries={entries}"


def stream_of(svid, revision, **told):
    """A stream, and what is told of it beside svID and confRev."""
    return Sender(f"stream id={quoted(svid)} rev={revision}", "stream", {"confRev": str(revision), **told}, svID=svid)


def envelope_of(record):
    """The fields that a shown frame has in its envelope. A frame without a tag tells neither VLAN nor priority."""
    tag = None if record["tag"] is None else int(record["tag"], 16)
    return address_fields(hyphened(record["destination"]), tag and tag & 0xFFF, tag and tag >> 13)


def of_frame(record):
    """The senders of a frame that goose show --json has told."""
    envelope = envelope_of(record)
    if record["kind"] == "sv":
        counts = collections.Counter(asdu["svID"] for asdu in record["asdus"])
        for asdu in record["asdus"]:
            mode = asdu.get("smpMod")
            told = sampling_fields(counts[asdu["svID"]], asdu.get("smpRate"), None if mode is None else int(mode or "0", 16))
            yield stream_of(asdu["svID"], asdu["confRev"], APPID=record["appid"], **envelope, **told)
        return
    text = block_text(*(record[it] for it in ("appid", "gocbRef", "datSet", "goID", "confRev")), len(record["members"]))
    yield Sender(text, "block", {**(block_fields(text) or {}), **envelope})


# What a value of an object is, and which names each kind has: those that it needs, and those that can be absent or null.
def hexadecimal(size):
    return lambda it: isinstance(it, str) and re.fullmatch("[0-9a-f]{%d}" % size, it)


VALUES = {
    **dict.fromkeys(("text", "gocbRef", "datSet", "goID", "svID"), lambda it: isinstance(it, str) and VISIBLE.fullmatch(it)),
    **dict.fromkeys(("confRev", "vlan", "priority"), lambda it: type(it) is int and 0 <= it < 1 << 64),
    **dict.fromkeys(("members", "asdus"), lambda it: isinstance(it, list)),
    **dict.fromkeys(("nofASDU", "smpRate"), lambda it: type(it) is int and 0 <= it < 1 << 64),
    "smpMod": lambda it: isinstance(it, str) and (it in MODES or re.fullmatch("(?:[0-9a-f]{2}){0,8}", it)),
    "destination": hexadecimal(12), "tag": hexadecimal(4), "appid": hexadecimal(4),
}
NEEDED = {"goose": ("destination", "appid", "gocbRef", "datSet", "confRev", "members"), "sv": ("destination", "appid", "asdus"),
          "asdu": ("svID", "confRev"), "block": ("text",), "stream": ("svID", "confRev")}
ABSENT = {"goose": ("tag", "goID"), "sv": ("tag",), "asdu": ("smpRate", "smpMod"), "block": ("destination", "vlan", "priority"),
          "stream": ("appid", "destination", "vlan", "priority", *SAMPLING)}


def check_object(sort, record):
    """An error says what of an object of this sort is not there, or is another value than goose and scl_blocks write."""
    if not isinstance(record, dict):
        raise ValueError(f"its {sort} is no object")
    for name in NEEDED[sort]:
        if name not in record:
            raise ValueError(f"its {sort} lacks {name}")
    for name in (*NEEDED[sort], *(it for it in ABSENT[sort] if record.get(it) is not None)):
        if not VALUES[name](record[name]):
            raise ValueError(f"its {sort} has the {name} {clipped(record[name])}")
    for asdu in record["asdus"] if sort == "sv" else ():
        check_object("asdu", asdu)


def clipped(value):
    text = json.dumps(value)
    return text if len(text) <= 60 else text[:60] + ".."


def of_object(record):
    """The senders that an object tells, of goose show, goose blocks or scl_blocks, or None where it is of another command. An error says
    what is wrong with it."""
    kind = record.get("kind")
    if kind in ("goose", "sv") and "destination" in record:
        check_object(kind, record)
        return list(of_frame({"tag": None, "goID": None, **record}))
    if kind in ("block", "block-changed", "stream", "stream-changed"):
        check_object(kind.partition("-")[0], record)
        address = address_fields(record.get("destination") and hyphened(record["destination"]), record.get("vlan"), record.get("priority"))
        if kind.startswith("block"):
            text = record["text"]
            return [Sender(text, "block", {**(block_fields(text) or {}), **address})]
        mode = record.get("smpMod")
        told = sampling_fields(record.get("nofASDU"), record.get("smpRate"), MODES.index(mode) if mode is not None else None)
        return [stream_of(record["svID"], record["confRev"], APPID=record.get("appid"), **address, **told)]
    return [] if kind in ("fault", "clock", "mode") else None


def read_object(line):
    """The object of a line, or None."""
    try:
        found = json.loads(line)
    except (RecursionError, ValueError):
        return None
    return found if isinstance(found, dict) and isinstance(found.get("kind"), str) else None


# ---- Frames that tell what others told ---------------------------------------

TEXT = r'"[^"\\]*(?:\\.[^"\\]*)*"'
HEAD = r'\{"(?:line|packet)":[0-9]+,"microseconds":[0-9]+,"time":(?:"[^"\\]*"|null),"kind":'
ENVELOPE = (r'"destination":"[0-9a-f]{12}","source":"[0-9a-f]{12}","tag":(?:"[0-9a-f]{4}"|null),"appid":"[0-9a-f]{4}",'
            r'"reserved1":"[0-9a-f]{4}","reserved2":"[0-9a-f]{4}",')
TRAILER = r',"trailer":(?:"[0-9a-f]*"|null)\}'
# The quality of a time in the one form that goose writes, which is told in a third of the time, or any.
BOOLEAN = "(?:true|false)"
QUALITY = (rf'(?:\{{"leapSecondsKnown":{BOOLEAN},"clockFailure":{BOOLEAN},"clockNotSynchronized":{BOOLEAN},"timeAccuracy":[0-9]+\}}'
           rf'|\{{(?:"\w+":(?:true|false|[0-9]+),?)*\}})')
BEGIN = re.compile(HEAD + '"(goose|sv)",')
CLOCK = re.compile(HEAD.replace("[0-9]+", "(?:0|[1-9][0-9]*)").replace(r'[^"\\]', "[-0-9:.TZ]") + r'"clock"\}')
# A frame of GOOSE in three parts: what stays from frame to frame before t, what does not, and what stays behind sqNum.
STATE = ',"t":"'
FRONT = re.compile(rf'({ENVELOPE}"gocbRef":{TEXT}),"timeAllowedtoLive":[0-9]+,("datSet":{TEXT},"goID":(?:{TEXT}|null))')
BETWEEN = re.compile(rf',"t":"[0-9a-f]{{16}}","tTime":(?:"[^"\\]*"|null),"tQuality":{QUALITY},"stNum":[0-9]+,"sqNum":[0-9]+,')
REST = re.compile(rf'"simulation":\w+,"confRev":([0-9]+),"ndsCom":\w+,"members":(\[.*\]){TRAILER}')
# What of an ASDU differs from frame to frame, or is not compared.
OWN = re.compile(r'"(?:smpCnt|smpSynch)":(?:[0-9]+|null)|"(?:refrTm|refrTime|sample|field89)":(?:"[^"\\]*"|null)|"refrQuality":' + QUALITY)
OF_NAME = {'"smpCnt":': "(?:[0-9]+|null)", '"smpSynch":': "(?:[0-9]+|null)", '"refrQuality":': QUALITY}
ASDUS = '"asdus":['
SAMPLED = re.compile(rf'({ENVELOPE}"asdus":)(\[.*\]){TRAILER}')
# How many sorts of frames are known again, and of how many their texts or a pattern.
MOST_KEYS, MOST_ALIKE = 100000, 4096


class Known:
    """Lines that tell the same as an earlier one. A frame of GOOSE is mostly known by the text of what stays from frame to frame, one of Sampled
    Values by a pattern of the first that came twice with its envelope."""

    def __init__(self):
        self.keys, self.alike, self.patterns, self.key = set(), set(), {}, None

    def has(self, line):
        """Whether a line is known. If it is not, `add` adds it."""
        self.key, begin = None, BEGIN.match(line)
        if not begin:
            self.key = CLOCK.fullmatch(line) and "clock"
            return self.key in self.keys
        if begin[1] == "sv":
            return self.has_sampled(line, begin.end())
        at = line.find(STATE, begin.end())
        between = at >= 0 and BETWEEN.match(line, at)
        parts = between and (line[begin.end():at], line[between.end():])
        return parts in self.alike or bool(parts) and self.has_goose(*parts)

    def has_goose(self, front, rest):
        """A frame of GOOSE by what it tells before t and behind sqNum."""
        before, behind = FRONT.fullmatch(front), told_behind(rest)
        self.key = before and behind and (before.groups(), behind)
        is_known = self.key in self.keys
        if is_known and len(self.alike) < MOST_ALIKE:
            self.alike.add((front, rest))
        return is_known

    def has_sampled(self, line, at):
        """A frame of Sampled Values. One with a backslash is known by no pattern."""
        until = line.find(ASDUS, at)
        envelope = line[at:until] if until >= 0 and "\\" not in line else None
        pattern = self.patterns.get(envelope)
        if pattern and pattern(line, until):
            return True
        found = SAMPLED.fullmatch(line, at)
        self.key = found and (found[1], OWN.sub("", found[2]))
        is_known = self.key in self.keys
        if is_known and envelope and not pattern and len(self.patterns) < MOST_ALIKE:
            self.patterns[envelope] = pattern_of(line, until)
        return is_known

    def add(self):
        """Adds the line that was looked at last."""
        if self.key and len(self.keys) < MOST_KEYS:
            self.keys.add(self.key)


@functools.lru_cache(4096)
def told_behind(text):
    """What a frame of GOOSE tells behind sqNum: confRev and the number of members; or None."""
    found = REST.fullmatch(text)
    try:
        return found and (found[1], len(json.loads(found[2])))
    except (RecursionError, ValueError):
        return None


def pattern_of(line, at):
    """What matches the ASDUs of frames without a backslash that tell the same as this one, up to the end of their lines."""
    pattern, begin = "", at
    for it in OWN.finditer(line, at):
        name = it[0][:it[0].index(":") + 1]
        pattern += re.escape(line[begin:it.start()]) + name + OF_NAME.get(name, '(?:"[^"]*"|null)')
        begin = it.end()
    return re.compile(pattern + re.escape(line[begin:])).fullmatch


# ---- Comparison --------------------------------------------------------------


def differences(wanted, found):
    """In which fields a sender of a capture differs from one that was wanted: their names, what was wanted, and what there is."""
    for name, ours in wanted.fields.items():
        theirs = found.fields.get(name)
        if None not in (ours, theirs) and ours != theirs and not (name == "goID" and not ours):
            yield name, ours, theirs or "absent"


def by_key(senders):
    """The forms of each sender, each once."""
    found = {}
    for it in {it.form: it for it in senders}.values():
        found.setdefault(it.key, []).append(it)
    return found


def unwanted(wanted, forms):
    """The forms of a sender that none of those that were wanted agrees with, by their numbers."""
    return {at for at, form in enumerate(forms) if all(any(differences(it, form)) for it in wanted)}


def compared(texts, found):
    """For each sender that was wanted, in order: agrees, missing or differs, itself, and the differences in words. Then each other one
    that was found, as extra."""
    wanted, there, alone = by_key(texts), by_key(found), {}
    for it in texts:
        forms = there.get(it.key, [])
        if not forms:
            yield "missing", it, []
            continue
        if it.key not in alone:
            alone[it.key] = unwanted(wanted[it.key], forms)
        # A form that another of them wants is no difference of this one.
        told, others = {}, {}
        for at, form in enumerate(forms):
            differs = tuple(differences(it, form))
            (told if not differs or at in alone[it.key] else others)[form.text, differs] = None
        yield from (("differs" if why else "agrees", it, [f"{name} {theirs}" for name, _, theirs in why]) for _, why in told or others)
    for key, forms in there.items():
        yield from (("extra", it, []) for it in {it.text: it for it in forms}.values() if key not in wanted)
