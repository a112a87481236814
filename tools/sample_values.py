"""What a sample of Sampled Values says: its channels, by the data set of an SCL file or by its octets alone, and its values and qualities.

    layout = sample_values.of_stream(svid, appid, size, are_pairs, station=None, channels=None)
    for it in layout.channels: it.name, it.kind, it.phase, it.unit, it.a, it.b
    told = layout.unpack(octets)                once for each ASDU
    layout.values(told), layout.qualities(told)

A value is a number; that times `a` plus `b` is in `unit`. A quality is a number of 32 bits, or None where a channel has none.
"""
import math
import operator
import re
import struct

import data_types
import value_words
from reporting import unread
from reporting.rates import MODES
from reporting.verdict import some
from running import Ended

# The forms of basic types in a sample (IEC 61850-9-2), all with the most significant octet first.
FORMS = {"BOOLEAN": "B", "INT8": "b", "INT16": "h", "INT32": "i", "INT64": "q", "INT8U": "B", "INT16U": "H", "INT32U": "I", "FLOAT32": "f",
         "FLOAT64": "d", "Enum": "i", "Dbpos": "i", "Tcmd": "i", "Check": "i", "Quality": "I", "Timestamp": "Q"}
UNTOLD = ("Quality", "Timestamp")
INTEGERS = ("INT8", "INT16", "INT32", "INT64", "INT8U", "INT16U", "INT32U")
# By the class of a logical node: what it measures, the value of a step where the file does not say it (IEC 61850-9-2 LE), and its unit.
MEASURED = {"TCTR": ("current", 0.001, "A"), "TVTR": ("voltage", 0.01, "V")}
LETTERS = {"I": "TCTR", "U": "TVTR"}
# The channels of IEC 61850-9-2 LE, and how --channels says others.
PAIR, USUAL, USUAL_PAIRS = 8, "4I4U", 8
CHANNELS, GROUP = re.compile(r"(?:[1-9]\d{0,2}[IU])+"), re.compile(r"(\d+)([IU])")
# The greatest quality by which words are taken for pairs, and the most pairs of a sample.
MOST_QUALITY, MOST_PAIRS = 0x3FFF, 1 << 8
PHASES = {3: "ABC", 4: "ABCN"}
# How IEC 61850-9-2 LE names its logical nodes: the phase stands in the prefix.
OF_PHASE = re.compile(r"[IU]\d\d([ABCN])(?:TCTR|TVTR)\d*\..*")
# The letters of multipliers that are no front of a unit.
NO_FRONT = ("", "1", "-")
DERIVED = 1 << 13
VALIDITY = ("", "invalid", "invalid", "questionable")
NUMBER = re.compile(r"[-+]?\d+")
# A number of an SCL file (XML Schema, float) but for those that are infinite, or none.
DECIMAL = re.compile(r"[-+]?(?:[0-9]+\.?[0-9]*|\.[0-9]+)(?:[eE][-+]?[0-9]+)?")


# ---- Qualities ---------------------------------------------------------------


def is_good(quality):
    """Whether a quality says nothing but that its value is derived."""
    return not quality & ~DERIVED


def quality_words(quality):
    """A quality in words."""
    told = [VALIDITY[quality & 3], *(flag for at, flag in enumerate(value_words.FLAGS, 2) if quality >> at & 1)]
    told += (["derived"] if quality & DERIVED else []) + (["reserved bits"] if quality >> 14 else [])
    return " ".join(it for it in told if it) or "good"


# ---- Channels ----------------------------------------------------------------


class Channel:
    """A channel of a stream: its name, what it is of, its phase, its unit, and the scale of its values."""

    def __init__(self, name, form, kind="", unit="", a=1.0, b=0.0, phase=""):
        self.name, self.form, self.kind, self.unit, self.a, self.b, self.phase = name, form, kind, unit, a, b, phase

    @property
    def is_wide(self):
        """Whether its values do not fit into a number of 32 bits with a sign."""
        return self.form in "fdqI"

    @property
    def limits(self):
        """The least and the greatest value that its octets can have."""
        bits = 8 * struct.calcsize(f">{self.form}")
        if self.form in "fd":
            return -math.inf, math.inf
        return (0, 2**bits - 1) if self.form.isupper() else (-2**(bits - 1), 2**(bits - 1) - 1)


class Layout:
    """What the samples of a stream say: their channels, their octets, by what this is known, and what of that cannot be read."""

    def __init__(self, form, channels, values, qualities, why):
        self.form, self.channels, self.why, self.unread = form, channels, why, []
        self.read = struct.Struct(f">{form}")
        self.at, self.at_quality = values, qualities
        self.values, self.take = taken(values), taken([it for it in qualities if it is not None])

    @property
    def size(self):
        return self.read.size

    def unpack(self, octets):
        """All that a sample says, of which `values` and `qualities` tell the parts."""
        return self.read.unpack(octets)

    def qualities(self, told):
        """The qualities of the channels in their order, None for one without."""
        return [None if it is None else told[it] for it in self.at_quality]

    def are_good(self, told):
        """Whether all qualities are good."""
        return not any(self.take(told)) or all(map(is_good, self.take(told)))


def taken(places):
    """What takes the parts at these places, always as a tuple."""
    if len(places) > 1:
        return operator.itemgetter(*places)
    return (lambda told: (told[places[0]],)) if places else lambda told: ()


def are_pairs_of(size, before=0, number=1):
    """What answers whether a sample of this size can be pairs of INT32 and Quality, or each of at most so many samples with so many octets before
    them; None where none can."""
    if not size or size % PAIR or size // PAIR > MOST_PAIRS:
        return None
    mask = bytes(before) + (bytes(4) + (0xFFFFFFFF - MOST_QUALITY).to_bytes(4, "big")) * (size // PAIR)
    whole = int.from_bytes(mask * number, "big")
    return lambda octets: not int.from_bytes(octets, "big") & whole


def pairs(count, channels):
    """The layout of pairs of INT32 and Quality. Unless it is told, only of eight is it known what they measure."""
    told = channels or (USUAL if count == USUAL_PAIRS else "")
    groups = [(int(number), letter) for number, letter in GROUP.findall(told)]
    if told and sum(number for number, _ in groups) != count:
        raise Ended(f"--channels {told} are {sum(number for number, _ in groups)} channels, and a sample of the stream has {count}", 2)
    found, numbers = [], {"I": 0, "U": 0}
    for number, letter in groups:
        kind, a, unit = MEASURED[LETTERS[letter]]
        for phase in PHASES.get(number, " " * number):
            numbers[letter] += 1
            found.append(Channel(f"{letter}{numbers[letter]}", "i", kind, unit, a, phase=phase.strip()))
    why = f"pairs of INT32 and Quality, {told}: currents of 1 mA, voltages of 10 mV a step"
    if not told:
        found = [Channel(f"X{at + 1}", "i") for at in range(count)]
        why = "pairs of INT32 and Quality, of which it is not known what they measure: --channels says it"
    return Layout("iI" * count, found, range(0, 2 * count, 2), range(1, 2 * count, 2), why)


def raw(size):
    """The layout of samples of which nothing is known."""
    words, rest = divmod(size, 4)
    why = f"raw words of 32 bits, since a sample of {size} octets is neither of a known data set nor pairs of INT32 and Quality"
    why += f"; {rest} octets at its end are left out" if rest else ""
    return Layout("i" * words + "x" * rest, [Channel(f"word {at + 1}", "i", "raw") for at in range(words)], range(words), [None] * words, why)


def of_stream(svid, appid, size, are_pairs, station=None, channels=None):
    """The layout of a stream of samples of this size, where it is known whether all can be pairs of INT32 and Quality."""
    told = ""
    for control in station.streams_named(svid, appid) if station else ():
        found = station.layout(control)
        if found and found.size == size:
            return found
        told = told or (f"; the data set of {station.path} is of {found.size} octets, and a sample of {size}" if found
                        else f"; {station.path} does not say the size of each member of its data set")
    layout = pairs(size // PAIR, channels) if are_pairs and size and size % PAIR == 0 else raw(size)
    layout.why += told
    return layout


# ---- What an SCL file says ---------------------------------------------------


class Stated(str):
    """The text of a value, and its line."""

    line = None


def stated(text, parser):
    """A text that is read there."""
    text = Stated(text)
    text.line = parser.CurrentLineNumber
    return text


class Station(data_types.Station):
    """A station with the values that scale what is sampled."""

    def __init__(self, path):
        self.told = {}
        super().__init__(path)

    def reader(self, parser):
        return Reader(self, parser)

    def streams_named(self, svid, appid=None):
        """The control blocks of a stream: those of its svID, and of its APPID before others."""
        held = [it for it in self.controls if it.service == "SMV" and it.stated.get("smvID") == svid]
        return sorted(held, key=lambda it: appid not in self.appids(it))

    def appids(self, control):
        try:
            return {it.fields["APPID"] for it in self.senders(control)}
        except ValueError:
            return set()

    def rates(self, svid, appid=None):
        """What is said of the rate of a stream: smpRate, and what smpMod says of it."""
        stated = [it.stated for it in self.streams_named(svid, appid)]
        return [(int(it["smpRate"]), MODES[it.get("smpMod", "SmpPerPeriod")]) for it in stated
                if "smpRate" in it and not unread.RATE & {*unread.of_sampling(it)}]

    def unread_rates(self, svid, appid=None):
        """What is said of the rate of a stream and cannot be read."""
        return [unread.Unread(control.line, name, control.stated[name], svid) for control in self.streams_named(svid, appid)
                for name in unread.of_sampling(control.stated) if name in unread.RATE]

    def layout(self, control):
        """The layout of a control block's samples, or None where the size of a member is not known."""
        members = self.data_of(control) or []
        stated = self.members.get(control.data_set()) or []
        leaves = [(of, leaf) for of, member in zip(stated, members) for leaf in leaves_of(member)]
        if not leaves or any(leaf.sort not in FORMS for _, leaf in leaves):
            return None
        objects = [Object(self, control.owner, of, leaf) for of, leaf in leaves]
        qualities = {(it.node, it.steps): at for at, it in reversed(list(enumerate(objects))) if it.leaf.sort == "Quality"}
        values = [at for at, it in enumerate(objects) if it.leaf.sort not in UNTOLD]
        found = Layout("".join(FORMS[leaf.sort] for _, leaf in leaves), [objects[at].channel() for at in values], values,
                       [qualities.get((objects[at].node, objects[at].steps)) for at in values],
                       f"by the data set {control.stated.get('datSet')} of {control.told()} in {self.path}")
        found.unread = unread_of([objects[at] for at in values], control.stated.get("smvID"))
        return found


def unread_of(objects, svid):
    """The values that scale what is sampled and cannot be read, each once with the channels that it is of, and what is taken in its place."""
    held = {}
    for it in objects:
        for told in it.unread:
            held.setdefault(told, []).append(it.leaf.name)
    return [unread.Unread(text.line, name, text, f"{svid} ({some(channels)})", instead) for (name, text, instead), channels in held.items()]


def leaves_of(member):
    if isinstance(member, data_types.Leaf):
        return [member]
    return [it for part in member.parts for it in leaves_of(part)]


class Object:
    """The data object of a member of one value: its logical node, the steps that lead to it, and what its attributes are."""

    def __init__(self, station, owner, stated, leaf):
        self.station, self.leaf, self.sort, self.unread = station, leaf, stated.get("lnClass", ""), []
        self.node = (owner, *data_types.node_named(stated))
        self.parts, steps = station.types.nodes.get(station.nodes.get(self.node)), []
        name = "".join(stated.get(it) or "" for it in ("prefix", "lnClass", "lnInst"))
        for step in leaf.name.rpartition("/")[2][len(name) + 1:].split("."):
            part = next((it for it in self.parts or () if it.name == step.partition("(")[0]), None)
            if part is None or part.tag not in ("DO", "SDO"):
                break
            steps.append(step)
            self.parts = self.inside(part)
        self.steps = tuple(steps)

    def inside(self, part):
        try:
            return self.station.types.inside(part)
        except data_types.Unresolved:
            return None

    def value(self, *names):
        """The value of an attribute as text: that of the node, else that of the types, or None."""
        own = self.station.told.get((self.node, (*self.steps, *names)))
        parts, part = self.parts, None
        for name in names:
            part = next((it for it in parts or () if it.name == name), None)
            parts = part and self.inside(part)
        told = own if own is not None else getattr(part, "value", None)
        words = self.station.types.enums.get(part.type, {}) if part and part.sort == "Enum" else {}
        return words.get(told, told)

    def number(self, instead, *names):
        """The number of an attribute, or None where there is none, or a text that is no number of this use: what is then taken is noted with it."""
        text = self.value(*names)
        if text is None:
            return None
        number = float(text) if DECIMAL.fullmatch(text) else math.inf
        if math.isfinite(number) and (number or names[-1] != "scaleFactor"):
            return number
        self.unread.append((names[-1], text, instead))
        return None

    def channel(self):
        """The channel of the member. Numbers that are no measured values are what they are."""
        kind, a, unit = MEASURED.get(self.sort, ("", 1.0, ""))
        phase = OF_PHASE.fullmatch(self.leaf.name.rpartition("/")[2])
        of = {"kind": kind, "phase": phase[1] if phase else ""}
        sort = self.leaf.sort
        if sort not in INTEGERS and not sort.startswith("FLOAT"):
            return Channel(self.leaf.name, FORMS[sort], **of)
        factor = self.number(f"{a:g} {unit}".rstrip(), "sVC", "scaleFactor") if sort in INTEGERS else None
        if sort in INTEGERS and factor is None:
            return Channel(self.leaf.name, FORMS[sort], unit=unit, a=a, **of)
        scale = {"a": factor, "b": self.number("0", "sVC", "offset") or 0.0} if sort in INTEGERS else {}
        return Channel(self.leaf.name, FORMS[sort], unit=self.unit(unit), **scale, **of)

    def unit(self, usual):
        """The unit with the letter of its multiplier."""
        front = self.value("units", "multiplier") or ""
        if front not in NO_FRONT and NUMBER.fullmatch(front):
            self.unread.append(("multiplier", front, "none"))
        return ("" if front in NO_FRONT or NUMBER.fullmatch(front) else front) + (self.value("units", "SIUnit") or usual)


class Reader(data_types.Reader):
    """Reads what other stations read, and the values of sVC and units."""

    def starts(self, name, stated):
        local = "" if self.skipped else data_types.local_name(name)
        if local == "DataTypeTemplates" and self.path == ["SCL"]:
            self.give_way(TypesReader(self.station.types), name, stated)
        elif local == "DOI" and self.path[-1:] == ["LN"] and data_types.SUPERVISED.get(self.at["LN"].get("lnClass")) != stated.get("name"):
            node = (self.owner(), self.at["LDevice"].get("inst", ""), *(self.at["LN"].get(it, "") for it in ("prefix", "lnClass", "inst")))
            self.give_way(ValuesReader(lambda names, told: self.station.told.setdefault((node, names), told)), name, stated)
        else:
            super().starts(name, stated)


class TypesReader(data_types.TypesReader):
    """Reads types with the values of their attributes."""

    def closes(self):
        super().closes()
        if self.path[1:] in (["DOType", "DA", "Val"], ["DAType", "BDA", "Val"]) and self.held:
            self.held[-1].value = getattr(self.held[-1], "value", stated(self.told(), self.parser))


class ValuesReader(data_types.Within):
    """Reads the values of a data object's sVC and units."""

    def __init__(self, sees):
        super().__init__()
        self.sees, self.names = sees, []

    def begins(self, stated):
        self.names.append(stated.get("name", ""))

    def closes(self):
        if self.path[-2:] == ["DAI", "Val"] and len(self.names) > 3 and self.names[-3] in ("sVC", "units"):
            self.sees(tuple(self.names[:-1]), stated(self.told(), self.parser))
        self.names.pop()
