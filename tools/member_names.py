"""The names and words of the members of control blocks: by an SCL file, by what tools/scl_blocks --names wrote of one, or by neither.

A path says where a member is: 2.1 is the first one in the second, and so are positions told where there is no name.
"""
import itertools
import json
import re

import data_types
import value_words
from data_types import Leaf, Whole
from running import Ended

# The kinds of members that the basic types have, bits with their number. int and uint are one.
KINDS = {"BOOLEAN": "boolean", "Enum": "int", "FLOAT32": "float", "FLOAT64": "float", "Dbpos": 2, "Tcmd": 2, "Check": 2, "Quality": 13,
         "Timestamp": "utc", "EntryTime": "btime", "ObjRef": "text", "Currency": "text", "EntryID": "oct"}
FORMS = ((re.compile(r"INT\d+U?"), "int"), (re.compile(r"VisString\d+"), "text"), (re.compile(r"Unicode\d+"), "mms"),
         (re.compile(r"Octet\d+"), "oct"))
# The logical node, data object and attributes of a name.
NAME = re.compile(r"(?:[^/]*/)?[^./]*?(?P<node>[A-Z]{4}|LLN0)\d*\.(?P<data>.+)")
PHASES = ("general", "phsA", "phsB", "phsC", "neut")
# How many forms of members are held.
MOST_FORMS = 10000
DIFFERS = "data set differs from the file"


def kind_of(sort):
    """The kind of members of a basic type, or None where any could be."""
    return KINDS.get(sort) or next((kind for form, kind in FORMS if sort and form.fullmatch(sort)), None)


def form(member):
    """The kind of a member: of a structure or array with those in it, of bits their number."""
    if isinstance(member, bool):
        return "boolean"
    if isinstance(member, str):
        return "text"
    kind, told = next(iter(member.items()), ("", None))
    if kind in ("structure", "array"):
        return kind, forms(told)
    return len(told) if kind == "bits" else "int" if kind == "uint" else kind


def forms(members):
    return tuple(map(form, members))


class Differs(Exception):
    """Members are not those that a file has."""


class Named:
    """The names and types of the members of one frame. `names` has a name for each member, and for a structure or array a list of
    those in it."""

    def __init__(self, leaves=None, names=None, differs=False):
        self.leaves, self.names, self.differs = leaves or {}, names, differs
        # What is_trip has answered, since one member changes again and again.
        self.trips = {}

    @property
    def is_known(self):
        return self.names is not None

    def path(self, path):
        """The name of a member, or its position. A structure has what the names in it begin with."""
        leaf = self.leaves.get(path)
        if leaf is None and path:
            inside = [leaf.name.split(".")[:-1] for at, leaf in self.leaves.items() if at.startswith(f"{path}.")]
            shared = itertools.takewhile(lambda parts: len(set(parts)) == 1, zip(*inside))
            return ".".join(it[0] for it in shared) or path
        return leaf and leaf.name or path

    def kind(self, path):
        """The basic type of a member, or None where it is not known."""
        leaf = self.leaves.get(path)
        return leaf and leaf.sort

    def word(self, path, member):
        """The value of a member in words."""
        leaf = self.leaves.get(path)
        return value_words.word(leaf, member) if leaf else value_words.plain(member)

    def parts(self, path):
        """The class of a member's logical node, and its data object and attributes, or nothing."""
        found = NAME.fullmatch(self.path(path))
        return (found["node"], found["data"]) if found else ("", "")

    def is_trip(self, path):
        """Whether a device trips where this goes true."""
        if path not in self.trips:
            self.trips[path] = self.names_trip(path)
        return self.trips[path]

    def names_trip(self, path):
        """The same, by the names. RREC closes, and a start (Str) is no trip."""
        node, data = self.parts(path)
        first, _, phase = data.partition(".")
        trips = first == "Tr" or (first == "Op" and node.startswith("P")) or (first in ("OpEx", "OpIn") and node == "RBRF")
        return trips and phase in PHASES and node != "RREC" and self.kind(path) in ("BOOLEAN", None)

    def is_breaker(self, path):
        """Whether it is the position of a circuit breaker."""
        return self.parts(path) == ("XCBR", "Pos.stVal") and self.kind(path) in ("Dbpos", None)


NONE, OTHER = Named(), Named(differs=True)


class Matched:
    """Members of a file's data set, found in those of a frame, of which the forms are given. A structure can be one in the frame, or its
    members one after another."""

    def __init__(self, wanted, given):
        self.leaves = {}
        self.names = self.whole(wanted, given, "")

    def whole(self, wanted, given, path):
        names = []
        for it in wanted:
            self.one(it, given, path, names)
        if len(names) != len(given):
            raise Differs
        return names

    def one(self, wanted, given, path, names):
        """Adds the names of the next members of the frame, which are those of one of the file."""
        at = len(names)
        if at >= len(given):
            raise Differs
        here, there = f"{path}{at + 1}", given[at]
        if isinstance(wanted, Leaf):
            kind = kind_of(wanted.sort)
            if kind not in (None, there):
                raise Differs
            names.append(self.leaf(wanted, there, here))
        elif isinstance(there, tuple):
            if there[0] != wanted.kind:
                raise Differs
            names.append(self.whole(wanted.parts, there[1], f"{here}."))
        else:
            for it in wanted.parts:
                self.one(it, given, path, names)

    def leaf(self, wanted, there, path):
        """A name. In one of which the file does not say what it is there can be more."""
        if isinstance(there, tuple):
            return [self.leaf(Leaf(wanted.name and f"{wanted.name}.{at}"), it, f"{path}.{at}") for at, it in enumerate(there[1], 1)]
        self.leaves[path] = wanted
        return wanted.name or path


class Names:
    """The names of the members of control blocks: of each block the members of its data set, by APPID and gocbRef."""

    def __init__(self, blocks=None):
        self.blocks, self.known, self.wanted = blocks or {}, {}, {}

    def has(self, appid, reference):
        return (appid, reference) in self.blocks

    def data_of(self, key):
        """The members of a block's data set by the file, or None."""
        if key not in self.wanted:
            self.wanted[key] = self.blocks[key][1]() if key in self.blocks else None
        return self.wanted[key]

    def names_of(self, appid, reference, members, data_set=None):
        """What is known of the members of a frame. Its data set, where it is given, has to be that of the file too."""
        key = appid, reference
        if key not in self.blocks:
            return NONE
        shape = key, forms(members), data_set
        if shape not in self.known:
            if len(self.known) >= MOST_FORMS:
                self.known.clear()
            self.known[shape] = self.matched(*shape)
        return self.known[shape]

    def matched(self, key, given, data_set):
        wanted = self.data_of(key)
        if wanted is None:
            return NONE
        if data_set not in (None, self.blocks[key][0]):
            return OTHER
        try:
            found = Matched(wanted, given)
        except Differs:
            return OTHER
        is_told = any(it.name for it in found.leaves.values())
        return Named(found.leaves, found.names) if is_told else NONE


# ---- As cells ----------------------------------------------------------------


class Cells:
    """The members of records as pairs of a name and a value, one for each value: a text where the type has words. A name that two members
    have is that of the first."""

    def __init__(self, names):
        self.names, self.differing = names, {}

    def of(self, record):
        """The pairs of a record's members, or None where their names are not known."""
        try:
            named = self.names.names_of(record["appid"], record["gocbRef"], record["members"], record.get("datSet"))
        except (AttributeError, KeyError, StopIteration, TypeError):
            return None
        if named.differs:
            self.differing[record["appid"], record["gocbRef"]] = None
        if not named.is_known:
            return None
        found = {}
        for path, member in leaves(record["members"]):
            leaf, name = named.leaves[path], named.path(path)
            told = value_words.word(leaf, member) if leaf.words or leaf.sort in value_words.IN_WORDS else member
            found[f"member{path}" if name in found or name == path else name] = told
        return found.items()


def leaves(members, path=""):
    """The values of members, each with its path."""
    for at, it in enumerate(members, 1):
        inside = next((it[kind] for kind in ("structure", "array") if kind in it), None) if isinstance(it, dict) else None
        if inside is None:
            yield f"{path}{at}", it
        else:
            yield from leaves(inside, f"{path}{at}.")


# ---- Where they come from ----------------------------------------------------


def of_station(station):
    """The names of an SCL file that was read with its types."""
    blocks = {}
    for control in station.controls:
        if control.service == "GOOSE":
            for sender in senders_of(station, control):
                fields = sender.fields
                blocks.setdefault((fields["APPID"], fields["gocbRef"]), (fields["datSet"], lambda it=control: station.data_of(it)))
    return Names(blocks)


def senders_of(station, control):
    try:
        yield from station.senders(control)
    except ValueError:
        return


def told(station, control):
    """The objects of a control block with the names and types of its members, which of_file reads again."""
    for sender in station.senders(control):
        fields, members = sender.fields, station.data_of(control)
        yield {"kind": "names", "appid": fields["APPID"], "gocbRef": fields["gocbRef"], "datSet": fields["datSet"],
               "names": [written(it, lambda leaf: leaf.name) for it in members],
               "types": [written(it, lambda leaf: {"enum": leaf.words} if leaf.words else leaf.sort) for it in members]}


def written(member, what):
    """What is told of each value of a member: in a list for a structure, in an object for an array."""
    if isinstance(member, Leaf):
        return what(member)
    inside = [written(it, what) for it in member.parts]
    return inside if member.kind == "structure" else {"array": inside}


def read_member(name, sort):
    """A member of its names and types."""
    if isinstance(name, dict):
        return Whole("array", [read_member(*it) for it in zip(name["array"], sort["array"], strict=True)])
    if isinstance(name, list):
        return Whole("structure", [read_member(*it) for it in zip(name, sort, strict=True)])
    return Leaf(name, "Enum", sort["enum"]) if isinstance(sort, dict) else Leaf(name, sort)


def of_file(path):
    """The names that a file of tools/scl_blocks --names has."""
    blocks = {}
    with open(path, encoding="ascii", errors="replace") as file:
        for number, line in enumerate(file, 1):
            try:
                it = json.loads(line)
                members = [read_member(*pair) for pair in zip(it["names"], it["types"], strict=True)]
                blocks.setdefault((it["appid"], it["gocbRef"]), (it["datSet"], lambda held=members: held))
            except (AttributeError, KeyError, RecursionError, TypeError, ValueError):
                raise Ended(f"{path}: line {number} is none that scl_blocks --names writes") from None
    return Names(blocks)


def asked(scd, names):
    """The names by an SCL file, by a file of names, or none."""
    return of_station(data_types.Station(scd)) if scd else of_file(names) if names else Names()
