"""What the members of data sets are: their names and types, by the DataTypeTemplates of an SCL file (IEC 61850-6).

A member is a Leaf, which has one value, or a Whole, a structure or an array of others. An FCDA that names a data object alone (an FCD)
is the structure of its SDOs and DAs of that functional constraint, in the order of its type.
"""
import re

import scl

# How deep types can be in one another, and how many parts of them one member is looked up in: no frame has members enough for more.
MOST_DEEP, MOST_PARTS = 16, 10000
COUNT = re.compile("[0-9]{1,9}")
TYPES = {"LNodeType": "nodes", "DOType": "objects", "DAType": "structures", "EnumType": "enums"}
PARTS = {"DO", "SDO", "DA", "BDA"}
# The logical nodes that supervise subscriptions, and the data object by which each names its control block.
SUPERVISED = {"LGOS": "GoCBRef", "LSVS": "SvCBRef"}


class Unresolved(Exception):
    """The types do not say what a member is."""


class Leaf:
    """A member of one value: its name, its basic type, or None where the file does not say it, and of an enumeration its words."""

    def __init__(self, name, sort=None, words=None):
        self.name, self.sort, self.words = name, sort, words


class Whole:
    """A member that is a structure or an array of others."""

    def __init__(self, kind, parts):
        self.kind, self.parts = kind, parts


class Part:
    """A DO, SDO, DA or BDA of a type."""

    def __init__(self, tag, stated):
        self.tag, self.name, self.type = tag, stated.get("name", ""), stated.get("type")
        self.fc, self.sort, self.count = stated.get("fc"), stated.get("bType"), stated.get("count", "0")


class Types:
    """The types of a file: of logical nodes, data objects and attributes their parts in order, of enumerations the words of ordinals."""

    def __init__(self):
        self.nodes, self.objects, self.structures, self.enums = {}, {}, {}, {}

    def inside(self, part):
        """The parts of a part, or None where it has one value."""
        is_object = part.tag in ("DO", "SDO")
        if not is_object and part.sort != "Struct":
            return None
        found = (self.objects if is_object else self.structures).get(part.type)
        if found is None:
            raise Unresolved
        return found


    def has(self, parts, steps):
        """Whether steps lead from these parts to one."""
        for step in steps:
            found = next((it for it in parts or () if it.name == step), None)
            if found is None:
                return False
            parts = self.inside(found)
        return True


class Grown:
    """The member of one FCDA, looked up in the types."""

    def __init__(self, types, fc, index):
        self.types, self.fc, self.index, self.left = types, fc, index, MOST_PARTS

    def at(self, parts, steps, name):
        """The member that steps lead to from these parts. The first array on the way takes the index."""
        found = next((it for it in parts or () if it.name == steps[0]), None)
        if found is None:
            raise Unresolved
        name, is_array = f"{name}.{found.name}", found.count != "0"
        if is_array and self.index is not None:
            name, self.index, is_array = f"{name}({self.index})", None, False
        if len(steps) == 1:
            return self.array(found, name, 0) if is_array else self.one(found, name, 0)
        if is_array:
            raise Unresolved
        return self.at(self.types.inside(found), steps[1:], name)

    def array(self, part, name, depth):
        """An array. One whose count is that of another attribute is not known."""
        if not COUNT.fullmatch(part.count):
            raise Unresolved
        return Whole("array", present(self.one(part, f"{name}({at})", depth + 1) for at in range(int(part.count))))

    def one(self, part, name, depth):
        """A part that is no array, or an element of one."""
        self.left -= 1
        if depth > MOST_DEEP or self.left < 0:
            raise Unresolved
        inside = self.types.inside(part)
        if inside is None:
            return Leaf(name, part.sort, self.types.enums.get(part.type, {}) if part.sort == "Enum" else None)
        grown = [self.array(it, f"{name}.{it.name}", depth + 1) if it.count != "0" else self.one(it, f"{name}.{it.name}", depth + 1)
                 for it in inside if it.tag != "DA" or it.fc == self.fc]
        return Whole("structure", present(grown))


def present(members):
    """Members without those that have no value at all, as an SDO without data of a functional constraint."""
    return [it for it in members if isinstance(it, Leaf) or it.parts]


def member(types, node, stated, front):
    """The member of an FCDA of a logical node of this type. Of one that the types do not say its name is told, without a type."""
    name = front + "".join(stated.get(it, "") for it in ("prefix", "lnClass", "lnInst"))
    objects, attributes = (stated[it].split(".") if stated.get(it) else [] for it in ("doName", "daName"))
    grown = Grown(types, stated.get("fc"), stated.get("ix"))
    try:
        found = grown.at(types.nodes.get(node), [*objects, *attributes], name) if objects else None
        if found and grown.index is None and present([found]):
            return found
    except Unresolved:
        pass
    index = f"({stated['ix']})" if stated.get("ix") else ""
    return Leaf(".".join(it for it in (name, ".".join(objects) + index, *attributes) if it))


def node_named(stated):
    """The device and the parts of the name of the logical node that an FCDA or an ExtRef names."""
    return tuple(stated.get(it) or "" for it in ("ldInst", "prefix", "lnClass", "lnInst"))


class Station(scl.Station):
    """A station with the types of its data, and the blocks that its supervising logical nodes name."""

    def __init__(self, path):
        self.types, self.nodes, self.nodes_of, self.supervised, self.references_to = Types(), {}, {}, [], {}
        super().__init__(path)

    def reader(self, parser):
        return Reader(self, parser)

    def data_of(self, control):
        """The members of a control block's data set, or None where there is no such data set."""
        stated, owner = self.members.get(control.data_set()), control.owner
        if stated is None:
            return None
        is_of_several = len({it.get("ldInst") for it in stated}) > 1
        return [member(self.types, self.node(owner, it), it, f"{it.get('ldInst', '')}/" if is_of_several else "") for it in stated]

    def received(self, ied):
        """The control blocks that an IED receives: those that its supervising logical nodes name too."""
        named = {id(self.by_reference.get((it.service, it.reference))) for it in self.supervised if it.ied == ied}
        received = {id(it) for it in super().received(ied)} | named
        return [it for it in self.controls if id(it) in received]

    @property
    def by_reference(self):
        """The control blocks by what supervising logical nodes call them: with their functional constraint, as in a frame, or without."""
        if not self.references_to:
            for it in self.controls:
                for name in (f"{scl.KINDS[it.service]}${it.name}", it.name):
                    for reference in (it.reference(name), it.reference(name).replace("$", ".")):
                        self.references_to.setdefault((it.service, reference), it)
        return self.references_to

    def node(self, owner, stated):
        """The type of the logical node of an FCDA."""
        return self.nodes.get((owner, *node_named(stated)))

    def has_data(self, ied, stated):
        """Whether an IED has the data that an ExtRef names: its logical node, and of that what its type says, where the file has it."""
        if not self.nodes_of:
            for (owner, *node), sort in self.nodes.items():
                self.nodes_of.setdefault((owner[0], *node), sort)
        key = (ied, *node_named(stated))
        if key not in self.nodes_of:
            return False
        parts = self.types.nodes.get(self.nodes_of[key])
        steps = [it for name in ("doName", "daName") for it in (stated.get(name) or "").split(".") if it]
        try:
            return parts is None or self.types.has(parts, steps)
        except Unresolved:
            return True


class Supervised:
    """What a supervising logical node of an IED names: the reference of a control block, its service, and its line."""

    def __init__(self, ied, line, service, reference):
        self.ied, self.line, self.service, self.reference = ied, line, service, reference


# ---- Reading -----------------------------------------------------------------


def local_name(name):
    """The name of an element of SCL without its namespace, or nothing for one of another namespace."""
    space, _, local = name.rpartition(" ")
    return local if space in ("", scl.NAMESPACE) else ""


class Reader(scl.Reader):
    """Reads what a Station reads, and the types. Another reader takes the place of this one in the elements that it does not look into."""

    def starts(self, name, stated):
        if self.skipped:
            self.skipped += 1
            return
        local = local_name(name)
        if local == "DataTypeTemplates" and self.path == ["SCL"]:
            self.give_way(TypesReader(self.station.types), name, stated)
            return
        if local == "DOI" and self.path[-1:] == ["LN"] and SUPERVISED.get(self.at["LN"].get("lnClass")) == stated.get("name"):
            self.give_way(ValueReader(self.sees_reference), name, stated)
            return
        super().starts(name, stated)
        if local in ("LN", "LN0") and not self.skipped and "LDevice" in self.path:
            parts = ("LLN0" if it == "lnClass" and self.path[-1] == "LN0" else stated.get(it, "") for it in ("prefix", "lnClass", "inst"))
            self.station.nodes[(self.owner(), self.at["LDevice"].get("inst", ""), *parts)] = stated.get("lnType")

    def give_way(self, other, name, stated):
        """Another reader reads an element whole."""
        other.parser, other.after = self.parser, (self.starts, self.ends, self.text)
        self.parser.StartElementHandler, self.parser.EndElementHandler = other.starts, other.ends
        self.parser.CharacterDataHandler = other.text
        other.starts(name, stated)

    def sees_reference(self, reference):
        """A supervising logical node names a control block."""
        service = "GOOSE" if self.at["LN"]["lnClass"] == "LGOS" else "SMV"
        self.station.supervised.append(Supervised(self.at["IED"]["name"], self.parser.CurrentLineNumber, service, reference))


class Within:
    """A reader of an element and what is in it, which then gives its place back."""

    parser = after = None

    def __init__(self):
        self.path, self.words = [], []

    def starts(self, name, stated):
        self.path.append(local_name(name))
        self.words = []
        self.begins(stated)

    def text(self, text):
        self.words.append(text)

    def told(self):
        return "".join(self.words).strip()

    def ends(self, _name):
        self.closes()
        self.path.pop()
        if not self.path:
            self.parser.StartElementHandler, self.parser.EndElementHandler, self.parser.CharacterDataHandler = self.after


class TypesReader(Within):
    """Reads DataTypeTemplates."""

    def __init__(self, types):
        super().__init__()
        self.types, self.held, self.ordinal = types, None, None

    def begins(self, stated):
        if len(self.path) == 2:
            kind = TYPES.get(self.path[1])
            self.held = {} if kind == "enums" else []
            if kind:
                getattr(self.types, kind).setdefault(stated.get("id"), self.held)
        elif len(self.path) == 3 and self.path[2] in PARTS and self.path[1] != "EnumType":
            self.held.append(Part(self.path[2], stated))
        elif self.path[1:] == ["EnumType", "EnumVal"]:
            self.ordinal = stated.get("ord")

    def closes(self):
        if self.path[1:] == ["EnumType", "EnumVal"] and self.ordinal is not None:
            self.held[self.ordinal.strip()] = self.told()


class ValueReader(Within):
    """Reads the values of an object's attribute setSrcRef."""

    def __init__(self, sees):
        super().__init__()
        self.sees, self.name = sees, None

    def begins(self, stated):
        if self.path[-1] == "DAI":
            self.name = stated.get("name")

    def closes(self):
        if self.path == ["DOI", "DAI", "Val"] and self.name == "setSrcRef" and self.told():
            self.sees(self.told())
