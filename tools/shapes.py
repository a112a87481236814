"""Objects of JSON that differ from an earlier one in their values alone, so that a row of a table is written without reading them.

    shapes = Shapes()
    found = shapes.find(line)           a shape and its match, or None: then the line is read, and
    shapes.learn(record)                the next lines of its kind and sender are known by its shape

A shape tells of each cell, as cells.flat names it, where its text stands in a line. A text that is no cell as it stands (a quote, a comma, what
a spreadsheet could run, an escape) matches no shape.
"""
import re

from cells import NUMBERED, encode
from output import COLUMNS, LOSSES

# Values that are their own cells: texts, numbers, and words, each as what stands around it and what it is. Floating-point numbers are read and
# written again.
VALUES = {str: ('"%s"', r'(?:[^-"\\,;=+@\x00-\x1f][^"\\,;\x00-\x1f]*)?'), int: ("%s", "0|-?[1-9][0-9]{0,18}"), bool: ("%s", "true|false"),
          type(None): ("null%s", ""), float: ("%s", r"-?(?:0|[1-9][0-9]*)(?:\.[0-9]+(?:[eE][-+]?[0-9]+)?|[eE][-+]?[0-9]+)")}
NAMES, NAME = set(COLUMNS + LOSSES), re.compile("[A-Za-z_][A-Za-z_0-9]*")
# The kind of an object, what tells its sender, and what ends that.
KIND, SENDERS = '"kind":"', (('"gocbRef":"', '"'), ('"asdus":', "["))
# The name of a member's value where it is not the first one.
VALUE_OF = {"float": "value", "utc": "time"}
# The most senders that are known by their shapes, shapes and objects looked at of one, and letters of all shapes.
MOST_SENDERS, MOST_OF_ONE, MOST_LOOKED, MOST_LETTERS = 4096, 3, 12, 1 << 19


class Unlike(Exception):
    """An object has no shape: its next ones are read too."""


class Shape:
    """The shape of an object: what matches it, and by the name of each cell what stands before its value, and the value's place, or 0. What is a
    list or an object has no cell of its own name."""

    def __init__(self, record):
        self.cells, self.places, self.floats = {}, 0, set()
        self.parted = {name for name, it in record.items() if isinstance(it, (list, dict))}
        if not NAMES.issuperset(record):
            raise Unlike
        self.pattern = r"\{%s\}" % ",".join(f'"{name}":{self.named(name, it)}' for name, it in record.items())
        self.match = None

    def compile(self):
        self.match = re.compile(self.pattern).fullmatch
        return self

    def put(self, name, before, place=0):
        if name in self.cells:
            raise Unlike
        self.cells[name] = before, place

    def named(self, name, value):
        """What matches a value of an object; its cells have this name."""
        if name == "members" and isinstance(value, list):
            return r"\[%s\]" % ",".join(self.member(f"member{at}", it) for at, it in enumerate(value, 1))
        return self.value(name, value)

    def value(self, name, value):
        """What matches a value, which has one cell or those of its parts; without a name it has none."""
        if isinstance(value, dict) and value:
            if not all(map(NAME.fullmatch, value)):
                raise Unlike
            return r"\{%s\}" % ",".join(f'"{part}":{self.value(name and f"{name}.{part}", it)}' for part, it in value.items())
        if isinstance(value, list) and value:
            begin = name and NUMBERED.get(name, f"{name}.")
            return r"\[%s\]" % ",".join(self.value(name and f"{begin}{at}", it) for at, it in enumerate(value, 1))
        if value in ({}, []):
            if name:
                self.put(name, "")
            return r"\{\}" if value == {} else r"\[\]"
        return self.leaf(name, value)

    def leaf(self, name, value, before=""):
        """What matches a value that is one cell, or none."""
        around, pattern = VALUES.get(type(value), (None, None))
        if around is None or before and type(value) not in (str, int):
            raise Unlike
        if name is None:
            return around % f"(?:{pattern})"
        self.places += 1
        self.put(name, before, self.places)
        if type(value) is float:
            self.floats.add(self.places)
        return around % f"({pattern})"

    def member(self, name, member):
        """What matches a member of a data set."""
        if not isinstance(member, dict) or not member:
            return self.value(name, member)
        kind, told = next(iter(member.items()))
        if not all(map(NAME.fullmatch, member)):
            raise Unlike
        if isinstance(told, list):
            if not told:
                self.put(name, "()" if kind == "structure" else "[]")
            first = r"\[%s\]" % ",".join(self.member(f"{name}.{at}", it) for at, it in enumerate(told, 1))
            return r"\{%s\}" % ",".join([f'"{kind}":{first}', *(f'"{part}":{self.value(None, it)}' for part, it in list(member.items())[1:])])
        own = kind if kind in ("int", "uint") else VALUE_OF.get(kind)
        own, before = (own, "") if member.get(own) is not None else (kind, f"{kind}:")
        return r"\{%s\}" % ",".join(f'"{part}":{self.leaf(name, it, before) if part == own else self.value(None, it)}' for part, it in member.items())


class Shapes:
    """The shapes of each kind and sender of objects."""

    def __init__(self):
        self.known, self.shapes, self.looked, self.letters, self.key = {}, {}, {}, 0, ""

    def find(self, line):
        """The shape of a line, and its match; or None."""
        self.key = key = key_of(line)
        for shape in self.known.get(key, ()):
            found = shape.match(line)
            if found:
                return shape, found
        return None

    def learn(self, record):
        """The object of the line that was looked at last."""
        key = self.key
        if not key or self.looked.get(key, 0) >= MOST_LOOKED or len(self.known.get(key, ())) >= MOST_OF_ONE:
            return
        if len(self.looked) >= MOST_SENDERS:
            self.known.clear()
            self.looked.clear()
        self.looked[key] = self.looked.get(key, 0) + 1
        try:
            shape = self.shape(Shape(record))
        except Unlike:
            return
        if shape and shape not in self.known.setdefault(key, []):
            self.known[key].append(shape)

    def shape(self, shape):
        """The shape that is held for one, or None where there is no room for it."""
        if shape.pattern not in self.shapes:
            self.letters += len(shape.pattern)
            if self.letters > MOST_LETTERS:
                return None
            self.shapes[shape.pattern] = shape.compile()
        return self.shapes[shape.pattern]


def key_of(line):
    """The kind of an object and what tells its sender, or nothing."""
    start = line.find(KIND)
    if start < 0:
        return ""
    for name, end in SENDERS:
        at = line.find(name, start)
        if at >= 0:
            return line[start:line.find(end, at + len(name))] if end == '"' else line[start:at]
    return line[start:line.find('"', start + len(KIND))]
