"""The cells of a table: a record's values as texts, one a cell, none of which a spreadsheet runs.

What a record has in lists and objects has columns of its own: tQuality.clockFailure, asdu1.svID, member1, and member2.1 in a member
that is an array or a structure.
"""
import json
import re

from output import COLUMNS, LOSSES

# The columns that come first, and the others that are known, in their order.
FRONT = ("time", "packet", "line", "kind", "gocbRef", "stNum", "sqNum")
KNOWN = FRONT + tuple(it for it in COLUMNS + LOSSES if it not in FRONT)
# What stands before the number of a part of a list: else its name and a point.
NUMBERED = {"members": "member", "asdus": "asdu"}
OF_PART = re.compile(r"(member|asdu)[1-9][0-9]*(\.\w+)*|tQuality\.\w+")
QUOTED = re.compile('[,;"\t\r\n]')
# Where a spreadsheet takes a text for a formula: at its front, and where one that divides cells by semicolons or tabs begins a cell.
FORMULA = re.compile("(^|[;\t\r\n])(?=[-=+@\t\r\n\uff0b\uff0d\uff1d\uff20])")
# What of a text is not as it is in a cell.
ODD = re.compile('^[-=+@\uff0b\uff0d\uff1d\uff20]|[,;"\t\r\n]')
encode = json.JSONEncoder().encode


def cell(value):
    """A value as the text of a cell: an absent one as nothing, a text as it is but for a ' where a formula could begin, others as JSON
    writes them; in quotes where it has a comma, a semicolon, a tab, a quote or the end of a line."""
    if isinstance(value, str):
        if not ODD.search(value):
            return value
        text = FORMULA.sub(r"\1'", value)
    else:
        text = "" if value is None else str(value) if type(value) is int else "true" if value is True else "false" if value is False else encode(value)
    return '"' + text.replace('"', '""') + '"' if QUOTED.search(text) else text


def member_cells(name, member):
    """The cells of a member: one, or those of what an array or a structure holds. Numbers and times are values; other contents have their
    kind in front, so that no spreadsheet takes 0010 for ten."""
    if not isinstance(member, dict) or not member:
        return parts(name, member)
    kind, told = next(iter(member.items()))
    if isinstance(told, list):
        held = [it for at, part in enumerate(told, 1) for it in member_cells(f"{name}.{at}", part)]
        return held or [(name, "()" if kind == "structure" else "[]")]
    value = told if kind in ("int", "uint") else member.get({"float": "value", "utc": "time"}.get(kind))
    return [(name, f"{kind}:{told}" if value is None else value)]


def parts(name, value):
    """The cells of a value: one, or those of what a list or an object holds."""
    if isinstance(value, dict) and value:
        return [it for part, held in value.items() for it in parts(f"{name}.{part}", held)]
    if isinstance(value, list) and value:
        return [it for at, held in enumerate(value, 1) for it in parts(f"{NUMBERED.get(name, name + '.')}{at}", held)]
    return [(name, None if value in ({}, []) else value)]


def named_members(names, members, otherwise):
    """The members of a record by the names that tools/name_members put into it, else by positions."""
    has_names = isinstance(names, list) and len(names) == len(members)
    for at, it in enumerate(members, 1):
        name = names[at - 1] if has_names else None
        inside = next(iter(it.values()), None) if isinstance(it, dict) else None
        if isinstance(name, list) and isinstance(inside, list):
            yield from named_members(name, inside, f"{otherwise}{at}.")
        else:
            yield name if isinstance(name, str) else f"{otherwise}{at}", it


def flat(record, members_of=None):
    """A record of which each value is one cell. `members_of` answers the members of a record as pairs of a name and a value, or None: then
    they are member1, member2 .."""
    if not any(isinstance(it, (list, dict)) for it in record.values()):
        return record
    found = {}
    for name, value in record.items():
        if name == "names" and isinstance(record.get("members"), list):
            continue
        if name == "members" and isinstance(value, list):
            told = (members_of and members_of(record)) or named_members(record.get("names"), value, "member")
            found.update(it for of, member in told for it in member_cells(of, member))
        else:
            found.update(parts(name, value))
    return found


def rank(name):
    """By what columns are put in order: the known ones, and what is in a list or an object at its place. Names that are not known are
    those of members."""
    part = re.match(r"(member|asdu)(\d+(?:\.\d+)*)", name)
    known = f"{part[1]}s" if part else name.partition(".")[0]
    place = KNOWN.index(known if known in KNOWN else "members")
    return place, [int(it) for it in part[2].split(".")] if part else []
