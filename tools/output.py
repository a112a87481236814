"""The lines that goose writes, each as a record of named values, in the standard's words.

The names of a record and their order are those of COLUMNS. A value that is absent in the frame is None. Members of a
data set are true, false, a text, or an object of one name: bits, int, uint, float, oct, btime, mms, utc, array or
structure. A line that is an object of JSON is such a record already, with more names in it. A line of another form is kept
whole, under the name text.
"""
import datetime
import json
import re

from running import Ended

COLUMNS = ("line", "microseconds", "time", "kind", "block", "reason", "offset", "error", "mode", "destination", "source", "tag",
           "appid", "reserved1", "reserved2", "gocbRef", "timeAllowedtoLive", "datSet", "goID", "t", "tTime", "stNum", "sqNum",
           "simulation", "confRev", "ndsCom", "members", "asdus", "trailer", "asdu", "smpCnt", "missing", "svID", "text",
           # Those that objects alone have.
           "packet", "tQuality", "delay", "entries")
# Those that objects of losses alone have.
LOSSES = ("since", "sinceTime", "for", "by", "from", "to", "frames", "statesMissing", "framesMissing", "late", "repeated", "restarted", "silent",
          "samples", "outOfRange", "outages", "longest")

# The words of a shown line, and the standard's; those of an ASDU differ.
SHOWN = {"tag": "tag", "appid": "appid", "r1": "reserved1", "r2": "reserved2", "ref": "gocbRef", "live": "timeAllowedtoLive",
         "set": "datSet", "id": "goID", "t": "t", "st": "stNum", "sq": "sqNum", "sim": "simulation", "rev": "confRev",
         "com": "ndsCom", "trailer": "trailer"}
ASDU = {"id": "svID", "set": "datSet", "cnt": "smpCnt", "rev": "confRev", "t": "refrTm", "synch": "smpSynch", "rate": "smpRate",
        "sample": "sample", "mod": "smpMod", "f89": "field89"}
NUMBERS = ("timeAllowedtoLive", "stNum", "sqNum", "confRev", "smpCnt", "smpSynch", "smpRate")
# A text that does not end is the last token.
TOKEN = re.compile(r'[\[\](){}]|(?:\w+=)?"(?:[^"\\]|\\.)*(?:"|\\?$)|[^ "\[\](){}]+')
UNCLOSED = re.compile(r'(?:\w+=)?"(?:[^"\\]|\\.)*\\?')
OPENS = {"{": "}", "(": ")", "[": "]"}
# How deep brackets can be in brackets: a data set has 16 levels, and an object names each of them.
MOST_DEPTH = 64
UTC_TIME = re.compile("[0-9a-f]{16}")
EPOCH = datetime.datetime(1970, 1, 1)
read_object = json.JSONDecoder().raw_decode


def date(moment):
    """A time in microseconds since 1970 as a date, UTC; None after the year 9999."""
    try:
        return (EPOCH + datetime.timedelta(microseconds=moment)).isoformat(timespec="microseconds") + "Z"
    except OverflowError:
        return None


def change(octets):
    """The microseconds of a UtcTime of eight octets in hexadecimal; the fraction of a second is cut, not rounded."""
    return int(octets[:8], 16) * 1000000 + (int(octets[8:14], 16) * 1000000 >> 24)


def unquoted(text):
    return re.sub(r"\\(.)", r"\1", text[1:-1])


class TooDeep(Exception):
    """A line has more brackets in brackets than goose writes."""


def tokens_of(text):
    """The tokens of a shown line."""
    found = TOKEN.findall(text)
    if found and UNCLOSED.fullmatch(found[-1]):
        raise ValueError("a text that does not end")
    return found


def nested(tokens, until=None, depth=0):
    """The tokens up to a closing bracket. What stands in brackets is a list that begins with the bracket."""
    if depth > MOST_DEPTH:
        raise TooDeep
    found = []
    for token in tokens:
        if token == until:
            break
        found.append([token, *nested(tokens, OPENS[token], depth + 1)] if token in OPENS else token)
    return found


def member(token):
    """A member of a data set."""
    if isinstance(token, list):
        return {"structure" if token[0] == "(" else "array": [member(it) for it in token[1:]]}
    if token in ("true", "false"):
        return token == "true"
    if token.startswith('"'):
        return unquoted(token)
    kind, _, told = token.partition(":")
    return {kind: int(told) if kind in ("int", "uint") else told}


def named(tokens, names):
    """The values of tokens WORD=VALUE, under the standard's names."""
    record = {}
    for token in tokens:
        word, _, value = token.partition("=")
        name = names[word]
        if value.startswith('"'):
            record[name] = unquoted(value)
        elif value in ("-", "true", "false"):
            record[name] = {"-": None, "true": True, "false": False}[value]
        else:
            record[name] = int(value) if name in NUMBERS else value
    return with_change(record)


def with_change(record):
    """A record with the date of its field t."""
    if "t" not in record:
        return record
    if not UTC_TIME.fullmatch(record["t"]):
        raise ValueError("t is no time")
    return {**record, "tTime": date(change(record["t"]))}


def goose(rest):
    """A shown frame of GOOSE."""
    destination, source, *tokens = nested(iter(tokens_of(rest)))
    held = next(it for it in tokens if isinstance(it, list))
    return {"destination": destination, "source": source, **named([it for it in tokens if it is not held], SHOWN),
            "members": [member(it) for it in held[1:]]}


def sampled(rest):
    """A shown frame of Sampled Values."""
    destination, source, *tokens = nested(iter(tokens_of(rest)))
    held = next(it for it in tokens if isinstance(it, list))
    return {"destination": destination, "source": source, **named([it for it in tokens if it is not held], SHOWN),
            "asdus": [named(it[1:], ASDU) for it in held[1:]]}


def entry(rest):
    """What a device does with a frame of a block: the block, and words WORD=VALUE and members where there are any."""
    block, *tokens = nested(iter(tokens_of(rest)))
    held = [it for it in tokens if isinstance(it, list)]
    record = {"block": int(block), **named([it for it in tokens if it not in held], SHOWN)}
    return {**record, "members": [member(it) for it in held[0][1:]]} if held else record


def stream(rest):
    """A stream of Sampled Values."""
    return named(tokens_of(rest), ASDU)


def spread(pattern, *names):
    """A reader of the words that a pattern has, under these names. Decimal digits are a number."""
    def read(rest):
        found = re.fullmatch(pattern, rest)
        return {name: int(it) if it.isdigit() else it for name, it in zip(names, found.groups())}
    return read


# What follows the line's number and the kind.
KINDS = {
    "clock": spread(r"(\d+)", "microseconds"), "mode": spread(r"(\d+) (on|off)", "microseconds", "mode"),
    "fault": spread(r"(\d+) (\w+)", "offset", "error"), "list": spread(r"(\w+)", "error"), "capture": spread(r"(\w+)", "error"),
    "goose": goose, "sv": sampled, "not-written": spread(""), "destination": spread(""),
    "expired": spread(r"(\d+)", "block"), "switched": spread(r"(\d+)", "block"),
    "act": entry, "refreshed": entry, "repeated": entry, "old": entry,
    "refused": spread(r"(\d+) (\w+)", "block", "reason"), "not-subscribed": spread(""), "sampled": spread(""),
    "block": spread(r"(.*)", "text"), "block-changed": spread(r"(.*)", "text"), "stream": stream, "stream-changed": stream,
}
COUNTED = re.compile(r"(\d+) (\d+) (\d+) (?:(skipped) (\d+)|(first|next|same|late|out-of-range))")


def of_object(line):
    """The record that a line of JSON is, or None."""
    try:
        found, end = read_object(line)
    except RecursionError:
        raise TooDeep from None
    except ValueError:
        return None
    if line.count("{") + line.count("[") > MOST_DEPTH:
        check_depth(found)
    return found if end == len(line) else None


def check_depth(value):
    """Goes through the levels of an object."""
    level, depth = [value], 0
    while level:
        if depth > MOST_DEPTH:
            raise TooDeep
        level = [it for held in level if isinstance(held, (list, dict)) for it in (held.values() if isinstance(held, dict) else held)]
        depth += 1


def record(line):
    """The record of one line of a text."""
    number, _, rest = line.partition(" ")
    kind, _, rest = rest.partition(" ")
    try:
        if number.isdigit() and kind in KINDS:
            return {"line": int(number), "kind": kind, **KINDS[kind](rest)}
        counted = COUNTED.fullmatch(line)
        if counted:
            number, asdu, count, skipped, missing, word = counted.groups()
            held = {"line": int(number), "kind": skipped or word, "asdu": int(asdu), "smpCnt": int(count)}
            return {**held, "missing": int(missing)} if skipped else held
        twice = re.fullmatch(r"blocks (\w+) (\d+)", line)
        return {"kind": "blocks", "block": int(twice[2]), "error": twice[1]} if twice else {"text": line}
    except (AttributeError, KeyError, StopIteration, TypeError, ValueError):
        return {"text": line}


def records(lines, times=None, is_done=None):
    """The records of lines, in the order of COLUMNS, with the time of each line's event where the list's Times are given. An object is
    its own record. Lines that are done with, as is_done tells, have none."""
    for number, line in enumerate(lines, 1):
        if is_done and is_done(line):
            continue
        try:
            told = of_object(line) if line.startswith("{") else None
            found = told or record(line[:-1] if line.endswith("\n") else line)
        except TooDeep:
            raise Ended(f"line {number}: its brackets are over {MOST_DEPTH} deep, which goose writes in no line") from None
        if told:
            yield told
            continue
        moment = times.of(found) if times else found.get("microseconds")
        if moment is not None:
            found.update(microseconds=moment, time=date(moment))
        yield {name: found[name] for name in COLUMNS if name in found}
