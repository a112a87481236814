"""Values of members in words: those of the basic types of IEC 61850-7-2 and 7-3, and any other as goose shows it."""
import struct

from senders import quoted

DBPOS = {"00": "intermediate", "01": "off", "10": "on", "11": "bad"}
TCMD = {"00": "stop", "01": "lower", "10": "higher", "11": "reserved"}
VALIDITY = {"00": "", "01": "invalid", "10": "reserved", "11": "questionable"}
# The bits of a quality behind its validity. The source is a process, or a substituted value.
FLAGS = ("overflow", "outOfRange", "badReference", "oscillatory", "failure", "oldData", "inconsistent", "inaccurate", "substituted", "test",
         "operatorBlocked")
# The types whose values are words, beside enumerations.
IN_WORDS = ("Dbpos", "Tcmd", "Quality")


def quality(bits):
    """A quality of 13 bits: good, or its validity and the flags that are set."""
    told = [VALIDITY[bits[:2]], *(flag for bit, flag in zip(bits[2:], FLAGS) if bit == "1")]
    return " ".join(it for it in told if it) or "good"


def number(octets, value):
    """A floating-point number in as few digits as tell it from any other of its size."""
    if value is None:
        return f"float:{octets}"
    form = "f" if octets.startswith("08") else "d"
    texts = (f"{value:.{digits}g}" for digits in range(6, 18))
    return next((it for it in texts if struct.pack(form, float(it)) == struct.pack(form, value)), repr(value))


def plain(member):
    """The value of a member of which nothing is known."""
    if isinstance(member, bool):
        return "true" if member else "false"
    if isinstance(member, str):
        return quoted(member)
    kind, told = next(iter(member.items()))
    if kind == "float":
        return f"{member['value']}" if member.get("value") is not None else f"float:{told}"
    if kind == "utc":
        return member.get("time") or f"utc:{told}"
    return f"{told}" if kind in ("int", "uint", "bits") else f"{kind}:{told}"


def word(leaf, member):
    """The value of a member of one value, in the words of its type."""
    if isinstance(member, dict):
        kind, told = next(iter(member.items()))
        if kind == "bits" and leaf.sort in ("Dbpos", "Tcmd") and len(told) == 2:
            return (DBPOS if leaf.sort == "Dbpos" else TCMD)[told]
        if kind == "bits" and leaf.sort == "Quality" and len(told) == 13:
            return quality(told)
        if kind in ("int", "uint") and leaf.words:
            return leaf.words.get(str(told), str(told))
        if kind == "float" and leaf.sort:
            return number(told, member.get("value"))
    return plain(member)
