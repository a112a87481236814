"""What the program shows of a frame is what tshark shows of it (the dissectors goose and sv, Debian's package 4.0.17).

Both readings are held against each other as lists of texts, in the words of a shown line. Where tshark's display says
less or something else, that is named beside the function that allows for it, and no more than that is allowed.
"""
import os
import pathlib
import random
import re
import shutil
import subprocess
import tempfile
import time
from xml.etree import ElementTree

from helpers import by_chance
from helpers.harness import SECONDS, Skipped, classic_pcap, listed, run
from oracles.reference import APDUS_READ

SEED, COUNT = 850, 1000


# ---- The program's reading ---------------------------------------------------

TOKEN = re.compile(r'[\[\](){}]|(?:\w+=)?"(?:[^"\\]|\\.)*"|[^\s"\[\](){}]+')


def nested(tokens):
    """The texts of a shown line up to a closing bracket; what stands in brackets is a list that begins with its own."""
    found = []
    for token in tokens:
        if token in "[({":
            found.append([token, *nested(tokens)])
        elif token in "])}":
            return found
        else:
            found.append(re.sub(r"\\(.)", r"\1", token) if '"' in token else token)
    return found


def ours(line):
    """The texts of a shown line without its number."""
    return nested(iter(TOKEN.findall(line.partition(" ")[2])))


# ---- The reading of tshark ---------------------------------------------------


def packets(frames):
    """What tshark makes of each frame, without the settings of whoever runs it."""
    tshark = shutil.which("tshark")
    if not tshark:
        raise Skipped("there is no tshark: run tests/get_tools")
    with tempfile.TemporaryDirectory() as folder:
        capture = pathlib.Path(folder) / "frames.pcap"
        capture.write_bytes(classic_pcap(frames))
        ran = subprocess.run([tshark, "-n", "-r", str(capture), "-T", "pdml"], stdin=subprocess.DEVNULL, check=True,
                             stdout=subprocess.PIPE, stderr=subprocess.DEVNULL, timeout=SECONDS,
                             env={**os.environ, "HOME": folder, "XDG_CONFIG_HOME": folder})
    return ElementTree.fromstring(ran.stdout).findall("packet")


def child(tree, name):
    """The field of this name right inside another, or None."""
    return tree.find(f"field[@name='{name}']")


def octets(field):
    """The octets that tshark takes for a field's contents."""
    return bytes.fromhex(field.get("value", ""))


def text(field):
    """A text, or a dash where it is absent."""
    return "-" if field is None else '"' + field.get("show") + '"'


def agreed(text_of, field, wanted):
    """A text of a field's octets, if the display is the wanted one too."""
    return text_of if field.get("show") == wanted else f"{text_of}, shown as {field.get('show')}"


def signed(held):
    """The number that octets spell in two's complement, and the low 32 bits of it with their sign."""
    exact = int.from_bytes(held, "big", signed=True)
    return exact, (exact + 2**31) % 2**32 - 2**31


def number(field):
    """An INTEGER. Known difference: tshark shows the low 32 bits with their sign, and the octets alone where there are
    nine and the first is not 00."""
    held = octets(field)
    exact, low = signed(held)
    if field.get("name") == "ber.64bit_uint_as_bytes" and len(held) == 9 and held[0]:
        return str(exact)
    return agreed(str(exact), field, str(low))


def moment(field):
    """A UtcTime, or a dash where it is absent. Known difference: tshark shows date and time, and no quality."""
    if field is None:
        return "-"
    held = octets(field)
    seconds, fraction = int.from_bytes(held[:4], "big"), int.from_bytes(held[4:7], "big")
    at = time.gmtime(seconds)
    month = "Jan Feb Mar Apr May Jun Jul Aug Sep Oct Nov Dec".split()[at.tm_mon - 1]
    shown = f"{month} {at.tm_mday:2}, {at.tm_year} {at.tm_hour:02}:{at.tm_min:02}:{at.tm_sec:02}"
    return agreed(held.hex(), field, f"{shown}.{fraction * 10**9 >> 24:09} UTC")


def truth(field):
    """A BOOLEAN. Known difference: tshark shows no boolean that is absent, which means false."""
    return "false" if field is None else {"0": "false", "1": "true"}[field.get("show")]


def bits(data):
    """A BIT STRING. Known differences: tshark shows the unused bits as they were sent, and an empty one as its count."""
    if child(data, "ber.bitstring.empty") is not None:
        return "bits:"
    unused, held = child(data, "ber.bitstring.padding"), octets(child(data, "goose.bit_string"))
    written = "".join(f"{octet:08b}" for octet in held)
    return "bits:" + written[:len(written) - (0 if unused is None else int(unused.get("show")))]


def raw(kind, name):
    """A kind that is shown as octets. Known difference: of a number with an exponent of eight bits, and of an MMS string,
    tshark has its own display; the octets stand beside it."""
    return lambda data: kind + ":" + octets(child(data, name)).hex()


def several(bracket, name):
    """A kind that holds members."""
    return lambda data: [bracket, *members(child(data, name))]


# The choice of Data that tshark tells, and the text that the program has for it.
KINDS = {
    "1": several("[", "goose.array"),
    "2": several("(", "goose.structure"),
    "3": lambda data: truth(child(data, "goose.boolean")),
    "4": bits,
    "5": lambda data: "int:" + number(data[0]),
    "6": lambda data: "uint:" + number(data[0]),
    "7": raw("float", "goose.floating_point"),
    "9": raw("oct", "goose.octet_string"),
    "10": lambda data: text(child(data, "goose.visible_string")),
    "12": raw("btime", "goose.binary_time"),
    "16": raw("mms", "goose.mMSString"),
    "17": lambda data: "utc:" + moment(child(data, "goose.utc_time")),
}


def members(tree):
    """The members inside a field, which tells their count."""
    found = [KINDS[data.get("show")](data) for data in tree.findall("field[@name='goose.Data']")]
    return [*found, *([] if int(tree.get("show")) == len(found) else [f"count {tree.get('show')}"])]


def shown(field):
    """A field as tshark shows it."""
    return "-" if field is None else field.get("show")


def named(tree, protocol, *rows):
    """The texts of the fields of these words, readings and names."""
    return [f"{word}={reading(child(tree, f'{protocol}.{name}'))}" for word, reading, name in rows]


def goose(apdu):
    """The texts of an IECGoosePdu."""
    found = members(child(apdu, "goose.allData"))
    count = number(child(apdu, "goose.numDatSetEntries"))
    return [
        *named(
            apdu, "goose", ("ref", text, "gocbRef"), ("live", number, "timeAllowedtoLive"), ("set", text, "datSet"),
            ("id", text, "goID"), ("t", moment, "t"), ("st", shown, "stNum"), ("sq", shown, "sqNum"),
            ("sim", truth, "simulation"), ("rev", number, "confRev"), ("com", truth, "ndsCom"),
        ),
        ["{", *found, *([] if count == str(len(found)) else ["another numDatSetEntries"])],
    ]


def asdu(tree):
    """The texts of an ASDU."""
    return [
        "(",
        *named(
            tree, "sv", ("id", text, "svID"), ("set", text, "datSet"), ("cnt", shown, "smpCnt"),
            ("rev", shown, "confRev"), ("t", moment, "refrTm"), ("synch", synchronised, "smpSynch"),
            ("rate", shown, "smpRate"),
        ),
        "sample=" + octets(child(tree, "sv.seqData")).hex(),
        "mod=" + mode(child(tree, "sv.smpMod"), child(tree, "ber.64bit_uint_as_bytes")),
        "f89=" + identity(tree),
    ]


def synchronised(field):
    """smpSynch. Known difference: tshark shows the octet's number with a sign."""
    return agreed(str(octets(field)[0]), field, str(signed(octets(field))[0]))


def mode(number_field, octets_field):
    """smpMod. Known difference: tshark shows the low 32 bits with their sign, and the octets where there are over eight."""
    if octets_field is not None:
        return octets(octets_field).hex()
    if number_field is None:
        return "-"
    held = octets(number_field)
    return agreed(held.hex(), number_field, str(signed(held)[1]))


STOPPED = "tshark stopped here"


def identity(tree):
    """Field 89. Known difference: tshark takes it for a clock's identity, and stops where it has not eight octets."""
    field = tree.find(".//field[@name='sv.gmidentity']")
    if field is None and tree.find(".//field[@name='sv.malformed.gmidentity']") is not None:
        return STOPPED
    return "-" if field is None else octets(field).hex()


def sampled(apdu):
    """The texts of a savPdu."""
    found = [asdu(it) for it in child(apdu, "sv.seqASDU").findall("field[@name='sv.ASDU_element']")]
    is_told = found[-1][-1] == "f89=" + STOPPED or child(apdu, "sv.noASDU").get("show") == str(len(found))
    return [["{", *found, *([] if is_told else ["another noASDU"])]]


def theirs(packet):
    """The texts of a packet. Known difference: what stands behind Length is no part of what tshark's dissectors show."""
    parts = {part.get("name"): part for part in packet.findall("proto")}
    name = "goose" if "goose" in parts else "sv"
    value = lambda part, field: octets(child(parts[part], field)).hex()
    bit_field = lambda field: int(child(parts["vlan"], field).get("show"), 0)
    control = "-"
    if "vlan" in parts:
        control = f"{bit_field('vlan.priority') << 13 | bit_field('vlan.dei') << 12 | bit_field('vlan.id'):04x}"
    pdu = child(parts[name], {"goose": "goose.goosePdu_element", "sv": "sv.savPdu_element"}[name])
    return [
        name, value("eth", "eth.dst"), value("eth", "eth.src"), "tag=" + control,
        "appid=" + value(name, name + ".appid"),
        "r1=" + value(name, name + ".reserve1"),
        "r2=" + value(name, name + ".reserve2"),
        *{"goose": goose, "sv": sampled}[name](pdu),
    ]


# ---- Both --------------------------------------------------------------------


def as_far_as_shown(shown, judged):
    """The program's texts without the trailer and without what stands behind a field 89 where tshark stopped."""
    texts = shown[:-1]
    if judged[-1][-1][-1] == "f89=" + STOPPED:
        *whole, last = texts[-1][:len(judged[-1])]
        is_other = last[-1] != "f89=-" and len(last[-1]) != len("f89=") + 16
        texts[-1] = [*whole, [*last[:-1], judged[-1][-1][-1]] if is_other else last]
    return texts


def apart(wanted, got):
    """The first two texts that differ, or None."""
    if isinstance(wanted, list) and isinstance(got, list) and len(wanted) == len(got):
        return next((found for pair in zip(wanted, got) for found in [apart(*pair)] if found), None)
    return None if wanted == got else f"tshark has {wanted}, and the program {got}"


class Judged:
    """Frames of one sort: the program shows of each what tshark shows."""

    def __init__(self, name, frames):
        self.name, self.frames = name, frames

    def why_wrong(self, program):
        judged = packets(self.frames)
        wrote, _, status = run(program, ["show"], listed(*self.frames))
        lines = wrote.decode("ascii").splitlines()
        if status or len(lines) != len(self.frames) or len(judged) != len(self.frames):
            return [f"{len(lines)} lines and {len(judged)} packets for {len(self.frames)} frames, status {status}"]
        why = []
        for at, (line, packet) in enumerate(zip(lines, judged), 1):
            told = theirs(packet)
            difference = apart(told, as_far_as_shown(ours(line), told))
            why += [f"frame {at}: {difference}"] if difference else []
        return why[:10]


def cases():
    for name, title, made in (("goose", "GOOSE", by_chance.goose), ("sv", "Sampled Values", by_chance.sampled)):
        if name in APDUS_READ:
            chance = random.Random(SEED)
            yield Judged(f"{COUNT} frames of {title}", [made(chance) for _ in range(COUNT)])
