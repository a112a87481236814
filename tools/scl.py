"""What an SCL file (IEC 61850-6: SCD, CID, IID, ICD) says of GOOSE and Sampled Values: the control blocks, their addresses, and who
receives them. Each file is read apart. A file with a document type is refused: SCL has none, and entities could make a small
file a large one.
"""
import re
from xml.parsers import expat

import senders
from running import Ended

NAMESPACE = "http://www.iec.ch/61850/2003/SCL"
# What may stand between the file's root and the elements that are read.
READ = {"SCL", "Communication", "SubNetwork", "ConnectedAP", "GSE", "SMV", "Address", "P", "IED", "AccessPoint", "Server", "LDevice", "LN0",
        "LN", "DataSet", "FCDA", "GSEControl", "SampledValueControl", "IEDName", "Inputs", "ExtRef", "MinTime", "MaxTime"}
# The services of control blocks, as an ExtRef names them, and the elements of their addresses.
SERVICES = {"GSEControl": "GOOSE", "SampledValueControl": "SMV"}
ADDRESSES = {"GSE": "GOOSE", "SMV": "SMV"}
# What the reference of a control block has before its name.
KINDS = {"GOOSE": "GO", "SMV": "MS"}
# The least and the greatest time between two frames of a control block, which its address has beside the parts, in milliseconds.
TIMES = ("MinTime", "MaxTime")
# How many milliseconds their units are, by the multiplier of seconds.
UNITS = {"m": 1, "": 1000}
# How the parts of an address that a BLOCK does not have are written.
FORMS = {"MAC-Address": r"[0-9a-fA-F]{2}(-[0-9a-fA-F]{2}){5}", "VLAN-ID": r"[0-9a-fA-F]{1,3}", "VLAN-PRIORITY": r"[0-7]"}
# The greatest confRev, and the most octets of a BLOCK whose texts a frame can have.
MOST_REVISION, MOST_OCTETS = (1 << 32) - 1, 4096
# The elements that hold text alone.
TEXTS = ("P", "IEDName", *TIMES)
# By what an ExtRef names data.
DATA = ("ldInst", "prefix", "lnClass", "lnInst", "doName")


class Address:
    """An address of a control block: the texts of its parts, by their types, its times in milliseconds, the texts of times that are no such
    number, and its line."""

    def __init__(self, parts, times, unread=(), line=None):
        self.parts, self.times, self.unread, self.line = parts, times, dict(unread), line

    def odd(self):
        """The parts that are not written as they should be, which nothing is compared with."""
        return [name for name, form in FORMS.items() if name in self.parts and not re.fullmatch(form, self.parts[name])]

    def fields(self):
        """MAC address, VLAN and priority. VLAN-ID has hexadecimal digits."""
        told = {name: text for name, text in self.parts.items() if name not in self.odd()}
        vlan = int(told["VLAN-ID"], 16) if "VLAN-ID" in told else None
        return senders.address_fields(told.get("MAC-Address", "").upper() or None, vlan, told.get("VLAN-PRIORITY"))


class Control:
    """A control block as its GSEControl or SampledValueControl states it. Its receivers are those of its IEDNames."""

    def __init__(self, service, owner, device, line, stated):
        self.service, self.owner, self.device, self.line, self.stated = service, owner, device, line, stated
        self.name, self.receivers = stated["name"], set()

    def reference(self, name):
        ied, (inst, logical_name) = self.owner[0], self.device
        return f"{logical_name or ied + inst}/LLN0${name}"

    def told(self):
        """The reference of the block itself."""
        return self.reference(f"{KINDS[self.service]}${self.name}")

    def data_set(self):
        return self.owner, self.device[0], self.stated.get("datSet")


class Station:
    """What an SCL file says: the IEDs and control blocks in order, the addresses of these, the members of data sets, and the ExtRefs of
    IEDs."""

    def __init__(self, path):
        self.path, self.ieds, self.controls, self.addresses, self.members, self.references = path, [], [], {}, {}, []
        self.has_address, self.index = False, {}
        self.read(path)

    def read(self, path):
        parser = expat.ParserCreate(namespace_separator=" ")
        reader = self.reader(parser)
        parser.StartElementHandler, parser.EndElementHandler = reader.starts, reader.ends
        parser.CharacterDataHandler, parser.StartDoctypeDeclHandler = reader.text, reader.refuse
        parser.buffer_text = True
        with open(path, "rb") as file:
            try:
                parser.ParseFile(file)
            except KeyError as name:
                raise Ended(f"{path}: line {parser.CurrentLineNumber}: an element lacks {name}") from None
            except (expat.ExpatError, LookupError, ValueError, Ended) as why:
                raise Ended(f"{path}: {why}") from None

    def reader(self, parser):
        """What sees the elements of the file."""
        return Reader(self, parser)

    def senders(self, control):
        """What a control block sends, for each of its addresses. An error says why it sends nothing that could be told."""
        addresses = self.addresses.get((control.service, control.owner[0], control.device[0], control.name), [])
        if control.service == "GOOSE":
            return self.blocks(control, addresses)
        return self.streams(control, addresses)

    def blocks(self, control, addresses):
        """The BLOCKs of a GSEControl."""
        stated, members = control.stated, self.members.get(control.data_set())
        if stated.get("type", "GOOSE") != "GOOSE":
            raise ValueError(f"its type is {stated['type']}")
        check((not addresses, "no GSE address with an APPID"), (members is None, "no data set of that name"),
              ("confRev" not in stated, "no confRev"))
        check_numbers(addresses, stated)
        texts = [control.told(), control.reference(stated["datSet"]), stated.get("appID", "")]
        for text in texts:
            if "," in text or not is_visible(text):
                raise ValueError(f"a BLOCK cannot hold {text!r}")
        for address in addresses:
            block = ",".join([appid_of(address), *texts, str(int(stated["confRev"])), str(len(members))])
            if len(block) > MOST_OCTETS:
                raise ValueError(f"its texts have over {MOST_OCTETS:,} octets, which no frame has")
            yield senders.Sender(block, "block", {**senders.block_fields(block), **address.fields()}, address=address)

    def streams(self, control, addresses):
        """The streams of a SampledValueControl."""
        stated = control.stated
        if stated.get("multicast", "true") not in ("true", "1"):
            raise ValueError("it sends to one device alone")
        check((not addresses, "no SMV address with an APPID"), (self.members.get(control.data_set()) is None, "no data set of that name"),
              ("confRev" not in stated, "no confRev"), (not stated.get("smvID"), "no smvID"))
        check_numbers(addresses, stated)
        if not is_visible(stated["smvID"]):
            raise ValueError(f"a stream cannot have the svID {stated['smvID']!r}")
        for address in addresses:
            stream = senders.stream_of(stated["smvID"], int(stated["confRev"]), APPID=appid_of(address), **address.fields(), **sampling_of(stated))
            stream.more.update(address=address, stated=stated)
            yield stream

    def indexed(self):
        """The control blocks by what an ExtRef can name them by: their names, with or without their device, and each data of theirs."""
        for control in self.controls if not self.index else ():
            of = control.service, control.owner[0]
            for key in ((*of, control.name), (*of, control.name, control.device[0])):
                self.index.setdefault(key, {})[id(control)] = control
            for member in self.members.get(control.data_set(), ()):
                held = self.index.setdefault((*of, *data_of(member)), {}).setdefault(member.get("daName") or None, {})
                held[id(control)] = control
        return self.index

    def received(self, ied):
        """The control blocks that an IED receives: those whose IEDName it is, and those that its ExtRefs name."""
        named, gone_through = set(), set()
        for stated in {tuple(it.stated.items()): it.stated for it in self.references if it.ied == ied}.values():
            for held in self.groups(stated):
                if id(held) not in gone_through:
                    gone_through.add(id(held))
                    named.update(held)
        return [control for control in self.controls if ied in control.receivers or id(control) in named]

    def groups(self, stated):
        """The groups of control blocks that an ExtRef names: by srcCBName, or where it has none by data that is in their data sets. One
        that names no attribute has all of the data."""
        index, device = self.indexed(), stated.get("srcLDInst") or stated.get("ldInst")
        for service in KINDS:
            of = service, stated.get("iedName")
            if stated.get("serviceType", service) != service:
                continue
            if stated.get("srcCBName"):
                yield index.get((*of, stated["srcCBName"], device) if device else (*of, stated["srcCBName"]), {})
                continue
            held, attribute = index.get((*of, *data_of(stated)), {}), stated.get("daName") or None
            yield from (held.values() if attribute is None else (held.get(it, {}) for it in (attribute, None)))

    def named(self, reference):
        """The control blocks that an ExtRef names, in the order of the file."""
        held = {it for group in self.groups(reference.stated) for it in group}
        return [control for control in self.controls if id(control) in held] if held else []

    def unnamed(self, ied):
        """What the ExtRefs of an IED say of blocks of GOOSE or Sampled Values that the file does not have, each with its first line."""
        said = {}
        for reference in self.references:
            stated = reference.stated
            is_of_block = stated.get("serviceType") in KINDS or (stated.get("srcCBName") and "serviceType" not in stated)
            if reference.ied == ied and is_of_block and not any(self.groups(stated)):
                names = [f"{name} {stated[name]}" for name in ("iedName", "srcLDInst", "ldInst", "srcCBName") if stated.get(name)]
                said.setdefault(f"an ExtRef of {ied} names a block that is not there: {', '.join(names)}", reference.line)
        return said.items()


class Reference:
    """An ExtRef of an IED: what one of its inputs is bound to."""

    def __init__(self, ied, line, stated):
        self.ied, self.line, self.stated = ied, line, stated


def check(*cases):
    for is_missing, what in cases:
        if is_missing:
            raise ValueError(f"it has {what}")


def check_numbers(addresses, stated):
    bad = [it.parts["APPID"] for it in addresses if not re.fullmatch(r"[0-9a-fA-F]{1,4}", it.parts["APPID"])]
    revision = stated["confRev"]
    bad += [] if re.fullmatch(r"[0-9]{1,10}", revision) and int(revision) <= MOST_REVISION else [revision]
    if bad:
        raise ValueError(f"{bad[0]!r} is no number of a BLOCK")


def sampling_of(stated):
    """How many samples a frame has and how fast they come, as a SampledValueControl states it."""
    count, rate = (int(it) if re.fullmatch("[0-9]{1,9}", it) else None for it in (stated.get("nofASDU", ""), stated.get("smpRate", "")))
    mode = stated.get("smpMod", senders.MODES[0])
    return senders.sampling_fields(count, rate, senders.MODES.index(mode) if mode in senders.MODES else None)


def appid_of(address):
    return f"{int(address.parts['APPID'], 16):04x}"


def milliseconds(text, multiplier):
    """A time of milliseconds, or of seconds where the multiplier is empty; None where it is no such number."""
    if not re.fullmatch(r"[0-9]{1,9}(\.[0-9]{1,9})?", text) or multiplier not in UNITS:
        return None
    number = UNITS[multiplier] * float(text)
    return int(number) if number.is_integer() else number


def is_visible(text):
    return all(" " <= it <= "~" for it in text)


def data_of(stated):
    """The data that an ExtRef or an FCDA names, without the attribute."""
    return tuple(stated.get(it) or "" for it in DATA)


class Reader:
    """Where in a file the parser is. Only the path from the root through elements that are read is looked into."""

    def __init__(self, station, parser):
        self.station, self.parser = station, parser
        self.path, self.at, self.skipped, self.words = [], {}, 0, None
        self.parts, self.appids, self.times, self.unread, self.line = {}, [], {}, {}, None

    def refuse(self, *_):
        raise Ended("it has a document type, which SCL does not have")

    def starts(self, name, stated):
        space, _, local = name.rpartition(" ")
        if self.skipped or space not in ("", NAMESPACE) or local not in READ:
            self.skipped += 1
            return
        parent = self.path[-1] if self.path else ""
        if parent in TEXTS:
            raise Ended(f"line {self.parser.CurrentLineNumber}: a {parent} has an element {local} in it")
        self.path.append(local)
        self.at[local] = stated
        if parent == "Address" or local == "IEDName" or (parent == "GSE" and local in TIMES):
            self.words = []
        elif local in ADDRESSES:
            self.parts, self.appids, self.times, self.unread, self.station.has_address = {}, [], {}, {}, True
            self.line = self.parser.CurrentLineNumber
        elif self.path == ["SCL", "IED"]:
            self.station.ieds.append(stated.get("name", ""))
        elif parent == "Inputs":
            self.station.references.append(Reference(self.at["IED"]["name"], self.parser.CurrentLineNumber, stated))
        else:
            self.starts_in_device(local, stated)

    def starts_in_device(self, local, stated):
        """Data sets and control blocks of LLN0."""
        if self.path[-2:] == ["LN0", "DataSet"]:
            self.station.members[self.data_set()] = []
        elif self.path[-3:] == ["LN0", "DataSet", "FCDA"]:
            self.station.members[self.data_set()].append(stated)
        elif self.path[-2:-1] == ["LN0"] and local in SERVICES:
            device = (self.at["LDevice"]["inst"], self.at["LDevice"].get("ldName"))
            self.station.controls.append(Control(SERVICES[local], self.owner(), device, self.parser.CurrentLineNumber, stated))

    def ends(self, _name):
        if self.skipped:
            self.skipped -= 1
            return
        parent, local = self.path[-2:] if len(self.path) > 1 else ("", self.path[0])
        self.path.pop()
        if local == "P" and parent == "Address" and self.path[-2:-1] and self.path[-2] in ADDRESSES:
            self.ends_part(self.at["P"].get("type"))
        elif local in ADDRESSES:
            self.ends_address(local)
        elif local in TIMES and parent == "GSE":
            self.ends_time(local, self.told(), self.at[local].get("multiplier", "m"))
        elif local == "IEDName" and self.path[-2:-1] == ["LN0"] and parent in SERVICES:
            self.station.controls[-1].receivers.add(self.told())
        self.words = None if local in TEXTS else self.words

    def ends_time(self, name, text, multiplier):
        """A time of an address. Of none at all, and of one that is no number, its text is kept."""
        told = milliseconds(text, multiplier)
        if told:
            self.times[name] = told
        else:
            self.unread[name] = text if multiplier in UNITS else f"{text} {multiplier}s"

    def ends_part(self, sort):
        """A part of an address. APPID can be there twice."""
        if sort == "APPID":
            self.appids.append(self.told())
        elif sort in FORMS:
            self.parts[sort] = self.told()

    def ends_address(self, local):
        stated = self.at[local]
        if self.appids:
            key = ADDRESSES[local], self.at["ConnectedAP"]["iedName"], stated["ldInst"], stated["cbName"]
            held = self.station.addresses.setdefault(key, [])
            held += [Address({**self.parts, "APPID": appid}, self.times, self.unread, self.line) for appid in self.appids]

    def text(self, text):
        if self.words is not None and not self.skipped:
            self.words.append(text)

    def told(self):
        """The text of the element that is read, without blanks around it."""
        return "".join(self.words).strip()

    def owner(self):
        return self.at["IED"]["name"], self.at["AccessPoint"]["name"]

    def data_set(self):
        return self.owner(), self.at["LDevice"]["inst"], self.at["DataSet"]["name"]
