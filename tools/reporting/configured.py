"""What an SCL file configures, held beside what a capture has."""
import sample_values
import senders
from reporting import unread
from reporting.pace import Pace
from reporting.rates import MODES


class Configured:
    """The control blocks and streams of an SCL file, those of which it cannot be told what they send, and the values that cannot be read."""

    def __init__(self, path):
        self.path, self.station = path, sample_values.Station(path)
        self.senders, self.unusable, self.used, self.longest, self.times = {}, [], set(), {}, {}
        self.unread, self.why_not = {}, {}
        for control in self.station.controls:
            try:
                for it in self.station.senders(control):
                    self.senders.setdefault(it.key, []).append(it)
                    self.longest.setdefault(it.text, it.more["address"].times.get("MaxTime"))
                    self.time(it)
                    self.unread.setdefault(it.key, []).extend(unread.of_sender(control, it))
            except ValueError as why:
                self.unusable.append((control.line, control.told(), str(why)))
                self.why_not[control.service, control.told() if control.service == "GOOSE" else control.stated.get("smvID")] = str(why)

    def time(self, sender):
        """MinTime and MaxTime of a control block; of several addresses the greatest."""
        times = sender.more["address"].times if sender.kind == "block" else {}
        if times:
            held = self.times.setdefault(sender.key, {})
            held.update({name: max(it, held.get(name, it)) for name, it in times.items()})

    def paces(self):
        """What looks at the pauses of the control blocks with such times."""
        return {key: Pace() for key in self.times}

    def beside(self, seen):
        """How a sender of the capture differs from its configuration, each difference with the first packet that has it; None where no
        such sender is configured."""
        key = key_of(seen)
        wanted = self.senders.get(key)
        if wanted is None:
            return None
        self.used.add(key)
        return min((differences(it, seen) for it in wanted), key=len)

    def why_uncompared(self, seen):
        """Why a sender of the capture that no other is configured for cannot be held beside the file, which names it; or None."""
        return self.why_not.get(("GOOSE" if seen.kind == "block" else "SMV", seen.name))

    def unread_of(self, seen):
        """The values of a sender of the capture that cannot be read in the file."""
        return self.unread.get(key_of(seen), [])

    def missing(self):
        """The senders that are configured and not in the capture."""
        return [it for key, held in self.senders.items() if key not in self.used for it in {it.text: it for it in held}.values()]

    def rates(self, seen):
        """What is configured of the rate of a stream: smpRate, and what smpMod says of it."""
        stated = [it.more["stated"] for it in self.senders.get(f"stream id={senders.quoted(seen.name)}", ())]
        return [(int(it["smpRate"]), MODES[it.get("smpMod", "SmpPerPeriod")]) for it in stated
                if "smpRate" in it and not {"smpRate", "smpMod"} & {*unread.of_sampling(it)}]

    def received(self, ied):
        """The BLOCKs that an IED receives, each APPID and gocbRef once, and those of its blocks that have none."""
        blocks, without = {}, []
        for control in self.station.received(ied):
            try:
                for it in self.station.senders(control):
                    blocks.setdefault(it.key, it.text if it.kind == "block" else None)
            except ValueError as why:
                without.append((control.line, control.told(), str(why)))
        return [it for it in blocks.values() if it], without


def key_of(seen):
    """What a sender of the capture has in common with its configuration."""
    return (seen.appid, seen.name) if seen.kind == "block" else f"stream id={senders.quoted(seen.name)}"


def differences(wanted, seen):
    """The differences between a configured sender and what was seen of it, each with the first packet that has it."""
    found = {}
    parts = [(senders.of_text(text).fields, packet) for text, packet in seen.forms.items()]
    parts += [(senders.envelope_of({"destination": destination, "tag": tag}), packet) for (destination, _, tag), packet in seen.envelopes.items()]
    first = min(packet for _, packet in parts) if parts else 0
    parts += [(senders.sampling_fields(count), packet) for count, packet in seen.counts.items()]
    parts += [(senders.sampling_fields(None, *told), packet) for told, packet in seen.rates.items()]
    parts += [({"APPID": seen.appid}, first)]
    for fields, packet in parts:
        for what in senders.differences(wanted, senders.Sender("", seen.kind, fields)):
            found[what] = min(packet, found.get(what, packet))
    return sorted(found.items(), key=lambda it: it[1])
