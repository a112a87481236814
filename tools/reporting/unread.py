"""What of an SCL file cannot be read: numbers that are none, each with its line. What would be held beside it is not judged."""
import re

from reporting import page
from reporting.rates import MODES
from reporting.verdict import not_judged, some

# The most letters of a text that are told.
MOST = 40
# What of a SampledValueControl says how many samples a second there are.
RATE = {"smpRate", "smpMod"}
# The numbers of a SampledValueControl: from 1 to the greatest of 32 bits.
NUMBER, GREATEST = re.compile("[0-9]{1,10}"), (1 << 32) - 1


class Unread:
    """A value that cannot be read: its line, its name and text, the sender that it is of, and what is taken in its place where something is."""

    def __init__(self, line, name, text, sender, instead=None):
        self.line, self.name, self.text, self.sender, self.instead = line, name, text, sender, instead

    def value(self):
        text = self.text if len(self.text) <= MOST else f"{self.text[:MOST]}.."
        return f"{self.name} {text!r}"

    def told(self):
        instead = f", and {self.instead} is taken" if self.instead else ""
        return f"{self.value()} of {self.sender} (line {self.line}){instead}"


def of_sampling(stated):
    """What a SampledValueControl states of its samples that cannot be read."""
    for name in ("smpRate", "nofASDU"):
        text = stated.get(name)
        if text is not None and not (NUMBER.fullmatch(text) and 0 < int(text) <= GREATEST):
            yield name
    if stated.get("smpMod", "SmpPerPeriod") not in MODES:
        yield "smpMod"


def of_sender(control, sender):
    """What cannot be read of one sender: of its address, of its times, and of its samples."""
    address = sender.more["address"]
    who = control.told() if control.service == "GOOSE" else sender.more["svID"]
    for name, text in (*((name, address.parts[name]) for name in address.odd()), *address.unread.items()):
        yield Unread(address.line, name, text, who)
    if control.service == "SMV":
        for name in of_sampling(control.stated):
            yield Unread(control.line, name, control.stated[name], who)


def of_all(configured):
    """Each value once, in words: a control block can have several addresses."""
    return list(dict.fromkeys(it.told() for held in configured.unread.values() for it in held))


def of_samples(samples):
    """Each value that scales samples of a stream, in words."""
    return list(dict.fromkeys(it.told() for wave in samples.waves.values() if wave.layout for it in wave.layout.unread))


def judge(found, own):
    """What is not compared, and by what samples are not told, since it cannot be read."""
    told = of_samples(found.samples)
    if told:
        yield not_judged(f"{page.count(len(told), 'value')} of {own.scd} by which samples are told cannot be read: {some(told)}.", "mend the SCL file")
    told = of_all(found.configured)
    if told:
        yield not_judged(f"{page.count(len(told), 'value')} of {own.scd} cannot be read, and what would be held beside "
                         f"{'it' if len(told) == 1 else 'them'} is not judged: {some(told)}.", "mend the SCL file")
