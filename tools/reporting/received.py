"""What a device gets of the control blocks and streams that it subscribes to: a block of which it takes no frame is told by itself."""
from reporting import page
from reporting.subscriptions import Subscriptions, streamed
from reporting.verdict import MOST, clean, found as finding, not_judged, some

# The kinds of what a device does with a frame that it takes for one of its block.
ACCEPTED = ("act", "refreshed", "repeated", "old")
# How long a capture has to be for a block of which nothing is configured to be in it, in microseconds.
LONG, MILLISECOND = 60 * 10**6, 1000


def reasons(block):
    """Why frames of a block were refused, and how many."""
    return ", ".join(f"{page.count(held.number, 'frame')} refused ({reason}), first: packet\u00a0{held.first.packet}"
                     for (kind, reason), held in block.counts.items() if kind == "refused")


class Input:
    """A control block or stream that an IED receives: its name, its MaxTime, whether a frame of it was accepted, and else what is told of those
    that came."""

    def __init__(self, name, longest=None):
        self.name, self.longest, self.is_accepted, self.why = name, longest, False, None

    def told(self):
        return f"{self.name}{self.why or ': no frame came'}"


class Inputs:
    """All that an IED receives, in order, by the control blocks of the SCL file; and its inputs that any of several serves."""

    def __init__(self, found, ied):
        self.found, self.ied, self.held, self.of, self.unusable = found, ied, {}, {}, {}
        station = found.configured.station
        self.subscriptions = found.matrix.subscriptions if found.matrix else Subscriptions(station)
        texts, streams = {text: at for at, text in enumerate(found.blocks)}, {}
        for control in station.received(ied):
            try:
                for it in station.senders(control):
                    key = it.text if it.kind == "block" else it.more["svID"]
                    self.of.setdefault(id(control), []).append((it.kind, key))
                    streams |= {key: it} if it.kind == "stream" else {}
            except ValueError:
                self.unusable[id(control)] = f"{control.told()} (line {control.line} of the SCL file)"
        self.held |= {("block", text): self.block(at, text) for text, at in texts.items()}
        self.held |= {("stream", name): self.stream(name, wanted) for name, wanted in streams.items()}
        self.has_streams = bool(streams)

    def block(self, at, text):
        """A control block that is replayed."""
        found, it = self.found, Input(text.split(",")[1], self.found.configured.longest.get(text))
        block, seen = found.events.blocks.get(at), found.station.seen.get(("block", *text.split(",")[:2]))
        it.is_accepted = block is not None and any(kind in ACCEPTED for kind, _ in block.counts)
        if block and reasons(block):
            it.why = f": {reasons(block)}"
        elif seen and seen.frames:
            it.why = f", of which {page.count(seen.frames, 'frame')} came (first: packet\u00a0{seen.first.packet})"
        return it

    def stream(self, name, wanted):
        it, stream = Input(f"{name} (stream)"), streamed(self.found.station.of_kind("stream"), wanted)
        it.is_accepted, it.why = bool(stream and stream.accepted), stream and f": {stream.reasons()}"
        return it

    def inputs(self, control):
        return [self.held[key] for key in self.of.get(control, ()) if key in self.held]

    def is_accepted(self, control):
        return any(it.is_accepted for it in self.inputs(control))

    def is_spared(self, control):
        """Whether another one serves in place of a control block that is not accepted, or is asked for itself."""
        if self.is_accepted(control):
            return False
        return bool(self.subscriptions.served(self.ied, control, lambda it: self.is_accepted(it) or self.subscriptions.is_sole(self.ied, it)))

    def unserved(self):
        """The inputs that any of several would serve, and none does: what each of them is."""
        for there in self.subscriptions.inputs.get(self.ied, ()):
            if not any(self.is_accepted(it) or self.subscriptions.is_sole(self.ied, it) for it in there):
                held = [it for control in there for it in self.inputs(control)]
                if len(held) > 1:
                    yield held


def never_came(names, found, own, length):
    """Blocks and streams of which no frame came, each with its MaxTime: found where the capture is long enough, and then each by its name."""
    gone = [name for name, longest in names.items() if length >= (MILLISECOND * longest if longest else LONG)]
    if gone:
        yield finding(f"no frame of {'; '.join(gone)} came in {found.all_packets}, which {own.ied} receives.")
    young = [f"{name} (MaxTime is {longest:,} ms)" if longest else name for name, longest in names.items() if name not in gone]
    if young:
        yield not_judged(f"no frame of {some(young)} came in {found.all_packets}, {page.duration(length)} long.", "capture for longer")


def of_several(held, found, own, length):
    """An input that any of these would serve, and none does."""
    names = " or ".join(it.name for it in held[:MOST]) + (f" or {len(held) - MOST:,} more" if len(held) > MOST else "")
    if any(it.why for it in held):
        return finding(f"{own.ied} accepts no frame of {names}, of which one has to serve: {some([it.told() for it in held])}.")
    told = f"no frame of {names}, of which {own.ied} receives one, came in {found.all_packets}"
    if all(length >= (MILLISECOND * it.longest if it.longest else LONG) for it in held):
        return finding(f"{told}.")
    return not_judged(f"{told}, {page.duration(length)} long.", "capture for longer")


def judge(found, own):
    """What of the blocks and streams of a subscriber came, one by one; of several that would serve one input one has to."""
    if not own.ied:
        return
    inputs, length = Inputs(found, own.ied), found.station.span[1] - found.station.span[0] if found.station.span else 0
    several = list(inputs.unserved())
    yield from (of_several(held, found, own, length) for held in several)
    told = {id(it) for held in several for it in held}
    spared = [control for control in (*inputs.of, *inputs.unusable) if inputs.is_spared(control)]
    needless = {id(it) for control in spared for it in inputs.inputs(control)}
    held = [it for it in inputs.held.values() if id(it) not in needless]
    alone = [it for it in held if not it.is_accepted and id(it) not in told]
    yield from (finding(f"{own.ied} accepts no frame of {it.name}{it.why}.") for it in alone if it.why)
    yield from never_came({it.name: it.longest for it in alone if not it.why}, found, own, length)
    untold = [f"{what}: {why}" for what, why in found.untold if what not in {inputs.unusable.get(control) for control in spared}]
    if untold:
        yield not_judged(f"{page.count(len(untold), 'input')} of {own.ied} cannot be judged: {some(untold)}.", "mend the SCL file")
    elif not inputs.held and not found.untold:
        yield not_judged(f"{own.scd} has no control block that {own.ied} receives, so none is judged.", "name a device with IEDNames or Inputs")
    words = ("control block or stream", "control blocks and streams") if inputs.has_streams else ("control block",)
    more = f"; {page.count(len(needless), 'more is', 'more are')} not needed, since others serve" if needless else ""
    yield clean(f"{sum(it.is_accepted for it in held):,} of {page.count(len(held), *words)} that {own.ied} receives came and were accepted in "
                f"{found.all_packets}{more}.")
