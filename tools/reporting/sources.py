"""Where frames of one control block or stream come from: two sources in turns are two senders of one name."""
import senders
from reporting.verdict import clean, found as finding, not_judged, some


class Sources:
    """The sources of one control block, with one value of simulation, or of one stream: where each is seen."""

    def __init__(self, name):
        self.name, self.spans = name, {}

    def add(self, source, span):
        self.spans.setdefault(source, []).append(span)

    def in_order(self):
        """The sources in the order of their first packets, each with its first and last."""
        spans = [(source, min(it.first.packet for it in held), max(it.last.packet for it in held)) for source, held in self.spans.items()]
        return sorted(spans, key=lambda it: it[1])

    @property
    def is_in_turns(self):
        """Whether one source comes again after another one."""
        spans = self.in_order()
        return any(later[1] < last for (_, _, last), later in zip(spans, spans[1:]))

    def told(self):
        spans = self.in_order()
        return f"{self.name}: " + some([f"{senders.hyphened(source)} from packet\u00a0{first} on" for source, first, _ in spans])


def of_station(station):
    """What comes from several sources: a stream is the same as another of its APPID and svID."""
    held = {}
    for it in station.seen.values():
        for (is_simulated, source), span in it.sources.items():
            key = it.kind, it.appid, it.name, is_simulated and it.kind == "block"
            held.setdefault(key, Sources(it.name)).add(source, span)
    return [it for it in held.values() if len(it.spans) > 1]


def judge(found, _own):
    several = of_station(found.station)
    turns = [it.told() for it in several if it.is_in_turns]
    taken = [it.told() for it in several if not it.is_in_turns]
    if turns:
        yield finding(f"two sources send in turns: {some(turns)}.")
    if taken:
        yield not_judged(f"another source took over for good: {some(taken)}.", "ask whether the device was exchanged, or its spare took over")
    if not several:
        yield clean(f"each control block and stream has one source address in {found.all_packets}.")
