"""Lines of goose that are laid out alike: their heads are cut at the same places, and those of one sender, which differ in a few fields alone, are
compared with how one of them is laid out. None of them is read."""
import collections
import operator

from reporting.places import HEAD

# How much of a line behind its head tells the kind and the sender: no field in it changes from one frame of a sender to the next.
TELLING = 128


class Heads:
    """The heads of lines that are laid out alike: the first and the last as matches of HEAD, the times as octets, each with its comma, and where the
    kind begins."""

    def __init__(self, lines, first, last):
        self.lines, self.first, self.last, self.until = lines, first, last, first.start(4)
        begin, end = first.span(2)
        self.digits, self.told = end - begin, b"".join(cut_from(lines, slice(begin, end + 1)))

    def are_alike(self):
        """Whether all times are numbers of as many digits as the first."""
        number, whole = len(self.lines), self.told.replace(b",", b"")
        return self.told[self.digits::self.digits + 1] == b"," * number and len(whole) == number * self.digits and whole.isdigit()

    def times(self):
        return list(map(int, self.told[:-1].split(b",")))


def heads_of(lines):
    """The heads of lines in the order of their packets, or None where they are not laid out alike: no packet then has fewer digits, and no time."""
    first, last = (HEAD.match(lines[at]) for at in (0, -1)) if lines else (None, None)
    if not first or not last or first.span(2) != last.span(2) or first[3] is None or last[3] is None or first.start(4) != last.start(4):
        return None
    heads = Heads(lines, first, last)
    return heads if heads.are_alike() else None


class Shape:
    """How lines of one sort are laid out behind their heads, which end at a place: what stays the same, and between these parts the fields. The
    first field is a number of any size: what stands behind it is found from the end of a line."""

    __slots__ = ("sort", "state", "kept", "fields")

    def __init__(self, sort, line, begin, fields, state):
        size = len(line)
        (first, _), ends = fields[0], [end - size for _, end in fields]
        begins = [*(at - size for at, _ in fields[1:]), None]
        self.sort, self.state = sort, state
        self.kept = [(cut, line[cut]) for cut in map(slice, [begin, *ends], [first, *begins])]
        self.fields = list(map(slice, [first, *begins[:-1]], ends))

    def alike(self, lines):
        """How many lines from the first on are laid out like this. More than a number can stand between the parts that are kept: a second sample."""
        number = len(lines)
        for cut, kept in self.kept:
            parts = list(cut_from(lines if number == len(lines) else lines[:number], cut))
            if parts.count(kept) != number:
                number = next(at for at, it in enumerate(parts) if it != kept)
        numbers = list(cut_from(lines[:number], self.fields[0]))
        if all(numbers) and b"".join(numbers).isdigit():
            return number
        return next((at for at, it in enumerate(numbers) if not it.isdigit()), 0)

    def columns(self, lines):
        """What each field says in lines that are laid out like this."""
        return [list(cut_from(lines, it)) for it in self.fields]


class Run:
    """Lines of one sender in their order, with their times, their places among all lines that were read with them, and the packet of the first
    of those; their heads end at `until`."""

    __slots__ = ("lines", "times", "places", "first", "until")

    def __init__(self, lines, times, places, first, until):
        self.lines, self.times, self.places, self.first, self.until = lines, times, places, first, until

    def part(self, begin, end):
        return Run(self.lines[begin:end], self.times[begin:end], self.places[begin:end], self.first, self.until)

    def from_place(self, begin, end):
        """A part of all lines, which is looked at by itself."""
        return Run(self.lines[begin:end], self.times[begin:end], range(end - begin), self.first + begin, self.until)

    def cut(self, ends):
        """The parts of it up to these places, and the rest."""
        return [self.part(begin, end) for begin, end in zip([0, *ends], [*ends, len(self.lines)])]

    @property
    def packets(self):
        return [self.first + at for at in self.places]

    @property
    def in_order(self):
        """How many lines from the first on have times of which none is before the one of the line before."""
        times = list(self.times)
        return len(times) if times == sorted(times) else next(at for at in range(1, len(times)) if times[at] < times[at - 1])


def cut_from(lines, part):
    """A part of each line. A loop over them takes twice as long."""
    return map(operator.itemgetter(part), lines)


def parted(keys):
    """The places of each of some keys, in order."""
    groups = collections.defaultdict(list)
    for at, key in enumerate(keys):
        groups[key].append(at)
    return groups


def those(held, places):
    """What is held at some places."""
    if len(places) == len(held):
        return held
    return operator.itemgetter(*places)(held) if len(places) > 1 else (held[places[0]],)
