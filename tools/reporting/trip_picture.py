"""The picture of a trip: one lane a control block, and at each mark the members that changed."""
from reporting import page
from reporting.picture import LONGEST_NAME, MARKS, SIDE, WIDTH, Axis, text
from time_axis import places_of, step_of

# How high a lane's name, a line of words, and what is over and under all lanes are; how wide a letter is.
NAME, LINE, TOP, BOTTOM, LETTER = 17, 15, 40, 8, 6.6
# The most lanes, lines of words of one lane, members and letters of one mark.
MOST_LANES, MOST_LINES, MOST_WORDS, MOST_LETTERS = 20, 6, 3, 60
# What is drawn of the time around the first and the last event, as a part of the time between them; and the least time, in microseconds.
MARGIN, LEAST = 12, 20_000


class Lane:
    """The marks of one control block, and the words beside them, which stand below one another where they would meet."""

    def __init__(self, name):
        self.name, self.marks, self.words, self.free = name, [], [], []

    def add(self, kind, x, told):
        self.marks.append((kind, x))
        for words in told:
            self.put(x, words)

    def put(self, x, words):
        wide = LETTER * len(words)
        is_left = x + 6 + wide > WIDTH and x - 6 - wide > 0
        since, until = (x - 6 - wide, x) if is_left else (x, x + 6 + wide)
        row = next((at for at, taken in enumerate(self.free) if all(until < a or since > b for a, b in taken)), len(self.free))
        if row == len(self.free) and row >= MOST_LINES:
            return
        if row == len(self.free):
            self.free.append([])
        self.free[row].append((since, until))
        self.words.append((row, x, "end" if is_left else None, words))

    @property
    def height(self):
        return NAME + LINE * (max(len(self.free), 1) + 1)

    def drawn(self, top):
        y = top + NAME + 8
        yield text(SIDE, top + 12, self.name if len(self.name) <= LONGEST_NAME else f"{self.name[:LONGEST_NAME]} ..", class_="lane")
        yield f'<path class="grid" d="M{SIDE} {y}H{WIDTH - SIDE}"/>'
        for row, x, anchor, words in self.words:
            under = y + LINE * (row + 1)
            yield f'<path class="lead" d="M{x} {y}V{under + 2}"/>'
            yield text(x - 4 if anchor else x + 4, under + 2, words, class_="words", text_anchor=anchor)
        for kind, x in self.marks:
            yield MARKS[kind][0].format(at=f'transform="translate({x} {y})"')


def words_of(event):
    """What stands beside a mark."""
    told = [f"{name}: {old} \u2192 {new}" for name, old, new in event.words()] or [event.told()]
    more = [f"and {len(told) - MOST_WORDS:,} more"] if len(told) > MOST_WORDS else []
    return [it if len(it) <= MOST_LETTERS else f"{it[:MOST_LETTERS]} .." for it in told[:MOST_WORDS] + more]


def axis_of(moment, events):
    """The time of the events, with some time around them."""
    zero = moment.place.microseconds
    times = [zero, *(it.place.microseconds for it in events)]
    first, last = min(times), max(times)
    margin = max((last - first) // MARGIN, LEAST)
    return Axis(first - margin, last + margin * 2)


def scale(axis, zero, height):
    """Milliseconds from the moment, and the moment as a line."""
    step = step_of(axis.span)
    for since in range(-((zero - axis.first) // step) * step, axis.first + axis.span - zero + 1, step):
        x = axis.x(zero + since)
        yield f'<path class="grid" d="M{x} {TOP - 8}V{height}"/>'
        yield text(x, TOP - 14, f"{since / 1000:+.{places_of(step, 1000)}f}" if since else "0", class_="scale", text_anchor="middle")
    yield f'<path class="moment" d="M{axis.x(zero)} {TOP - 10}V{height}"/>'


def drawn(moment, devices, title):
    """The picture, and how many control blocks are not in it."""
    events = [it for it in moment.in_order() if it.block]
    axis, lanes = axis_of(moment, events), {}
    for event in events:
        key = (devices.order(event.block.name, event.block.appid), event.block)
        lane = lanes.setdefault(id(event.block), (key[0], Lane(" ".join(it for it in devices.parts(event.block.name) if it))))[1]
        lane.add(event.kind, axis.x(event.place.microseconds), words_of(event))
    held = [lane for _, lane in sorted(lanes.values(), key=lambda it: it[0])]
    some = held[:MOST_LANES]
    height = TOP + sum(it.height for it in some) + BOTTOM
    inside, top = [page.element("title", title), *map(page.Raw, scale(axis, moment.place.microseconds, height))], TOP
    for lane in some:
        inside += map(page.Raw, lane.drawn(top))
        top += lane.height
    svg = page.element("svg", inside, viewBox=f"0 0 {WIDTH} {height}", width=WIDTH, height=height, role="img", aria_label=title)
    return svg, len(held) - len(some)
