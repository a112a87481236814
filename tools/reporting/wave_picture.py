"""Pictures of a stream: its values around a trip, and the RMS of each period of the whole recording. What is missing is left open, and what is
not good is hatched."""
import math

from reporting import page
from reporting.picture import WIDTH, text
from time_axis import places_of, step_of

# Where the values' scale ends and the picture does; how high a panel is, what is over it and between two; a column of the picture; how wide
# a letter of a name and of a scale is, how far apart names are, and how high a further row of them.
LEFT, RIGHT, PANEL, TOP, HEAD, BOTTOM, COLUMN, LETTER, DIGIT, SPACE, ROW = 74, 12, 150, 44, 30, 8, 2, 8.8, 8, 16, 15
COLUMNS = (WIDTH - LEFT - RIGHT) // COLUMN
# The most panels of a picture and channels of a panel, and how far the lines of a hatch are apart.
MOST_PANELS, MOST_CHANNELS, APART = 3, 8, 7
MOST_LETTERS = 14
SECOND, STEPS = 10**6, (1, 1.5, 2, 2.5, 3, 4, 5, 6, 8, 10)


class Axis:
    """A span of time, and where a moment of it is, in tenths."""

    def __init__(self, first, last):
        self.first, self.span = first, max(last - first, 1)
        self.scale = 10 * (WIDTH - LEFT - RIGHT) / self.span

    def x(self, moment):
        return round(10 * LEFT + min(max(moment - self.first, 0), self.span) * self.scale)


class Panel:
    """The channels of one unit: a line each, with the greatest value that they have."""

    def __init__(self, unit, names, has_both_signs):
        self.unit, self.rows, self.has_both_signs, self.lines, self.greatest = unit, rows_of(names), has_both_signs, [], 0.0

    @property
    def head(self):
        """How high what is over it is."""
        return HEAD + ROW * (len(self.rows) - 1)

    def top_value(self):
        """A round value that none is over."""
        if not 0 < self.greatest < math.inf:
            return 1.0
        ten = 10.0 ** math.floor(math.log10(self.greatest))
        return next(it * ten for it in STEPS if it * ten >= self.greatest * 0.999)

    def y(self, value, top):
        """Where a value is, in tenths. One beyond the scale is at its end."""
        part = min(max(value / self.top_value(), -1.0), 1.0)
        return round(10 * (top + (PANEL / 2 * (1 - part) if self.has_both_signs else PANEL * (1 - max(part, 0.0)))))


def panels_of(wave, has_both_signs):
    """The panels of a stream: of each unit so many channels, and how many channels are in none."""
    units = {}
    for at in wave.drawn:
        units.setdefault(wave.channels[at].unit, []).append(at)
    some = list(units.items())[:MOST_PANELS]
    some = [(unit, held[:MOST_CHANNELS]) for unit, held in some]
    shown = [(Panel(unit, short_names([wave.channels[it].name for it in held]), has_both_signs), held) for unit, held in some]
    return shown, len(wave.drawn) - sum(len(held) for _, held in shown)


def rows_of(names):
    """The names of channels in rows, none of which is wider than the picture: each with its number and where it begins."""
    rows, x = [[]], LEFT
    for at, name in enumerate(names, 1):
        short = name if len(name) <= MOST_LETTERS else f".. {name[3 - MOST_LETTERS:]}"
        wide = round(LETTER * len(short))
        if x + wide > WIDTH - RIGHT:
            rows, x = [*rows, []], LEFT
        rows[-1].append((at, short, x))
        x += wide + SPACE
    return rows


def short_names(names):
    """The names of channels: their logical nodes alone, where these tell them apart."""
    short = [it.rpartition("/")[2].partition(".")[0] for it in names]
    return short if len(set(short)) == len(names) else names


def thinned(points):
    """Points of a line, of which each column has the least and the greatest alone, in their order."""
    column, held = None, []
    for it in points:
        at = it[0] // (10 * COLUMN)
        if at != column:
            yield from ends_of(held)
            column, held = at, []
        held.append(it)
    yield from ends_of(held)


def ends_of(held):
    if len(held) < 3:
        return held
    return sorted({min(held, key=lambda it: it[1]), max(held, key=lambda it: it[1])})


def path_of(runs):
    """The path of a line that is open between its runs, each of which is points in tenths."""
    parts = []
    for run in runs:
        points = list(thinned(run))
        if not points:
            continue
        (x, y), told = points[0], []
        parts.append(f"M{x} {y}")
        if len(points) == 1:
            parts.append("h9")
        for to, (right, under) in enumerate(points[1:], 2):
            if under == y and to < len(points) and points[to][1] == y:
                continue
            told.append(f"h{right - x}" if under == y else f"l{right - x}{under - y:+}" if under < y else f"l{right - x} {under - y}")
            x, y = right, under
        parts += told
    return "".join(parts)


def hatched(first, last, top, kind):
    """Lines over a span, in pixels."""
    last = max(last, first + 3)
    parts = []
    for at in range(-PANEL, last - first, APART):
        # A line goes up to the right; what of it is within the span.
        since, until = max(at, 0), min(at + PANEL, last - first)
        if since < until:
            parts.append(f"M{first + since} {top + PANEL - (since - at)}L{first + until} {top + PANEL - (until - at)}")
    return f'<path class="{kind}" d="{"".join(parts)}"/>'


def frame_of(panel, top):
    """The scale of a panel's values."""
    high = panel.top_value()
    values = (high, 0, -high) if panel.has_both_signs else (high, high / 2, 0)
    for value, y in zip(values, (top, top + PANEL // 2, top + PANEL)):
        yield f'<path class="grid" d="M{LEFT} {y}H{WIDTH - RIGHT}"/>'
        yield text(LEFT - 6, y + 4, number(value), class_="scale", text_anchor="end")


def head_of(panel, top):
    """The unit of a panel and the names of its channels, over all lines."""
    first = top - 9 - ROW * (len(panel.rows) - 1)
    yield text(LEFT - 6, first, panel.unit, class_="lane", text_anchor="end")
    for row, names in enumerate(panel.rows):
        yield from (text(x, first + ROW * row, name, class_=f"name{at}") for at, name, x in names)


def number(value):
    told = f"{abs(value):,.6g}" if abs(value) < 1e6 else f"{abs(value):.4g}"
    return f"\u2212{told}" if value < 0 else told


def time_scale(axis, zero, unit, height):
    """The steps of time, counted from a moment in a unit of so many microseconds."""
    step = step_of(axis.span)
    for since in range(-((zero - axis.first) // step) * step, axis.first + axis.span - zero + 1, step):
        x = axis.x(zero + since) // 10
        yield f'<path class="grid" d="M{x} {TOP - 22}V{height}"/>'
        told = f"{since / unit:.{places_of(step, unit)}f}"
        yield text(min(x, WIDTH - 2 - DIGIT * len(told) // 2), 14, told, class_="scale", text_anchor="middle")


def moments(axis, told, height):
    """Lines at moments, with what is there."""
    free = [0, 0]
    for moment, words, kind in sorted(told):
        if not axis.first <= moment <= axis.first + axis.span:
            continue
        x, wide = axis.x(moment) // 10, round(LETTER * len(words))
        row = next((at for at, it in enumerate(free) if x >= it), 1)
        is_left = x - wide - 6 >= free[row] and row == 0 and kind == "inception"
        free[row] = x + (4 if is_left else wide + 8)
        yield f'<path class="{kind}" d="M{x} {18 + 13 * row}V{height}"/>'
        yield text(x - 4 if is_left else x + 4, 29 + 13 * row, words, class_="words", text_anchor="end" if is_left else None)


def svg(title, axis, panels, hatches, zero, unit, told=()):
    """Panels one below another, each with its lines; hatches are spans with their kinds."""
    height = TOP + sum(PANEL + panel.head for panel, _ in panels) + BOTTOM
    inside, heads, top = [page.element("title", title), *map(page.Raw, time_scale(axis, zero, unit, height - BOTTOM))], [], TOP - PANEL - 6
    for panel, paths in panels:
        top += PANEL + panel.head
        heads += map(page.Raw, head_of(panel, top))
        inside += map(page.Raw, frame_of(panel, top))
        inside += [page.Raw(hatched(first, last, top, kind)) for first, last, kind in hatches]
        lines = "".join(f'<path class="wave{number}" d="{path}"/>' for number, path in enumerate(paths(top), 1) if path)
        inside.append(page.Raw(f'<g transform="scale(.1)">{lines}</g>'))
    inside += [*map(page.Raw, moments(axis, told, height - BOTTOM)), *heads]
    return page.element("svg", inside, viewBox=f"0 0 {WIDTH} {height}", width=WIDTH, height=height, role="img", aria_label=title)


def spans_of(spans):
    """Spans in pixels, those that meet as one."""
    held = []
    for first, last, kind in sorted(spans, key=lambda it: (it[2], it[0])):
        if held and held[-1][2] == kind and first <= held[-1][1] + 1:
            held[-1][1] = max(held[-1][1], last)
        else:
            held.append([first, last, kind])
    return held


# ---- Around a trip -----------------------------------------------------------


def around(window, moment, title, before, after, told):
    """The values of a stream around a moment, and how many channels are not drawn."""
    wave, columns = window.wave, window.columns()
    axis, held = Axis(moment - before, moment + after), []
    since, until = max(window.index(moment - before), 0), min(window.index(moment + after), len(window.present))
    shown, more = panels_of(wave, True)
    for panel, channels in shown:
        values = [window.values(columns, it, False) for it in channels]
        good = [abs(it) for at in channels for it in window.values(columns, at)[since:until] if it == it]
        every = (abs(it) for line in values for it in line[since:until] if math.isfinite(it))
        panel.greatest = max(good, default=0) or max(every, default=0)
        held.append((panel, lambda top, panel=panel, values=values: [
            path_of(runs_of(window, axis, panel, line, since, until, top)) for line in values]))
    hatches = spans_of([(axis.x(window.moment(first)) // 10, axis.x(window.moment(last)) // 10, "invalid" if is_invalid else "doubtful")
                        for first, last, is_invalid in window.marks(columns, since, until)])
    return svg(title, axis, held, hatches, moment, 1000, told), more


def runs_of(window, axis, panel, line, since, until, top):
    """The points of a channel, in runs between those that are missing."""
    run = []
    for at in range(since, until):
        value = line[at]
        if math.isfinite(value):
            run.append((axis.x(window.moment(at)), panel.y(value, top)))
        elif run:
            yield run
            run = []
    yield run


# ---- The whole ---------------------------------------------------------------


def whole(wave, first, last, title, told):
    """The RMS of each period of a stream over the whole recording, and how many channels are not drawn."""
    axis, held, periods = Axis(first, last), [], wave.periods
    length = periods.width * SECOND / wave.frequency
    keys = sorted(periods.bins)
    xs = {key: axis.x(wave.begun + (key + 0.5) * length) for key in keys}
    shown, more = panels_of(wave, False)
    for panel, channels in shown:
        panel.greatest = max((it[1][at] for it in periods.bins.values() if it[1] for at in channels if it[1][at] is not None), default=0)
        held.append((panel, lambda top, panel=panel, channels=channels: [
            path_of(runs_of_bins(periods.bins, keys, xs, at, panel, top)) for at in channels]))
    marks = [(key, "invalid" if periods.bins[key][2] & 2 else "doubtful") for key in keys if periods.bins[key][2]]
    hatches = spans_of([(axis.x(wave.begun + key * length) // 10, axis.x(wave.begun + (key + 1) * length) // 10, kind) for key, kind in marks])
    return svg(title, axis, held, hatches, first, SECOND, told), more


def runs_of_bins(bins, keys, xs, at, panel, top):
    """The points of a channel, in runs of bins one after another."""
    run, before = [], None
    for key in keys:
        least, greatest, _ = bins[key]
        has_value = least is not None and least[at] is not None
        if run and (not has_value or key != before + 1):
            yield run
            run = []
        if has_value:
            values = [least[at]] if least[at] == greatest[at] else [least[at], greatest[at]]
            run += [(xs[key], panel.y(it, top)) for it in values]
        before = key
    yield run


