"""The picture of the crates: each in the highest row that has room below all that use it, with what it is in a few words, and a line down to
each crate that it uses and reaches by no other."""

WIDTH, ROW, TALL, WIDE, LANE, EDGE = 1060, 78, 42, 190, 12, 8
# How many crates stand in a row, where they can stand lower.
MOST = 5
PLAIN, FAINT, LINE, PROGRAM, LAWS = "#1f2328", "#57606a", "#8c959f", "#ddf4ff", "#f6f8fa"
FONT = 'font-family="ui-monospace, \'DejaVu Sans Mono\', Menlo, Consolas, monospace"'
SWEEPS = 24


def reached(uses, name):
    """All that stands below a crate."""
    return {it for below in uses[name] for it in (below, *reached(uses, below))}


def direct(uses):
    """Of what each crate uses that which it reaches by no other."""
    below = {name: reached(uses, name) for name in uses}
    return {name: [it for it in used if not any(it in below[other] for other in used)] for name, used in uses.items()}


def rows_of(uses):
    """The row of each crate, from the lowest. One that nothing uses stands right above what it uses. Where a row would be too full, those
    that can stand lowest do so."""
    lowest, rows = {}, {}
    for name in uses:
        lowest[name] = 1 + max((lowest[it] for it in uses[name]), default=-1)
    users = {name: [it for it, used in uses.items() if name in used] for name in uses}
    for row in range(max(lowest.values()), -1, -1):
        ready = [it for it in uses if it not in rows and lowest[it] <= row and all(rows.get(user, row) > row for user in users[it])]
        ready = [it for it in ready if users[it] or lowest[it] == row]
        for name in sorted(ready, key=lambda it: -lowest[it]):
            if lowest[name] == row or list(rows.values()).count(row) < MOST:
                rows[name] = row
    return rows


def with_lanes(lines, rows):
    """The places of each row, and the lines from a row to the next below: a crate that is used from further up has a lane up to there."""
    top = {name: max((rows[user] for user, used in lines.items() if name in used), default=rows[name] + 1) for name in rows}
    places = [[] for _ in range(max(rows.values()) + 1)]
    links = []
    for name, row in rows.items():
        places[row].append((name, row))
        for lane in range(row + 1, top[name]):
            places[lane].append((name, lane))
            links.append(((name, lane), (name, lane - 1)))
    links += [((user, rows[user]), (name, rows[user] - 1)) for user, used in lines.items() for name in used]
    return places, links


def width_of(place, rows):
    return WIDE if rows[place[0]] == place[1] else LANE


def laid_out(places, rows):
    """Where the middle of each place is, by the order in its row."""
    middles = {}
    for row in places:
        free = WIDTH - 2 * EDGE - sum(width_of(it, rows) for it in row)
        gap, at = free / (len(row) + 1), EDGE
        for place in row:
            at += gap
            middles[place] = at + width_of(place, rows) / 2
            at += width_of(place, rows)
    return middles


def crossings(links, middles):
    """How often lines cross."""
    count = 0
    for at, (above, below) in enumerate(links):
        for other_above, other_below in links[at + 1:]:
            if above[1] == other_above[1]:
                count += (middles[above] - middles[other_above]) * (middles[below] - middles[other_below]) < 0
    return count


def ordered(places, links, rows):
    """The places of each row in an order in which few lines cross: each is drawn to the middle of those that it is joined to, the rows
    in turn from below and from above."""
    joined = {}
    for above, below in links:
        joined.setdefault(above, []).append(below)
        joined.setdefault(below, []).append(above)
    best, least = places, None
    for sweep in range(SWEEPS):
        step = -1 if sweep % 2 == 0 else 1
        for at in range(len(places))[::-step]:
            middles = laid_out(places, rows)
            near = {it: [middles[other] for other in joined.get(it, []) if other[1] == at + step] for it in places[at]}
            places = [*places[:at], sorted(places[at], key=lambda it: sum(near[it]) / len(near[it]) if near[it] else middles[it]), *places[at + 1:]]
        count = crossings(links, laid_out(places, rows))
        if least is None or count < least:
            best, least = places, count
    return best


def curve(x, y, to_x, to_y):
    half = (y + to_y) / 2
    return f"M{x:.0f} {y:.0f}C{x:.0f} {half:.0f} {to_x:.0f} {half:.0f} {to_x:.0f} {to_y:.0f}"


def picture(uses, words):
    """The picture, of crates that each name those below, as lines of SVG."""
    rows, lines = rows_of(uses), direct(uses)
    places, links = with_lanes(lines, rows)
    places = ordered(places, links, rows)
    middles, height = laid_out(places, rows), len(places) * ROW + 2 * EDGE
    upper = lambda row: height - EDGE - (row + 1) * ROW + (ROW - TALL) / 2
    yield (f'<svg xmlns="http://www.w3.org/2000/svg" width="{WIDTH}" height="{height}" viewBox="0 0 {WIDTH} {height}" {FONT} '
           f'font-size="13" fill="{PLAIN}" text-anchor="middle">')
    yield "<title>The crates: each uses those to which a line leads down, and all below these</title>"
    yield f'<rect width="{WIDTH}" height="{height}" fill="white"/>'
    yield f'<g fill="none" stroke="{LINE}">'
    for (name, row), below in links:
        yield f'<path d="{curve(middles[name, row], upper(row) + TALL, middles[below], upper(below[1]))}"/>'
    yield from (f'<path d="M{middles[it]:.0f} {upper(it[1]):.0f}v{TALL}"/>' for row in places for it in row if rows[it[0]] != it[1])
    yield "</g>"
    for name, row in rows.items():
        yield from box(name, words.get(name, ""), middles[name, row], upper(row))
    yield "</svg>"


def box(name, words, middle, top):
    fill = PROGRAM if name == "goose" else LAWS if name.endswith("laws") else "white"
    dashed = ' stroke-dasharray="4 3"' if name.endswith("laws") else ""
    yield f'<rect x="{middle - WIDE / 2:.0f}" y="{top:.0f}" width="{WIDE}" height="{TALL}" rx="5" fill="{fill}" stroke="{FAINT}"{dashed}/>'
    yield f'<text x="{middle:.0f}" y="{top + 17:.0f}" font-weight="bold">{name}</text>'
    yield f'<text x="{middle:.0f}" y="{top + 33:.0f}" font-size="10.5" fill="{FAINT}">{words}</text>'
